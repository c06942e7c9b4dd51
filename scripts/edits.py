#!/usr/bin/env python3
"""Says of the wrong bodies in crates/*/must-fail which clause refuses each.

    scripts/edits.py gate LOG                   what the gate said of each, from its output in a file; status 1 where
                                                docs/WRONG_BODIES.md has another goal, or an edit isn't refused
    scripts/edits.py clauses CRATE[/EDIT]..     tries these, and says which clause refuses each
    scripts/edits.py list                       the edits, a line each

An edit is refused by a clause where the prover's search leaves that clause open, or where, with the proof text of the
functions that failed set aside, it is open at the wrong body and proved at the right one. What is open at both has to be
decided by hand: by an input at which the clause's two sides differ. All is done in a copy of the repository, one edit
after another, over what earlier checks kept in out/ of the crates that are looked at and of those below: so prove these
first. An edit takes from half a minute to ten.
"""
import argparse
import pathlib
import re
import shutil
import subprocess
import sys
import tempfile

sys.dont_write_bytecode = True  # Nothing is left in the repository.
from sources import crates_of

TOP = pathlib.Path(__file__).resolve().parent.parent
PROOF_TEXT = ("Answers.antt", "Invariants.antt", "Proof.antt")


class Edit:
    """A wrong body: files of a crate, and lines of them with what stands in their place. What stands in front of the
    first `file:` says what it does."""

    def __init__(self, path):
        self.path, self.name = path, path.stem
        self.crate = path.parent.parent.name
        self.files, at = [], None
        for line in path.read_text(encoding="utf-8").splitlines():
            word, _, rest = line.partition(":")
            if word == "file":
                self.files.append((rest.strip(), []))
            elif word in ("old", "new") and self.files:
                at = 0 if word == "old" else 1
                if at == 0:
                    self.files[-1][1].append(["", ""])
                self.files[-1][1][-1][at] = rest.removeprefix(" ")
            elif self.files and at is not None:
                self.files[-1][1][-1][at] += "\n" + line

    def changed(self, crate):
        """Each file of the crate in that folder that it edits, with what it makes of it. A text that doesn't stand there just
        once is a LookupError."""
        made = {}
        for name, pairs in self.files:
            file = crate / name
            text = made.get(file) or (file.read_text(encoding="utf-8") if file.is_file() else "")
            for old, new in pairs:
                if text.count(old) != 1:
                    raise LookupError(f"its old text stands {text.count(old)} times in {name}")
                text = text.replace(old, new)
            made[file] = text
        return made

    def put_into(self, crate):
        """Puts it into the files of the crate in that folder, and gives what each of them had."""
        try:
            made = self.changed(crate)
        except LookupError as fault:
            raise SystemExit(f"edits: {self.crate}/{self.name}: {fault}") from fault
        had = {file: file.read_text(encoding="utf-8") for file in made}
        put_back(made)
        return had


def put_back(had):
    for file, text in had.items():
        file.write_text(text, encoding="utf-8")


def edits_of(top, wanted):
    found = sorted(map(Edit, top.glob("crates/*/must-fail/*.edit")), key=lambda it: (it.crate, it.name))
    return [it for it in found if not wanted or it.crate in wanted or f"{it.crate}/{it.name}" in wanted]


def check(folder):
    ran = subprocess.run(["rt", "check", "--jobs", "1"], cwd=folder, capture_output=True, text=True, check=False)
    return ran.stdout + ran.stderr


def open_clauses(report):
    """What the search left open: `FUNCTION: GOAL`, where the report names both."""
    return sorted(set(re.findall(r"fn (\S+): .*?`search` did not prove (`[^\n]*`)", report)))


def failed(report):
    return sorted(set(re.findall(r"(?m)^fn (\S+): (?:not proved|no proof)", report)))


def broken_text(report):
    return sorted(set(re.findall(r"\./(proofs/\S+?\.antt):\d+:\d+: error", report)))


def told(clauses):
    return "; ".join(f"{goals} of {function}" for function, goals in clauses) or "none"


def refusal(crate, edit):
    """What refuses the edit, in one line. The crate's files are as they were when it ends."""
    had = edit.put_into(crate)
    aside, moved = pathlib.Path(tempfile.mkdtemp()), []
    try:
        report = check(crate)
        if "logic=proved" in report:
            return "PROVED"
        texts = [it for it in broken_text(report) if it.endswith(PROOF_TEXT)]
        if not texts:
            return "by clause: " + told(open_clauses(report)) if open_clauses(report) else f"by hand: {report[-200:]!r}"
        for text in {(crate / it).parent for it in texts}:
            shutil.move(str(text), str(aside / str(len(moved))))
            moved.append(text)
        wrong = open_clauses(check(crate))
        put_back({file: text for file, text in had.items() if file.is_file()})
        both = open_clauses(check(crate))
        alone = [it for it in wrong if it not in both]
        return f"without proof text: {told(alone)} (open at the right body too: {told([it for it in wrong if it in both])})"
    finally:
        for number, folder in enumerate(moved):
            shutil.rmtree(folder, ignore_errors=True)
            shutil.move(str(aside / str(number)), str(folder))
        put_back(had)
        shutil.rmtree(aside, ignore_errors=True)


def needed_for(top, crates):
    """These crates, and all crates of the repository below them."""
    direct, found, more = crates_of(top), set(), set(crates)
    while more:
        found |= more
        more = {low for name in more for low in direct[name] if low in direct} - found
    return found


def copy_of(top, folder, crates):
    """The repository's files in a folder, with what was proved of these crates and of those below them."""
    shutil.copytree(top, folder, ignore=shutil.ignore_patterns("out", ".git"))
    for crate in needed_for(top, crates):
        kept = top / "crates" / crate / "out"
        if kept.is_dir():
            shutil.copytree(kept, folder / "crates" / crate / "out")


FUNCTION = re.compile(r"^\s*(?:pub(?:\([a-z]+\))? )?(?:const )?fn (\w+)")
SAID = re.compile(r"must-fail (\w+)/([\w.-]+)\.edit: (.*)")


def function_at(top, crate, file, line):
    """The function of a crate that begins at a line of a file, behind its attributes there, or that holds the line."""
    lines = (top / "crates" / crate / file).read_text(encoding="utf-8").splitlines()
    is_head = FUNCTION.match(lines[line - 1]) or lines[line - 1].lstrip().startswith(("///", "#["))
    looked = lines[line - 1:] if is_head else reversed(lines[:line])
    found = next((it for it in map(FUNCTION.match, looked) if it), None)
    return found[1] if found else "?"


def goal(top, crate, said):
    """The function and the goal at which an edit is refused, by what the gate says; or that a proof's text refuses it."""
    found = re.search(r"note: (src/\S+?):(\d+):\d+: .*?\(`([^`]+)`\)", said)
    if found:
        return f"`{function_at(top, crate, found[1], int(found[2]))}`: `{found[3]}`"
    found = re.search(r"proofs/(\S+?)/\w+\.antt:\d+:\d+: error: `([^`]+)`", said)
    if found:
        return f"`{found[1].split('/')[-1]}`: `{found[2]}`, in the proof's text"
    found = re.search(r"proofs/\w+\.antt:\d+:\d+: error: `([^`]+)`", said)
    if found:
        return f"the lemma `{found[1]}`"
    return "in a proof's text, which names what the edit takes away" if "refused" in said else "NOT REFUSED"


def told_by_gate(top, log):
    """A line for each edit that the gate tried, with its goal. Gives the status: 1 where one isn't refused, where none was
    tried, or where the page's row of it has another goal, or isn't there."""
    page = (top / "docs" / "WRONG_BODIES.md").read_text(encoding="utf-8").splitlines()
    bad = 0
    tried = sorted(SAID.findall(log))
    for crate, name, said in tried:
        where = goal(top, crate, said)
        is_told = any(row.startswith(f"| `{name}` | `{crate}` |") and row.endswith(f"| {where} |") for row in page)
        bad += not is_told or where == "NOT REFUSED"
        print(f"{crate}/{name}: {where}{'' if is_told else ' (docs/WRONG_BODIES.md says something else)'}")
    return int(bad > 0 or not tried)


def clauses_of(edits):
    """Tries these edits, and says of each which clause refuses it. Gives the status: 1 where one is proved."""
    bad = 0
    with tempfile.TemporaryDirectory(prefix="edits-") as folder:
        top = pathlib.Path(folder) / "copy"
        copy_of(TOP, top, {it.crate for it in edits})
        for edit in edits:
            said = refusal(top / "crates" / edit.crate, edit)
            bad += said == "PROVED"
            print(f"{edit.crate}/{edit.name}: {said}", flush=True)
    return int(bad > 0)


def main():
    parser = argparse.ArgumentParser(description=__doc__, formatter_class=argparse.RawDescriptionHelpFormatter)
    parser.add_argument("part", choices=("gate", "clauses", "list"))
    parser.add_argument("wanted", nargs="*", metavar="CRATE[/EDIT]")
    words = parser.parse_args()
    if words.part == "gate":
        if len(words.wanted) != 1:
            parser.error("gate takes one file, the gate's output")
        return told_by_gate(TOP, pathlib.Path(words.wanted[0]).read_text(encoding="utf-8", errors="replace"))
    found = edits_of(TOP, words.wanted)
    if words.part == "clauses" and found:
        return clauses_of(found)
    print("\n".join(f"{it.crate}/{it.name}" for it in found))
    return 0 if found else 1


if __name__ == "__main__":
    sys.exit(main())
