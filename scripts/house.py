#!/usr/bin/env python3
"""Looks whether the house is in order: says what isn't, a line each, with status 1.

    scripts/house.py [FOLDER]      this repository, or the one in FOLDER
    scripts/house.py --self-test   plants a fault of each kind in a copy, and shows that each is found

- A crate names each dependency that its line of crates.txt has; comments and quoted texts don't count.
- The lemmas that other crates cite stand in proofs/Offered.antt, the one file that proofs/Lib.antt shows (`pub mod`).
- Each folder of crates/ has a line in crates.txt, one in crates/README.md and a README, and no file beside the layout.
- The old texts of each must-fail edit stand in its file once: the gate doesn't notice an edit that is out of date.
- The program, its README and its package have one version.
- No function of the core calls itself (recursion.py).

It reads text, and is no parser.
"""
import argparse
import functools
import pathlib
import re
import shutil
import sys
import tempfile

sys.dont_write_bytecode = True  # Nothing is left in the repository.
import recursion
from edits import edits_of
from sources import code_of, crates_of, sources_of

# A library that a crate's sources name nowhere, and that its check asks for all the same: a public clause of a crate
# below, or the code of a derive, leads to it.
LED_TO = {"sockets": ("mio",)}
# What may stand in a crate's folder.
LAYOUT = {"src", "specs", "proofs", "must-fail", "data", "second_reading", "README.md", "stdin", "stdout", "args",
          "status", "out"}
CITED = re.compile(r"\bRattle\.(\w+)\.proofs\.(\w+)")


@functools.cache
def names_in(text):
    """The libraries that a source may name: heads of paths, and of modules of definitions and lemmas."""
    return set(re.findall(r"\bRattle\.(\w+)\.", text)) | set(re.findall(r"(?<![\w:])(\w+)::", text)) \
        | set(re.findall(r"(?m)^\s*(?:pub )?use (\w+);", text))


def unused(top, crates):
    for name, libraries in crates.items():
        named = set()
        for path in sources_of(top / "crates" / name):
            named |= names_in(code_of(path))
        for library in libraries:
            if library not in named and library not in LED_TO.get(name, ()):
                yield f"crates.txt: {name} names {library} nowhere"


def past_offered(top, crates):
    for name in crates:
        lib = top / "crates" / name / "proofs" / "Lib.antt"
        if lib.exists():
            for module in re.findall(r"(?m)^pub mod (\w+)", lib.read_text(encoding="utf-8")):
                if module != "Offered":
                    yield f"crates/{name}/proofs/Lib.antt: shows {module}, and only Offered may be shown"
        for path in sources_of(top / "crates" / name):
            for owner, module in CITED.findall(code_of(path)):
                if owner != name and owner in crates and module != "Offered":
                    yield f"{path.relative_to(top)}: cites {owner}'s {module}, and not its Offered"


def out_of_plan(top, crates):
    plan = (top / "crates" / "README.md").read_text(encoding="utf-8")
    for folder in sorted(it for it in (top / "crates").iterdir() if it.is_dir()):
        if folder.name not in crates:
            yield f"crates/{folder.name}: no line of crates.txt"
        elif f"`{folder.name}`" not in plan:
            yield f"crates/README.md: no line for {folder.name}"
        for found in sorted(it.name for it in folder.iterdir()):
            if found not in LAYOUT:
                yield f"crates/{folder.name}/{found}: no part of a crate"
        if folder.name in crates and not (folder / "README.md").is_file():
            yield f"crates/{folder.name}: no README.md"


def out_of_date(top, _crates):
    for edit in edits_of(top, []):
        try:
            edit.changed(top / "crates" / edit.crate)
        except LookupError as fault:
            yield f"{edit.path.relative_to(top)}: {fault}"


def other_versions(top, _crates):
    said = (top / "crates" / "command_line" / "src" / "versions.rt").read_text(encoding="utf-8")
    version = re.search(r'const VERSION: &str = "(.*)";', said)[1]
    printed = (top / "crates" / "commands" / "src" / "versions.rt").read_text(encoding="utf-8")
    kit = re.search(r'const KIT: &str = "(.*)";', printed)[1]
    readme = (top / "README.md").read_text(encoding="utf-8")
    for kits in sorted(set(re.findall(r"rattle-kit-\w+ logic \w+", readme))):
        # The program says a kit without the letter behind its number.
        if re.sub(r"[a-z]* logic", " logic", kits) != kit:
            yield f"README.md: has {kits}, and the program says {kit}"
    if f"says the version, {version}," not in readme:
        yield f"README.md: hasn't the version {version}, which the program says"
    packaged = (top / "packaging" / "deb" / "changelog").read_text(encoding="utf-8")
    if not packaged.startswith(f"natpair ({version}-"):
        yield f"packaging/deb/changelog: its newest version isn't {version}, which the program says"


def faults(top):
    crates = crates_of(top)
    looks = (unused, past_offered, out_of_plan, out_of_date, other_versions)
    return [*(line for look in looks for line in look(top, crates)), *recursion.faults(top)]


# A fault of each kind: the file in which it is planted, what stands there, what stands there then, and the beginning of
# what is said of it. Where nothing stands, the text is put at the end.
PLANTED = {
    "dependency": ("crates.txt", "\nsums: ", "\nsums: slab ", "crates.txt: sums names slab nowhere"),
    "comment": ("crates/sums/src/planted.rt", "", '//! slab::Slab\nconst TEXT: &str = "slab::Slab";\n', None),
    "shown": ("crates/sums/proofs/Lib.antt", "", "\npub mod Planted\n", "crates/sums/proofs/Lib.antt: shows Planted"),
    "cited": ("crates/rewrite/proofs/Planted.antt", "",
              "use Rattle.sums.proofs.Hidden.{a}\nuse Rattle.sums.proofs.Offered.{b}\n",
              "crates/rewrite/proofs/Planted.antt: cites sums's Hidden"),
    "folder": ("crates/planted/README.md", "", "", "crates/planted: no line of crates.txt"),
    "file": ("crates/sums/notes.txt", "", "", "crates/sums/notes.txt: no part of a crate"),
    "plan": ("crates/README.md", "`sums`", "sums", "crates/README.md: no line for sums"),
    "stale": ("crates/link/must-fail/trailing-bytes.edit", "old: ", "old: no such text ",
              "crates/link/must-fail/trailing-bytes.edit: its old text stands 0 times"),
    "version": ("crates/commands/src/versions.rt", "rattle-kit-", "another-kit-", "README.md: has rattle-kit"),
}


def plant(copy, place, old, new):
    path = copy / place
    path.parent.mkdir(parents=True, exist_ok=True)
    text = path.read_text(encoding="utf-8") if path.exists() else ""
    path.write_text(text.replace(old, new, 1) if old else text + new, encoding="utf-8")


def self_test(top):
    """Each planted fault gives its own line and no other."""
    with tempfile.TemporaryDirectory(prefix="house-") as room:
        copy = pathlib.Path(room) / "copy"
        shutil.copytree(top, copy, ignore=shutil.ignore_patterns(".git", "out"))
        before = set(faults(copy))
        for place, old, new, _ in PLANTED.values():
            plant(copy, place, old, new)
        found = [line for line in faults(copy) if line not in before]
        wanted = {kind: said for kind, (*_, said) in PLANTED.items() if said}
        for kind, said in wanted.items():
            if sum(line.startswith(said) for line in found) != 1:
                sys.exit(f"house: the planted {kind} isn't found, or twice: {found}")
        if len(found) != len(wanted):
            sys.exit("house: more is said than of what is planted:\n" + "\n".join(found))
        print("".join(f"house: found {line}\n" for line in found), end="")


def main():
    parser = argparse.ArgumentParser(description=__doc__, formatter_class=argparse.RawDescriptionHelpFormatter)
    here = pathlib.Path(__file__).resolve().parent.parent
    parser.add_argument("folder", nargs="?", type=pathlib.Path, default=here)
    parser.add_argument("--self-test", action="store_true")
    given = parser.parse_args()
    if given.self_test:
        self_test(given.folder)
        return recursion.self_test(given.folder)
    found = faults(given.folder)
    for line in found:
        print(line)
    if found:
        sys.exit(f"house: {len(found)} out of order")
    print(f"house: {len(crates_of(given.folder))} crates in order")


if __name__ == "__main__":
    main()
