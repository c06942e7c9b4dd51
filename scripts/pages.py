#!/usr/bin/env python3
"""Checks the pages: sizes, links, and names of things that aren't there. A line for each fault, and status 1.

    scripts/pages.py [FOLDER]      this repository, or the one in FOLDER
    scripts/pages.py --self-test   plants a fault of each kind in a copy, and shows that each is found

- No page is longer than SIZES says (in KB of 1,024 bytes), and no README of a crate has more than 60 lines.
- Each link leads to a file or a heading (packaging/links_check).
- In `CRATE/src/FILE` the file is there; in `NAME` of `CRATE` the crate's sources have the name; of `Type::name` some
  crate has the function. In `section.key` the settings have the key.
- In docs/RFC.md `NAME` behind "run" or "runs" is a run of `cases_program` or `cases_hostile`.

It reads text, and is no parser.
"""
import argparse
import importlib.machinery
import importlib.util
import pathlib
import re
import shutil
import sys
import tempfile

sys.dont_write_bytecode = True  # Nothing is left in the repository.
from sources import crates_of, sources_of

TOP = pathlib.Path(__file__).resolve().parent.parent
SIZES = {
    "README.md": 10, "CHANGELOG.md": 11, "CONTRIBUTING.md": 10, "crates/README.md": 9,
    "docs/ARCHITECTURE.md": 14, "docs/CONTRACTS.md": 6, "docs/DECISIONS.md": 22, "docs/DEMO.md": 12, "docs/FENCING.md": 8,
    "docs/GLOSSARY.md": 6, "docs/INSTALL.md": 22, "docs/OPERATING.md": 24, "docs/PROTOCOL.md": 17, "docs/REFERENCE.md": 40,
    "docs/RFC.md": 34, "docs/SIZING.md": 10, "docs/THEOREM.md": 18, "docs/WRONG_BODIES.md": 20,
    "bench/README.md": 8, "bench/GATE.md": 3,
}
README_LINES = 60
PLACE = re.compile(r"`(?:crates/)?(\w+)/((?:src|specs|proofs)/[\w/.]*)`")
NAME_OF = re.compile(r"((?:`\w+`(?:, | and )?)+) of `(\w+)`")
CALL = re.compile(r"`([A-Z]\w+)::(\w+)`")
RUNS = re.compile(r"\bruns? ((?:`[\w-]+`(?:, | and )?)+)")
# The verbs of `cases_program` that run a script's file.
VERBS = ("script", "with", "alone", "pieces", "fault")
KEY = re.compile(r"`(?:ports|inside|outside|icmp|fragments|vrrp|gateway_[01I]|neighbour)\.(\w+)`")


def links_check(top):
    """The module packaging/links_check, whose name has no ending."""
    loader = importlib.machinery.SourceFileLoader("links_check", str(top / "packaging" / "links_check"))
    module = importlib.util.module_from_spec(importlib.util.spec_from_loader("links_check", loader))
    loader.exec_module(module)
    return module


def too_long(top):
    for name, most in SIZES.items():
        size = (top / name).stat().st_size if (top / name).exists() else 0
        if size == 0:
            yield f"{name}: isn't there"
        elif size > most * 1024:
            yield f"{name}: {size:,} bytes, and at most {most} KB"
    for path in sorted((top / "docs").glob("*.md")):
        if f"docs/{path.name}" not in SIZES:
            yield f"docs/{path.name}: has no size in scripts/pages.py"
    for path in sorted((top / "crates").glob("*/README.md")):
        lines = len(path.read_text(encoding="utf-8").splitlines())
        if lines > README_LINES:
            yield f"{path.relative_to(top)}: {lines} lines, and at most {README_LINES}"


def words_of(top, crates):
    """The words of each crate's code, definitions and proofs."""
    return {name: {word for path in sources_of(top / "crates" / name)
                   for word in re.findall(r"\w+", path.read_text(encoding="utf-8"))} for name in crates}


def names_in(page, top, words, everywhere):
    """What a page names and isn't there."""
    text = page.read_text(encoding="utf-8")
    where = page.relative_to(top)
    for crate, place in PLACE.findall(text):
        if crate in words and not (top / "crates" / crate / place).exists():
            yield f"{where}: {crate}/{place} isn't there"
    for names, crate in NAME_OF.findall(text):
        for name in re.findall(r"`(\w+)`", names):
            if crate in words and name not in words[crate] and name not in words:
                yield f"{where}: {crate} has no {name}"
    for kind, name in CALL.findall(text):
        if kind in everywhere and name not in everywhere:
            yield f"{where}: nothing is {kind}::{name}"
    for key in KEY.findall(text):
        if key not in words.get("settings_file", ()):
            yield f"{where}: settings have no key {key}"


def runs_of(top):
    """The runs that `cases_program` and `cases_hostile` list, whose scripts are there."""
    for crate in ("cases_program", "cases_hostile"):
        data = top / "crates" / crate / "data"
        lines = [line.split() for line in (data / "rows.list").read_text(encoding="utf-8").splitlines()]
        rows = [words for words in lines if len(words) == 2 and words[0] != "#"]
        names = [words[0] for words in rows] if crate == "cases_hostile" else [name for verb, name in rows if verb in VERBS]
        yield from (name for name in names if (data / f"{name}.script").exists())


def unknown_runs(top):
    """The runs that docs/RFC.md names and nobody lists."""
    runs = set(runs_of(top))
    for names in RUNS.findall((top / "docs/RFC.md").read_text(encoding="utf-8")):
        for name in re.findall(r"`([\w-]+)`", names):
            if name not in runs:
                yield f"docs/RFC.md: {name} is no run"


def faults(top):
    words = words_of(top, crates_of(top))
    everywhere = set().union(*words.values())
    found = list(too_long(top))
    found += [line for line in links_check(top).check(top, False)[1]]
    pages = [*sorted(top.glob("*.md")), *sorted((top / "docs").glob("*.md")), *sorted((top / "crates").rglob("README.md"))]
    for page in pages:
        found += names_in(page, top, words, everywhere)
    return [*found, *unknown_runs(top)]


PLANTED = {
    "size": ("docs/FENCING.md", "x" * 8192, "docs/FENCING.md: "),
    "lines": ("crates/sums/README.md", "\n" * 60, "crates/sums/README.md: "),
    "link": ("docs/PROTOCOL.md", "[there](NOWHERE.md)", "docs/PROTOCOL.md: NOWHERE.md leads to no file"),
    "place": ("docs/PROTOCOL.md", "`sums/src/nowhere.rt`", "docs/PROTOCOL.md: sums/src/nowhere.rt isn't there"),
    "name": ("docs/PROTOCOL.md", "`nobody` of `sums`", "docs/PROTOCOL.md: sums has no nobody"),
    "call": ("docs/PROTOCOL.md", "`Gateway::nothing_so_named`", "docs/PROTOCOL.md: nothing is Gateway::nothing_so_named"),
    "run": ("docs/RFC.md", "runs `ping-gateway`, `ping-nobody`", "docs/RFC.md: ping-nobody is no run"),
    "key": ("docs/PROTOCOL.md", "`inside.no_key`", "docs/PROTOCOL.md: settings have no key no_key"),
}


def self_test(top):
    """Each planted fault gives its own line."""
    with tempfile.TemporaryDirectory(prefix="pages-") as room:
        copy = pathlib.Path(room) / "copy"
        shutil.copytree(top, copy, ignore=shutil.ignore_patterns(".git", "out"))
        before = set(faults(copy))
        for place, text, _ in PLANTED.values():
            with open(copy / place, "a", encoding="utf-8") as page:
                page.write(f"\n{text}\n")
        found = [line for line in faults(copy) if line not in before]
        for kind, (*_, said) in PLANTED.items():
            if not any(line.startswith(said) for line in found):
                sys.exit(f"pages: the planted {kind} isn't found: {found}")
        print("".join(f"pages: found {line}\n" for line in found), end="")


def main():
    parser = argparse.ArgumentParser(description=__doc__, formatter_class=argparse.RawDescriptionHelpFormatter)
    parser.add_argument("folder", nargs="?", type=pathlib.Path, default=TOP)
    parser.add_argument("--self-test", action="store_true")
    given = parser.parse_args()
    if given.self_test:
        return self_test(given.folder)
    found = faults(given.folder)
    for line in found:
        print(line)
    if found:
        sys.exit(f"pages: {len(found)} out of order")
    print("pages: in order")


if __name__ == "__main__":
    main()
