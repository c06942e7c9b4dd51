"""docs/RFC.md as a table: what it says of each requirement. The page is what the probes are held against."""

import re
from typing import NamedTuple

from pair import FOLDER

PAGE = FOLDER.parent / "docs" / "RFC.md"
VERDICTS = ("met", "in part", "not met", "n/a")
# What stands in the column "Shown by" of a requirement that is measured, and of one whose rows with letters are.
PROBE, PARTS = re.compile(r"\bprobe\b"), "its parts"


class Row(NamedTuple):
    """What the page says of a requirement: its verdict, and whether it, or each of its parts, is measured."""

    verdict: str
    is_measured: bool
    has_parts: bool


def cells_of(line):
    return [cell.strip() for cell in line.strip().strip("|").split("|")]


def read():
    """The rows by their requirements."""
    found, standard = {}, None
    for line in PAGE.read_text(encoding="utf-8").splitlines():
        if line.startswith("## "):
            named = re.match(r"## (?:RFC (\d+)|(Own)):", line)
            standard = named and (named[1] or named[2].lower())
        elif line.startswith("| ") and not line.startswith("| Requirement") and standard:
            name, *_, shown, verdict = cells_of(line)
            if verdict not in VERDICTS:
                raise SystemExit(f"demo: {PAGE.name}: {standard} {name}: {verdict!r} is no verdict")
            found[f"{standard} {name}"] = Row(verdict, bool(PROBE.search(shown)), shown == PARTS)
    return found
