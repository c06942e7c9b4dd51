"""What the looks of scripts/house.py read: the crates, and the code of their sources."""
import functools
import re

# What of a source is no code: comments, quoted texts, characters.
QUOTED = r'b?"(?:\\.|[^"\\])*"'
NO_CODE = {
    ".rt": re.compile(r"//[^\n]*|/\*.*?\*/|\b[bc]?r(#*)\".*?\"\1|b?'(?:\\.[^']*|[^'\\])'|" + QUOTED, re.S),
    ".antt": re.compile(r"(?<!\S)--[^\n]*|\{-.*?-\}|" + QUOTED, re.S),
}

def crates_of(top):
    """The crates of crates.txt, each with what it stands on."""
    found = {}
    for line in (top / "crates.txt").read_text(encoding="utf-8").splitlines():
        line = line.split("#")[0].strip()
        if ":" in line:
            name, libraries = line.split(":", 1)
            found[name.split()[0]] = libraries.split()
    return found


def sources_of(folder):
    for part in ("src", "specs", "proofs"):
        for path in sorted((folder / part).rglob("*")):
            if path.suffix in (".rt", ".antt"):
                yield path


@functools.cache
def code_in(suffix, text):
    """The text with a gap for what is no code, each line where it was."""
    return NO_CODE[suffix].sub(lambda it: " " + "\n" * it[0].count("\n"), text)


def code_of(path):
    return code_in(path.suffix, path.read_text(encoding="utf-8"))
