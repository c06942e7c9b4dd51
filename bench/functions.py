#!/usr/bin/env python3
"""Proves one crate with one prover, and prints what the proof of each function took, the dearest first.

usage: bench/functions.py CRATE [--keep] [WORD..]

What an earlier check kept of the crate (crates/CRATE/out) is deleted first, so that each function is proved; what stands
below it keeps its own, and should be proved before. With --keep nothing is deleted, and what was proved before isn't
told of. WORDs go on to `rt check`, as `--only side::Side::take`. The exit status is that of `rt check`.

A processor second is one that the prover, or a process that it started, spent computing. The prover says when a
function's proof has ended, and what was spent since the one before ended counts for it. So the first has what comes
before all proofs, too, and a function may have some of its neighbour's: look at the dearest, and not at the digits.
"""
import os
import re
import shutil
import subprocess
import sys

TICKS = os.sysconf("SC_CLK_TCK")


def computed(root):
    """What a process and all below it computed so far, with those of them that have ended, in seconds."""
    parents, spent = {}, {}
    for name in filter(str.isdigit, os.listdir("/proc")):
        try:
            with open(f"/proc/{name}/stat", encoding="utf-8", errors="replace") as it:
                words = it.read().rpartition(")")[2].split()
        except OSError:
            continue
        parents.setdefault(int(words[1]), []).append(int(name))
        spent[int(name)] = sum(map(int, words[11:15])) / TICKS
    total, left = 0.0, [root]
    while left:
        pid = left.pop()
        total += spent.get(pid, 0.0)
        left += parents.get(pid, [])
    return total


def main(words):
    if not words or words[0].startswith("-"):
        sys.exit(__doc__)
    folder = os.path.join("crates", words[0])
    keeps, words = words[1:2] == ["--keep"], words[1 + (words[1:2] == ["--keep"]):]
    if not keeps:
        shutil.rmtree(os.path.join(folder, "out"), ignore_errors=True)
    check = subprocess.Popen(["rt", "check", "--jobs", "1", *words], cwd=folder, stdout=subprocess.PIPE, stderr=subprocess.STDOUT, text=True, errors="replace")
    before, found = 0.0, []
    for line in check.stdout:
        now = computed(check.pid)
        ended = re.match(r"checked (\S+), \d+ of \d+", line)
        if ended:
            found.append((now - before, ended[1]))
            print(f"{now:8.1f} {now - before:7.1f}  {ended[1]}", flush=True)
            before = now
        else:
            print(f"{now:8.1f}          {line.rstrip()[:160]}", flush=True)
    status = check.wait()
    print(f"\nall: {sum(os.times()[2:4]):.1f} processor seconds")
    for seconds, name in sorted(found, reverse=True)[:40]:
        print(f"{seconds:8.1f}  {name}")
    return status


if __name__ == "__main__":
    sys.exit(main(sys.argv[1:]))
