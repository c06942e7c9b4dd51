"""The power switch of the demo's machines, as a fence agent: lines of KEY=VALUE on its standard input.

    power.py        action=off ends the programs of a machine; action=status ends with 0 where it is on, and with 2 where
                    it is off

`plug=FILE` names the machine: a file with the numbers of its processes, a line each. `broken=FILE`: where there is such a
file the switch does nothing, and ends with 1. Each call is a line of `calls=FILE`, with its moment.
"""

import os
import pathlib
import signal
import sys
import time


def runs(pid):
    """Whether a process is there that hasn't ended."""
    try:
        return pathlib.Path(f"/proc/{pid}/stat").read_text(encoding="ascii").rsplit(")", 1)[1].split()[0] != "Z"
    except FileNotFoundError:
        return False


def end(pids):
    for pid in pids:
        if runs(pid):
            os.kill(pid, signal.SIGKILL)
    while any(map(runs, pids)):
        time.sleep(0.01)


def main():
    given = dict(line.split("=", 1) for line in sys.stdin.read().splitlines())
    with open(given["calls"], "a", encoding="ascii") as calls:
        print(given["action"], time.monotonic(), file=calls)
    if os.path.exists(given["broken"]):
        return 1
    pids = [int(line) for line in pathlib.Path(given["plug"]).read_text(encoding="ascii").split()]
    if given["action"] == "off":
        end(pids)
        return 0
    return 0 if any(map(runs, pids)) else 2


if __name__ == "__main__":
    sys.exit(main())
