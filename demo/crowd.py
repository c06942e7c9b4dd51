"""Busy processes beside the boxes, on the same processor, and what the boxes are given over them, as by their units."""

import os
import pathlib
import tempfile

from ending import undisturbed
from pair import wait_until

# The weight of what has none of its own, and the most seconds of a processor that a busy process takes.
PLAIN, LONGEST = 100, 600
BUSY = f"ulimit -t {LONGEST}; while :; do :; done"
# A program begins in a group, with a nice value, on a processor.
BEGIN = 'echo $$ > "$0" && nice=$1 processor=$2 && shift 2 && exec nice -n "$nice" taskset -c "$processor" "$@"'


def remove(folder):
    """Removes a group whose processes are ending."""
    wait_until(lambda: not (folder / "cgroup.procs").read_text(encoding="ascii"), 5, f"{folder} is empty")
    folder.rmdir()


class Groups:
    """Groups of processes that share a processor by weight: cgroup2's where it has the processors, else cgroup's."""

    def __init__(self, stack, count):
        """Groups of so many, which have together what so many processes without groups have."""
        self.stack = stack
        self.place, self.file, self.unit = self.found()
        with undisturbed():
            self.folder = pathlib.Path(tempfile.mkdtemp(prefix="natpair-demo-", dir=self.place))
            stack.callback(self.folder.rmdir)
        if self.file == "cpu.weight":
            for folder in (self.place, self.folder):
                (folder / "cgroup.subtree_control").write_text("+cpu", encoding="ascii")
        (self.folder / self.file).write_text(str(count * self.unit), encoding="ascii")

    @staticmethod
    def found():
        """Where they are, the file of a weight, and what stands there for a plain one."""
        for line in pathlib.Path("/proc/self/mounts").read_text(encoding="utf-8").splitlines():
            _, place, kind, words, *_ = line.split()
            place = pathlib.Path(place)
            if kind == "cgroup" and "cpu" in words.split(","):
                return place, "cpu.shares", 1024
            if kind == "cgroup2" and "cpu" in (place / "cgroup.controllers").read_text(encoding="ascii").split():
                return place, "cpu.weight", PLAIN
        raise SystemExit("demo: the kernel has no groups that share a processor")

    def add(self, name, weight):
        """A new group; gives the file to which a process writes its number to be in it."""
        folder = self.folder / name
        folder.mkdir()
        self.stack.callback(remove, folder)
        (folder / self.file).write_text(str(weight * self.unit // PLAIN), encoding="ascii")
        return folder / "cgroup.procs"


def crowd(networks, options, stack):
    """Puts both boxes and so many busy processes on the last processor; those run until the networks are closed."""
    processor = str(max(os.sched_getaffinity(0)))
    groups = Groups(stack, options.busy + len(networks.boxes)) if options.weight else None

    def lead(name, weight, nice):
        file = groups.add(name, weight) if groups else os.devnull
        return ("sh", "-c", BEGIN, str(file), str(nice), processor)

    for box in networks.boxes:
        box.before = lead(f"box{box.number}", options.weight, options.nice)
        # What was called last is done first: its programs end before its group is removed.
        stack.callback(box.space.end)
    for number in range(options.busy):
        networks.boxes[0].space.start(*lead(f"busy{number}", PLAIN, 0), "sh", "-c", BUSY)
    stack.callback(networks.boxes[0].space.end)
