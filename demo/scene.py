"""What each scene begins with, and how it tells what it saw."""

import contextlib
import shutil
import signal
import subprocess
import tempfile
import time
from pathlib import Path

from crowd import crowd
from flows import PORT, Flow, Loop
from observer import NAMES, Observer
from pair import FOLDER, PYTHON, SERVER, SETTINGS, Networks

# So many of what was seen wrong are told one by one.
TOLD = 10
# The number of the probe's flow, and after how many seconds it asks again.
PROBE = 1_000_000
AGAIN = 0.02


class Scene:
    """Both networks with the pair founded, box 1 synced, and box 0 Active on both sides."""

    def __init__(self, options, stack, capture, all_frames, settings):
        self.stack = stack
        self.options = options
        self.begun = time.monotonic()
        self.networks = Networks(options, stack, settings)
        self.boxes = self.networks.boxes
        self.loop = Loop()
        if capture:
            capture.mkdir(parents=True, exist_ok=True)
            stack.callback(self.keep_logs, capture)
        self.observer = Observer(self.networks, stack, capture, all_frames)
        self.observer.join(self.loop)
        self.serve()
        if options.busy or options.nice or options.weight:
            crowd(self.networks, options, stack)
        self.networks.found()
        self.expect_active(0)
        self.say("box 0 is Active on both sides, box 1 has its table")

    def say(self, text):
        print(f"{time.monotonic() - self.begun:7.2f} s  {text}", flush=True)

    def serve(self):
        words = (*PYTHON, str(FOLDER / "server.py"), SERVER, str(PORT))
        server = self.networks.server.start(*words, stdout=subprocess.PIPE)
        if server.stdout.readline() != b"serving\n":
            raise SystemExit("demo: the server doesn't run")

    def expect_active(self, number, seconds=15):
        if not self.loop.until(lambda: self.observer.active(number), seconds):
            raise SystemExit(f"demo: box {number} isn't Active after {seconds} s")

    def kill(self, number, how=signal.SIGKILL):
        moment = self.boxes[number].kill(how)
        self.say(f"box {number} is killed")
        return moment

    def tell_takeover(self, number, since):
        """Waits until a box is Active on both sides. `since` is when the other ended."""
        self.expect_active(number)
        moment = self.observer.took_over(number, since)
        after = f", {moment - since:.2f} s after the kill" if moment else ""
        self.say(f"box {number} is Active on both sides{after}")

    def bring_back(self, number):
        """Starts a box again, and waits until it has the table."""
        box = self.boxes[number]
        box.start()
        if not self.loop.until(box.is_synced, 15):
            raise SystemExit(f"demo: box {number} has no table after 15 s")
        self.say(f"box {number} is back with boot {box.boot} and has the table")

    def keep_logs(self, folder):
        for box in self.boxes:
            for log in box.folder.glob("*.log"):
                shutil.copy(log, folder)

    def tell_drops(self):
        for box in self.boxes:
            counts = ", ".join(f"{n} x {name}" for name, n in sorted(box.dropped().items()))
            self.say(f"box {box.number} since its last start: {counts or 'nothing dropped'}")


class Probe:
    """One UDP flow that asks each 20 ms, and the longest time without an answer."""

    def __init__(self, current):
        self.flow = Flow(current.loop, PROBE, "udp", self.note)
        self.flow.open(current.networks.host)
        current.stack.callback(self.flow.close)
        self.last = time.monotonic()
        self.gap = 0.0

    def note(self, _):
        now = time.monotonic()
        self.gap = max(self.gap, now - self.last)
        self.last = now

    def ask(self):
        if time.monotonic() - self.flow.asked > AGAIN:
            self.flow.ask()


@contextlib.contextmanager
def settings_with(*changes):
    """A settings file that is the demo's but for these changes, each a text and what stands in its place."""
    text = SETTINGS.read_text(encoding="utf-8")
    for old, new in changes:
        if old not in text:
            raise SystemExit(f"demo: {SETTINGS.name} has no {old!r}")
        text = text.replace(old, new)
    with tempfile.TemporaryDirectory(prefix="natpair-demo-") as folder:
        file = Path(folder) / SETTINGS.name
        file.write_text(text, encoding="utf-8")
        yield file


@contextlib.contextmanager
def scene(options, capture=None, all_frames=True, settings=SETTINGS):
    with contextlib.ExitStack() as stack:
        yield Scene(options, stack, capture, all_frames, settings)


def show(title, heads, rows, left=False):
    """Prints a table: its first column to the left, and all where it is one of words."""
    rows = [[str(cell) for cell in row] for row in rows]
    widths = [max(len(row[i]) for row in [heads, *rows]) for i in range(len(heads))]
    print(f"\n{title}")
    for row in [heads, ["-" * width for width in widths], *rows]:
        first = row[0].ljust(widths[0])
        rest = (c.ljust(w) if left else c.rjust(w) for c, w in zip(row[1:], widths[1:]))
        print("  ".join([first, *rest]).rstrip())
    print(flush=True)


def audit(observer, spared=()):
    """What was seen on the wires: how many endpoints, how many of them with two outside ports, but for
    those that may have two, and how many outside ports with two endpoints."""
    observer.catch_up()
    ports, endpoints = observer.ports()
    moved = {end: found for end, found in ports.items() if len(found) > 1 and end not in spared}
    shared = {port: found for port, found in endpoints.items() if len(found) > 1}
    for (protocol, end), found in list(moved.items())[:TOLD]:
        print(f"moved: {NAMES[protocol]} {end[0]} {end[1]} was seen at ports {sorted(found)}")
    for (protocol, port), found in list(shared.items())[:TOLD]:
        print(f"shared: {NAMES[protocol]} {port} was seen with {sorted(found)}")
    return len(ports), len(moved), len(shared)
