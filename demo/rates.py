"""Questions through the pair at one rate after the other: how many are lost, and what of a processor box 0 takes."""

import os
import subprocess
import time

from pair import FOLDER, PYTHON, SERVER
from scene import scene, show

LOAD_PORT = 4001
RATES = (2000, 5000, 10_000, 15_000)
# A turn is over so many seconds after its time at most.
GRACE = 40


def taken(box):
    """How many seconds of a processor a box's gate has taken."""
    with open(f"/proc/{box.gate.pid}/stat", encoding="ascii") as file:
        words = file.read().rsplit(")", 1)[1].split()
    return (int(words[11]) + int(words[12])) / os.sysconf("SC_CLK_TCK")


def ask(current, rate, seconds):
    """A row of the table."""
    box, before = current.boxes[0], taken(current.boxes[0])
    words = (*PYTHON, str(FOLDER / "load.py"), "ask", SERVER, str(LOAD_PORT), str(rate), str(seconds))
    child = current.networks.host.start(*words, stdout=subprocess.PIPE, text=True)
    if not current.loop.until(lambda: child.poll() is not None, seconds + GRACE) or child.returncode:
        raise SystemExit(f"demo: {rate} questions a second: the load doesn't end well")
    asked, answered, gap = map(int, child.stdout.read().split())
    lost = asked - answered
    current.say(f"{rate} a second: {lost} of {asked} questions lost, {gap} ms at most without an answer")
    return rate, asked, lost, f"{lost / asked:.0%}", f"{gap} ms", f"{taken(box) - before:.2f} s"


def serve_load(current):
    words = (*PYTHON, str(FOLDER / "load.py"), "echo", SERVER, str(LOAD_PORT))
    echo = current.networks.server.start(*words, stdout=subprocess.PIPE)
    if echo.stdout.readline() != b"serving\n":
        raise SystemExit("demo: the server of the load doesn't run")


def rates(options):
    with scene(options, options.capture, bool(options.capture)) as current:
        serve_load(current)
        begun = time.monotonic()
        rows = [ask(current, rate, options.time) for rate in options.rates or RATES]
        moved = [number for moment, _, number in current.observer.changes if moment > begun and number == 1]
        current.tell_drops()
    heads = ["questions a second", "asked", "lost", "", "longest gap", "the gate of box 0 took"]
    show("rates", heads, rows)
    if moved:
        print("box 1 took over meanwhile")
    return not moved and all(row[2] == 0 for row in rows)
