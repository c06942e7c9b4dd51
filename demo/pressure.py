"""A box under load whose standard error isn't read, whose control socket is hammered, and whose log is rotated: it loses no
packet that it doesn't lose when it is left alone."""

import contextlib
import fcntl
import os
import signal
import socket
import subprocess
import tempfile
import time
from typing import NamedTuple

from flows import Flows, verdict
from pair import FOLDER, PYTHON, SERVER, SETTINGS, USER
from scene import scene, show

LOAD_PORT, NOBODYS = 4001, 65_000
CALLS = 100_000
FLOWS, PATIENCE = 20, 30
ROTATED = 0.2
# The load is over so many seconds after its time at most, and a turn that waits for its connections after so many.
GRACE, LONGEST = 40, 90


class Row(NamedTuple):
    """What was done to box 0 in a turn, and what came of the load meanwhile."""

    name: str
    calls: int
    answers: int
    asked: int
    lost: int
    gap: int


def learnt_words(box, commands):
    """The bytes by which commands speak at a control socket: heard at a socket that stands for a box's. The calls get no
    answer, so how they end counts for nothing."""
    found = []
    with tempfile.TemporaryDirectory(dir=box.folder) as folder:
        os.chown(folder, box.user.pw_uid, box.user.pw_gid)
        control = f"{folder}/boot{box.number}.control"
        os.mkdir(control)
        os.chmod(control, 0o755)
        with socket.socket(socket.AF_UNIX) as listener:
            listener.bind(f"{control}/socket")
            os.chmod(f"{control}/socket", 0o777)
            listener.listen()
            listener.settimeout(10)
            for command in commands:
                words = (str(box.top / "natpair"), command, str(box.top / SETTINGS.name), "--id", str(box.number))
                child = box.space.start(*words, user=box.user, cwd=folder, stdout=subprocess.DEVNULL,
                                        stderr=subprocess.DEVNULL)
                caller, _ = listener.accept()
                with caller:
                    caller.settimeout(5)
                    found.append(caller.recv(256).hex())
                child.wait(10)
    return found


class Stir:
    """Packets that the box drops, so that it has lines to write: on both sides, to ports that serve nobody."""

    def __init__(self, current):
        settings, self.ends = current.networks.settings, []
        for space, side in ((current.networks.host, "inside"), (current.networks.router, "outside")):
            with space.entered():
                sock = socket.socket(socket.AF_INET, socket.SOCK_DGRAM)
            current.stack.callback(sock.close)
            self.ends.append((sock, (settings[side]["virtual"], NOBODYS)))

    def turn(self):
        for sock, place in self.ends:
            with contextlib.suppress(OSError):
                sock.sendto(b"for nobody", place)


class Press:
    """What is done to a box: a name each, and how it is begun and ended."""

    def __init__(self, box):
        self.box = box
        self.path = str(box.folder / f"boot{box.number}.control" / "socket")
        self.status, self.pairs = learnt_words(box, ("status", "pairs"))
        self.callers, self.connecting = [], None
        self.rotations = 0

    def call(self, kind, number, *words):
        """A program that calls at the control socket, as the box's user."""
        line = (*PYTHON, str(FOLDER / "caller.py"), USER, self.path, kind, str(number), *words)
        self.callers.append(self.box.space.start(*line, stdout=subprocess.PIPE, text=True))

    def end_calls(self):
        """Ends the callers: how many calls they had, and how many answers."""
        calls = answers = 0
        for caller in self.callers:
            caller.kill()
            last = caller.communicate()[0].split("\n")[:-1][-1:]
            for line in last:
                calls, answers = calls + int(line.split()[0]), answers + int(line.split()[1])
        self.callers, self.connecting = [], None
        return calls, answers

    def stop_reader(self):
        """Nobody reads its standard error, and there is no room in it."""
        self.box.logger.send_signal(signal.SIGSTOP)
        with contextlib.suppress(BlockingIOError):
            while True:
                os.write(self.box.filler, b"filled\n")

    def rotate(self):
        """Moves the log away. Where nothing was written since the last time there is none."""
        if self.box.log.exists():
            self.rotations += 1
            os.rename(self.box.log, f"{self.box.log}.{self.rotations}")
            self.box.logger.send_signal(signal.SIGHUP)

    def ask_all_the_time(self):
        for word in (self.status, self.pairs):
            self.call("ask", 10 * CALLS, word)

    def never_read(self):
        self.call("mute", 10 * CALLS, self.status, self.pairs)

    def say_garbage(self):
        self.call("garbage", 10 * CALLS)

    def connect(self):
        self.call("silent", CALLS)
        self.connecting = self.callers[-1]

    def is_connecting(self):
        return self.connecting is not None and self.connecting.poll() is None

    def everything(self):
        for each in (self.stop_reader, self.ask_all_the_time, self.never_read, self.say_garbage, self.connect):
            each()

    def release(self):
        """Its lines are read again."""
        self.box.logger.send_signal(signal.SIGCONT)


TURNS = (
    ("left alone", None),
    ("nobody reads its standard error", Press.stop_reader),
    ("left alone", None),
    ("status and pairs are asked all the time", Press.ask_all_the_time),
    ("left alone", None),
    ("callers that never read", Press.never_read),
    ("left alone", None),
    ("callers that say garbage", Press.say_garbage),
    ("left alone", None),
    (f"{CALLS:,} connections", Press.connect),
    ("left alone", None),
    ("its log is rotated", "rotate"),
    ("left alone", None),
    ("all of it at once", Press.everything),
    ("left alone", None),
)


def load_once(current, press, stir, rotates, options):
    """The load for a while: how many questions were asked and answered, and the longest time without an answer."""
    words = (*PYTHON, str(FOLDER / "load.py"), "ask", SERVER, str(LOAD_PORT), str(options.rate), str(options.time))
    load = current.networks.host.start(*words, stdout=subprocess.PIPE, text=True)
    end = time.monotonic() + options.time + GRACE
    rotated = time.monotonic()
    while load.poll() is None and time.monotonic() < end:
        current.loop.turn(0.02)
        stir.turn()
        if rotates and time.monotonic() - rotated > ROTATED:
            rotated = time.monotonic()
            press.rotate()
    if load.poll() != 0:
        raise SystemExit("demo: the load isn't over, or failed")
    return map(int, load.stdout.read().split())


def turn(current, press, stir, name, begin, options):
    """The load with box 0 pressed or left alone: once, or until all connections that are to be made were made."""
    if callable(begin):
        begin(press)
    asked = answered = gap = 0
    end = time.monotonic() + LONGEST
    while not asked or press.is_connecting() and time.monotonic() < end:
        more, heard, longest = load_once(current, press, stir, begin in ("rotate", Press.everything), options)
        asked, answered, gap = asked + more, answered + heard, max(gap, longest)
    calls, answers = press.end_calls()
    press.release()
    current.say(f"{name}: {asked - answered} of {asked} questions lost, {calls} calls, {answers} answered")
    return Row(name, calls, answers, asked, asked - answered, gap)


def lines_of(box):
    """All that box 0 has told since its start, by all files of its log."""
    files = sorted(box.folder.glob(f"{box.log.name}*"))
    return "".join(file.read_text(encoding="utf-8") for file in files)


def pressure(options):
    with scene(options, options.capture, bool(options.capture)) as current:
        box = current.boxes[0]
        words = (*PYTHON, str(FOLDER / "load.py"), "echo", SERVER, str(LOAD_PORT))
        echo = current.echo = current.networks.server.start(*words, stdout=subprocess.PIPE)
        if echo.stdout.readline() != b"serving\n":
            raise SystemExit("demo: the far end of the load doesn't run")
        flows = Flows(current.loop, current.networks.host, current.stack)
        flows.open(FLOWS, FLOWS, PATIENCE)
        press = Press(box)
        stir = Stir(current)
        rows = [turn(current, press, stir, *each, options) for each in TURNS]
        flows.ask(flows.flows, PATIENCE)
        held, moved, silent = verdict(flows.flows)
        time.sleep(1)
        left_out = lines_of(box).count("lines left out")
        was_active = current.observer.active(0) and not [c for c in current.observer.changes if c[2] == 1]
    show("pressure", ["box 0", "calls", "answered", "asked", "lost", "longest without an answer"],
         [(*row[:-1], f"{row.gap} ms") for row in rows])
    alone = max(row.lost for row in rows if row.name == "left alone")
    pressed = max(row.lost for row in rows if row.name != "left alone")
    print(f"{held} of {FLOWS} flows hold their port; box 0 was Active all the while: {'yes' if was_active else 'no'}; "
          f"its log was rotated {press.rotations} times, and says {left_out} times that lines were left out", flush=True)
    asked = all(row.answers for row in rows if row.name.startswith("status"))
    return pressed <= alone and moved + silent == 0 and left_out > 0 and asked
