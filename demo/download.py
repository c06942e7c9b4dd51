"""A download goes on when the Active box is killed half-way."""

import hashlib
import os
import random
import subprocess
import time

from pair import FOLDER, PYTHON, SERVER
from scene import Probe, scene, show

MEGABYTE = 1 << 20
HTTP_PORT = 80


class Fetch:
    """The program that downloads, and what it has said."""

    def __init__(self, current, name):
        words = (*PYTHON, str(FOLDER / "fetch.py"), f"http://{SERVER}:{HTTP_PORT}/{name}")
        self.child = current.networks.host.start(*words, stdout=subprocess.PIPE)
        self.loop = current.loop
        self.text = b""
        self.count = 0
        self.end = None
        self.over = False
        self.loop.watch(self.child.stdout, self.read)

    def read(self):
        part = os.read(self.child.stdout.fileno(), 4096)
        if not part:
            self.over = True
            self.loop.forget(self.child.stdout)
        *lines, self.text = (self.text + part).split(b"\n")
        for line in lines:
            words = line.decode().split()
            if words[0] == "at":
                self.count = int(words[1])
            else:
                self.end = words[1:]


def publish(current, size):
    """Gives the web server one file of random bytes; its checksum."""
    folder = current.networks.folder / "web"
    folder.mkdir()
    content = random.Random(size).randbytes(size)
    (folder / "file").write_bytes(content)
    words = ("-m", "http.server", str(HTTP_PORT), "--bind", SERVER, "--directory", str(folder))
    null = subprocess.DEVNULL
    current.networks.server.start(*PYTHON, *words, stdout=null, stderr=null)
    time.sleep(0.5)
    return hashlib.sha256(content).hexdigest()


def follow(current, probe, test, seconds):
    """Keeps the probe asking until a test holds or the time is over."""
    end = time.monotonic() + seconds
    while not test() and time.monotonic() < end:
        probe.ask()
        current.loop.turn()


def download(options):
    size = options.megabytes * MEGABYTE
    with scene(options, options.capture, bool(options.capture)) as current:
        checksum = publish(current, size)
        probe = Probe(current)
        follow(current, probe, lambda: probe.flow.answered > 0, 5)
        fetch = Fetch(current, "file")
        current.say(f"the download of {size:,} bytes begins")
        follow(current, probe, lambda: fetch.over or fetch.count * 2 >= size, 60)
        current.say(f"{fetch.count:,} bytes have come")
        killed = current.kill(0)
        follow(current, probe, lambda: current.observer.active(1), 20)
        current.tell_takeover(1, killed)
        follow(current, probe, lambda: fetch.over, 90)
        current.say("the download is over")
        answered = probe.flow.answered
        follow(current, probe, lambda: probe.flow.answered > answered, 10)
        current.tell_drops()
        return tell(size, checksum, fetch, probe, current.networks.down_interval(1))


def tell(size, checksum, fetch, probe, owed):
    end = fetch.end or ["0", "0", "0", ""]
    whole = int(end[0]) == size and end[3] == checksum
    steady = len(set(probe.flow.ports)) == 1
    rows = [
        (f"{size:,} bytes by HTTP, with the right SHA-256", 1, int(whole), int(not whole)),
        ("the outside port of a UDP flow beside it", 1, int(steady), int(not steady)),
    ]
    show("download", ["", "tried", "held", "lost"], rows)
    rows = [
        ("longest time without bytes of the download", f"{float(end[2]):.2f} s"),
        ("longest time without an answer to the UDP flow, which asks each 20 ms",
         f"{probe.gap:.2f} s"),
        ("three advertisement intervals and the skew", f"{owed:.2f} s"),
        ("the whole download", f"{float(end[1]):.2f} s"),
    ]
    show("times", ["", ""], rows)
    return whole and steady
