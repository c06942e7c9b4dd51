"""A path that takes less than the networks of the pair: its router tells hosts so, or may not."""

import hashlib
import os
import random
import subprocess
from typing import NamedTuple

from cards import card
from download import follow
from observer import only, set_filter
from packets import ICMP, Packet, is_ipv4
from pair import FOLDER, HOSTS, PYTHON, SERVER, SIDES
from rfc_hosts import NARROW, NEVER_CUT, UDP_PLACE, Hosts
from scene import Probe, scene, show

PORT = 8082
# An upload that isn't over in so many seconds stands still; at full width it takes a part of one.
PATIENCE = 8
# A connection begins with a window of ten segments. The answer to the request's head allows one more, and a probe for what
# is lost (RFC 8985) may send another.
FIRST_WINDOW = 12
WIDE = 1500
# A datagram that is too long for the path, and one that is just as long as it takes.
LONG, FITTING = 1400, NARROW - 28
# A rule of the router's that drops all of ICMP, its own and what it would pass on.
NO_ICMP = ("pref", "10", "ipproto", "icmp", "blackhole")


class Lines:
    """The lines of a program that runs, as lists of words."""

    def __init__(self, loop, child):
        self.loop, self.child = loop, child
        self.found, self.text, self.over = [], b"", False
        loop.watch(child.stdout, self.read)

    def read(self):
        part = os.read(self.child.stdout.fileno(), 1 << 16)
        if not part:
            self.over = True
            self.loop.forget(self.child.stdout)
        *lines, self.text = (self.text + part).split(b"\n")
        self.found += [line.decode().split() for line in lines]

    def last(self, word):
        """The words behind the last line that begins so; none where there is none."""
        return next((line[1:] for line in reversed(self.found) if line[:1] == [word]), [])


class Errors:
    """Counts, on both sides of the pair, the router's errors that say how long a packet may be."""

    def __init__(self, current):
        self.counts = dict.fromkeys(SIDES, 0)
        for side, space in zip(SIDES, (current.networks.host, current.networks.router)):
            with space.entered():
                sock = card("eth0")
            current.stack.callback(sock.close)
            set_filter(sock, only(ICMP))
            current.loop.watch(sock, lambda side=side, sock=sock: self.look(side, sock))

    def look(self, side, sock):
        frame = sock.recv(65535)
        said = Packet(frame).payload if is_ipv4(frame) and frame[23] == ICMP else b""
        if said[:2] == b"\3\4" and int.from_bytes(said[6:8], "big") == NARROW:
            self.counts[side] += 1

    def take(self):
        """How many there were outside and inside since it was asked last."""
        found = self.counts["outside"], self.counts["inside"]
        self.counts = dict.fromkeys(SIDES, 0)
        return found


class Seen(NamedTuple):
    """What an upload and two datagrams came to."""

    taken: int
    checksum: str
    seconds: str
    mtu: int
    segment: int
    unanswered: int
    errors: tuple
    told: str
    told_mtu: int
    fits: bool


class Path:
    """The way between the host and the server, which is narrow behind the router."""

    def __init__(self, current, size):
        self.current = current
        self.size = size
        self.hosts = Hosts(current, current.stack)
        self.errors = Errors(current)
        self.probe = Probe(current)
        words = (*PYTHON, str(FOLDER / "taker.py"), SERVER, str(PORT))
        pipes = {"stdout": subprocess.PIPE, "stderr": subprocess.DEVNULL}
        self.server = Lines(current.loop, current.networks.server.start(*words, **pipes))
        self.wait(lambda: self.server.found and self.probe.flow.answered, 10)
        self.hosts.widen(NARROW)

    def wait(self, test, seconds):
        follow(self.current, self.probe, test, seconds)

    def upload(self):
        """An upload, to its end or as far as it comes: the words of its lines, and how many bytes came to the server."""
        words = (f"http://{SERVER}:{PORT}/file", str(self.size), str(PATIENCE), HOSTS[0])
        child = self.current.networks.host.start(*PYTHON, str(FOLDER / "upload.py"), *words, stdout=subprocess.PIPE)
        lines = Lines(self.current.loop, child)
        self.wait(lambda: lines.over, 3 * PATIENCE)
        self.wait(lambda: False, 0.2)
        return lines, int((self.server.last("at") or ["0"])[0])

    def look(self):
        """What the host sees of the path, which it knows nothing of yet."""
        self.hosts.widen(NARROW)
        self.errors.take()
        lines, taken = self.upload()
        mtu, segment, unanswered = map(int, lines.last("path") or (0, 0, 0))
        _, checksum, seconds = lines.last("end") or (0, "", "")
        told, told_mtu = self.hosts.told(UDP_PLACE, LONG)
        fits = self.hosts.datagram(FITTING, NEVER_CUT)
        return Seen(taken, checksum, seconds, mtu, segment, unanswered, self.errors.take(), told, told_mtu, fits)


def where_told(seen, size):
    """What has to be seen where errors come through: what of it, how it was, and whether that is it."""
    right = seen.checksum == hashlib.sha256(random.Random(size).randbytes(size)).hexdigest()
    outside, inside = seen.errors
    return [
        (f"an upload of {size:,} bytes comes, with the right SHA-256",
         f"{seen.taken:,} bytes" + (f" in {seen.seconds} s" if seen.seconds else ", not over"),
         right and seen.taken == size),
        (f"each error of the router's comes in, with its MTU of {NARROW:,}", f"{outside} outside, {inside} inside",
         outside == inside > 0),
        (f"the host's TCP takes the path to be of {NARROW:,} bytes", f"{seen.mtu:,}", seen.mtu == NARROW),
        (f"UDP of {LONG:,} bytes, not to be cut: its sender is told", seen.told, seen.told == "Message too long"),
        ("and told the MTU (IP_MTU)", f"{seen.told_mtu:,}", seen.told_mtu == NARROW),
        (f"UDP of {FITTING:,} bytes, not to be cut, comes", "it does" if seen.fits else "nothing", seen.fits),
    ]


def where_untold(seen, size):
    """What has to be seen where the router drops ICMP: that the rest is due to the errors."""
    sent = seen.segment * seen.unanswered
    return [
        (f"of an upload of {size:,} bytes nothing comes in {PATIENCE} s", f"{seen.taken:,} bytes",
         seen.taken == 0 and not seen.checksum),
        ("one window of it is sent, and not answered", f"{seen.unanswered} segments, {sent:,} bytes",
         0 < seen.unanswered <= FIRST_WINDOW),
        ("no error of the router's is seen", "{} outside, {} inside".format(*seen.errors), seen.errors == (0, 0)),
        (f"the host's TCP takes the path to be of {WIDE:,} bytes", f"{seen.mtu:,}", seen.mtu == WIDE),
        (f"UDP of {LONG:,} bytes, not to be cut: its sender hears nothing", seen.told, seen.told == "nothing"),
        ("and knows no MTU but its own network's", f"{seen.told_mtu:,}", seen.told_mtu == WIDE),
        (f"UDP of {FITTING:,} bytes, not to be cut, comes", "it does" if seen.fits else "nothing", seen.fits),
    ]


CONDITIONS = {"told": where_told, "untold": where_untold}


def try_condition(path, name):
    """What the hosts see while the router tells, or drops ICMP; each line with its condition."""
    router = path.current.networks.router
    if name == "untold":
        router.ip("rule", "add", *NO_ICMP)
    seen = path.look()
    if name == "untold":
        router.ip("rule", "delete", *NO_ICMP)
    path.current.say(f"{name}: {seen.taken:,} bytes of the upload came")
    return [(name, *line) for line in CONDITIONS[name](seen, path.size)]


def mtu(options):
    with scene(options, options.capture, bool(options.capture)) as current:
        path = Path(current, options.bytes)
        current.say(f"behind the router packets have {NARROW:,} bytes at most")
        lines = []
        for name in options.conditions or ("told", "untold", "told"):
            lines += try_condition(path, name)
        ports = set(path.probe.flow.ports)
        lines.append(("all", "a UDP flow beside keeps its port", ", ".join(map(str, ports)), len(ports) == 1))
        current.tell_drops()
    show("path MTU", ["hosts are", "expected", "seen", ""],
         [(*line, "so" if holds else "NOT SO") for *line, holds in lines], left=True)
    wrong = sum(not holds for *_, holds in lines)
    print(f"{len(lines)} checks, {wrong} of them not so", flush=True)
    return wrong == 0
