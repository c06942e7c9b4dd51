"""Where a probe is made: the running pair, at the two switches, or `natpair sim`, whose clock can stand at any moment.

Both take frames of stations that are nobody else's, and show what comes out.
"""

import os
import subprocess
import tomllib
from typing import NamedTuple

from cards import card
from packets import (ECHO, ICMP, IPV4, PLAIN, REPLY, SYN, TCP, UDP, Packet, Station, arp_reply, arp_request, ethernet,
                     icmp, ip_bytes, ipv4, is_arp, is_ipv4, marked, tcp, udp, virtual_mac)

PACKET_OUTGOING = 4
# What comes out of the running pair comes within so many seconds; where nothing should come, so long is waited for it.
PATIENCE = 1.5
SILENCE = 0.4
# The moment, in hundredths of a second, at which box 0 of `sim` is Active.
ACTIVE = 360
# Two ticks that lie so far apart make a box say something to the other at each.
HELLO = 20
# The sequence number of each query.
SEQUENCE = b"\0\1"

HOSTS = tuple(Station("inside", f"192.168.1.{51 + n}", bytes((2, 0, 0, 0, 0xA, n))) for n in range(4))
REMOTES = tuple(Station("outside", f"192.0.2.{51 + n}", bytes((2, 0, 0, 0, 0xB, n))) for n in range(3))
BY_ADDRESS = {ip_bytes(station.address): station for station in (*HOSTS, *REMOTES)}


class End(NamedTuple):
    """A port of a station."""

    station: Station
    port: int

    @property
    def place(self):
        return self.station.address, self.port


class Bench:
    """What both kinds have: stations, and packets between their ends. Pairs that have to be new have hosts' ports from `first`
    on."""

    first = 0

    def __init__(self, name, settings, box=0):
        self.name = name
        self.settings = settings
        self.box = box
        self.virtual = settings["outside"]["virtual"]

    def announce(self):
        """Each station asks for the virtual address of its side, so that the boxes know where it is (RFC 826)."""
        for station in (*HOSTS, *REMOTES):
            self.put(station.side, arp_request(station, self.settings[station.side]["virtual"]))

    def own_mac(self, side):
        return virtual_mac(self.settings[side]["vrid"])

    def box_place(self, side):
        """The box's own address on a side, and its own MAC."""
        own = self.settings[f"gateway_{self.box}"]
        return own[f"{side}_ip"], bytes.fromhex(own[f"{side}_mac"].replace("-", ""))

    def ask(self, station, packet, mark, patient=True):
        """A station hands a packet to the virtual MAC of its network; what of its protocol came out with this mark in it."""
        self.put(station.side, ethernet(self.own_mac(station.side), station.mac, IPV4, packet))
        protocol = packet[9]
        found = self.heard(lambda frame: is_ipv4(frame) and frame[23] == protocol and mark in frame,
                           PATIENCE if patient else SILENCE)
        return found and Packet(found)

    def udp(self, end, place, header=PLAIN, text=b"", patient=True):
        """A datagram with a mark, and this text behind it."""
        mark = os.urandom(6)
        datagram = udp(end.place, place, mark + text)
        return self.ask(end.station, ipv4(end.station.address, place[0], UDP, datagram, header), mark, patient)

    def tcp(self, end, place, flags, text=b"", numbers=(1, 1), patient=True):
        """A segment with a mark among its options."""
        mark = os.urandom(4)
        segment = tcp(end.place, place, flags, text, numbers, marked(mark))
        return self.ask(end.station, ipv4(end.station.address, place[0], TCP, segment), mark, patient)

    def send(self, protocol, end, place, patient=True):
        """A packet that may begin a flow, or answers one."""
        if protocol == UDP:
            return self.udp(end, place, patient=patient)
        if protocol == ICMP:
            return self.ping(end, *place, patient=patient)
        return self.tcp(end, place, SYN, patient=patient)

    def ping(self, end, address, identifier=0, patient=True):
        """An Echo by a host's identifier, which is the port of its end; or a remote station's Reply to an identifier."""
        is_echo = end.station.side == "inside"
        rest = (end.port if is_echo else identifier).to_bytes(2, "big") + SEQUENCE
        return self.icmp(end.station, address, ECHO if is_echo else REPLY, 0, rest, patient=patient)

    def icmp(self, station, target, kind, code, rest, inner=b"", patient=False):
        """A message of ICMP with a mark at its end; what came out with it."""
        mark = os.urandom(6)
        message = icmp(kind, code, rest, inner + mark)
        return self.ask(station, ipv4(station.address, target, ICMP, message), mark, patient)

    def outside(self, port):
        """The outside end of a port; where a pair's isn't known, nobody's."""
        return self.virtual, port or 1


class Scripted(Bench):
    """`natpair sim`: box 0 alone, founded, Active at both sides. Each frame is an event of a script, which is run from its
    beginning."""

    def __init__(self, program, settings_file, lines=()):
        with open(settings_file, "rb") as file:
            super().__init__("sim", tomllib.load(file))
        self.words = (str(program), "sim", str(settings_file), "/dev/stdin")
        self.moment = ACTIVE
        self.lines = list(lines)
        self.frames = []
        if not lines:
            self.begin()

    def begin(self):
        self.lines.append(f"tick 0 {ACTIVE}")
        self.announce()

    def run(self):
        """What each event of the script makes: the words of its lines."""
        script = "".join(line + "\n" for line in self.lines)
        done = subprocess.run(self.words, input=script, capture_output=True, text=True, check=False)
        if done.returncode != 0:
            raise SystemExit(f"demo: sim ends with {done.returncode}: {done.stderr.strip()}")
        events = [[]]
        for line in done.stdout.splitlines():
            events[-1].append(line.split())
            if line.startswith("event "):
                events.append([])
        return events[:-1]

    def do(self, line):
        """One more event: the frames that it sent, each with its side."""
        self.lines.append(line)
        self.frames = frames_of(self.run()[-1:])
        return self.frames

    def put(self, side, frame):
        """What it makes it send is looked at by `heard`."""
        self.lines.append(f"frame {self.box} {side} {frame.hex()}")
        self.frames = None

    def heard(self, test, _):
        if self.frames is None:
            self.do(self.lines.pop())
        return next((frame for _, frame in self.frames if test(frame)), None)

    def frame(self, side, frame):
        """What a frame makes it send, with sides."""
        return self.do(f"frame {self.box} {side} {frame.hex()}")

    def rest(self, centiseconds):
        """So much time goes by. The boxes know neighbours for 20 minutes, so all show again where they are."""
        self.moment += centiseconds
        self.lines.append(f"tick 0 {self.moment}")
        self.announce()


def frames_of(events):
    """The frames that some events made, each with its side."""
    return [(words[2], bytes.fromhex(words[3])) for event in events for words in event if words[0] == "frame"]


class Couple(Scripted):
    """Both boxes of `natpair sim`, each of them Active; what one tells the other comes at once."""

    def __init__(self, program, settings_file):
        self.delivered = [0, 0]
        super().__init__(program, settings_file)

    def begin(self):
        for line in (f"tick 0 {self.moment}", "boot 1 1"):
            self.do(line)
        for _ in range(2):
            self.rest(ACTIVE + 40)

    def do(self, line):
        before = len(self.lines)
        self.lines.append(line)
        while True:
            events = self.run()
            sent = [words for event in events for words in event if words[0] == "link"]
            fresh = [(int(box), int(number)) for _, box, number, _ in sent if int(number) > self.delivered[int(box)]]
            if not fresh:
                self.frames = frames_of(events[before:])
                return self.frames
            for box, number in fresh:
                self.delivered[box] = number
                self.lines.append(f"deliver {1 - box} {number}")

    def rest(self, centiseconds):
        """The boxes' clocks go on alike; each hears the other before the time is over, and then."""
        for moment in (self.moment + centiseconds - HELLO, self.moment + centiseconds):
            for box in (1, 0):
                self.do(f"tick {box} {moment}")
        self.moment += centiseconds
        for self.box in (1, 0):
            self.announce()


class Wired(Bench):
    """The running pair, by two cards at its switches: the demo's host's, and its router's. Each has ports of its own from
    `first` on, for pairs that have to be new."""

    def __init__(self, number, current):
        super().__init__(f"box {number}", current.networks.settings, number)
        self.first = number * 1000
        self.current = current
        self.cards = {}
        places = {"inside": current.networks.host, "outside": current.networks.router}
        for side, space in places.items():
            with space.entered():
                self.cards[side] = card("eth0")
            current.stack.callback(self.cards[side].close)
        self.announce()

    def put(self, side, *frames):
        """Sends frames one behind the other. What was heard before is forgotten."""
        for sock in self.cards.values():
            self.take(sock)
        for frame in frames:
            self.cards[side].send(frame)

    def take(self, sock):
        """The frames that a card has heard and not sent."""
        found = []
        while True:
            try:
                frame, place = sock.recvfrom(65535)
            except BlockingIOError:
                return found
            if place[2] != PACKET_OUTGOING:
                found.append(frame)
                self.answer(sock, frame)

    def answer(self, sock, frame):
        """A station that is asked for says where it is."""
        station = BY_ADDRESS.get(frame[38:42]) if is_arp(frame, 1) else None
        if station and frame[28:32] != ip_bytes(station.address):
            sock.send(arp_reply(station, frame))

    def heard(self, test, seconds):
        found = []

        def is_there():
            for sock in self.cards.values():
                found.extend(frame for frame in self.take(sock) if test(frame))
            return bool(found)

        self.current.loop.until(is_there, seconds)
        return found[0] if found else None

    def listen(self, side, seconds):
        """All that a card has heard by now, and hears within so many seconds."""
        found = []
        self.current.loop.until(lambda: found.extend(self.take(self.cards[side])), seconds)
        return found


def is_error(frame, inner):
    """Whether a frame is an ICMP error about a packet with these bytes in it."""
    return is_ipv4(frame) and frame[23] == ICMP and Packet(frame).payload[0] in (3, 11, 12) and inner in frame
