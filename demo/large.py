"""Large datagrams between hosts and the server, each with a text by which it is seen whether it is whole, and of one piece."""

import random
import socket
import time

from cards import ROOM, SO_RCVBUFFORCE
from packets import PLAIN, UDP, cut, ipv4, udp
from pair import SERVER

PORT = 4002
LARGE = b"large"
# The system's number of the protocol of a socket that is given whole packets (IPPROTO_RAW), and how a socket says that its
# datagrams may be cut.
RAW = 255
IP_MTU_DISCOVER, MAY_CUT = 10, 0
# How a socket says that its datagrams have no checksum: who joins fragments of two then sees a text, and not nothing.
SO_NO_CHECK = 11
# An answer comes within so many seconds, or never; each flow has its pair within so many.
LATE, PATIENCE = 1.0, 20


def text_of(who, number, size):
    """A text of so many bytes. Its first line says whose it is, and all behind it is another one in each text."""
    line = b"%s %d %d %d\n" % (LARGE, who, number, size)
    return line + random.Random(f"{who} {number}").randbytes(size - len(line))


def numbers_of(text):
    """Whose text it is, and its number; None where it isn't what was sent."""
    words = text.split(b"\n", 1)[0].split()
    if len(words) != 4 or words[0] != LARGE or not all(word.isdigit() for word in words[1:]):
        return None
    who, number, size = map(int, words[1:])
    return (who, number) if size == len(text) and text == text_of(who, number, size) else None


def datagrams(space, place):
    """A socket of a namespace for datagrams that may be cut and have no checksum."""
    with space.entered():
        sock = socket.socket(socket.AF_INET, socket.SOCK_DGRAM)
    sock.setsockopt(socket.SOL_SOCKET, SO_RCVBUFFORCE, ROOM)
    sock.setsockopt(socket.SOL_SOCKET, SO_NO_CHECK, 1)
    sock.setsockopt(socket.IPPROTO_IP, IP_MTU_DISCOVER, MAY_CUT)
    sock.setblocking(False)
    sock.bind(place)
    return sock


def taken(sock):
    """The datagrams that a socket has, each with where it comes from."""
    while True:
        try:
            yield sock.recvfrom(65535)
        except OSError:
            # Nothing is there, or a network said that something can't be reached.
            return


class Server:
    """Takes large datagrams at the server, and sends each back behind a line that says from which port it came."""

    def __init__(self, current, answers=True):
        self.right, self.wrong, self.answers = [], 0, answers
        self.sock = datagrams(current.networks.server, (SERVER, PORT))
        current.stack.callback(self.sock.close)
        current.loop.watch(self.sock, self.take)

    def take(self):
        for text, source in taken(self.sock):
            numbers = numbers_of(text)
            if numbers is None:
                self.wrong += 1
                continue
            self.right.append(numbers)
            if self.answers:
                self.sock.sendto(b"from %d\n" % source[1] + text, source)


class Flow:
    """One socket of a host, which asks by large datagrams: when it asked each, which were answered, and from which ports the
    server saw it."""

    def __init__(self, current, who, address, size):
        self.who, self.size = who, size
        self.moments, self.heard, self.ports, self.wrong = [], set(), set(), 0
        self.sock = datagrams(current.networks.host, (address, 0))
        self.sock.connect((SERVER, PORT))
        current.stack.callback(self.sock.close)
        current.loop.watch(self.sock, self.take)

    def ask(self):
        self.moments.append(time.monotonic())
        try:
            self.sock.send(text_of(self.who, len(self.moments), self.size))
        except OSError:
            # Nobody answers for the router's address.
            pass

    def take(self):
        for answer, _ in taken(self.sock):
            line, _, text = answer.partition(b"\n")
            numbers = numbers_of(text)
            if numbers is None or numbers[0] != self.who:
                self.wrong += 1
            else:
                self.heard.add(numbers[1])
                self.ports.add(int(line.split()[1]))

    def lost(self, since):
        """When those were asked, from a moment on, that have no answer."""
        return [moment for number, moment in enumerate(self.moments, 1) if moment >= since and number not in self.heard]


def ask_all(current, flows, seconds, again, test=lambda: False):
    """Each flow asks again after so many seconds, for so long or until a test holds."""
    end = time.monotonic() + seconds
    while time.monotonic() < end and not test():
        for flow in flows:
            if not flow.moments or time.monotonic() - flow.moments[-1] > again:
                flow.ask()
        current.loop.turn(0.002)


def warm(current, flows):
    """Each flow asks until it has an answer: the first packet of a pair is kept, and others may be dropped meanwhile. Gives the
    moment from which on none may be."""
    ask_all(current, flows, PATIENCE, LATE, lambda: all(flow.heard for flow in flows))
    current.loop.until(lambda: False, LATE)
    return time.monotonic()


class Raw:
    """A host's socket for packets that it makes itself: their source, their identification, and how they are cut."""

    def __init__(self, current, space):
        with space.entered():
            self.sock = socket.socket(socket.AF_INET, socket.SOCK_RAW, RAW)
        current.stack.callback(self.sock.close)

    def send(self, *packets):
        for packet in packets:
            self.sock.sendto(packet, (SERVER, 0))


def parts_of(source, text, identification):
    """A datagram of this text to the server, in fragments and without a checksum."""
    datagram = udp(source, (SERVER, PORT), text)
    header = PLAIN._replace(identification=identification)
    return cut(ipv4(source[0], SERVER, UDP, datagram[:6] + bytes(2) + datagram[8:], header))
