"""A steady load through the pair, and how much of it is lost.

    load.py echo ADDRESS PORT                    sends each datagram back
    load.py ask ADDRESS PORT RATE SECONDS        so many questions a second by 50 flows; prints how many were asked and
                                                 answered, and the longest time without an answer in milliseconds
    load.py beside ADDRESS PORT RATE SECONDS     the same for so long at most, until SIGTERM; prints `begun` as the time
                                                 begins, and at last how many were asked, and when those were that have no
                                                 answer, by the clock that never goes back

The flows have the same ports each time. Each has its pair before the time begins: first packets aren't counted.
"""

import contextlib
import os
import select
import signal
import socket
import sys
import time

from cards import ROOM, SO_RCVBUFFORCE
from pair import HOSTS

FLOWS, FIRST_PORT = 50, 30_000
# A question: which call of this program it is of, which flow asks it, and its number, which is 0 until the time begins.
# Whoever sees it on both sides of the pair knows it again.
QUESTION = "load %d %d %d"
# An answer that comes later than that after the last question is lost.
LATE = 1.0
# Until each flow has its pair at most so many seconds pass.
PATIENCE = 20


def udp():
    sock = socket.socket(socket.AF_INET, socket.SOCK_DGRAM)
    sock.setsockopt(socket.SOL_SOCKET, SO_RCVBUFFORCE, ROOM)
    return sock


def echo(address, port):
    sock = udp()
    sock.bind((address, int(port)))
    print("serving", flush=True)
    while True:
        text, source = sock.recvfrom(64)
        sock.sendto(text, source)


class Load:
    """The flows, and which of their questions had an answer."""

    def __init__(self, place):
        self.table, self.flows = select.epoll(), []
        for number in range(FLOWS):
            sock = udp()
            sock.bind((HOSTS[number % len(HOSTS)], FIRST_PORT + number))
            sock.connect(place)
            sock.setblocking(False)
            self.table.register(sock.fileno(), select.EPOLLIN)
            self.flows.append(sock)
        self.by_number = {sock.fileno(): sock for sock in self.flows}
        self.call = int.from_bytes(os.urandom(4), "big")
        self.warm_ones, self.seen, self.last, self.gap = set(), set(), 0.0, 0.0
        self.moments, self.is_over = [], False

    def end(self, *_):
        self.is_over = True

    def send(self, sock, number):
        """A question that the kernel doesn't send, since nobody answers for the router's address, has no answer."""
        with contextlib.suppress(OSError):
            sock.send((QUESTION % (self.call, sock.fileno(), number)).encode())

    def note(self, sock, text):
        """An answer to an earlier call counts for nothing."""
        call, _, number = map(int, text.split()[1:])
        if call == self.call and number:
            self.seen.add(number)
        elif call == self.call:
            self.warm_ones.add(sock)

    def take(self, seconds):
        """The answers that are there, or come within so many seconds."""
        for number, _ in self.table.poll(seconds):
            sock = self.by_number[number]
            try:
                while True:
                    self.note(sock, sock.recv(64))
            except BlockingIOError:
                pass
            except OSError:
                continue
            now = time.monotonic()
            self.gap, self.last = max(self.gap, now - self.last), now

    def warm(self):
        """Each flow asks until it has an answer, twice a second."""
        begun, sent = time.monotonic(), 0.0
        while len(self.warm_ones) < FLOWS:
            now = time.monotonic()
            if now - begun > PATIENCE:
                raise SystemExit(f"load: {FLOWS - len(self.warm_ones)} of {FLOWS} flows have no answer")
            if now - sent > 0.5:
                sent = now
                for sock in self.flows:
                    if sock not in self.warm_ones:
                        self.send(sock, 0)
            self.take(0.05)

    def ask(self, rate, seconds):
        """Asks for so long, or until the end is told; when it asked, the first question being number 1."""
        begun = time.monotonic()
        self.last, self.gap = begun, 0.0
        while (now := time.monotonic()) < begun + seconds and not self.is_over:
            while len(self.moments) < (now - begun) * rate:
                self.moments.append(now)
                self.send(self.flows[len(self.moments) % FLOWS], len(self.moments))
            self.take(0.001)
        while len(self.seen) < len(self.moments) and time.monotonic() < now + LATE:
            self.take(0.05)
        return self.moments

    def lost(self):
        """When the questions were asked that have no answer."""
        return [moment for number, moment in enumerate(self.moments, 1) if number not in self.seen]


def main():
    kind, address, port, *rest = sys.argv[1:]
    if kind == "echo":
        echo(address, port)
    load = Load((address, int(port)))
    load.warm()
    if kind == "beside":
        signal.signal(signal.SIGTERM, load.end)
        print("begun", flush=True)
    asked = len(load.ask(int(rest[0]), float(rest[1])))
    if kind == "beside":
        print(asked, *(f"{moment:.3f}" for moment in load.lost()))
    else:
        print(asked, len(load.seen), f"{load.gap * 1000:.0f}")


if __name__ == "__main__":
    main()
