"""Asks a host by Echo from some addresses of this one, each by two identifiers, until its input ends.

    pings.py TARGET ADDRESS..

Prints `begun` once each has an answer, or two seconds are over; and at last a line for each: its address, its identifier,
how many Echos it sent from then on, and the moments of those without a Reply, by the clock that never goes back. Of the
first ones, before a box has the other's consent to their pair, all but one may be dropped.
"""

import contextlib
import select
import socket
import sys
import time

from packets import ECHO, ICMP, REPLY, Packet, icmp

# Each asks again after so many seconds. A Reply that hasn't come so long after the last Echo is lost.
AGAIN = 0.02
LATE = 1.0
# Each has an answer within so many seconds, or `begun` is told all the same.
FIRST = 2.0
IDENTIFIERS = (6000, 6001)


class Ping:
    """One run of pings: when it sent each of its Echos, and which of them had a Reply."""

    def __init__(self, target, address, identifier):
        self.target = target
        self.address = address
        self.identifier = identifier
        self.moments, self.heard, self.first = [], set(), 1
        self.sock = socket.socket(socket.AF_INET, socket.SOCK_RAW, ICMP)
        self.sock.setblocking(False)
        self.sock.bind((address, 0))

    def ask(self):
        """The text of an Echo is its own, so that whoever sees it on both sides of the pair knows it again."""
        self.moments.append(time.monotonic())
        number = len(self.moments)
        rest = self.identifier.to_bytes(2, "big") + (number & 0xFFFF).to_bytes(2, "big")
        text = b"ping %s %d %d" % (self.address.encode(), self.identifier, number)
        with contextlib.suppress(OSError):
            self.sock.sendto(icmp(ECHO, 0, rest, text), (self.target, 0))

    def take(self):
        """Notes the Replies that are there. The socket hears whatever else of ICMP comes to its address, too."""
        with contextlib.suppress(BlockingIOError):
            while True:
                message = Packet(bytes(14) + self.sock.recv(2048)).payload
                words = message[8:].split()
                if message[0] == REPLY and words[:3] == [b"ping", self.address.encode(), b"%d" % self.identifier]:
                    self.heard.add(int(words[3]))

    def begin(self):
        """What it sent until now doesn't count."""
        self.first = len(self.moments) + 1

    def line(self):
        sent = list(enumerate(self.moments, 1))[self.first - 1 :]
        lost = [moment for number, moment in sent if number not in self.heard]
        return " ".join(map(str, (self.address, self.identifier, len(sent), *lost)))


def wait(pings, seconds, also=()):
    """Takes Replies for so long, or until something else is there to be read; whether it is."""
    socks = {ping.sock: ping for ping in pings}
    end = time.monotonic() + seconds
    while (left := end - time.monotonic()) > 0:
        found = select.select([*socks, *also], [], [], left)[0]
        for sock in found:
            if sock in socks:
                socks[sock].take()
        if any(each in found for each in also):
            return True
    return False


def main():
    target, *addresses = sys.argv[1:]
    pings = [Ping(target, address, identifier) for address in addresses for identifier in IDENTIFIERS]
    started, is_told, is_over = time.monotonic(), False, False
    while not is_over:
        for ping in pings:
            ping.ask()
        is_over = wait(pings, AGAIN, (sys.stdin,))
        if not is_told and (all(ping.heard for ping in pings) or time.monotonic() - started > FIRST):
            is_told = True
            for ping in pings:
                ping.begin()
            print("begun", flush=True)
    wait(pings, LATE)
    for ping in pings:
        print(ping.line())


if __name__ == "__main__":
    main()
