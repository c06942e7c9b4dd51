"""A cable that loses frames, doubles them and changes their order: what comes in at either of two interfaces goes out at the
other one.

    lossy.py INTERFACE INTERFACE SEED

Of a hundred frames one is lost, two come twice, and 25 go on later than those behind them. It goes on until its input ends,
and prints then how many frames there were, and how many of them were lost, came twice and were held back.
"""

import random
import select
import sys
import time

from cards import card

# What becomes of a frame: shares of all frames; and for how many seconds one is held back.
LOST, TWICE, LATE = 0.01, 0.02, 0.25
HELD = 0.004
PACKET_OUTGOING = 4
LONGEST = 2048


class Cable:
    """Both ends, and what is held back: when it goes on, to which end, and what."""

    def __init__(self, names, seed):
        self.ends = [card(name) for name in names]
        self.others = dict(zip(self.ends, reversed(self.ends)))
        self.chance = random.Random(seed)
        self.held = []
        self.counts = dict.fromkeys(("frames", "lost", "twice", "late"), 0)

    def take(self, sock):
        """All that an end has heard, and not sent."""
        while True:
            try:
                frame, place = sock.recvfrom(LONGEST)
            except BlockingIOError:
                return
            if place[2] != PACKET_OUTGOING:
                self.pass_on(self.others[sock], frame)

    def pass_on(self, sock, frame):
        self.counts["frames"] += 1
        if self.chance.random() < LOST:
            self.counts["lost"] += 1
            return
        copies = 1 + (self.chance.random() < TWICE)
        self.counts["twice"] += copies - 1
        if self.chance.random() < LATE:
            self.counts["late"] += 1
            self.held.append((time.monotonic() + HELD, sock, frame, copies))
        else:
            self.send(sock, frame, copies)

    def send(self, sock, frame, copies):
        for _ in range(copies):
            sock.send(frame)

    def go_on(self):
        """Sends what was held back for long enough, and waits for what comes."""
        while self.held and self.held[0][0] <= time.monotonic():
            self.send(*self.held.pop(0)[1:])
        wait = max(self.held[0][0] - time.monotonic(), 0) if self.held else None
        ready, _, _ = select.select([*self.ends, sys.stdin], [], [], wait)
        for sock in ready:
            if sock in self.others:
                self.take(sock)
        return sys.stdin not in ready


def main():
    cable = Cable(sys.argv[1:3], int(sys.argv[3]))
    print("joined", flush=True)
    while cable.go_on():
        pass
    print(*cable.counts.values(), flush=True)


if __name__ == "__main__":
    main()
