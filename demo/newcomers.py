"""New flows that are opened one after the other while something is wrong, and when each of them has to be answered."""

import collections
import time
from typing import NamedTuple

from packets import TCP, UDP

# A new flow is opened so often, and is answered at once where that takes no longer than this.
OPENED, AT_ONCE = 0.01, 0.3
NUMBERS = {"tcp": TCP, "udp": UDP}


class Owed(NamedTuple):
    """What is owed from the beginning of a trouble on: after how many seconds a new flow is answered at once; how many of
    those before are answered by then, while the others are at their host's next try; for how long old flows may be silent."""

    ready: float
    kept: int
    silent: float

    def later(self, seconds):
        """What is owed where the trouble took so long to begin."""
        return Owed(self.ready + seconds, self.kept, self.silent and self.silent + seconds)


class Trouble(NamedTuple):
    """When a trouble began, and what is owed in box 0's half of the hosts and in box 1's."""

    begun: float
    owed: tuple


class Wait(NamedTuple):
    """A new flow: how many seconds after the trouble's beginning it was opened and answered, how long it waited, and by
    what right: its first packet is `kept`, it comes `later`, or it has to be sent again."""

    opened: float
    answered: float
    seconds: float
    right: str
    is_late: bool


def end_of(flow):
    """A flow's protocol and endpoint, as they are seen on the wires."""
    return NUMBERS[flow.protocol], flow.end


class Newcomers:
    """A new flow each so often, of which something is owed from the first trouble's beginning to the end of all."""

    def __init__(self, flows, observer):
        self.flows, self.observer = flows, observer
        self.opened, self.answered = {}, {}
        self.troubles, self.over = [], float("inf")
        self.last = 0.0

    def begins(self, moment, near, far=None):
        """A trouble began at a moment, and has begun now: what is owed in box 0's half, and in box 1's if it is another."""
        took = time.monotonic() - moment
        self.troubles.append(Trouble(moment, tuple(owed.later(took) for owed in (near, far or near))))

    def turn(self):
        now = time.monotonic()
        if now - self.last > OPENED:
            self.last = now
            flow = self.flows.open_one(lambda flow: self.answered.setdefault(flow, time.monotonic()))
            self.opened[flow] = now
        return False

    def asked(self, flow):
        """When a flow's host sent its SYNs and its questions."""
        return self.observer.asked.get(end_of(flow), [self.opened[flow]])

    def trouble_of(self, moment):
        """The trouble in which something was begun at a moment, and had time for its answer."""
        ends = [*(each.begun for each in self.troubles[1:]), self.over]
        return next((each for each, end in zip(self.troubles, ends) if each.begun <= moment < end - AT_ONCE), None)

    def waits(self, half):
        """How long each new flow waited. `half` says at which box its host was at a moment."""
        found, kept = [], collections.Counter()
        for flow, opened in self.opened.items():
            trouble = self.trouble_of(opened)
            if trouble:
                owed = trouble.owed[half(flow, opened)]
                ready = trouble.begun + owed.ready
                kept[owed] += 1
                right = "later" if opened >= ready else "kept" if kept[owed] <= owed.kept else "again"
                found.append(self.wait(flow, trouble.begun, ready, right))
        return found

    def wait(self, flow, begun, ready, right):
        opened, answered, asked = self.opened[flow], self.answered.get(flow, float("inf")), self.asked(flow)
        due = next((moment for moment in asked if moment >= ready), asked[-1]) + AT_ONCE
        is_late = answered > (ready if right == "kept" else due)
        return Wait(opened - begun, answered - begun, answered - opened, right, is_late)
