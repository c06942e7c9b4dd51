"""What is owed for vectors.cases: each vector whole, cut at every length, and with every byte changed to every other
value, handed to a gateway as the lines before it have it; a fragment with its whole fellow behind it, or before it."""

import collections
import pathlib
import settings
import told
import wire
from fragments import HELD, LIFE, Gathering, cut
from gateway import Gateway

# Of the worked rows: the side, the first fragment and the last one, and what is sent for them at the other side.
FRAGMENTS = {
    "outward": (
        "inside",
        "00005e00010b02000000000a0800450000240014200040116ec8c0a8010ac6336407138800350018e7ed667261676d656e74",
        "00005e00010b02000000000a08004500001c0014000240118ecec0a8010ac63364077320696e2074776f",
        "0200000000fe02000000020008004500002c001400003f118f71c0000201c63364074e2000350018ad06"
        "667261676d656e747320696e2074776f",
    ),
    "inward": (
        "outside",
        "00005e00010a0200000000fe080045000024001e20003c11726fc6336407c000020100354e200018ad06667261676d656e74",
        "00005e00010a0200000000fe08004500001c001e00023c119275c6336407c00002017320696e2074776f",
        "02000000000a02000000010008004500002c001e00003b1193b6c6336407c0a8010a003513880018e7ed"
        "667261676d656e747320696e2074776f",
    ),
}


class Bench:
    def __init__(self, folder, words):
        self.settings = settings.read(folder / words[0])
        self.start = (int(words[1]), int(words[3]), len(words) == 5)
        self.events, self.box = [], None
        self.fellow, self.is_ahead = None, False

    def begin(self):
        self.box = Gateway(self.settings, *self.start)
        for event in self.events:
            self.box.step(event)
        self.seen = self.seen_bytes()

    def rest(self):
        """The gateway gives up the fragments that it has, and what it got at first it gets again."""
        self.box.step(("tick", self.box.now + LIFE))
        for event in self.events:
            if event[0] != "tick":
                self.box.step(event)
        self.seen = self.seen_bytes()

    def seen_bytes(self):
        """The pairs, and then whether it is synced, and Active inside and outside."""
        marks = [self.box.core.synced] + [side.is_active() for side in self.box.sides.values()]
        return told.pair_bytes(self.box.core.table.pairs()) + (" ".join(map(told.truth, marks)) + "\n").encode()

    def hand_in(self, way, octets):
        box = self.box
        outcome = box.step(("datagram", octets) if way == "link" else ("frame", way, octets))
        self.told.append(told.step_bytes(told.outcome_text(outcome), box.frames, box.datagrams, box.notes))
        if isinstance(outcome, int):
            self.drops += 1
            assert not box.frames and not box.datagrams and not box.notes, (way, octets.hex())
            self.changed += self.seen_bytes() != self.seen
        else:
            self.seen = self.seen_bytes()
        return outcome

    def beside(self, word, octets):
        """What comes with each of the next vector's: `then` it, or before it."""
        self.fellow, self.is_ahead = octets, word == "after"

    def lines_of(self, way, vector, anew):
        self.vector, self.told, self.drops, self.changed = vector, [], 0, 0
        self.begin()
        cuts = [(length, self.tally(way, [vector[:length]])) for length in range(len(vector) + 1)]
        changes = []
        for at in reversed(range(len(vector))):
            if anew <= at:
                self.begin()
            changes.append((at, self.tally(way, changed(vector, at))))
        self.told.append(self.seen_bytes())
        last = f"  dropped {self.drops}, changed behind a drop {self.changed}, told {told.digest(b''.join(self.told))}"
        return [*runs("  cut to ", cuts), *runs("  byte ", changes), last]

    def tally(self, way, many):
        if self.fellow is None:
            return collections.Counter(self.hand_in(way, octets) for octets in many)
        return sum((self.tally_beside(way, octets) for octets in many), collections.Counter())

    def tally_beside(self, way, octets):
        """The outcomes of a fragment and its fellow, in their order, at a gateway that has no other one."""
        self.rest()
        both = (self.fellow, octets) if self.is_ahead else (octets, self.fellow)
        outcomes = [self.hand_in(way, each) for each in both]
        assert ("sent" in outcomes) == self.is_due(way, octets), (way, octets.hex())
        return collections.Counter(outcomes)

    def is_due(self, way, octets):
        """Whether something is sent: with another source MAC, or with a byte changed behind the IPv4 header, where no port
        is 0, UDP's length is from 8 to 24, and at the outside the destination port is 20000."""
        vector = self.vector
        if len(octets) < len(vector) or octets[:6] + octets[12:34] != vector[:6] + vector[12:34]:
            return False
        first = octets if wire.number(vector[20:22]) & 0x1FFF == 0 else self.fellow
        source, target, length = (wire.number(first[at : at + 2]) for at in (34, 36, 38))
        return 0 not in (source, target) and 8 <= length <= 24 and (way == "inside" or target == 20000)


def changed(vector, at):
    """The vector with a byte changed to each other value, rising."""
    for value in range(256):
        if value != vector[at]:
            yield vector[:at] + bytes([value]) + vector[at + 1 :]


ORDER = ["sent", "waiting", "done", *range(1, 30)]


def runs(word, tallies):
    """Runs of places, one behind the other, with the same outcomes."""
    lines, places = [], []
    for place, tally in [*tallies, (None, None)]:
        if places and tally != before:
            kinds = [f"{told.outcome_text(kind)} x{before[kind]}" for kind in ORDER if before[kind]]
            lines.append(f"{word}{min(places)} to {max(places)}: {' '.join(kinds)}")
            places = []
        places.append(place)
        before = tally
    return lines


def owed(folder):
    """The lines of the program for vectors.cases."""
    lines, bench = [], None
    for line in (pathlib.Path(folder) / "vectors.cases").read_text().splitlines():
        if not line or line.startswith("#"):
            continue
        verb, *words = line.split(" ")
        if verb == "gateway":
            bench = Bench(pathlib.Path(folder), words)
        elif verb == "tick":
            bench.events.append(("tick", int(words[0])))
        elif verb == "frame":
            bench.events.append(("frame", words[0], bytes.fromhex(words[1])))
        elif verb == "datagram":
            bench.events.append(("datagram", bytes.fromhex(words[0])))
        else:
            lines += [words[0], *lines_of_vector(bench, *words[1:])]
    return lines


def lines_of_vector(bench, way, vector, word=None, more=None):
    """The lines of a vector; behind it may stand from which byte on a gateway begins anew, or its fellow."""
    bench.beside(word, bytes.fromhex(more) if word in ("then", "after") else None)
    return bench.lines_of(way, bytes.fromhex(vector), int(more) if word == "anew" else len(vector))


def self_test(folder):
    """Fragments of the worked rows, inside and outside: in both orders, what is sent for them; and each of them again, as
    their whole is cut."""
    bench = Bench(pathlib.Path(folder), ["P.toml", "0", "boot", "1", "founded"])
    bench.events.append(("tick", 360))
    bench.begin()
    for name, (side, first, last, sent) in FRAGMENTS.items():
        due = [("outside" if side == "inside" else "inside", bytes.fromhex(sent))]
        for both in ((first, last), (last, first)):
            outcomes = [bench.box.step(("frame", side, bytes.fromhex(each))) for each in both]
            assert (outcomes, bench.box.frames) == (["waiting", "sent"], due), name
        pieces = [bytes.fromhex(each) for each in (first, last)]
        gathering = Gathering()
        assert gathering.take(pieces[1], 0) == HELD, name
        whole = gathering.take(pieces[0], 0)
        assert cut(whole, 36) == pieces and cut(whole, 36, 1)[1][18:20] == b"\0\1", name
