"""Datagrams that are put together of their fragments, and packets that are cut into fragments: RFC 791, section 3.2, with
what RFC 5722 does about an overlap, and the bounds of the page of the packet path. A payload is painted byte by byte, and
a datagram is whole where no byte is bare."""

import wire

MORE, DONT, PLACE = 0x2000, 0x4000, 0x1FFF
OF_A_SIDE, OF_A_SOURCE, OF_A_DATAGRAM, LIFE = 64, 16, 64, 300
LONGEST = 65535
KINDS = (wire.ICMP, wire.TCP, wire.UDP)
REFUSED, HELD = "refused", "held"
ETHERNET = 14


class Fragment:
    """A fragment in its frame, without what pads the frame."""

    def __init__(self, frame):
        packet = frame[ETHERNET:]
        size = (packet[0] & 15) * 4
        word = wire.number(packet[6:8])
        self.frame_head, self.head = frame[:ETHERNET], packet[:size]
        self.body = packet[size : wire.number(packet[2:4])]
        self.is_last = word & MORE == 0
        self.start = (word & PLACE) * 8
        self.end = self.start + len(self.body)
        self.source = packet[12:16]
        # Destination MAC, source, destination, protocol, identification. A side has a list of its own.
        self.name = (frame[:6], packet[12:16], packet[16:20], packet[9], packet[4:6])

    def is_broken(self):
        return not self.body or (not self.is_last and len(self.body) % 8 != 0)

    def is_same(self, other):
        return (self.start, self.is_last, self.body) == (other.start, other.is_last, other.body)

    def contradicts(self, other):
        """Whether both carry one byte, or one of them ends behind the end that the other one has as the last."""
        shares = max(self.start, other.start) < min(self.end, other.end)
        return shares or (other.is_last and self.end > other.end) or (self.is_last and other.end > self.end)


class Datagram:
    """The fragments of one name that are there, and since when."""

    def __init__(self, first, now):
        self.name, self.source, self.since = first.name, first.source, now
        self.fragments = []

    def painted(self):
        """The payload, each byte where it is carried; None where a byte is bare, or the last fragment isn't there."""
        ends = [one.end for one in self.fragments if one.is_last]
        if not ends:
            return None
        paint = [None] * ends[0]
        for one in self.fragments:
            for place, octet in enumerate(one.body, one.start):
                paint[place] = octet
        return None if None in paint else bytes(paint)

    def whole(self, payload):
        """The frame that they make; None where its packet would be longer than a packet can be."""
        first = next(one for one in self.fragments if one.start == 0)
        head = bytearray(first.head)
        total = len(head) + len(payload)
        if total > LONGEST:
            return None
        if any(one.head[1] & 3 == 3 for one in self.fragments):
            head[1] |= 3
        head[2:4] = wire.two(total)
        head[6:8] = wire.two(wire.number(head[6:8]) & 0x8000)
        return first.frame_head + summed(head) + payload


def summed(head):
    """A header with its checksum."""
    head[10:12] = b"\0\0"
    head[10:12] = wire.two(wire.complement(bytes(head)))
    return bytes(head)


class Gathering:
    """What is there at one side, in the order in which the datagrams began."""

    def __init__(self):
        self.datagrams = []

    def take(self, frame, now):
        """`refused`, `held`, or the frame that the fragment makes whole."""
        fragment = Fragment(frame)
        there = next((one for one in self.datagrams if one.name == fragment.name), None)
        others = there.fragments if there else []
        if fragment.is_broken() or any(fragment.is_same(other) for other in others):
            return REFUSED
        if any(fragment.contradicts(other) for other in others) or len(others) == OF_A_DATAGRAM:
            self.datagrams.remove(there)
            return REFUSED
        there = there or self.begin(fragment, now)
        there.fragments.append(fragment)
        payload = there.painted()
        if payload is None:
            return HELD
        self.datagrams.remove(there)
        return there.whole(payload) or REFUSED

    def begin(self, fragment, now):
        """A datagram more. Where there are too many, the oldest one of its source goes, or of all."""
        of_source = [one for one in self.datagrams if one.source == fragment.source]
        if len(of_source) >= OF_A_SOURCE:
            self.datagrams.remove(of_source[0])
        elif len(self.datagrams) >= OF_A_SIDE:
            self.datagrams.pop(0)
        self.datagrams.append(Datagram(fragment, now))
        return self.datagrams[-1]

    def drop_old(self, now):
        self.datagrams = [one for one in self.datagrams if now - one.since < LIFE]


def later_options(options):
    """The options of all fragments but the first: what isn't copied is No Operation in each of its bytes."""
    kept, at = bytearray(options), 0
    while at < len(options) and options[at] != 0:
        size = 1
        if options[at] != 1:
            size = options[at + 1] if at + 1 < len(options) else 0
            if size < 2 or at + size > len(options):
                break
            if options[at] < 128:
                kept[at : at + size] = b"\1" * size
        at += size
    return bytes(kept)


def is_too_long(frame, most):
    """Whether a frame's packet has more bytes than a network takes."""
    return frame[12:14] == wire.IPV4 and wire.number(frame[16:18]) > most


def cut(frame, most, identification=None):
    """The frames in which a packet that is too long goes out, by its own identification where none is named."""
    packet = frame[ETHERNET:]
    size = (packet[0] & 15) * 4
    head, body = packet[:size], packet[size : wire.number(packet[2:4])]
    share = (most - size) // 8 * 8
    pieces = []
    for start in range(0, len(body), share):
        part = body[start : start + share]
        piece = bytearray(head)
        if start:
            piece[20:] = later_options(head[20:])
        piece[2:4] = wire.two(size + len(part))
        if identification is not None:
            piece[4:6] = wire.two(identification % 65536)
        word = wire.number(head[6:8]) & 0x8000 | start // 8
        piece[6:8] = wire.two(word | (MORE if start + len(part) < len(body) else 0))
        pieces.append(frame[:ETHERNET] + summed(piece) + part)
    return pieces


def sample(start, stop, is_last=False, source=1, change=0):
    """A fragment of a sample datagram, from one byte of its payload up to another one."""
    head = bytearray(20)
    head[0], head[8], head[9], head[15] = 0x45, 64, wire.UDP, source
    head[2:4] = wire.two(20 + stop - start)
    head[6:8] = wire.two(start // 8 | (0 if is_last else MORE))
    return bytes(12) + wire.IPV4 + summed(head) + bytes((place + change) % 251 for place in range(start, stop))


def outcomes_of(*frames):
    """What each of these comes to, at a side without fragments: refused, held, or the length of the whole packet."""
    gathering = Gathering()
    came = [gathering.take(frame, 0) for frame in frames]
    return [each if isinstance(each, str) else len(each) - ETHERNET for each in came]


def self_test():
    """What contradicts, what is there already, what is broken, too many, too old and too long."""
    three = first, middle, last = sample(0, 16), sample(16, 32), sample(32, 48, True)
    for there, those in ((first, ((8, 24), (0, 24), (0, 8), (8, 48), (0, 48), (8, 16, True))),
                         (last, ((48, 64), (48, 64, True), (24, 40), (32, 40, True))),
                         (middle, ((8, 16, True), (8, 12, True)))):
        others = [each for each in three if each != there]
        for words in those:
            assert outcomes_of(there, sample(*words), *others) == [HELD, REFUSED, HELD, HELD], words
    assert outcomes_of(first, sample(0, 16, change=1), middle, last) == [HELD, REFUSED, HELD, HELD]
    assert outcomes_of(first, first, middle, middle, last, last) == [HELD, REFUSED, HELD, REFUSED, 68, HELD]
    assert outcomes_of(sample(0, 0), sample(0, 15), last, middle, first) == [REFUSED, REFUSED, HELD, HELD, 68]
    many = [sample(8 * place, 8 * place + 8) for place in range(65)]
    assert outcomes_of(*many, sample(520, 528, True))[63:] == [HELD, REFUSED, HELD]
    long = [sample(place, min(place + 1480, 65_515), place + 1480 >= 65_515) for place in range(0, 65_515, 1480)]
    assert outcomes_of(*long)[-1] == LONGEST
    assert outcomes_of(*long[:-1], sample(65_120, 65_516, True))[-1] == REFUSED
    gathering = Gathering()
    assert all(gathering.take(sample(0, 16, source=number), 0) == HELD for number in range(65))
    assert len(gathering.datagrams) == OF_A_SIDE and gathering.datagrams[0].source[-1] == 1
    gathering.drop_old(LIFE - 1)
    assert len(gathering.datagrams) == OF_A_SIDE
    gathering.drop_old(LIFE)
    assert not gathering.datagrams
