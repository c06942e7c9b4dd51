"""Probes that are made at the running pair, at each box: what becomes of packets."""

import os

from benches import HOSTS, REMOTES, SILENCE, End, is_error
from packets import (ACK, DONT_FRAGMENT, ECHO, FIN, ICMP, IPV4, MORE_FRAGMENTS, PLAIN, PSH, REPLY, RST, SYN, TCP, UDP,
                     Packet, ethernet, ipv4, is_ipv4, tcp, udp)

# Both protocols, and the standard that speaks of each.
KINDS = ((UDP, "4787"), (TCP, "5382"))
# Three ends of two remote stations.
PLACES = ((REMOTES[0].address, 53), (REMOTES[0].address, 54), (REMOTES[1].address, 53))
# A port of a range that no probe's pair gets: the highest.
FREE = 39_999
# So many pairs more are a load.
LOAD = 200
# An unasked SYN has to stay without an answer for so many seconds.
QUIET = 6.0
LONGEST = 1500


def port_of(packet):
    return packet.source_port if packet else None


def told(values):
    return ", ".join("nothing" if value is None else str(value) for value in values)


def yes(found):
    return "comes out" if found else "nothing"


def ports_of(bench, protocol, end):
    """By which outside ports three remote ends see an end."""
    return [port_of(bench.send(protocol, end, place)) for place in PLACES]


def mapping(bench, report):
    for protocol, standard in KINDS:
        seen = ports_of(bench, protocol, End(HOSTS[0], 5000))
        report.note(bench, f"{standard} REQ-1", "one outside port towards three remote ends", told(seen),
                    None not in seen and len(set(seen)) == 1)
        kept = report.kept.setdefault(protocol, seen[0])
        if bench.name != "box 0":
            report.note(bench, f"{standard} REQ-1", f"the port of before the kill, {kept}", told(seen[:1]),
                        seen[0] == kept)


def apart(bench, report):
    """Five ends of three hosts, one of them at a port below 1024."""
    ends = [End(HOSTS[0], 5000), End(HOSTS[0], 5001), End(HOSTS[1], 5000), End(HOSTS[2], 5000), End(HOSTS[1], 700)]
    for protocol, requirement in ((UDP, "4787 REQ-3 a"), (TCP, "5382 REQ-7")):
        seen = [port_of(bench.send(protocol, end, PLACES[0])) for end in ends]
        report.note(bench, requirement, "five inside ends, five outside ports", told(seen),
                    None not in seen and len(set(seen)) == 5)
        if protocol == UDP:
            report.note(bench, "4787 REQ-3 b", "ports from 1024 on stay there", told(seen[:4]),
                        None not in seen[:4] and min(seen[:4]) >= 1024)
            report.note(bench, "4787 REQ-3 c", "port 700 stays below 1024", told(seen[4:]), (seen[4] or 1024) < 1024)


def parity(bench, report):
    numbers = tuple(bench.first + number for number in (6000, 6001, 6003, 6002))
    seen = [port_of(bench.send(UDP, End(HOSTS[2], number), PLACES[0])) for number in numbers]
    even = [None not in seen and port % 2 == number % 2 for port, number in zip(seen, numbers)]
    report.note(bench, "4787 REQ-4", f"even or odd as {told(numbers)}", told(seen), all(even))


def drawn_ports(bench, report):
    """With `choice = "drawn"`: whether a stranger who has seen a port knows the next one of its parity, whether ports are even
    or odd as the hosts' own, and whether they are others than at a bench with another key."""
    numbers = range(bench.first + 6010, bench.first + 6018)
    seen = [port_of(bench.send(UDP, End(HOSTS[3], number), PLACES[0])) for number in numbers]
    found, text = None not in seen, told(seen)
    steps = [later - port for port, later in zip(seen, seen[2:])] if found else [2]
    for requirement in ("7857 9", "6056 4 a"):
        report.note(bench, requirement, 'choice = "drawn": of eight new pairs none has the next port of its parity', text,
                    2 not in steps and len(set(steps)) == len(steps))
    alike = found and all(port % 2 == number % 2 for port, number in zip(seen, numbers))
    for requirement in ("4787 REQ-4", "6056 4 b"):
        report.note(bench, requirement, f'choice = "drawn": even or odd as {numbers[0]} to {numbers[-1]}', text, alike)
    name, first, others = report.kept.setdefault("drawn", (bench.name, bench.first, seen))
    if name != bench.name and first == bench.first:
        report.note(bench, "6056 3.4", f'choice = "drawn": others than at {name}, whose key is another', text,
                    found and seen != others)


def protocols(bench, report):
    """A port of a UDP pair isn't open to TCP for that pair's end."""
    end = End(HOSTS[3], 6100)
    port = port_of(bench.send(UDP, end, PLACES[0]))
    found = bench.tcp(End(REMOTES[0], 53), bench.outside(port), SYN, patient=False)
    to = found and (found.target, found.target_port)
    report.note(bench, "7857 6", "TCP to a UDP pair's port doesn't reach its end", yes(to == end.place), to != end.place)


def let_in(bench, protocol, end):
    """Who reaches an end that has spoken to one remote end alone: that one, another port of it, another station."""
    port = port_of(bench.send(protocol, end, PLACES[0]))
    strangers = (End(REMOTES[0], 53), End(REMOTES[0], 99), End(REMOTES[1], 7))
    found = [bench.send(protocol, stranger, bench.outside(port)) for stranger in strangers]
    return sum(bool(each) and (each.target, each.target_port) == end.place for each in found)


def filtering(bench, report):
    for (protocol, standard), requirement in zip(KINDS, ("REQ-8", "REQ-3")):
        count = let_in(bench, protocol, End(HOSTS[1], 5100))
        report.note(bench, f"{standard} {requirement}", "in from the remote end, its other port, another station",
                    f"{count} of 3", count == 3)
        found = bench.send(protocol, End(REMOTES[1], 7), bench.outside(FREE), patient=False)
        report.note(bench, f"{standard} {requirement}", "nobody in at a port without a pair", yes(found), not found)


def across(bench, protocol):
    """Two inside ends speak by the outside address: what each sees of the other, and what it has to see."""
    ends = End(HOSTS[0], 5200), End(HOSTS[1], 5300)
    own = [bench.outside(port_of(bench.send(protocol, end, PLACES[0]))) for end in ends]
    seen = []
    for end, other in ((0, 1), (1, 0)):
        found = bench.send(protocol, ends[end], own[other])
        arrived = found and (found.target, found.target_port) == ends[other].place
        seen.append((found.source, found.source_port) if arrived else None)
    return seen, own


def hairpin(bench, report):
    for (protocol, standard), requirement in zip(KINDS, ("REQ-9", "REQ-8")):
        seen, own = across(bench, protocol)
        told_ends = told([each and f"{each[0]}:{each[1]}" for each in seen])
        report.note(bench, f"{standard} {requirement}", "two hosts meet, each seen by its outside end", told_ends,
                    seen == own)


def behaviour(bench):
    """Mapping, filtering and hairpin in short."""
    ports = len(set(ports_of(bench, UDP, End(HOSTS[0], 5000))))
    seen, own = across(bench, UDP)
    meet = "hosts meet" if seen == own else "hosts don't meet"
    return f"{ports} port, {let_in(bench, UDP, End(HOSTS[1], 5100))} of 3 let in, {meet}"


def steady(bench, report):
    """The same with many pairs more, and as it was at the other box."""
    before = report.kept.setdefault("behaviour", behaviour(bench))
    for number in range(LOAD):
        bench.send(UDP, End(HOSTS[2], 10_000 + bench.first + number), PLACES[0])
    seen = behaviour(bench)
    report.note(bench, "4787 REQ-11", f"with {LOAD} pairs more: {before}", seen, seen == before)


SIMULTANEOUS = ((0, SYN), (1, SYN), (0, SYN | ACK), (1, SYN | ACK), (0, ACK), (1, ACK))
ORDINARY = ((0, SYN), (1, SYN | ACK), (0, ACK), (0, ACK | PSH), (1, ACK | PSH), (1, FIN | ACK), (0, ACK),
            (0, FIN | ACK), (1, ACK), (0, RST))


class Half:
    """One end of a connection: the number of its first byte, how many it has sent, and whether it has begun and ended."""

    def __init__(self, first):
        self.first = first
        self.next = first + 1

    def numbers(self, flags, other):
        """The numbers of its next segment, of one byte where it has data."""
        own = self.first if flags & SYN else self.next
        self.next += bool(flags & PSH) + bool(flags & FIN)
        return own, other.next


def segments(bench, end, remote, course):
    """How many segments of a course come through: of each, whether the remote end sends it, and its flags."""
    port, passed = None, 0
    halves = Half(1000), Half(5000)
    for is_remote, flags in course:
        numbers = halves[is_remote].numbers(flags, halves[1 - is_remote])
        text = b"x" if flags & PSH else b""
        if is_remote:
            found = bench.tcp(remote, bench.outside(port), flags, text, numbers)
        else:
            found = bench.tcp(end, remote.place, flags, text, numbers)
            port = port_of(found) or port
        passed += bool(found)
    return passed


def connections(bench, report):
    for what, number, course in (("both ends open at once", 5400, SIMULTANEOUS),
                                 ("opened, used, closed, reset", 5402, ORDINARY)):
        passed = segments(bench, End(HOSTS[2], bench.first + number), End(REMOTES[1], 80), course)
        report.note(bench, "5382 REQ-2", f"each segment comes through: {what}", f"{passed} of {len(course)}",
                    passed == len(course))


def contents(bench, report):
    """What looks like an address stays: no protocol is meddled with."""
    address = HOSTS[0].address
    asked = b"Contact: <sip:a@" + address.encode() + b":5060>\r\n"
    command = b"PORT " + address.replace(".", ",").encode() + b",19,136\r\n"
    for protocol, requirement, text, numbers in ((UDP, "4787 REQ-10", asked, (53, 69, 1900, 5060)),
                                                 (TCP, "5382 REQ-6", command, (21, 554, 1723, 6667))):
        whole = 0
        for number in numbers:
            place, end = (REMOTES[2].address, number), End(HOSTS[0], 5450)
            found = bench.udp(end, place, text=text) if protocol == UDP else bench.tcp(end, place, ACK | PSH, text)
            whole += bool(found) and found.data.endswith(text)
        report.note(bench, requirement, f"an address in the text stays, to ports {told(numbers)}",
                    f"{whole} of {len(numbers)}", whole == len(numbers))


def arrived(found, kind, station):
    """Whether a message of this type came to a station."""
    return bool(found) and found.payload[0] == kind and found.target == station.address


def packet_bytes(packet):
    return packet.frame[14 : 14 + packet.length] if packet else b""


def own_messages(bench, report):
    """What the box says itself: to an Echo at its addresses, and of a packet whose TTL is over."""
    for station, address in ((HOSTS[0], bench.settings["inside"]["virtual"]), (REMOTES[0], bench.virtual)):
        found = bench.icmp(station, address, ECHO, 0, b"\0\7\0\1")
        answered = arrived(found, REPLY, station) and found.source == address
        report.note(bench, "5508 REQ-10 b", f"{address} answers an Echo", yes(answered), answered)
    packet = ipv4(HOSTS[0].address, REMOTES[0].address, UDP, udp((HOSTS[0].address, 5000), PLACES[0], b""),
                  PLAIN._replace(ttl=1))
    bench.put("inside", ethernet(bench.own_mac("inside"), HOSTS[0].mac, IPV4, packet))
    found = bench.heard(lambda frame: is_error(frame, packet[12:28]), SILENCE)
    report.note(bench, "5508 REQ-10 a", "a packet with TTL 1 is answered by an error", yes(found), bool(found))


def unasked(bench, report):
    """A SYN that nobody asked for. What comes to its sender in six seconds, and then."""
    stranger, place = End(REMOTES[2], 80), bench.outside(FREE)
    packet = ipv4(stranger.station.address, place[0], TCP, tcp(stranger.place, place, SYN, b""))

    def is_answer(frame):
        return is_ipv4(frame) and Packet(frame).target == stranger.station.address

    bench.put("outside", ethernet(bench.own_mac("outside"), stranger.station.mac, IPV4, packet))
    soon = bench.heard(is_answer, QUIET)
    report.note(bench, "5382 REQ-4 a", "no answer to an unasked SYN in 6 s", yes(soon), not soon)
    late = bench.heard(lambda frame: is_answer(frame) and frame[23] == ICMP, 1.0)
    report.note(bench, "5382 REQ-4 b", "an ICMP error after that", yes(late), bool(late))


def pieces(end, place, header=PLAIN._replace(identification=77)):
    """A datagram cut in two, each with a mark of its own."""
    marks = os.urandom(16), os.urandom(16)
    whole = udp(end.place, place, marks[0] + marks[1])
    cut = ((whole[:24], header.fragment | MORE_FRAGMENTS), (whole[24:], header.fragment | 3))
    return [(ipv4(end.station.address, place[0], UDP, part, header._replace(fragment=fragment)), mark)
            for (part, fragment), mark in zip(cut, marks)]


def both_come(bench, station, parts):
    """How many of some packets come out, in the packets that they were or in one."""
    mac, seen = bench.own_mac(station.side), set()

    def are_there(frame):
        seen.update(mark for _, mark in parts if is_ipv4(frame) and mark in frame)
        return len(seen) == len(parts)

    bench.put(station.side, *(ethernet(mac, station.mac, IPV4, packet) for packet, _ in parts))
    bench.heard(are_there, SILENCE)
    return len(seen)


def fragments(bench, report):
    end, remote = End(HOSTS[0], 5000), End(REMOTES[0], 53)
    port = port_of(bench.send(UDP, end, remote.place))
    for name, sender, place in (("out", end, remote.place), ("in", remote, bench.outside(port))):
        for way, step in (("in order", 1), ("the later one first", -1)):
            count = both_come(bench, sender.station, pieces(sender, place)[::step])
            report.note(bench, "4787 REQ-14", f"two fragments go {name}, {way}", f"{count} of 2", count == 2)


def large(bench, report):
    """As much as a network of 1,500 bytes takes, not to be cut."""
    text = bytes(LONGEST - 28 - 6)
    found = bench.udp(End(HOSTS[0], 5000), PLACES[0], PLAIN._replace(fragment=DONT_FRAGMENT), text)
    seen = (found.length, found.fragment == DONT_FRAGMENT) if found else (0, False)
    report.note(bench, "4787 REQ-13 a", f"{LONGEST} bytes, not to be cut, go out so",
                f"{seen[0]} bytes{', not to be cut' if seen[1] else ''}", seen == (LONGEST, True))


def identifications(bench):
    """Two hosts' packets to one remote end, which may be cut behind the pair, with one number: as what they leave."""
    header = PLAIN._replace(identification=0x1234)
    found = [bench.udp(End(host, 5000), PLACES[0], header) for host in HOSTS[:2]]
    return [each and f"{each.identification:04x}" for each in found]


AT_A_BOX = (mapping, apart, parity, protocols, filtering, hairpin, steady, connections, contents, own_messages,
            unasked, fragments, large)
