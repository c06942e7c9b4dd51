"""Probes of what a box says itself: its answers to Echo, and its errors about packets that it drops."""

import os

from benches import HOSTS, REMOTES, SEQUENCE, SILENCE, PATIENCE, End, is_error
from packets import (DONT_FRAGMENT, ECHO, EVERYBODY, ICMP, IPV4, MORE_FRAGMENTS, PLAIN, REPLY, SYN, TCP, UDP, Packet,
                     ethernet, icmp, is_ipv4, ipv4, tcp, udp, wholes)
from pair import SIDES
from rfc_errors import TTL_OVER
from rfc_packets import FREE, LONGEST, PLACES, yes

ECHOS, TIMES, UNREACHABLE = "5508 REQ-10 b", "5508 REQ-10 a", "5508 REQ-10 c"
# The identifier and sequence number of a station's Echo to a box.
ASKED = b"\0\7" + SEQUENCE
RECORD_ROUTE = b"\x07\x07\x04\0\0\0\0\0"
# An own error has so many bytes at most, and in it so many of the packet that it is about.
LONGEST_ERROR, LONGEST_QUOTE = 576, 548
# So many packets whose TTL is over come at once. They may lie in two seconds of the box, in each of which it says so of ten.
BURST, MOST = 40, 20
# What the narrow settings' sides take.
WIDTH = 1400
# What a packet carries of which parts may come out: no two of its bytes that lie near each other are the same.
TEXT = bytes(range(251))
# An address of the outside network that nobody has.
NOBODY = "192.0.2.200"


def station_at(side):
    return HOSTS[0] if side == "inside" else REMOTES[0]


def broadcast(bench, side):
    """The broadcast address of a side's network, which has a prefix of 24."""
    return bench.settings[side]["virtual"].rsplit(".", 1)[0] + ".255"


def addresses(bench, side):
    """The addresses at which the Active box answers on a side, each with the MAC to which such an Echo goes."""
    own, mac = bench.box_place(side)
    found = [(bench.settings[side]["virtual"], bench.own_mac(side)), (own, mac)]
    return found + [(bench.virtual, bench.own_mac(side))] if side == "inside" else found


def ask(bench, station, address, mac, header=PLAIN, data=b"", patient=True):
    """A station's Echo to an address by a MAC: its data, and what of ICMP came out with these."""
    text = os.urandom(6) + data
    packet = ipv4(station.address, address, ICMP, icmp(ECHO, 0, ASKED, text), header)
    bench.put(station.side, ethernet(mac, station.mac, IPV4, packet))
    found = bench.heard(lambda frame: is_ipv4(frame) and frame[23] == ICMP and text in frame,
                        PATIENCE if patient else SILENCE)
    return text, found and Packet(found)


def is_answer(found, station, address):
    """Whether it is a Reply to a station, from the address that it asked."""
    return (bool(found) and found.payload[0] == REPLY and (found.source, found.target) == (address, station.address)
            and found.to_mac == station.mac)


def answers(bench, report):
    for side in SIDES:
        station, asked = station_at(side), addresses(bench, side)
        found = [(address, *ask(bench, station, address, mac)) for address, mac in asked]
        count = sum(is_answer(reply, station, address) for address, _, reply in found)
        names = ", ".join(address for address, _ in asked)
        report.note(bench, ECHOS, f"{side}: an Echo to {names} is answered from there", f"{count} of {len(asked)}",
                    count == len(asked))
        same = sum(bool(reply) and reply.payload == icmp(REPLY, 0, ASKED, text) for _, text, reply in found)
        report.note(bench, "792 Echo", f"{side}: identifier, sequence number and data come back, with a right checksum",
                    f"{same} of {len(asked)}", same == len(asked))
        atomic = sum(bool(reply) and (reply.identification, reply.fragment) == (0, DONT_FRAGMENT) for *_, reply in found)
        report.note(bench, "6864 4.1", f"{side}: a Reply isn't to be cut, and has the identification 0",
                    f"{atomic} of {len(asked)}", atomic == len(asked))


def long_answers(bench, report):
    """As much data as an Echo of one packet has room for; and a TTL with which no router sends a packet on."""
    for side in SIDES:
        station, (address, mac) = station_at(side), addresses(bench, side)[0]
        size = LONGEST - 28
        _, found = ask(bench, station, address, mac, data=bytes(size - 6))
        report.note(bench, "1122 3.2.2.6 a", f"{side}: an Echo of {size:,} bytes of data is answered whole",
                    f"{len(found.payload) - 8:,} bytes" if found else "nothing", bool(found) and len(found.payload) == size + 8)
        count = sum(is_answer(ask(bench, station, address, mac, PLAIN._replace(ttl=ttl))[1], station, address)
                    for ttl in (0, 1))
        report.note(bench, "1122 3.2.1.7", f"{side}: an Echo to the box with TTL 0, and with TTL 1, is answered",
                    f"{count} of 2", count == 2)


def fields(bench, report):
    """What a Reply doesn't take over from its Echo: the type of service, and options."""
    station, (address, mac) = HOSTS[0], addresses(bench, "inside")[0]
    _, found = ask(bench, station, address, mac, PLAIN._replace(service=0x10))
    report.note(bench, "1812 4.3.2.5 b", "a Reply has its Echo's type of service, 10",
                f"{found.service:02x}" if found else "nothing", bool(found) and found.service == 0x10)
    _, found = ask(bench, station, address, mac, PLAIN._replace(options=RECORD_ROUTE))
    report.note(bench, "1122 3.2.2.6 d", "a route that an Echo recorded comes back",
                "without it" if found and not found.options else yes(found), bool(found) and bool(found.options))


def to_everybody(bench, report):
    """Echos by the broadcast MAC, and to addresses of more than one host."""
    for side in SIDES:
        station, virtual = station_at(side), bench.settings[side]["virtual"]
        cases = ((virtual, EVERYBODY), (broadcast(bench, side), EVERYBODY), (broadcast(bench, side), bench.own_mac(side)),
                 ("224.0.0.1", bench.own_mac(side)))
        count = sum(bool(ask(bench, station, address, mac, patient=False)[1]) for address, mac in cases)
        report.note(bench, "1122 3.2.2.6 c", f"{side}: an Echo to everybody isn't answered", f"{count} of {len(cases)}",
                    count == 0)


def told_of(bench, station, packet, mac=None, patient=True):
    """A station's packet, by the virtual MAC where none is named; the box's error about it."""
    bench.put(station.side, ethernet(mac or bench.own_mac(station.side), station.mac, IPV4, packet))
    found = bench.heard(lambda frame: is_error(frame, packet[12:28]) and Packet(frame).target == station.address,
                        PATIENCE if patient else SILENCE)
    return found and Packet(found)


def dying(bench, side, size=10):
    """A datagram with TTL 1: of a host outward, or of a remote station to the outside address."""
    station = station_at(side)
    place = PLACES[0] if side == "inside" else bench.outside(FREE)
    return ipv4(station.address, place[0], UDP, udp((station.address, 5000), place, bytes(size)), PLAIN._replace(ttl=1))


def is_own(found, bench, side, said, packet):
    """Whether an error is the box's own: what it says, of what, and from which address and to whom."""
    return (bool(found) and (found.source, found.target) == (bench.box_place(side)[0], station_at(side).address)
            and found.payload[:2] == bytes((said.kind, said.code)) and found.payload[4:8] == said.rest
            and found.payload[8:] == packet[:LONGEST_QUOTE])


def ends_here(bench, report):
    for side in SIDES:
        station, packet = station_at(side), dying(bench, side)
        found = told_of(bench, station, packet)
        report.note(bench, "1812 5.3.1", f"{side}: of a packet with TTL 1 its sender is told by Time Exceeded",
                    yes(found), bool(found) and found.payload[:2] == b"\x0b\0")
        whole = is_own(found, bench, side, TTL_OVER, packet)
        report.note(bench, TIMES, f"{side}: the box's own error about it", "comes out so" if whole else yes(found), whole)
        for name, quoted in (("792 Time Exceeded", "the packet's header and 8 bytes more are in it"),
                             ("1122 3.2.2 a", "they are as they came")):
            same = bool(found) and found.payload[8:36] == packet[:28]
            report.note(bench, name, f"{side}: {quoted}", "so" if same else yes(found), same)
        report.note(bench, "1812 4.3.2.4", f"{side}: it comes from the box's own address there",
                    found.source if found else "nothing", bool(found) and found.source == bench.box_place(side)[0])
        report.note(bench, "1812 4.3.2.5 a", f"{side}: its precedence is 6 or 7",
                    str(found.service >> 5) if found else "nothing", bool(found) and found.service >> 5 in (6, 7))
        packet = dying(bench, side, LONGEST - 28)
        found = told_of(bench, station, packet)
        long = bool(found) and found.length == LONGEST_ERROR and found.payload[8:] == packet[:LONGEST_QUOTE]
        report.note(bench, "1812 4.3.2.3", f"{side}: about a packet of {LONGEST:,} bytes it has {LONGEST_ERROR}",
                    f"{found.length} bytes" if found else "nothing", long)


def is_silent_about(bench, report):
    """Packets with TTL 1 of which no error may be sent."""
    host, dead = HOSTS[0], PLAIN._replace(ttl=1)
    place, wide = PLACES[0], broadcast(bench, "inside")
    about = ipv4(place[0], host.address, UDP, udp(place, (host.address, 5000), b"heard"))
    martian = ipv4("127.0.0.1", place[0], UDP, udp(("127.0.0.1", 5000), place, b"loop"), dead)
    cases = (("an ICMP error", ipv4(host.address, place[0], ICMP, icmp(3, 3, bytes(4), about), dead), None),
             ("to the broadcast address", ipv4(host.address, wide, UDP, udp((host.address, 5000), (wide, 9), b""), dead), None),
             ("to many hosts", ipv4(host.address, "224.0.0.9", UDP, udp((host.address, 5000), ("224.0.0.9", 9), b""), dead), None),
             ("by the broadcast MAC", dying(bench, "inside"), EVERYBODY),
             ("a later fragment", ipv4(host.address, place[0], UDP, bytes(24), dead._replace(fragment=MORE_FRAGMENTS | 3)), None),
             ("from 127.0.0.1", martian, None))
    told = [name for name, packet, mac in cases if any_error_about(bench, host, packet, mac)]
    for name in ("1122 3.2.2 b", "1812 4.3.2.7"):
        report.note(bench, name, f"no error about: {', '.join(name for name, *_ in cases)}", ", ".join(told) or "none", not told)


def any_error_about(bench, station, packet, mac):
    """Whether any error about a packet comes out, to whomever."""
    bench.put(station.side, ethernet(mac or bench.own_mac(station.side), station.mac, IPV4, packet))
    return bench.heard(lambda frame: is_error(frame, packet[12:28]), SILENCE)


def closed(bench, report):
    """A datagram to the box itself, for which no program waits there."""
    address, mac = bench.box_place("inside")
    packet = ipv4(HOSTS[0].address, address, UDP, udp((HOSTS[0].address, 5000), (address, 9), b"anybody"))
    found = told_of(bench, HOSTS[0], packet, mac, patient=False)
    report.note(bench, "1122 3.2.2.1", "a closed UDP port of the box is told", yes(found), bool(found))


def seldom(bench, report):
    """Packets whose TTL is over, faster than a box says so. Then it has a second for what comes next."""
    for side in SIDES:
        station = station_at(side)
        bench.put(side, *(ethernet(bench.own_mac(side), station.mac, IPV4, dying(bench, side, size)) for size in range(BURST)))
        found = sum(is_error(frame, ip_of(station)) for frame in bench.listen(side, SILENCE))
        report.note(bench, "1812 4.3.2.8 a", f"{side}: of {BURST} packets with TTL 1 at once at most {MOST} are told",
                    str(found), 0 < found <= MOST)
    bench.listen("inside", 1.0)


def ip_of(station):
    return bytes(map(int, station.address.split(".")))


AT_ITSELF = (answers, long_answers, fields, to_everybody, ends_here, is_silent_about, closed, seldom)


def of_size(source, place, protocol, size, fragment):
    """A packet of so many bytes, of one of the protocols that have pairs."""
    header, text = PLAIN._replace(fragment=fragment), TEXT * (size // len(TEXT) + 1)
    inner = {UDP: lambda: udp(source, place, text[: size - 28]), TCP: lambda: tcp(source, place, SYN, text[: size - 40]),
             ICMP: lambda: icmp(ECHO, 0, source[1].to_bytes(2, "big") + SEQUENCE, text[: size - 28])}[protocol]()
    return ipv4(source[0], place[0], protocol, inner, header)


def sent_on(bench, station, packet, side):
    """The packets that a station's one comes out as at a side."""
    bench.put(station.side, ethernet(bench.own_mac(station.side), station.mac, IPV4, packet))
    return [frame for where, frame in sent_by(bench) if where == side and is_ipv4(frame)]


def is_cut(found, packet, most):
    """Whether what came out is one packet's, in pieces of at most so many bytes, with all that stands behind its ports and
    checksum."""
    pieces, made = [Packet(frame) for frame in found], wholes(found)
    return (len(pieces) > 1 and max(piece.length for piece in pieces) <= most
            and not any(piece.fragment & DONT_FRAGMENT for piece in pieces)
            and [each.length for each in made] == [len(packet)] and made[0].payload[24:] == packet[44:])


def note_cut(bench, report, what, found, packet):
    right = is_cut(found, packet, WIDTH)
    seen = f"{len(found)} fragments" if right else "comes out otherwise" if found else "nothing"
    report.note(bench, "4787 REQ-13 c", f"{what} of {len(packet):,} bytes, which may be cut", seen, right)


def sent_by(bench):
    """What the last frame made the box of `sim` send, with sides."""
    bench.heard(lambda _: False, 0)
    return bench.frames


def too_long_out(narrow, report):
    """Packets of a host that are longer than the box's outside takes; each protocol in a run of its own."""
    source, said = (HOSTS[0].address, 5000), WIDTH.to_bytes(4, "big")
    for protocol, name in ((UDP, "UDP"), (TCP, "TCP"), (ICMP, "an Echo")):
        bench = narrow()
        packet = of_size(source, PLACES[0], protocol, WIDTH + 1, DONT_FRAGMENT)
        found = told_of(bench, HOSTS[0], packet)
        told = bool(found) and found.payload[:2] == b"\3\4"
        report.note(bench, "4787 REQ-13 b", f"{name} of {WIDTH + 1:,} bytes, not to be cut: its sender is told", yes(found), told)
        most = told and found.payload[4:8] == said
        report.note(bench, "1191 4", f"{name}: the error has the side's MTU, {WIDTH:,}",
                    f"{int.from_bytes(found.payload[4:8], 'big'):,}" if found else "nothing", most)
        packet = of_size(source, PLACES[0], protocol, LONGEST, 0)
        note_cut(bench, report, f"outward {name}", sent_on(bench, HOSTS[0], packet, "outside"), packet)
        fits = sent_on(bench, HOSTS[0], of_size(source, PLACES[0], protocol, WIDTH, DONT_FRAGMENT), "outside")
        report.note(bench, "4787 REQ-13 a", f"{name} of {WIDTH:,} bytes, not to be cut, goes out", yes(fits), len(fits) == 1)


def too_long_in(narrow, report):
    """The same of a packet to a pair, which the inside doesn't take."""
    bench = narrow()
    sent = bench.udp(End(HOSTS[0], 5000), PLACES[0])
    place = bench.outside(sent.source_port if sent else None)
    packet = of_size(PLACES[0], place, UDP, WIDTH + 1, DONT_FRAGMENT)
    found = told_of(bench, REMOTES[0], packet)
    most = bool(found) and found.payload[:2] == b"\3\4" and found.payload[4:8] == WIDTH.to_bytes(4, "big")
    report.note(bench, "1191 4", f"inward {WIDTH + 1:,} bytes, not to be cut: the error has the inside's MTU", yes(found), most)
    same = bool(found) and found.payload[8:] == packet[:LONGEST_QUOTE]
    report.note(bench, "1122 3.2.2 a", "inward: the packet in the error is as it came", "so" if same else yes(found), same)
    other = HOSTS[1].address, 5001
    for what, station, end in (("inward UDP", REMOTES[0], PLACES[0]), ("UDP between two hosts", HOSTS[1], other)):
        packet = of_size(end, place, UDP, LONGEST, 0)
        note_cut(bench, report, what, sent_on(bench, station, packet, "inside"), packet)


def nobody_there(fresh, report):
    """A packet to a next hop that answers no ARP request, until it isn't kept any longer."""
    bench = fresh()
    packet = ipv4(HOSTS[0].address, NOBODY, UDP, udp((HOSTS[0].address, 5000), (NOBODY, 53), b"anybody"))
    bench.put("inside", ethernet(bench.own_mac("inside"), HOSTS[0].mac, IPV4, packet))
    told = [frame for _, frame in sent_by(bench)]
    bench.moment += 301
    told += [frame for _, frame in bench.do(f"tick 0 {bench.moment}")]
    found = any(is_error(frame, packet[12:28]) for frame in told)
    report.note(bench, UNREACHABLE, "that a next hop answers no ARP is told", yes(found), found)


def by_default(silent, report):
    """Settings without `[icmp]`."""
    bench = silent()
    _, found = ask(bench, HOSTS[0], *addresses(bench, "inside")[0])
    error = told_of(bench, HOSTS[0], dying(bench, "inside"))
    report.note(bench, "5508 REQ-9", "without `[icmp]` the box answers no Echo, and sends no error",
                f"{yes(found)}, {yes(error)}", not found and not error)
    report.note(bench, "1812 4.3.3.6 b", "without `[icmp]` it answers Echo", yes(found), bool(found))
