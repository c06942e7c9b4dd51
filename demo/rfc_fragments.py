"""Probes of datagrams in fragments: through a box, to it, under one identification, and of those that lack some."""

import itertools
import os

from benches import HOSTS, REMOTES, SILENCE, End, is_error
from packets import ECHO, ICMP, IPV4, PLAIN, REPLY, UDP, Packet, cut, ethernet, icmp, ipv4, is_ipv4, udp, wholes
from pair import SIDES
from rfc_own import ASKED, addresses, station_at
from rfc_packets import PLACES, identifications, port_of, told, yes

# Echos of so many bytes of data, in fragments of packets of so many bytes: the packet of 576 bytes that each host has to put
# together, one that is longer than a network takes, and the longest of all.
ECHOS = ((548, 300), (3000, 1500), (65_507, 1500))
LARGE, NAME = 3000, 0x5678
# So many datagrams each of three hosts begins and doesn't end: more than a box keeps.
BEGINNINGS = 40
# So long after the first fragment of a datagram its last one comes: sooner and later than a host has to give it up.
SOON, LATER = 59, 121
TIME_OVER = b"\x0b\1"


def put(bench, station, packets, mac=None):
    """A station hands packets to the virtual MAC of its network, or to another one."""
    bench.put(station.side, *(ethernet(mac or bench.own_mac(station.side), station.mac, IPV4, packet) for packet in packets))


def heard(bench, side, protocol, target):
    """The packets of a protocol to an address that come out at a side, those in fragments put together."""
    frames = bench.listen(side, SILENCE)
    return wholes(frame for frame in frames if is_ipv4(frame) and frame[23] == protocol and Packet(frame).target == target)


def large(end, place, identification=NAME):
    """A datagram of 3,000 bytes, in fragments, and its text."""
    text = os.urandom(LARGE)
    header = PLAIN._replace(identification=identification)
    return cut(ipv4(end.station.address, place[0], UDP, udp(end.place, place, text), header)), text


def through(bench, report):
    """Three fragments in each order, outward and inward."""
    end, remote = End(HOSTS[0], 5000), End(REMOTES[0], 53)
    outside = bench.outside(port_of(bench.send(UDP, end, remote.place)))
    for name, sender, place, side, target in (("out", end, remote.place, "outside", remote.station.address),
                                              ("in", remote, outside, "inside", end.station.address)):
        count = 0
        for identification, order in enumerate(itertools.permutations(range(3)), NAME):
            parts, text = large(sender, place, identification)
            put(bench, sender.station, [parts[number] for number in order])
            count += any(found.data == text for found in heard(bench, side, UDP, target))
        report.note(bench, "4787 REQ-14", f"three fragments go {name}, in each order", f"{count} of 6", count == 6)


def under_one_name(bench, report):
    """Two hosts' datagrams to one remote end under one identification: those that are cut, and those that aren't."""
    seen = []
    for host in HOSTS[:2]:
        bench.send(UDP, End(host, 5000), PLACES[0])
        parts, text = large(End(host, 5000), PLACES[0])
        put(bench, host, parts)
        found = [each for each in heard(bench, "outside", UDP, PLACES[0][0]) if each.data == text]
        seen += [each.identification for each in found]
    names, is_own = [f"{each:04x}" for each in seen], len(set(seen)) == 2
    for requirement in ("7857 10 a", "6864 4.3 a"):
        report.note(bench, requirement, f"two hosts' {NAME:04x}, of {LARGE:,} bytes, leave as two numbers", told(names), is_own)
    seen = identifications(bench)
    for requirement in ("7857 10 b", "6864 4.3 b"):
        report.note(bench, requirement, "two hosts' 1234, which isn't cut, leave as two numbers", told(seen),
                    len(set(seen)) == 2)


def beginnings(bench, report):
    """Three hosts begin many datagrams, and end none; then another one sends a packet, and a datagram in fragments."""
    end = End(HOSTS[0], 5000)
    for host in HOSTS[1:]:
        put(bench, host, [large(End(host, 5000), PLACES[0], number)[0][0] for number in range(BEGINNINGS)])
    plain = bench.udp(end, PLACES[0])
    parts, text = large(end, PLACES[0])
    put(bench, end.station, parts)
    whole = any(found.data == text for found in heard(bench, "outside", UDP, PLACES[0][0]))
    report.note(bench, "4787 REQ-14 a", f"behind {len(HOSTS[1:]) * BEGINNINGS} beginnings another host's packet goes out, and "
                "its datagram in fragments", f"{yes(plain)}, {yes(whole)}", bool(plain) and whole)


def echoes(bench, report):
    """Echos in fragments to each address at which a box answers."""
    for side in SIDES:
        station, asked = station_at(side), addresses(bench, side)
        for size, most in ECHOS:
            found = [echo(bench, station, address, mac, size, most) for address, mac in asked]
            count, own = sum(right for right, _ in found), sum(named for _, named in found)
            report.note(bench, "1122 3.2.2.6 b", f"{side}: an Echo of {size:,} bytes of data in fragments is answered",
                        f"{count} of {len(asked)}", count == len(asked))
            if size + 28 <= 576:
                report.note(bench, "1122 3.3.2 a", f"{side}: fragments of {size + 28} bytes in all are put together",
                            f"{count} of {len(asked)}", count == len(asked))
            elif size == LARGE:
                report.note(bench, "6864 4.3 a", f"{side}: a Reply that is cut has its Echo's identification",
                            f"{own} of {len(asked)}", own == len(asked))


def echo(bench, station, address, mac, size, most):
    """Whether a station's Echo in fragments is answered with all of its data, and whether the Reply has its identification."""
    text = os.urandom(size)
    header = PLAIN._replace(identification=NAME)
    put(bench, station, cut(ipv4(station.address, address, ICMP, icmp(ECHO, 0, ASKED, text), header), most), mac)
    found = [each for each in heard(bench, station.side, ICMP, station.address) if each.source == address]
    right = [each for each in found if each.payload == icmp(REPLY, 0, ASKED, text)]
    return len(right) == 1, len(right) == 1 and (right[0].identification, right[0].fragment) == (NAME, 0)


def waiting(fresh, report):
    """Two of three fragments of a host's datagram; the last one comes a while later, and what is said meanwhile."""
    for seconds, requirement, what, is_due in ((SOON, "1122 3.3.2 c", "the last fragment makes it whole", True),
                                               (LATER, "1122 3.3.2 b", "the last fragment makes nothing whole", False)):
        bench = fresh()
        *parts, last = large(End(HOSTS[0], 5000), PLACES[0])[0]
        for part in parts:
            bench.frame("inside", ethernet(bench.own_mac("inside"), HOSTS[0].mac, IPV4, part))
        bench.moment += seconds * 100
        said = [frame for _, frame in bench.do(f"tick 0 {bench.moment}") if is_error(frame, parts[0][12:28])]
        bench.announce()
        sent = bench.frame("inside", ethernet(bench.own_mac("inside"), HOSTS[0].mac, IPV4, last))
        came = any(side == "outside" and is_ipv4(frame) and frame[23] == UDP for side, frame in sent)
        report.note(fresh, requirement, f"{seconds} s after the first {what}", yes(came), came == is_due)
    is_told = any(Packet(frame).payload[:2] == TIME_OVER for frame in said)
    report.note(fresh, "1122 3.3.2 d", "that fragments are lacking is told by Time Exceeded, code 1", yes(is_told), is_told)


OF_FRAGMENTS = (through, under_one_name, beginnings)
