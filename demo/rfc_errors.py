"""Probes of ICMP errors about packets of pairs: who is told of what, and that no pair suffers from it."""

import os
from typing import NamedTuple

from benches import HOSTS, REMOTES, End
from packets import ICMP, PLAIN, TCP, UDP, Packet, checksum, icmp, ip_bytes, ipv4, transport_sum, udp
from rfc_packets import FREE, KINDS, PLACES, arrived, packet_bytes, port_of, told, yes

WORDS = {UDP: "UDP", TCP: "TCP"}


class Said(NamedTuple):
    """What an error says: its type and code, and the four bytes behind its checksum."""

    kind: int
    code: int
    rest: bytes = bytes(4)


CLOSED, TOO_LARGE, TTL_OVER, BAD_HEADER = Said(3, 3), Said(3, 4, b"\0\0\5\0"), Said(11, 0), Said(12, 0, b"\x08\0\0\0")
# Who outside tells of a packet to the first of them: each is let in, wherever it stands.
TELLERS = (("port unreachable from the remote station", REMOTES[0], CLOSED),
           ("fragmentation needed from a router", REMOTES[1], TOO_LARGE),
           ("TTL over from another router", REMOTES[2], TTL_OVER),
           ("a bad header from a router", REMOTES[1], BAD_HEADER))
# A host's end that speaks to one remote end, and the ends that speak to each other.
OWN, PAIR = End(HOSTS[0], 5500), (End(HOSTS[0], 5200), End(HOSTS[1], 5300))
# Four bytes of options that say nothing.
NO_WORDS = b"\1\1\1\0"


class Wanted(NamedTuple):
    """An error as it has to come out: what it says, from which address and to which station, the two ends of the packet
    inside, and addresses that may stand nowhere in it."""

    said: Said
    source: str
    station: object
    ends: tuple
    hidden: tuple = ()

    def is_met_by(self, found):
        if not found:
            return False
        inside = Packet(bytes(14) + found.payload[8:])
        ends = (inside.source, inside.source_port), (inside.target, inside.target_port)
        return (Said(*found.payload[:2], found.payload[4:8]) == self.said and found.source == self.source
                and (found.target, found.to_mac) == (self.station.address, self.station.mac)
                and ends == self.ends and checksum(found.payload) == 0 and has_right_sums(inside)
                and not any(ip_bytes(address) in found.frame[14:] for address in self.hidden))


def has_right_sums(packet):
    """Whether the checksums of a whole packet are right: its header's, and that of what it carries."""
    header = packet.frame[14 : 14 + (packet.frame[14] & 15) * 4]
    if packet.protocol == ICMP:
        return checksum(header) == 0 == checksum(packet.payload)
    return checksum(header) == 0 == transport_sum(packet.source, packet.target, packet.protocol, packet.payload)


def say(bench, station, target, said, about):
    """A station tells the sender of a packet of it; what comes out."""
    return bench.icmp(station, target, *said, about, patient=True)


def note_wanted(bench, report, requirement, what, found, wanted):
    right = wanted.is_met_by(found)
    seen = "comes out so" if right else "comes out otherwise" if found else "nothing"
    report.note(bench, requirement, what, seen, right)


def errors_in(bench, report):
    """A remote station and routers on the way tell of a packet; then the pair is used again."""
    for (protocol, standard), number, last in zip(KINDS, ("REQ-12 b", "REQ-9"), ("REQ-12 a", "REQ-10")):
        sent = bench.send(protocol, OWN, PLACES[0])
        about = packet_bytes(sent)
        for name, who, said in TELLERS:
            found = say(bench, who, bench.virtual, said, about)
            came = arrived(found, said.kind, HOSTS[0])
            report.note(bench, f"{standard} {number}", f"{name} comes in", yes(came), came)
            wanted = Wanted(said, who.address, HOSTS[0], (OWN.place, PLACES[0]), (bench.virtual,))
            what = f"{WORDS[protocol]}: {name}, about the packet as the host sent it"
            note_wanted(bench, report, "5508 REQ-4", what, found, wanted)
        again = bench.send(protocol, OWN, PLACES[0])
        report.note(bench, f"{standard} {last}", "the pair stays after all of them", told([port_of(again)]),
                    bool(again) and port_of(again) == port_of(sent))


def errors_after(bench, report):
    """Behind a kill, a router tells of a packet that the killed box sent on. Its pair carries nothing else meanwhile."""
    end, about = End(HOSTS[0], 5600), report.kept.get("about")
    if about is None:
        report.kept["about"] = packet_bytes(bench.send(UDP, end, PLACES[0]))
        return
    found = say(bench, REMOTES[1], bench.virtual, TTL_OVER, about)
    wanted = Wanted(TTL_OVER, REMOTES[1].address, HOSTS[0], (end.place, PLACES[0]), (bench.virtual,))
    note_wanted(bench, report, "5508 REQ-4", "an error about a packet of before the kill comes in", found, wanted)


def errors_out(bench, report):
    """A host, and a router inside, tell a remote station of a packet that came in."""
    remote = End(REMOTES[0], 53)
    for protocol, word in WORDS.items():
        port = port_of(bench.send(protocol, PAIR[0], PLACES[0]))
        heard = packet_bytes(bench.send(protocol, remote, bench.outside(port)))
        ends = (remote.place, bench.outside(port))
        for name, who, said in (("port unreachable from the host", HOSTS[0], CLOSED),
                                ("TTL over from a router inside", HOSTS[3], TTL_OVER)):
            found = say(bench, who, remote.station.address, said, heard)
            wanted = Wanted(said, bench.virtual, remote.station, ends, (HOSTS[0].address, HOSTS[3].address))
            what = f"{word}: {name} goes out, with the outside ends alone"
            note_wanted(bench, report, "5508 REQ-5", what, found, wanted)


def errors_across(bench, report):
    """A host tells another one, which speaks to it by the outside address."""
    for protocol, word in WORDS.items():
        ports = [port_of(bench.send(protocol, end, PLACES[0])) for end in PAIR]
        heard = packet_bytes(bench.send(protocol, PAIR[0], bench.outside(ports[1])))
        found = say(bench, HOSTS[1], bench.virtual, CLOSED, heard)
        ends = (PAIR[0].place, bench.outside(ports[1]))
        wanted = Wanted(CLOSED, bench.virtual, HOSTS[0], ends, (HOSTS[1].address,))
        what = f"{word}: a host's error about another's hairpin reaches it"
        note_wanted(bench, report, "5508 REQ-7", what, found, wanted)


def errors_of_nobody(bench, report):
    """Errors about packets that no pair has carried, from outside and from inside."""
    source, remote, stranger = bench.outside(FREE), PLACES[0], (HOSTS[2].address, 5700)
    outward = ipv4(source[0], remote[0], UDP, udp(source, remote, b"nobody's"))
    inward = ipv4(remote[0], stranger[0], UDP, udp(remote, stranger, b"nobody's"))
    cases = (("5508 REQ-4", "an error about no pair doesn't come in", REMOTES[1], bench.virtual, outward),
             ("5508 REQ-5", "a host's error about no pair doesn't go out", HOSTS[2], remote[0], inward))
    for requirement, what, who, target, about in cases:
        found = bench.icmp(who, target, *CLOSED, about)
        report.note(bench, requirement, what, yes(found), not found)


def spoilt(data, place):
    """Bytes of which one is another."""
    return data[:place] + bytes([data[place] ^ 0x55]) + data[place + 1 :]


def errors_broken(bench, report):
    """Which checksums count, and where the ports of the packet inside are looked for."""
    about = packet_bytes(bench.send(UDP, OWN, PLACES[0]))
    mark = os.urandom(6)
    message = spoilt(icmp(CLOSED.kind, CLOSED.code, CLOSED.rest, about + mark), 2)
    broken = bench.ask(REMOTES[1], ipv4(REMOTES[1].address, bench.virtual, ICMP, message), mark, patient=False)
    report.note(bench, "5508 REQ-3", "an error with a wrong checksum doesn't come in", yes(broken), not broken)
    found = bench.icmp(REMOTES[1], bench.virtual, *CLOSED, spoilt(about, 10))
    report.note(bench, "5508 REQ-3", "an error about a packet with a wrong header checksum doesn't", yes(found), not found)
    found = say(bench, REMOTES[1], bench.virtual, CLOSED, spoilt(about, 26))
    came = arrived(found, CLOSED.kind, HOSTS[0])
    report.note(bench, "5508 REQ-3", "an error about a packet with a wrong UDP checksum does", yes(came), came)
    about = packet_bytes(bench.udp(OWN, PLACES[0], PLAIN._replace(options=NO_WORDS)))
    found = say(bench, REMOTES[1], bench.virtual, CLOSED, about)
    wanted = Wanted(CLOSED, REMOTES[1].address, HOSTS[0], (OWN.place, PLACES[0]))
    what = "an error about a packet with options does, its ports behind them"
    note_wanted(bench, report, "5508 REQ-3", what, found, wanted)


OF_ERRORS = (errors_after, errors_in, errors_out, errors_across, errors_of_nobody, errors_broken)
