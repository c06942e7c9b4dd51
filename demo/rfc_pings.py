"""Probes of pings: an Echo out and its Reply back, errors about both, and pings that go on through the kill of a box."""

import math
import subprocess
from typing import NamedTuple

from benches import HOSTS, REMOTES, SEQUENCE, End
from packets import ECHO, ICMP, REPLY, checksum
from pair import FOLDER, HOSTS as ADDRESSES, PYTHON, SERVER
from rfc_errors import CLOSED, TELLERS, TTL_OVER, Wanted, note_wanted, say
from rfc_packets import arrived, packet_bytes, port_of, told, yes
from rfc_routers import SEEN_LATE

PINGS, OTHERS = "5508 REQ-1 a", "5508 REQ-1 b"
# A host's identifier, and ends of stations that are asked: an Echo to one has no port.
OWN, ASKED = End(HOSTS[0], 5000), tuple(End(station, 0) for station in REMOTES)
# Queries that aren't Echo, and an Echo of the identifier 0: the type, the four bytes behind the checksum, and the data.
OTHER_QUERIES = (("a timestamp request", 13, b"\0\7\0\1", bytes(12)), ("an address mask request", 17, b"\0\7\0\1", bytes(4)),
                 ("an Echo of the identifier 0", ECHO, b"\0\0\0\1", b""))
# An Echo may be lost that was on its way as its box was killed, so many seconds before.
UNDER_WAY = 0.1
# So many seconds the pings go on before the kill and after the take-over.
BEFORE = AFTER = 1.0


def is_whole(found, kind):
    """Whether a query came as it was sent, but for its identifier, and with a right checksum."""
    return (bool(found) and found.payload[:2] == bytes((kind, 0)) and found.payload[6:8] == SEQUENCE
            and checksum(found.payload) == 0)


def echoes(bench, report):
    """A host asks three stations by one identifier; each of them answers."""
    sent = [bench.ping(OWN, asked.station.address) for asked in ASKED]
    went = [is_whole(found, ECHO) and arrived(found, ECHO, asked.station) and found.source == bench.virtual
            for found, asked in zip(sent, ASKED)]
    report.note(bench, PINGS, "an Echo goes out to each of three stations", f"{sum(went)} of 3", all(went))
    seen = [port_of(found) for found in sent]
    report.note(bench, PINGS, "by one identifier towards all of them", told(seen), None not in seen and len(set(seen)) == 1)
    back = [bench.ping(asked, *bench.outside(seen[0])) for asked in ASKED]
    came = [is_whole(found, REPLY) and (found.target, found.target_port) == OWN.place for found in back]
    report.note(bench, PINGS, "each one's Reply comes back to the host's identifier", f"{sum(came)} of 3", all(came))
    kept = report.kept.setdefault(ICMP, seen[0])
    if bench.name != "box 0":
        report.note(bench, PINGS, f"the identifier of before the kill, {kept}", told(seen[:1]), seen[0] == kept)


def other_queries(bench, report):
    for what, kind, rest, data in OTHER_QUERIES:
        found = bench.icmp(HOSTS[0], REMOTES[0].address, kind, 0, rest, data)
        report.note(bench, OTHERS, f"{what} goes out", yes(found), bool(found))


def across(bench, report):
    """An Echo to the outside address, by the identifier of another host; what is neither query nor error."""
    identifier = port_of(bench.ping(End(HOSTS[1], 5000), REMOTES[0].address))
    found = bench.ping(End(HOSTS[0], identifier or 1), bench.virtual, patient=False)
    reached = any(arrived(found, ECHO, host) for host in HOSTS)
    report.note(bench, "7857 12", "an Echo to the outside address reaches a host", yes(reached), reached)
    found = bench.icmp(HOSTS[0], REMOTES[0].address, 9, 0, bytes(4))
    report.note(bench, "5508 REQ-11", "what is neither query nor error doesn't go out", yes(found), not found)


def errors_in(bench, report):
    """A remote station and routers on the way tell of an Echo."""
    about = packet_bytes(bench.ping(OWN, REMOTES[0].address))
    for name, who, said in TELLERS:
        found = say(bench, who, bench.virtual, said, about)
        wanted = Wanted(said, who.address, HOSTS[0], (OWN.place, (REMOTES[0].address, OWN.port)), (bench.virtual,))
        what = f"Echo: {name}, about the Echo as the host sent it"
        note_wanted(bench, report, "5508 REQ-4", what, found, wanted)


def errors_out(bench, report):
    """A host, and a router inside, tell a remote station of its Reply."""
    identifier = port_of(bench.ping(OWN, REMOTES[0].address))
    heard = packet_bytes(bench.ping(ASKED[0], *bench.outside(identifier)))
    ends = (REMOTES[0].address, bench.outside(identifier)[1]), bench.outside(identifier)
    for name, who, said in (("port unreachable from the host", HOSTS[0], CLOSED),
                            ("TTL over from a router inside", HOSTS[3], TTL_OVER)):
        found = say(bench, who, REMOTES[0].address, said, heard)
        wanted = Wanted(said, bench.virtual, REMOTES[0], ends, (HOSTS[0].address, HOSTS[3].address))
        what = f"Reply: {name} goes out, with the outside ends alone"
        note_wanted(bench, report, "5508 REQ-5", what, found, wanted)


OF_PINGS = (echoes, other_queries, across, errors_in, errors_out)


class Ran(NamedTuple):
    """What a run of pings came to: whose it was, how many Echos it sent, and when those without a Reply."""

    address: str
    identifier: int
    asked: int
    lost: list


class Pings:
    """Pings from the hosts to the server, by their own kernels, that go on until they are ended."""

    def __init__(self, current):
        self.current = current
        words = (*PYTHON, str(FOLDER / "pings.py"), SERVER, *ADDRESSES)
        self.child = current.networks.host.start(*words, stdin=subprocess.PIPE, stdout=subprocess.PIPE)
        if self.child.stdout.readline() != b"begun\n":
            raise SystemExit("demo: the pings don't run")
        current.loop.until(lambda: False, BEFORE)

    def end(self):
        """Ends them, once they have gone on for a while; what each came to."""
        self.current.loop.until(lambda: False, AFTER)
        self.child.stdin.close()
        lines = [line.split() for line in self.child.stdout.read().decode().splitlines()]
        # What the switches saw meanwhile.
        self.current.loop.until(lambda: False, 0.1)
        return [Ran(address, int(identifier), int(asked), [float(moment) for moment in lost])
                for address, identifier, asked, *lost in lines]


def through_a_kill(pings, bench, report, killed, active):
    """Whether each went on by its identifier, and which Replies it lost. `active` is when the other box was Active."""
    ran = pings.end()
    outside, _ = pings.current.observer.ports()
    seen = [outside.get((ICMP, (each.address, each.identifier)), set()) for each in ran]
    held = sum(len(identifiers) == 1 for identifiers in seen)
    report.note(bench, PINGS, "pings of a server through the kill, each by one outside identifier", f"{held} of {len(ran)}",
                held == len(ran) > 0)
    lost = sorted(moment for each in ran for moment in each.lost)
    when = f", {lost[0] - killed:.2f} to {lost[-1] - killed:.2f} s after the kill" if lost else ""
    is_outage = not lost or killed - UNDER_WAY < lost[0] and lost[-1] < active + SEEN_LATE < math.inf
    asked = sum(each.asked for each in ran)
    report.note(bench, PINGS, "they lack the Replies of the outage, and no others", f"{len(lost):,} of {asked:,}{when}",
                bool(ran) and is_outage)
    pings.current.say(f"{held} of {len(ran)} pings went on by their identifiers, {len(lost):,} of {asked:,} Replies were lost")
