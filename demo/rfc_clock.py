"""Probes by `natpair sim`, whose clock can stand at any moment: how long a pair lives, and who keeps it alive.

A pair is there as long as a packet from outside to its port comes in. That packet itself is a use, so each moment is
looked at in a run of its own.
"""

import os

from benches import HOSTS, REMOTES, SEQUENCE, End, is_error
from packets import (ACK, DONT_FRAGMENT, ECHO, FIN, ICMP, IPV4, PLAIN, PSH, RST, SYN, TCP, UDP, ethernet, icmp, ipv4,
                     is_ipv4, tcp, udp)
from rfc_packets import LONGEST, PLACES, arrived, port_of, told, yes

HOST, REMOTE, STRANGER = End(HOSTS[0], 5000), End(REMOTES[0], 53), End(REMOTES[1], 9)
TICK = 1
QUERY_REST, UDP_REST, SHORT, LONG = 6_000, 30_000, 24_000, 744_000
# Each side's segments of a connection: is it the remote end's, and its flags.
OPENED = ((0, SYN), (1, SYN | ACK), (0, ACK))
USED = (*OPENED, (0, ACK | PSH), (1, ACK | PSH))


def seconds(centiseconds):
    return f"{centiseconds / 100:,.2f}".rstrip("0").rstrip(".") + " s"


def begin(bench, protocol, course=()):
    """Makes a pair, by a datagram, an Echo or the segments of a course; its outside port, or identifier."""
    if protocol != TCP:
        return port_of(bench.send(protocol, HOST, REMOTE.place))
    port = None
    for is_remote, flags in course:
        found = bench.tcp(REMOTE, bench.outside(port), flags) if is_remote else bench.tcp(HOST, REMOTE.place, flags)
        port = port or port_of(found)
    return port


def is_there(bench, protocol, port):
    return bool(bench.send(protocol, REMOTE, bench.outside(port), patient=False))


def there_after(fresh, protocol, course, steps):
    """Whether a pair is there, in a run in which it is made and these steps follow: a time of rest, or what is done then."""
    bench = fresh()
    port = begin(bench, protocol, course)
    take(bench, port, steps)
    return is_there(bench, protocol, port)


def take(bench, port, steps):
    for step in steps:
        if callable(step):
            step(bench, port)
        else:
            bench.rest(step)


def limit(report, fresh, requirement, what, rest, protocol, course=(), before=()):
    """A pair is there a hundredth of a second before its rest is over."""
    short = there_after(fresh, protocol, course, (*before, rest - TICK))
    whole = there_after(fresh, protocol, course, (*before, rest))
    seen = f"{yes_there(short)} at {seconds(rest - TICK)}, {yes_there(whole)} at {seconds(rest)}"
    report.note(fresh, requirement, f"{what}: there until {seconds(rest)}", seen, short)


def udp_timers(fresh, report):
    limit(report, fresh, "4787 REQ-5", "UDP, without a packet", UDP_REST, UDP)
    for name, use, holds in (("outward", lambda bench, port: bench.udp(HOST, REMOTE.place), "4787 REQ-6"),
                             ("inward", lambda bench, port: bench.udp(REMOTE, bench.outside(port)), "4787 REQ-6")):
        there = there_after(fresh, UDP, (), (UDP_REST - TICK, use, UDP_REST - TICK))
        report.note(fresh, holds, f"a packet {name} begins the rest anew", "anew" if there else "not", there)


def query_timers(fresh, report):
    limit(report, fresh, "5508 REQ-2 a", "an Echo, without a packet", QUERY_REST, ICMP)
    for name, use in (("an Echo", lambda bench, _: bench.ping(HOST, REMOTE.place[0])),
                      ("a Reply", lambda bench, port: bench.ping(REMOTE, *bench.outside(port)))):
        there = there_after(fresh, ICMP, (), (QUERY_REST - TICK, use, QUERY_REST - TICK))
        report.note(fresh, "5508 REQ-2 a", f"{name} begins the rest anew", "anew" if there else "not", there)


def tcp_timers(fresh, report):
    name = "5382 REQ-5"
    limit(report, fresh, name, "a SYN alone", SHORT, TCP, OPENED[:1])
    limit(report, fresh, name, "a SYN and its answer", SHORT, TCP, OPENED[:2])
    limit(report, fresh, name, "a handshake, then silence", LONG, TCP, OPENED)
    limit(report, fresh, name, "a connection in use", LONG, TCP, USED)
    limit(report, fresh, name, "closed by one end", LONG, TCP, (*USED, (0, FIN | ACK)))
    limit(report, fresh, name, "closed by both ends", SHORT, TCP, (*USED, (0, FIN | ACK), (1, FIN | ACK)))


def resets(fresh, report):
    """A RST comes in, and nothing more; or the connection goes on, so that it wasn't the end's."""
    limit(report, fresh, "7857 2.2 a", "after a RST, without a packet", SHORT, TCP, (*USED, (1, RST)))
    there = there_after(fresh, TCP, (*USED, (1, RST), (0, ACK | PSH), (1, ACK)), (LONG - TICK,))
    report.note(fresh, "7857 2.2 b", f"segments both ways after a RST: there until {seconds(LONG)}",
                "there" if there else "gone before", there)


def forged(bench, port):
    """A packet to a pair's port that says it comes from an inside address."""
    mark = os.urandom(6)
    place = HOSTS[2].address, 7
    packet = ipv4(place[0], bench.virtual, UDP, udp(place, bench.outside(port), mark))
    bench.put("outside", ethernet(bench.own_mac("outside"), REMOTES[1].mac, IPV4, packet))


def between(source, target, protocol=UDP):
    """A packet from one end to another. Of what an error is about nobody keeps whether it came."""
    inner = {UDP: lambda: udp(source, target, b"asked"), TCP: lambda: tcp(source, target, ACK, b"asked"),
             ICMP: lambda: icmp(ECHO, 0, source[1].to_bytes(2, "big") + SEQUENCE, b"asked")}[protocol]()
    return ipv4(source[0], target[0], protocol, inner)


def told_in(bench, port, protocol=UDP):
    """A router's error about the pair's packet; whether it comes to the host."""
    about = between(bench.outside(port), REMOTE.place, protocol)
    return arrived(bench.icmp(STRANGER.station, bench.virtual, 11, 0, bytes(4), about), 11, HOST.station)


def told_in_tcp(bench, port):
    return told_in(bench, port, TCP)


def told_in_ping(bench, port):
    return told_in(bench, port, ICMP)


def told_out(bench, _):
    """The host's error about the remote station's packet; whether it comes there."""
    about = between(REMOTE.place, HOST.place)
    return arrived(bench.icmp(HOST.station, REMOTE.place[0], 3, 3, bytes(4), about), 3, REMOTE.station)


def told_across(bench, port):
    """The host's error about its own packet to itself by the outside address; whether it comes back."""
    about = between(bench.outside(port), HOST.place)
    return arrived(bench.icmp(HOST.station, bench.virtual, 3, 3, bytes(4), about), 3, HOST.station)


def told_stranger(bench, _):
    """The host's error about the segment of a stranger; whether it comes to him."""
    about = between(STRANGER.place, HOST.place, TCP)
    return arrived(bench.icmp(HOST.station, STRANGER.place[0], 3, 3, bytes(4), about), 3, STRANGER.station)


def knocked(bench, port):
    bench.tcp(STRANGER, bench.outside(port), SYN)


def answered(bench, _):
    """The host's RST to a stranger."""
    bench.tcp(HOST, STRANGER.place, RST | ACK)


def acknowledged(bench, port):
    bench.tcp(STRANGER, bench.outside(port), ACK)


def five_knocked(bench, port):
    for number in range(5):
        bench.tcp(End(REMOTES[1], 10 + number), bench.outside(port), SYN)


# What must not keep a pair: its requirement, what is said of it, how its pair is made, and what is done with it.
NO_USES = (
    ("7857 7", "a packet that is refused, from a forged inside address, doesn't refresh", UDP, (),
     (UDP_REST - TICK, forged, TICK)),
    # What a stranger sends is no use of a pair with a session, so the rest is over as it was before.
    ("7857 7.1 b", "a host's RST to a stranger doesn't refresh", TCP, OPENED[:1],
     (1000, knocked, 1000, answered, SHORT - 2000)),
    ("own 1", f"a stranger's ACK keeps a half-open pair for {seconds(SHORT)} at most", TCP, OPENED[:1],
     (1000, acknowledged, SHORT - 1000)),
    ("own 2", f"five strangers' SYNs keep a half-open pair for {seconds(SHORT)} at most", TCP, OPENED[:1],
     (1000, five_knocked, SHORT - 1000)),
)


def no_uses(fresh, report):
    for requirement, what, protocol, course, steps in NO_USES:
        there = there_after(fresh, protocol, course, steps)
        report.note(fresh, requirement, what, yes_there(there), not there)


# What is told of a pair's packet: its requirement, who tells, how the pair is made, the steps before, how, and the time of
# rest after it, at whose end the pair's own rest is over.
ERRORS = (
    ("5508 REQ-6", "a router's error about UDP", UDP, (), (UDP_REST - TICK,), told_in, TICK),
    ("5508 REQ-6", "a router's error about TCP", TCP, OPENED, (LONG - TICK,), told_in_tcp, TICK),
    ("5508 REQ-6", "a router's error about an Echo", ICMP, (), (QUERY_REST - TICK,), told_in_ping, TICK),
    ("5508 REQ-6", "a host's error", UDP, (), (UDP_REST - TICK,), told_out, TICK),
    ("5508 REQ-6", "a host's error to itself", UDP, (), (UDP_REST - TICK,), told_across, TICK),
    ("7857 7.1 a", "a host's error to a stranger", TCP, OPENED[:1], (1000, knocked, 1000), told_stranger, SHORT - 2000),
)


def told_then(fresh, protocol, course, before, tell, after):
    """Whether an error passes, and whether its pair is there so long after it."""
    bench = fresh()
    port = begin(bench, protocol, course)
    take(bench, port, before)
    passed = tell(bench, port)
    bench.rest(after)
    return passed, is_there(bench, protocol, port)


def errors(fresh, report):
    """Each error passes, and the pair's rest goes on as if it hadn't come: it isn't begun anew, nor ended."""
    for requirement, who, protocol, course, before, tell, after in ERRORS:
        found = [told_then(fresh, protocol, course, before, tell, rest) for rest in (after - TICK, after)]
        (passed, short), (_, whole) = found
        report.note(fresh, requirement, f"{who} passes, and neither refreshes nor ends its pair",
                    f"{yes(passed)}; {yes_there(short)} until its rest is over, {yes_there(whole)} then",
                    found == [(True, True), (True, False)])


def too_large(fresh, report):
    """A packet of one byte more than an outside network of 1,500 bytes takes: one that isn't to be cut, and one that may be."""
    bench = fresh()
    for fragment, what in ((DONT_FRAGMENT, "not to be cut, are answered by an error"), (0, "which may be cut, go out")):
        packet = ipv4(HOSTS[0].address, PLACES[0][0], UDP, udp(HOST.place, PLACES[0], bytes(LONGEST - 27)),
                      PLAIN._replace(fragment=fragment))
        sent = bench.frame("inside", ethernet(bench.own_mac("inside"), HOSTS[0].mac, IPV4, packet))
        found = any(is_error(frame, packet[12:28]) if fragment else is_ipv4(frame) for _, frame in sent)
        report.note(bench, "4787 REQ-13 d", f"{LONGEST + 1} bytes, {what}", yes(found), found)


def no_room(narrow, report):
    """Two ports, both taken: what a third end hears."""
    bench = narrow()
    for number in (5000, 5001):
        bench.udp(End(HOSTS[0], number), REMOTE.place)
    packet = ipv4(HOSTS[1].address, REMOTE.place[0], UDP, udp((HOSTS[1].address, 5002), REMOTE.place, b"no port"))
    bench.put("inside", ethernet(bench.own_mac("inside"), HOSTS[1].mac, IPV4, packet))
    found = bench.heard(lambda frame: is_error(frame, packet[12:28]), 0)
    report.note(bench, "5508 REQ-8", "a new flow without a free port is answered by an error", yes(found),
                bool(found))


def both_boxes(couple, report):
    """While both are Active, a host's packets may go by either, and one box doesn't see what the other carries."""
    bench = couple()
    for protocol, requirement, name in ((UDP, "4787 REQ-1", "port"), (ICMP, "5508 REQ-1 a", "identifier")):
        seen = []
        for bench.box in (0, 1, 0):
            seen.append(port_of(bench.send(protocol, HOST, REMOTE.place)))
        report.note(bench, requirement, f"one outside {name} by box 0, box 1, box 0", told(seen),
                    None not in seen and len(set(seen)) == 1)
    port = port_of(bench.udp(HOST, REMOTE.place))
    bench.rest(UDP_REST - 50)
    bench.box = 1
    bench.udp(HOST, REMOTE.place)
    bench.rest(100)
    bench.box = 0
    there = is_there(bench, UDP, port)
    report.note(bench, "4787 REQ-5", "UDP, carried by box 1 alone: there at box 0 after 300 s", yes_there(there), there)
    bench.rest(UDP_REST + 100)
    there = is_there(bench, UDP, port)
    report.note(bench, "4787 REQ-5", "without a packet at either box: let go by both", yes_there(there), not there)


def yes_there(there):
    return "there" if there else "gone"


BY_THE_CLOCK = (udp_timers, query_timers, tcp_timers, resets, no_uses, errors, too_large)
