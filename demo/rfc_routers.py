"""Probes of the virtual routers (RFC 9568): by `natpair sim` line by line, and what is seen of them on the running pair."""

from benches import ACTIVE, HOSTS, REMOTES, SILENCE, End
from packets import (EVERYBODY, IPV4, PLAIN, UDP, VRRP_GROUP, VRRP_MAC, Advert, Packet, arp_request, ethernet, ip_bytes,
                     ipv4, is_advert, is_arp, is_ipv4, udp, virtual_mac)
from rfc_packets import yes

# The other box of `sim`, which says what the probe wants; it has the greater address.
OTHER = "192.0.2.3"
OUTSIDE, INSIDE = 10, 11
SKEW = 60
# The demo's boxes advertise once a second.
INTERVAL = 1.0
# A take-over may be seen so many seconds late.
SEEN_LATE = 0.3


def advert(priority, **changes):
    values = {"router": OUTSIDE, "source": OTHER, "address": "192.0.2.1", **changes}
    return Advert(priority=priority, **values).frame()


def priorities(frames):
    """The priorities of the advertisements among what was sent outside."""
    return [frame[36] for side, frame in frames if side == "outside" and is_advert(frame)]


def gratuitous(frame, router):
    mac = virtual_mac(router)
    return is_arp(frame, 1) and frame[:6] == EVERYBODY and frame[6:12] == mac == frame[22:28]


def at(fresh, *events):
    """What the last of some events makes box 0 send: moments, and frames that it hears outside."""
    bench, sent = fresh(("tick 0 0",)), []
    for event in events:
        sent = bench.do(f"tick 0 {event}") if isinstance(event, int) else bench.frame("outside", event)
    return sent


def starting(fresh, report):
    silent = not at(fresh, ACTIVE - 1)
    sent = at(fresh, ACTIVE)
    report.note(fresh, "9568 6.1", "priority 100 is silent for three intervals and the skew, 3.6 s",
                f"{'silent' if silent else 'not'} at 3.59 s, {'Active' if priorities(sent) else 'not'} at 3.6 s",
                silent and priorities(sent) == [100])
    report.note(fresh, "9568 6.4.1", "a start sends nothing: the router is Backup", yes(at(fresh, 0)), not at(fresh, 0))
    told = any(gratuitous(frame, OUTSIDE) for _, frame in sent)
    report.note(fresh, "9568 6.4.2 c", "the timer: an advertisement, and a gratuitous ARP",
                f"{len(priorities(sent))} and {int(told)}", priorities(sent) == [100] and told)


def in_backup(fresh, report):
    higher = at(fresh, 300, advert(120), ACTIVE), at(fresh, 300, advert(120), 300 + ACTIVE)
    report.note(fresh, "9568 6.4.2 b", "priority 120 heard: silent for the down interval from then on",
                f"{len(priorities(higher[0]))} and {len(priorities(higher[1]))} advertisements",
                not priorities(higher[0]) and priorities(higher[1]) == [100])
    lower = at(fresh, 300, advert(50), ACTIVE)
    report.note(fresh, "9568 6.4.2 b", "priority 50 heard, and preempting: Active as if it weren't",
                f"{len(priorities(lower))} advertisement", priorities(lower) == [100])
    resigned = at(fresh, 100, advert(0), 100 + SKEW - 1), at(fresh, 100, advert(0), 100 + SKEW)
    report.note(fresh, "9568 6.4.2 b", "priority 0 heard: Active after the skew, 0.6 s",
                f"{len(priorities(resigned[0]))} before, {len(priorities(resigned[1]))} then",
                not priorities(resigned[0]) and priorities(resigned[1]) == [100])
    bench = fresh(("tick 0 0",))
    bench.announce()
    silent = not bench.frame("inside", arp_request(HOSTS[0], "192.168.1.1"))
    packet = bench.udp(End(HOSTS[0], 5000), (REMOTES[0].address, 53))
    report.note(fresh, "9568 6.4.2 a", "a Backup answers no ARP for the address, and takes no packet for it",
                f"{yes(not silent)}, {yes(packet)}", silent and not packet)


def in_active(fresh, report):
    cases = (("a lower priority heard: advertises at once", advert(50), [100]),
             ("priority 0 heard: advertises at once", advert(0), [100]),
             ("a higher priority heard: yields", advert(120), []),
             ("an equal priority from a greater address heard: yields", advert(100), []),
             ("an equal priority from a lesser address heard: stays", advert(100, source="192.0.1.9"), [100]))
    for name, heard, wanted in cases:
        found = priorities(at(fresh, ACTIVE, heard)), priorities(at(fresh, ACTIVE, heard, ACTIVE + 100))
        report.note(fresh, "9568 6.4.3 b", name, f"{len(found[0])} at once, {len(found[1])} a second later",
                    found[0] == wanted and bool(found[1]) == bool(wanted))
    found = [bool(priorities(at(fresh, ACTIVE, ACTIVE + rest))) for rest in (99, 100)]
    report.note(fresh, "9568 6.4.3 c", "an advertisement each second", f"{'one' if found[0] else 'none'} at 0.99 s,"
                f" {'one' if found[1] else 'none'} at 1 s", found == [False, True])


def bad_ones(fresh, report):
    """What isn't an advertisement of this router changes nothing: it would be answered at once, or yielded to."""
    broken = advert(50)
    cases = {"TTL 254": advert(50, ttl=254), "version 2": advert(50, version=2), "another router": advert(50, router=9),
             "a wrong checksum": broken[:-1] + bytes([broken[-1] ^ 1]), "interval 0": advert(50, interval=0),
             "cut": broken[:40]}
    taken = [name for name, frame in cases.items() if at(fresh, ACTIVE, frame)]
    report.note(fresh, "9568 7.1 a", f"left out: {', '.join(cases)}",
                ", ".join(taken) + " taken" if taken else "all left out", not taken)
    found = len(at(fresh, ACTIVE, advert(50, address="192.0.2.99")))
    report.note(fresh, "9568 7.1 b", "left out: another virtual address", "taken" if found else "left out", not found)
    alone = len(at(fresh, ACTIVE, advert(50)))
    report.note(fresh, "9568 5.2.8", "heard with the sum of the message alone", "taken" if alone else "left out",
                bool(alone))


def stopping(fresh, report):
    bench = fresh()
    found = priorities(bench.do("stop 0"))
    report.note(bench, "9568 6.4 stop a", "a stop advertises priority 0", f"priorities {found}", found == [0])


BY_THE_TABLE = (starting, in_backup, in_active, bad_ones, stopping)


def adverts_on(bench, side):
    return [frame for frame in bench.listen(side, 2.2 * INTERVAL) if is_advert(frame)]


def on_the_wire(bench, report):
    """The advertisements and the answers of the running pair, at both sides."""
    for side in ("inside", "outside"):
        router = bench.settings[side]["vrid"]
        found = adverts_on(bench, side)
        packets = [Packet(frame) for frame in found]
        form = all((p.ttl, p.target, p.to_mac, p.from_mac) == (255, VRRP_GROUP, VRRP_MAC, virtual_mac(router))
                   for p in packets)
        report.note(bench, "9568 7.2", f"{side}: from the virtual MAC to the group, with TTL 255",
                    f"{len(packets)} of them{'' if form else ', not so'}", form and bool(packets))
        alone = all(sums_alone(p.payload) for p in packets)
        report.note(bench, "9568 5.2.8", f"{side}: the sum is that of the message alone", yes(found) if not found else
                    "alone" if alone else "with more", alone and bool(found))
    asks(bench, report)
    through(bench, report)


def sums_alone(message):
    total = sum(int.from_bytes(message[i : i + 2], "big") for i in range(0, len(message), 2))
    return total % 0xFFFF == 0 and total > 0


def asks(bench, report):
    """Whom an inside host finds at the virtual address: one answer, of the Active box alone."""
    host, virtual = HOSTS[0], bench.settings["inside"]["virtual"]
    bench.put("inside", arp_request(host, virtual))
    heard = bench.listen("inside", INTERVAL)
    answers = [frame for frame in heard if is_arp(frame, 2) and frame[28:32] == ip_bytes(virtual)]
    mac = virtual_mac(bench.settings["inside"]["vrid"])
    seen = f"{len(answers)}, of {', '.join(frame[22:28].hex('-') for frame in answers) or 'nobody'}"
    report.note(bench, "9568 6.4.3 a", "one answer to ARP, with the virtual MAC", seen,
                [frame[22:28] for frame in answers] == [mac])
    own = [frame[6:12] for frame in answers]
    report.note(bench, "9568 8.1.2", "the answer's frame is from the box's own MAC",
                ", ".join(each.hex("-") for each in own) or "none", bool(own) and mac not in own)


def through(bench, report):
    """A packet to the virtual address itself, at its side."""
    packet = ipv4(HOSTS[0].address, bench.settings["inside"]["virtual"], UDP,
                  udp((HOSTS[0].address, 5000), ("192.168.1.1", 53), b"to the router"), PLAIN)
    bench.put("inside", ethernet(bench.own_mac("inside"), HOSTS[0].mac, IPV4, packet))
    found = bench.heard(lambda frame: is_ipv4(frame) and frame[23] == UDP and b"to the router" in frame, SILENCE)
    report.note(bench, "9568 8.3.1", "a packet to the virtual address isn't sent on", yes(found), not found)


def taken_over(bench, report, after, owed):
    """After a kill: how long it took, and what told the networks."""
    report.note(bench, "9568 6.1", f"a take-over within {owed:.2f} s of the kill", f"{after:.2f} s", after <= owed + SEEN_LATE)
    for side in ("inside", "outside"):
        found = sum(gratuitous(frame, bench.settings[side]["vrid"]) for frame in bench.take(bench.cards[side]))
        report.note(bench, "9568 6.4.2 c", f"{side}: a gratuitous ARP at the take-over", f"{found} of them", found > 0)


def ended(bench, report, requirement, how, end):
    """The Active box is ended: whether it resigns before it goes. What ending it gives."""
    bench.take(bench.cards["outside"])
    given = end()
    found = [frame[36] for frame in bench.listen("outside", INTERVAL) if is_advert(frame)]
    report.note(bench, requirement, f"a gate that is ended by {how} advertises priority 0", f"priorities {found}", 0 in found)
    return given
