"""Probes by `natpair sim` of what keeps strangers out: what comes inward, who is learnt, whose advertisements count, and
source routes."""

from guards_sim import LOOSE, STRICT, passes
from packets import ICMP, UDP, Advert, Station, arp_request
from rfc_clock import HOST, QUERY_REST, REMOTE, TICK, UDP_REST, there_after, yes_there
from rfc_packets import drawn_ports

# A station of the outside network that nobody knows yet, and another one that it may ask for.
NEWCOMER, OTHER = Station("outside", "192.0.2.77", bytes.fromhex("02000000004d")), "192.0.2.78"
MOVED = bytes.fromhex("02000000014d")


def told(known):
    return "known" if known else "not known"


def role(backup):
    return "Backup" if backup else "Active"


def inward_alone(fresh, report):
    """With `inward_refresh = false`: a packet outward begins a rest anew, and one inward doesn't."""
    for protocol, rest, requirement in ((UDP, UDP_REST, "4787 REQ-6"), (ICMP, QUERY_REST, "7857 7 b")):
        for name, use, keeps in (("outward", lambda bench, port: bench.send(protocol, HOST, REMOTE.place), True),
                                 ("inward", lambda bench, port: bench.send(protocol, REMOTE, bench.outside(port)), False)):
            there = there_after(fresh, protocol, (), (rest - TICK, use, rest - TICK))
            what = "UDP" if protocol == UDP else "a ping"
            report.note(fresh, requirement, f"inward_refresh = false: a packet of {what} {name} begins the rest "
                        + ("anew" if keeps else "not anew"), yes_there(there), there == keeps)


def source_routes(fresh, report):
    for requirement, name, options in (("7126 4.3", "loose", LOOSE), ("7126 4.4", "strict", STRICT)):
        count = passes(fresh(), options)
        report.note(fresh, f"{requirement} a", f"a {name} source route is dropped, in and out", f"{2 - count} of 2", count == 0)
        report.note(fresh, "1812 5.3.13.4", f"a {name} source route is followed, in and out", f"{count} of 2", count == 2)


def is_known(bench, mac):
    """Whether a packet to the newcomer goes to this MAC."""
    found = bench.udp(HOST, (NEWCOMER.address, 53))
    return found is not None and found.to_mac == mac


def learns(fresh, report):
    """RFC 826: who asks for an own address comes in; who is known is renewed by any packet of his."""
    requirement = "826 reception"
    bench = fresh()
    bench.put("outside", arp_request(NEWCOMER, OTHER))
    strange = is_known(bench, NEWCOMER.mac)
    report.note(fresh, requirement, "who asks for somebody else isn't learnt", told(strange), not strange)
    bench = fresh()
    bench.put("outside", arp_request(NEWCOMER, bench.virtual))
    known = is_known(bench, NEWCOMER.mac)
    report.note(fresh, requirement, "who asks for an own address is", told(known), known)
    bench.put("outside", arp_request(NEWCOMER._replace(mac=MOVED), OTHER))
    moved = is_known(bench, MOVED)
    report.note(fresh, requirement, "and whatever he asks then renews him", told(moved), moved)


def is_backup_by(bench, advertisement):
    """Whether the outside router is Backup behind an advertisement: nobody is answered for its address then."""
    bench.put("outside", advertisement.frame())
    return not bench.frame("outside", arp_request(NEWCOMER, bench.virtual))


def counted(bench, source, priority):
    outside = bench.settings["outside"]
    return is_backup_by(bench, Advert(outside["vrid"], priority, source, outside["virtual"]))


def any_counts(fresh, report):
    """Where nothing is set, whoever advertises counts."""
    found = counted(fresh(), OTHER, 255)
    report.note(fresh, "9568 7.1 d", "a stranger's advertisement of priority 255 makes it Backup", role(found), found)


def peer_counts(fresh, report):
    """With `peer_only = true` none but the other box does."""
    other = fresh().settings["gateway_1"]
    for what, source in (("a stranger's", OTHER), ("one from the other box's address", other["outside_ip"])):
        found = counted(fresh(), source, 255)
        report.note(fresh, "9568 7.1 d", f"peer_only = true: {what} of priority 255 doesn't", role(found), not found)


def drawn_by_sim(fresh, report):
    drawn_ports(fresh(), report)


WITHOUT_GUARDS = (source_routes, learns, any_counts)
