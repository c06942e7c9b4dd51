"""Probes by programs that everybody has: `ping`, `traceroute` and `tracepath`, run where the host, the router and the server are."""

import contextlib
import re
import subprocess

from pair import BEYOND, ROUTER, SERVER
from rfc_hosts import SIZE, TCP_PLACE, Hosts
from rfc_own import ECHOS, TIMES, WIDTH
from rfc_packets import told, yes

# A program is over within so many seconds.
LONGEST = 15
# What `traceroute` asks by. It sends one packet at a time, so that a box has an error left for each.
KINDS = {"UDP": (), "TCP": ("-T", "-p", str(TCP_PLACE[1])), "Echo": ("-I",)}
TRACEROUTE = ("traceroute", "-n", "-N", "1", "-q", "1", "-w", "2", "-m", "6")
# A packet of WIDTH bytes and 28 more: `ping` counts its data alone.
PING = ("ping", "-n", "-c", "1", "-W", "1")
# How many bytes of data an Echo in fragments has.
LARGE = (3000, 65_000)
LONG = ("-M", "do", "-s", str(WIDTH))
NARROW_PATH = re.compile(r"^ *(\d+): +(\S+).* pmtu (\d+)", re.MULTILINE)


def output(current, space, *words):
    """What a program prints, whatever its status is. The switches are listened to meanwhile."""
    child = space.start(*words, stdout=subprocess.PIPE, stderr=subprocess.STDOUT)
    if not current.loop.until(lambda: child.poll() is not None, LONGEST):
        child.kill()
    return child.communicate()[0].decode()


def is_answered(current, space, address, size=56):
    """Whether a ping of so many bytes of data is answered with all of them."""
    found = output(current, space, *PING, "-s", str(size), address)
    return f"{size + 8} bytes from {address}:" in found and "wrong data" not in found


def places(current, side, alive):
    """The addresses at which boxes that run answer who asks at a side."""
    settings = current.networks.settings
    found = [settings[side]["virtual"], *(settings[f"gateway_{number}"][f"{side}_ip"] for number in alive)]
    return found + [settings["outside"]["virtual"]] if side == "inside" else found


def pinged(current, bench, report, alive):
    """Each box at its own address, and the pair at its virtual ones, from both sides."""
    spaces = {"inside": current.networks.host, "outside": current.networks.router}
    for side, space in spaces.items():
        asked = places(current, side, alive)
        count = sum(is_answered(current, space, address) for address in asked)
        report.note(bench, ECHOS, f"{side}, by `ping`: {', '.join(asked)}", f"{count} of {len(asked)}", count == len(asked))
        for size in LARGE:
            count = sum(is_answered(current, space, address, size) for address in asked)
            report.note(bench, "1122 3.2.2.6 b", f"{side}, by `ping -s {size}`: {', '.join(asked)}",
                        f"{count} of {len(asked)}", count == len(asked))
    for size in LARGE:
        come = is_answered(current, current.networks.host, SERVER, size)
        report.note(bench, "4787 REQ-14", f"`ping -s {size}` of the server is answered", yes(come), come)


def hops(current, space, kind, target):
    """The addresses on the lines of a `traceroute`; `*` where a line has none."""
    lines = output(current, space, *TRACEROUTE, *kind, target).splitlines()
    return [line.split()[1] for line in lines if re.match(r" *\d+ ", line)]


def traced(current, bench, report):
    own, _ = bench.box_place("inside")
    for name, kind in KINDS.items():
        found = hops(current, current.networks.host, kind, SERVER)
        report.note(bench, TIMES, f"`traceroute` by {name}: the box, the router, the server", told(found) or "nothing",
                    found == [own, ROUTER, SERVER])
    found = hops(current, current.networks.server, KINDS["Echo"], bench.virtual)
    report.note(bench, ECHOS, "the server's `traceroute` by Echo ends at the outside address", told(found) or "nothing",
                found == [BEYOND, bench.virtual])


def by_programs(current, bench, report, alive):
    with contextlib.ExitStack() as stack:
        Hosts(current, stack)
        pinged(current, bench, report, alive)
        traced(current, bench, report)


def told_width(current, hosts, bench, report):
    """`ping` with a packet that is too long for the box's outside; and what `tracepath` finds out, from a host that has
    forgotten what `ping` was told."""
    own, _ = bench.box_place("inside")
    hosts.widen()
    found = output(current, current.networks.host, *PING, *LONG, SERVER)
    wanted = f"From {own} icmp_seq=1 Frag needed and DF set (mtu = {WIDTH})"
    seen = next((line for line in found.splitlines() if line.startswith("From ")), "nothing")
    report.note(bench, "4787 REQ-13 b", f"`ping {' '.join(LONG)}`: {wanted}", "so" if seen == wanted else seen, seen == wanted)
    hosts.widen()
    found = NARROW_PATH.findall(output(current, current.networks.host, "tracepath", "-n", "-m", "6", SERVER))
    who = [address for _, address, most in found if int(most) == WIDTH]
    report.note(bench, "1191 4", f"`tracepath` finds {WIDTH:,} bytes, by the box", told(who) or "nothing", who == [own])


def at_a_narrow_side(current, bench, report):
    """The same pair where the boxes' outside takes less than the hosts' network."""
    with contextlib.ExitStack() as stack:
        hosts = Hosts(current, stack)
        told_width(current, hosts, bench, report)
        hosts.widen()
        come = hosts.upload()
        report.note(bench, "1191 3", f"a host's upload of {SIZE:,} bytes learns that, and comes", f"{come:,} bytes", come == SIZE)
        hosts.widen()
        found = hosts.datagram(WIDTH)
        report.note(bench, "4787 REQ-13 c", f"a host's datagram of {WIDTH + 28:,} bytes, which may be cut, comes", yes(found),
                    found)
