"""What the standards ask, measured on the running pair from outside, and held against docs/RFC.md. The pair has `pass`."""

import functools
import math
import signal
import time
from typing import NamedTuple

import rfc_page
from benches import Couple, Scripted, Wired
from guards import DRAWN, OUTWARD_ALONE, PEER_ONLY
from pair import SETTINGS
from rfc_clock import BY_THE_CLOCK, both_boxes, no_room
from rfc_errors import OF_ERRORS
from rfc_fragments import OF_FRAGMENTS, echoes, waiting
from rfc_guards import WITHOUT_GUARDS, drawn_by_sim, inward_alone, peer_counts
from rfc_hosts import by_hosts
from rfc_linux import at_linux
from rfc_own import AT_ITSELF, by_default, nobody_there, too_long_in, too_long_out
from rfc_packets import AT_A_BOX, drawn_ports
from rfc_pings import OF_PINGS, Pings, through_a_kill
from rfc_programs import at_a_narrow_side, by_programs
from rfc_routers import BY_THE_TABLE, ended, on_the_wire, taken_over
from scene import scene, settings_with, show

# What a settings file has in the place of what stands in the demo's: two ports, sides that take 1,400 bytes, and no `[icmp]`.
TWO_PORTS = ("zero = [20000, 39999]", "zero = [20000, 20001]")
SHORT_OUTSIDE = ('router = "192.0.2.254"', 'router = "192.0.2.254"\nmtu = 1400')
SHORT_INSIDE = ("wire = 7101", "wire = 7101\nmtu = 1400")
SILENT = ("[icmp]\necho = true\nerrors = true\n", "")


class Line(NamedTuple):
    """What a probe saw of a requirement, and whether that is what the requirement wants."""

    requirement: str
    bench: str
    expected: str
    seen: str
    holds: bool


class Report:
    """All lines, and what a box has to do as the other did it."""

    def __init__(self):
        self.lines = []
        self.kept = {}

    def note(self, bench, requirement, expected, seen, holds):
        self.lines.append(Line(requirement, bench.name, expected, seen, bool(holds)))

    def verdicts(self, page):
        """Of each requirement: met where all its lines, or all lines of its parts, hold, not met where none of them does."""
        found = {}
        for line in self.lines:
            found.setdefault(line.requirement, []).append(line.holds)
        for name in [name for name, row in page.items() if row.has_parts]:
            parts = [holds for part, holds in found.items() if part.startswith(f"{name} ")]
            found[name] = [each for holds in parts for each in holds]
        return {name: "met" if all(holds) else "in part" if any(holds) else "not met" for name, holds in found.items()
                if holds}


class Fresh:
    """Makes runs of `natpair sim` by one settings file."""

    name = "sim"

    def __init__(self, program, settings):
        self.make = functools.partial(Scripted, program, settings)

    def __call__(self, lines=()):
        return self.make(lines)


def by_sim(options, report):
    fresh = Fresh(options.program, SETTINGS)
    for probe in (*BY_THE_CLOCK, *BY_THE_TABLE, *WITHOUT_GUARDS, nobody_there, waiting):
        probe(fresh, report)
    both_boxes(functools.partial(Couple, options.program, SETTINGS), report)
    for changes, probes in (((TWO_PORTS,), (no_room,)), ((SILENT,), (by_default,)), ((OUTWARD_ALONE,), (inward_alone,)),
                            ((PEER_ONLY,), (peer_counts,)), ((DRAWN,), (drawn_by_sim,)),
                            ((SHORT_INSIDE, SHORT_OUTSIDE), (too_long_out, too_long_in))):
        with settings_with(*changes) as file:
            for probe in probes:
                probe(Fresh(options.program, file), report)


def at_box(current, number, report, alive):
    """Each probe at a box; `alive` are the boxes that run."""
    bench = Wired(number, current)
    for probe in (*AT_A_BOX, *OF_FRAGMENTS, *OF_ERRORS, *OF_PINGS, *AT_ITSELF, echoes):
        probe(bench, report)
    on_the_wire(bench, report)
    by_hosts(current, bench, report)
    by_programs(current, bench, report, alive)
    current.say(f"box {number}: {sum(line.bench == bench.name for line in report.lines)} lines")
    return bench


def on_the_pair(options, report):
    """Each probe at box 0, and after its kill at box 1; at last box 1 is ended."""
    with scene(options, options.capture) as current:
        at_box(current, 0, report, (0, 1))
        bench, pings = Wired(1, current), Pings(current)
        killed = current.kill(0)
        current.tell_takeover(1, killed)
        moment = current.observer.took_over(1, killed) or math.inf
        taken_over(bench, report, moment - killed, current.networks.down_interval(1))
        through_a_kill(pings, bench, report, killed, moment)
        current.boxes[1].peer_off(current.boxes[0].boot)
        current.say("box 1 is told that box 0 is off")
        bench = at_box(current, 1, report, (1,))
        current.tell_drops()
        ended(bench, report, "9568 6.4 stop b", "`natpair stop`", current.boxes[1].stop)


def at_a_narrow_box(current, number, report):
    bench = Wired(number, current)
    at_a_narrow_side(current, bench, report)
    drawn_ports(bench, report)
    return bench


def on_a_narrow_pair(options, report):
    """What the programs of everybody see of boxes whose outside takes 1,400 bytes, and which draw ports: of box 0, and after
    its kill of box 1, which a signal ends at last."""
    capture = options.capture and options.capture / "narrow"
    with settings_with(SHORT_OUTSIDE, DRAWN) as file, scene(options, capture, settings=file) as current:
        at_a_narrow_box(current, 0, report)
        killed = current.kill(0)
        current.tell_takeover(1, killed)
        # The word is refused within 3 s of the other's last datagram, and a takeover may take less than that.
        time.sleep(max(0.0, killed + 3.5 - time.monotonic()))
        current.boxes[1].peer_off(current.boxes[0].boot)
        bench = at_a_narrow_box(current, 1, report)
        current.tell_drops()
        ended(bench, report, "9568 6.4 stop c", "SIGTERM", lambda: current.kill(1, signal.SIGTERM))


def order_of(page, name):
    return list(page).index(name) if name in page else len(page)


def uneven(lines):
    """The requirements of which a line holds at one box and not at another."""
    found = {}
    for line in lines:
        found.setdefault((line.requirement, line.expected), set()).add(line.holds)
    return {name for (name, _), holds in found.items() if len(holds) > 1}


def fault(name, row, seen, differ, whole):
    """What is wrong with a requirement's verdict, if anything. A part of the probes sees some of the parts alone."""
    if row is None:
        return "NOT ON THE PAGE"
    if seen is None:
        return "NOT MEASURED" if whole and (row.is_measured or row.has_parts) else ""
    is_seen_whole = row.is_measured or row.has_parts and whole
    if seen != row.verdict and is_seen_whole or not (row.is_measured or row.has_parts):
        return "NOT WHAT THE PAGE SAYS"
    return "THE BOXES DIFFER" if name in differ else ""


def tell(report, page, whole):
    """Prints both tables; whether the page says what was seen, and says of each requirement whether it is seen (by all of
    the probes, or by a part of them)."""
    lines = sorted(report.lines, key=lambda line: order_of(page, line.requirement))
    heads = ["requirement", "at", "expected", "seen", "verdict"]
    show("what was seen", heads, [(*line[:4], "met" if line.holds else "not met") for line in lines], left=True)
    found, differ = report.verdicts(page), uneven(report.lines)
    faults = {name: fault(name, page.get(name), found.get(name), differ, whole) for name in dict.fromkeys([*page, *found])}
    rows = [(name, found.get(name, ""), page[name].verdict if name in page else "", text) for name, text in faults.items()
            if text or name in found]
    show("verdicts", ["requirement", "seen", "docs/RFC.md", ""], rows, left=True)
    wrong = sum(bool(text) for text in faults.values())
    print(f"{len(found)} requirements measured by {len(report.lines)} lines, {len(faults) - len(found)} by docs/RFC.md alone;"
          f" {wrong} not as the page says", flush=True)
    return wrong == 0


def rfc(options):
    page, report = rfc_page.read(), Report()
    if options.linux:
        return at_linux(report, page)
    if not options.sim:
        on_the_pair(options, report)
        on_a_narrow_pair(options, report)
    by_sim(options, report)
    return tell(report, page, not options.sim)
