"""Going alone: a box that has no answer of the other makes new pairs by itself a second later, and tells them when the two
meet again. Old flows and a load ask all the while, and new flows are opened; then a box that made pairs alone is killed, and
the other goes on with all that it was told."""

import json
import subprocess
import tempfile
import time
from pathlib import Path
from typing import NamedTuple

from flows import PATIENCE, verdict
from halves import FAR, MOVER, Halves
from handover import BEFORE, SEEN_LATE, UNDER_WAY, Traffic
from newcomers import AT_ONCE, Newcomers, Owed, end_of
from pair import FOLDER, HOSTS, PYTHON, SERVER, SETTINGS, SIDES
from rates import LOAD_PORT
from scene import audit, scene, show

# After so many seconds without an answer a box goes alone (`alone = 100`), and within so many more it is seen. Meanwhile it
# keeps the first packets of so many flows.
ALONE, SEEN, KEPT = 1.0, 0.2, 64
GOES_ALONE = Owed(ALONE + SEEN, KEPT, 0.0)
# A trouble lasts for so long. What was made alone is told within so many seconds, and each box has its role again within
# so many; the boxes are asked for that so often.
TROUBLE, TOLD, SETTLED, LOOK = 6.0, 2.0, 15.0, 0.2
# A flow that may be lost has so long for its answer, and the load lasts for so long at most.
SHORT, LONGEST = 3.0, 300


class Load:
    """Questions at a steady rate by flows of their own, until it is ended."""

    def __init__(self, current, rate):
        program = (*PYTHON, str(FOLDER / "load.py"))
        echo = current.networks.server.start(*program, "echo", SERVER, str(LOAD_PORT), stdout=subprocess.PIPE)
        words = ("beside", SERVER, str(LOAD_PORT), str(rate), str(LONGEST))
        is_served = echo.stdout.readline() == b"serving\n"
        self.child = current.networks.host.start(*program, *words, stdout=subprocess.PIPE, text=True)
        if not is_served or self.child.stdout.readline() != "begun\n":
            raise SystemExit("demo: the load doesn't run")

    def end(self):
        """How many questions there were, and when those were asked that had no answer."""
        self.child.terminate()
        asked, *lost = self.child.communicate()[0].split()
        return int(asked), [float(moment) for moment in lost]


class Row(NamedTuple):
    """What was done, and what came of it: of new flows, of all that had an answer, on the wires, and of packets."""

    name: str
    new: tuple
    flows: tuple
    wires: tuple
    packets: tuple
    is_good: bool


class Night:
    """A pair with `alone = 100`, old flows and a load through it, and new flows."""

    def __init__(self, current, options, halves):
        self.current, self.halves = current, halves
        self.load = Load(current, options.rate)
        self.traffic = Traffic(current, options.flows, (*HOSTS, MOVER) if halves else HOSTS)
        self.newcomers = Newcomers(self.traffic.flows, current.observer)
        down = current.networks.down_interval(1)
        self.takes_over = Owed(down + SEEN, 0, down + SEEN_LATE)
        # When the host that moves did, when all was told, and the time in which the boxes' roles change without a kill.
        self.moved, self.told, self.turn = float("inf"), float("inf"), (0.0, 0.0)
        self.made, self.lost, self.packets = [], [], ()
        self.may_be_lost = lambda flow: False

    def status(self, number):
        """What a box says of itself."""
        box = self.current.boxes[number]
        return json.loads(box.natpair("status", str(box.settings), "--id", str(number), "--json"))

    def go_on(self, seconds, test=lambda: False, is_open=True):
        """Flows ask, and new ones are opened where that is wanted, for so long or until a test holds."""
        self.traffic.go_on(seconds, lambda: (is_open and self.newcomers.turn()) or test())

    def wait(self, seconds, test, what):
        """Goes on until a test holds of what the two boxes say of themselves."""
        found, looked = [False], [0.0]

        def holds():
            if time.monotonic() - looked[0] > LOOK:
                found[0] = test(*map(self.status, (0, 1)))
                looked[0] = time.monotonic()
            return found[0]

        self.go_on(seconds, holds)
        if not found[0]:
            raise SystemExit(f"demo: {what}: not within {seconds} s")

    def half(self, flow, moment):
        """At which box a flow's host is while the networks are cut."""
        return int(flow.address in FAR or flow.address == MOVER and moment >= self.moved)

    def lasts(self, seconds, *makers):
        """The last trouble goes on for so long after its beginning, and these boxes make pairs alone."""
        self.go_on(self.newcomers.troubles[-1].begun + seconds - time.monotonic())
        for number in makers:
            self.made.append(self.status(number)["apart"]["made"])
            self.current.say(f"box {number} made {self.made[-1]} pairs alone")
        self.newcomers.over = time.monotonic()

    def meets(self, number, is_turn=False):
        """The boxes meet, and tell each other what they made alone. Then box `number` is killed."""
        begun = time.monotonic()
        self.wait(SETTLED, has_told, "all is told")
        self.told = time.monotonic()
        self.current.say(f"the boxes have met, and nothing is private after {self.told - begun:.2f} s")
        self.wait(SETTLED, is_settled, "box 0 alone is Active")
        self.go_on(1.0, is_open=False)
        if is_turn:
            self.turn = (self.newcomers.over, time.monotonic())
        self.count_packets()
        killed = self.current.kill(number)
        self.current.tell_takeover(1 - number, killed)
        self.go_on(2.0, is_open=False)
        return self.told - begun

    def ask(self):
        """All flows that had an answer ask once more. Gives those that may not be lost, and those that may."""
        owed, loose = [], []
        for flow in self.traffic.flows.flows:
            if flow.answered:
                (loose if flow in self.newcomers.opened and self.may_be_lost(flow) else owed).append(flow)
        for flow in owed + loose:
            flow.ask()
        self.traffic.flows.wait(owed, PATIENCE)
        self.traffic.flows.wait([flow for flow in loose if not flow.broken], SHORT)
        return owed, loose

    def is_at_meeting(self, flow):
        """Whether a flow sent something after the trouble's end, before all was told."""
        return any(self.newcomers.over <= moment < self.told for moment in self.newcomers.asked(flow))

    def count_packets(self):
        """All flows ask once more, and the load ends. Of this and of the old flows that ask each 20 ms it is counted how many
        questions were lost."""
        self.ask()
        asked, lost = self.load.end()
        begin, end, steady = self.newcomers.troubles[0].begun - BEFORE, time.monotonic(), self.traffic.steady
        self.lost = [(moment, {self.half(flow, moment)}) for flow in steady for moment in flow.lost(begin, end)]
        counted = sum(begin <= moment < end for flow in steady for moment in flow.moments)
        self.packets = counted, len(self.lost), asked, len(lost)
        self.lost += [(moment, {0, 1}) for moment in lost]

    def is_spared(self, moment, halves):
        """Whether a question may be lost that was asked at a moment in one of these halves."""
        if self.turn[0] <= moment < self.turn[1]:
            return True
        return any(each.owed[half].silent and each.begun - UNDER_WAY < moment < each.begun + each.owed[half].silent
                   for each in self.newcomers.troubles for half in halves)

    def row(self, name, told=None):
        """All flows ask once more, and what has come of all of them."""
        owed, loose = self.ask()
        old = sum(flow not in self.newcomers.opened for flow in owed)
        held, moved, silent = verdict(owed)
        silent += sum(not flow.answered and not self.may_be_lost(flow) for flow in self.newcomers.opened)
        moved += sum(len(set(flow.ports)) > 1 for flow in self.traffic.steady)
        spared = {end_of(flow) for flow in self.newcomers.opened if self.may_be_lost(flow)}
        endpoints, twice, shared = audit(self.current.observer, spared)
        seen = self.current.observer.ports()[0]
        parted = sum(len(seen.get(end, ())) > 1 for end in spared)
        unseen = self.current.observer.unseen()
        wrong = sum(not self.is_spared(*each) for each in self.lost)
        new, is_in_time = new_cells(self.newcomers.waits(self.half))
        is_good = is_in_time and all(self.made) and (told is None or told < TOLD)
        return Row(name, (*new, " + ".join(map(str, self.made)), "-" if told is None else f"{told:.2f} s"),
                   (old, len(owed) - old, held, moved, silent, len(loose), *verdict(loose)[1:]),
                   (endpoints, twice, parted, shared, unseen), (*self.packets, wrong),
                   is_good and moved + silent + twice + shared + unseen + wrong == 0)


def new_cells(waits):
    """What the table says of the new flows, and whether each was answered in time."""
    kept, again, later = ([each for each in waits if each.right == right] for right in ("kept", "again", "later"))
    within = f"{max(each.answered for each in kept):.2f} s" if kept else "-"
    at_once = sum(each.seconds <= AT_ONCE for each in later)
    late = sum(each.is_late for each in waits)
    longest = max(each.seconds for each in waits)
    return (len(waits), len(kept), within, len(again), len(later), at_once, late, f"{longest:.1f} s"), late == 0 < at_once


def roles(said):
    return {said[side]["role"] for side in SIDES}


def are_alone(*said):
    """Whether both boxes are Active, and without an answer of each other."""
    return all(roles(each) == {"Active"} and each["apart"]["now"] for each in said)


def has_told(*said):
    """Whether neither box makes pairs alone, or has some that it hasn't told."""
    return not any(each["apart"]["now"] or each["apart"]["private"] for each in said)


def is_settled(zero, one):
    return roles(zero) == {"Active"} and roles(one) == {"Backup"}


def standby(night):
    """Box 1, the Backup, dies and comes back."""
    night.newcomers.begins(night.current.kill(1), GOES_ALONE)
    night.lasts(TROUBLE, 0)
    night.current.bring_back(1)
    return night.row("the standby dies", night.meets(0))


def active(night):
    """Box 0, the Active one, dies and comes back."""
    night.newcomers.begins(night.current.kill(0), night.takes_over)
    night.lasts(TROUBLE, 1)
    night.current.bring_back(0)
    return night.row("the Active box dies", night.meets(1, True))


def link(night):
    """The link is cut and mended."""
    begun = time.monotonic()
    night.current.networks.cut_link()
    night.newcomers.begins(begun, GOES_ALONE)
    night.current.say("the link is cut")
    night.lasts(TROUBLE, 0)
    night.current.networks.mend_link()
    return night.row("the link is cut", night.meets(0))


def paused(night):
    """Box 1, the Backup, stands still, and goes on: it may be Active until it hears box 0."""
    box = night.current.boxes[1]
    begun = time.monotonic()
    box.halt()
    night.newcomers.begins(begun, GOES_ALONE)
    night.current.say("box 1 stands still")
    night.lasts(TROUBLE, 0)
    night.may_be_lost = night.is_at_meeting
    box.go_on()
    return night.row("the standby stands still", night.meets(0, True))


def cut(night):
    """Both networks and the link are cut, and mended. A host goes from box 0's half to box 1's meanwhile."""
    current, newcomers = night.current, night.newcomers
    begun = time.monotonic()
    night.halves.cut()
    newcomers.begins(begun, GOES_ALONE, night.takes_over)
    current.say("both networks and the link are cut, half of the hosts are at each box")
    night.wait(SETTLED, are_alone, "both boxes are Active and alone")
    current.say("both boxes are Active, and without an answer of each other")
    night.go_on(newcomers.troubles[0].begun + TROUBLE - time.monotonic())
    night.go_on(AT_ONCE, is_open=False)
    night.halves.move()
    night.moved = time.monotonic()
    flows = [flow for flow in night.traffic.flows.flows if flow.address == MOVER and flow.answered]
    for flow in flows:
        flow.ask()
    current.say(f"{MOVER} goes over to box 1, with {len(flows)} flows")
    night.lasts(1.5 * TROUBLE, 0, 1)
    night.may_be_lost = lambda flow: (
        flow.address == MOVER and newcomers.opened[flow] < night.moved or night.is_at_meeting(flow))
    night.halves.mend()
    return night.row("all is cut between the boxes", night.meets(0, True))


def untold(night):
    """The link is cut, and box 0, the Active one, dies before the two meet."""
    newcomers = night.newcomers
    begun = time.monotonic()
    night.current.networks.cut_link()
    newcomers.begins(begun, GOES_ALONE)
    night.current.say("the link is cut")
    night.lasts(TROUBLE / 2, 0)
    killed = night.current.kill(0)
    newcomers.begins(killed, night.takes_over)
    night.may_be_lost = lambda flow: newcomers.opened[flow] < killed
    night.lasts(TROUBLE, 1)
    night.go_on(1.0, is_open=False)
    night.count_packets()
    return night.row("the link is cut, the Active box dies")


CONDITIONS = {"standby": standby, "active": active, "link": link, "paused": paused, "cut": cut, "untold": untold}


def settings_in(folder):
    """The demo's settings with `alone`."""
    path = Path(folder) / SETTINGS.name
    text = SETTINGS.read_text(encoding="utf-8").replace("\n\n[inside]", "\nalone = 100\n\n[inside]", 1)
    path.write_text(text, encoding="utf-8")
    return path


def try_condition(options, name, settings):
    capture = options.capture and options.capture / name
    print(f"\n{name}", flush=True)
    with scene(options, capture, settings=settings) as current:
        night = Night(current, options, Halves(current) if name == "cut" else None)
        night.go_on(2.0, is_open=False)
        current.say(f"both boxes have the pairs of {len(night.traffic.flows.flows)} flows, and of a load of {options.rate} "
                    "questions a second")
        row = CONDITIONS[name](night)
        current.tell_drops()
    return row


def alone(options):
    with tempfile.TemporaryDirectory(prefix="natpair-alone-") as folder:
        settings = settings_in(folder)
        rows = [try_condition(options, name, settings) for name in options.conditions or CONDITIONS]
    show("alone", ["new flows while", "opened", "kept", "within", "sent again", "later", "at once", "late", "longest wait",
                   "made alone", "told within"], [(row.name, *row.new) for row in rows])
    show("flows", ["answered", "before", "since", "held", "moved", "silent", "may be lost", "moved", "silent", "as said"],
         [(row.name, *row.flows, "yes" if row.is_good else "no") for row in rows])
    show("ports", ["seen on the wires", "endpoints", "with two ports", "two, and may", "ports with two endpoints",
                    "frames unseen"],
         [(row.name, *row.wires) for row in rows])
    show("packets", ["of old flows", "asked", "lost", "by the load", "lost", "at other times"],
         [(row.name, *row.packets) for row in rows])
    return all(row.is_good for row in rows)
