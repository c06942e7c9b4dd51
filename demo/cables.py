"""Each of the four cables is pulled in turn, and what an established flow sees of it."""

import time

from flows import PATIENCE, Flows, verdict
from scene import Probe, audit, scene, show

CABLES = ("0-inside", "0-outside", "1-inside", "1-outside")
FLOWS = 20
WINDOW = 10
# A cable is out for so many seconds; so long after it is in again all has settled: three seconds until the box counts
# as whole, and its down interval.
OUT = 9
SETTLED = 11


class Cable:
    """One cable of a box: it is pulled at the switch, or the box's interface is deleted."""

    def __init__(self, current, name):
        number, self.side = name.split("-")
        self.name = f"box {number} {self.side}"
        self.box = current.boxes[int(number)]
        self.switch = current.networks.switches[self.side]

    def pull(self):
        self.switch.space.ip("link", "set", "dev", self.port(), "down")

    def plug(self):
        self.switch.space.ip("link", "set", "dev", self.port(), "up")

    def delete(self):
        self.box.space.ip("link", "delete", "dev", self.side)

    def make_again(self):
        self.switch.plug(self.port(), self.box.space, self.side)
        self.box.leave_to_natpair(self.side)

    def tell(self, word):
        """Tells the box what a check of its own would have found."""
        self.box.side(self.side, word)

    def port(self):
        return f"box{self.box.number}"


def silence(current, probe, flows, seconds):
    """The longest time without an answer to the probe within so many seconds."""
    probe.gap, probe.last = 0.0, time.monotonic()
    end = probe.last + seconds
    while time.monotonic() < end:
        probe.ask()
        flows.turn(0.01)
    return max(probe.gap, time.monotonic() - probe.last)


def who_is_active(current):
    """Which box advertised itself last on each side."""
    last = [current.observer.advertised[side][0] for side in ("inside", "outside")]
    return f"box {last[0]}" if last[0] == last[1] else f"box {last[0]} inside, box {last[1]} outside"


def try_cable(current, cable, probe, flows, delete):
    """Pulls a cable, and plugs it in again. All flows ask while it is out, and once it is in."""
    options = current.options
    out, back = (cable.delete, cable.make_again) if delete else (cable.pull, cable.plug)
    out()
    current.say(f"{cable.name}: {'interface deleted' if delete else 'cable pulled'}")
    if options.tell:
        cable.tell("down")
    quiet = silence(current, probe, flows, OUT)
    flows.ask(flows.flows, PATIENCE / 3)
    held, moved, silent = verdict(flows.flows)
    now = who_is_active(current)
    current.say(f"{held} of {len(flows.flows)} flows are answered, without an answer {quiet:.2f} s; Active: {now}")
    back()
    current.say(f"{cable.name}: {'interface made again' if delete else 'cable plugged in'}")
    if options.tell:
        cable.tell("up")
    again = silence(current, probe, flows, SETTLED)
    flows.ask(flows.flows, PATIENCE)
    later = verdict(flows.flows)
    current.say(f"{later[0]} of {len(flows.flows)} flows are answered, without an answer {again:.2f} s;"
                f" Active: {who_is_active(current)}")
    untold = (options.no_track or options.sides == "vxlan") and not options.tell
    lost = moved + later[1] + later[2] + (0 if untold else silent)
    return (cable.name, f"{quiet:.2f} s", now, held, f"{again:.2f} s", later[0], moved + later[1]), lost


def cables(options):
    with scene(options, options.capture) as current:
        flows = Flows(current.loop, current.networks.host, current.stack)
        probe = Probe(current)
        flows.open(FLOWS, WINDOW, 30)
        silence(current, probe, flows, 2)
        current.say(f"{FLOWS} flows have an answer")
        chosen = [Cable(current, name) for name in options.cables or CABLES]
        found = [try_cable(current, cable, probe, flows, options.delete) for cable in chosen]
        owed = current.networks.down_interval(1)
        current.tell_drops()
        _, twice, shared = audit(current.observer)
    heads = ["deleted" if options.delete else "pulled", "silent for", "then Active", f"held of {FLOWS}",
             "silent after its return", "held", "moved"]
    show("cables", heads, [row for row, _ in found])
    print(f"the down interval of box 1 is {owed:.2f} s; the UDP flow asks each 20 ms", flush=True)
    return sum(lost for _, lost in found) == 0 and twice == 0 and shared == 0
