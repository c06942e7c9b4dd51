"""The killed box comes back, loads the table and takes over; then the other is killed."""

from flows import PATIENCE, Flows, verdict
from scene import audit, scene, show

WINDOW = 48
FRESH = 50


class Tally:
    """The rows of the table: after each turn all flows ask once more."""

    def __init__(self, current, flows):
        self.current = current
        self.flows = flows
        self.rows = []

    def ask(self, name):
        flows = [flow for flow in self.flows.flows if flow.answered]
        self.flows.ask(flows, PATIENCE)
        held, moved, silent = verdict(flows)
        self.current.say(f"{held} of {len(flows)} flows hold their port")
        self.rows.append((name, len(flows), held, moved, silent))

    def lost(self):
        return sum(moved + silent for _, _, _, moved, silent in self.rows)


def restart(options):
    with scene(options, options.capture) as current:
        flows = Flows(current.loop, current.networks.host, current.stack)
        tally = Tally(current, flows)
        flows.open(options.flows, WINDOW, 60)
        tally.ask("opened through box 0")
        killed = current.kill(0)
        current.tell_takeover(1, killed)
        tally.ask("box 0 killed, box 1 Active")
        current.bring_back(0)
        current.expect_active(0)
        current.say("box 0 has taken over")
        flows.open(FRESH, WINDOW, 20)
        tally.ask(f"box 0 back and Active, {FRESH} more opened")
        current.kill(1)
        tally.ask("box 1 killed")
        current.bring_back(1)
        flows.open(FRESH, WINDOW, 20)
        tally.ask(f"box 1 back, {FRESH} more opened")
        killed = current.kill(0)
        current.tell_takeover(1, killed)
        tally.ask("box 0 killed, box 1 Active")
        current.tell_drops()
        endpoints, twice, shared = audit(current.observer)
    show("restart", ["", "flows", "held", "moved", "silent"], tally.rows)
    heads = ["seen on the wires", "endpoints", "with two ports", "ports with two endpoints"]
    show("ports", heads, [("whole run", endpoints, twice, shared)])
    return tally.lost() == 0 and twice == 0 and shared == 0
