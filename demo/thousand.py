"""A thousand fresh flows, then the kill: each that had an answer keeps its outside port."""

import time

from flows import PATIENCE, Flows, verdict
from scene import audit, scene, show

# At most so many flows wait for their first answer at a time.
WINDOW = 48
# So many fresh flows are tried while one box is off.
FRESH = 20


class Condition:
    """What is done to the link or to box 1: before flows are opened, when half of them had an
    answer, and after the kill of box 0."""

    def __init__(self, name, before=None, halfway=None, afterwards=None):
        self.name = name
        self.before = before
        self.halfway = halfway
        self.afterwards = afterwards


CONDITIONS = {
    "healthy": Condition("link healthy"),
    "slow": Condition("link at 1 Mbit/s", before=lambda now: now.networks.slow_link("1mbit")),
    "cut": Condition("link cut half-way", halfway=lambda now: now.networks.cut_link()),
    "stopped": Condition(
        "box 1 stopped half-way",
        halfway=lambda now: now.boxes[1].halt(),
        afterwards=lambda now: now.boxes[1].go_on(),
    ),
}


def open_flows(current, flows, condition, count):
    """Opens the flows. Where nothing happens half-way, a few are unanswered at the end."""
    left = min(WINDOW, count // 2) // 2
    if condition.halfway is None:
        flows.open(count, WINDOW, 60, left)
        return
    flows.open(count // 2, WINDOW, 60, left)
    condition.halfway(current)
    current.say(condition.name.removesuffix(" half-way"))
    flows.open(count - len(flows.flows), count, 5)


def try_new(current, flows):
    """Opens fresh flows while box 0 is off: how many have an answer before box 1 is told so, and
    how many, of these and those that waited, afterwards."""
    fresh = flows.open(FRESH, FRESH, 4)
    soon = sum(flow.answered > 0 for flow in fresh)
    current.boxes[1].peer_off(current.boxes[0].boot)
    current.say("box 1 is told that box 0 is off")
    flows.wait(fresh, 15)
    return soon, sum(flow.answered > 0 for flow in fresh)


def try_condition(options, name):
    condition = CONDITIONS[name]
    capture = options.capture and options.capture / name
    print(f"\n{condition.name}", flush=True)
    with scene(options, capture) as current:
        if condition.before:
            condition.before(current)
        flows = Flows(current.loop, current.networks.host, current.stack)
        began = time.monotonic()
        open_flows(current, flows, condition, options.flows)
        killed = current.kill(0)
        answered = [flow for flow in flows.flows if flow.answered]
        waiting = [flow for flow in flows.flows if not flow.answered]
        current.say(f"{len(answered)} of {len(flows.flows)} flows had an answer,"
                    f" within {killed - began:.2f} s")
        if condition.afterwards:
            condition.afterwards(current)
        flows.ask(answered, 0)
        current.tell_takeover(1, killed)
        flows.wait(answered, PATIENCE)
        current.say("of those with an answer {} hold their port, {} have another, {} are silent"
                    .format(*verdict(answered)))
        late = sum(flow.answered > 0 for flow in waiting)
        soon, told = try_new(current, flows)
        flows.ask(answered, PATIENCE)
        held, moved, silent = verdict(answered)
        if silent:
            sent = sum(current.observer.sent_on(flow) for flow in answered
                       if flow.answered < flow.round)
            current.say(f"{sent} of the {silent} silent ones were sent on, from their port")
        current.tell_drops()
        counts = (len(flows.flows) - FRESH, len(answered), held, moved, silent)
        others = (len(waiting), late, FRESH, soon, told)
        return (condition.name, *counts), (condition.name, *audit(current.observer)), (
            condition.name, *others)


def thousand(options):
    found = [try_condition(options, name) for name in options.conditions or CONDITIONS]
    heads = ["flows with an answer before the kill", "tried", "answered", "held", "moved", "silent"]
    show("flows", heads, [promised for promised, _, _ in found])
    heads = ["seen on the wires", "endpoints", "with two ports", "ports with two endpoints"]
    show("ports", heads, [wires for _, wires, _ in found])
    heads = ["pairs that box 1 didn't hold", "waited at the kill", "answered", "fresh",
             "answered", "after peer-off"]
    show("not promised", heads, [others for _, _, others in found])
    lost = sum(moved + silent for (_, _, _, _, moved, silent), _, _ in found)
    wrong = sum(twice + shared for _, (_, _, twice, shared), _ in found)
    return lost == 0 and wrong == 0
