"""Datagrams in fragments through the pair and to the boxes, by real hosts: large pings, a long answer of a name server, a
network that loses, doubles and turns round, a side that takes less, a kill in the middle, and two hosts that use one
identification. Beside it the same plain traffic with `pass` and without."""

import json
import re
import statistics
import subprocess
import time

from handover import SEEN_LATE, UNDER_WAY
from large import LATE, Flow, Raw, Server, ask_all, parts_of, text_of, warm
from pair import BEYOND, FOLDER, HOSTS, PYTHON, SERVER, SIDES
from packets import Packet, wholes
from rates import ask, serve_load, taken
from rfc_hosts import NEVER_CUT, UDP_PLACE, Hosts
from rfc_programs import output, places
from scene import audit, scene, settings_with, show
from wires import Wires, texts

# `ping`: so many in a run, and how many bytes of data each has.
PINGS, SIZES = 5, (3000, 65_000)
# The name server's port, how long its answers are, and how often each host asks.
DNS_PORT, ANSWER, QUESTIONS = 53, 4000, 10
# Behind lossy cables each host asks so often for so long, by so many bytes; an answer has six fragments each way.
LOSSY, LOSSY_AGAIN, LOSSY_SECONDS, ANSWERED = 8000, 0.04, 10.0, 0.6
# A datagram that isn't whole is given up within so many seconds, and is late by then.
GIVEN_UP = 4.5
# What the outside takes in `narrow`, the key that says so, and how long datagrams are there.
WIDTH = 1400
NARROW = ('router = "192.0.2.254"', f'router = "192.0.2.254"\nmtu = {WIDTH}')
LENGTHS = (1374, 1472, 3000, 65_400)
# In `kill` each host asks so often, by so many bytes. A ping may last for so long.
LARGE, AGAIN, LONG_RUN = 3000, 0.02, ("-c", "160", "-i", "0.05", "-W", "1", "-s", "3000")
# Two hosts' ends send so many datagrams each, one after so many seconds, all under one identification. Through a lossy cable
# such a share of them has to come; without a pair so many are enough.
ENDS, EACH, EACH_AGAIN, COME, ALONE, IDENTIFICATION = ((HOSTS[0], 6001), (HOSTS[1], 6002)), 200, 0.01, 0.9, 50, 0x1234
# The plain traffic: questions a second, for how long, and how often with `pass` and without. With it the gate may take so
# much more of a processor at most: times differ by much from run to run, and bench/gateway.py counts instructions.
RATE, SECONDS, TURNS, MORE = 5000, 4.0, 3, 1.5
WITHOUT = ("pass = true", "pass = false")


def counts(current, number, side):
    """What a box says of the fragments that came at a side, or were sent there."""
    box = current.boxes[number]
    said = json.loads(box.natpair("status", str(box.settings), "--id", str(number), "--json"))
    return said["fragments"][side]


def more(current, side, name):
    """A call that says by how much one of box 0's counts has grown."""
    before = counts(current, 0, side)[name]
    return lambda: counts(current, 0, side)[name] - before


def pinged(current, space, size, address):
    """How many pings are answered, each with all of its data as it was."""
    words = ("ping", "-n", "-c", str(PINGS), "-i", "0.2", "-W", "2", "-s", str(size), address)
    found = output(current, space, *words)
    return 0 if "wrong data" in found else found.count(f"{size + 8} bytes from {address}:")


def to_boxes(current, alive):
    """`ping` to all addresses at which boxes that run answer, from both sides."""
    for side, space in zip(SIDES, (current.networks.host, current.networks.router)):
        asked = places(current, side, alive)
        for size in SIZES:
            found = [pinged(current, space, size, address) for address in asked]
            yield (f"{side}: `ping -s {size}` to {', '.join(asked)}", f"{', '.join(map(str, found))} of {PINGS}",
                   set(found) == {PINGS})


def pings(current):
    """Through the pair, and to both boxes."""
    wires = Wires(current)
    for size in SIZES:
        found = pinged(current, current.networks.host, size, SERVER)
        yield f"`ping -s {size}` through the pair", f"{found} of {PINGS}", found == PINGS
    came, went = len(wholes(wires.came("inside"))), wires.cut_outward(0)
    yield ("each Echo goes out in fragments, under an identification of box 0's", f"{len(went)} of {came}",
           went == [2 * number for number in range(came)] != [])
    yield from to_boxes(current, (0, 1))


def answer(current):
    """A name server's answers, which are longer than a packet."""
    wires, program = Wires(current), (*PYTHON, str(FOLDER / "resolver.py"))
    server = current.networks.server.start(*program, "serve", SERVER, str(DNS_PORT), stdout=subprocess.PIPE)
    if server.stdout.readline() != b"serving\n":
        raise SystemExit("demo: the name server doesn't run")
    words = ("ask", SERVER, str(DNS_PORT), str(ANSWER), str(QUESTIONS), *HOSTS)
    asked, right, wrong = map(int, output(current, current.networks.host, *program, *words).split())
    yield (f"answers of {ANSWER:,} bytes come, as they were", f"{right} of {asked}, {wrong} otherwise",
           right == asked > wrong == 0)
    pieces = [len(frame) - 14 for frame in wires.sent("inside", 0) if Packet(frame).is_fragment]
    yield "each of them in three fragments", f"{len(pieces)}", len(pieces) == 3 * asked and max(pieces, default=0) == 1500


class Lossy:
    """A lossy cable between a side's switch and the host, or the router, at it."""

    def __init__(self, current, side, port, seed):
        space = current.networks.switches[side].space
        space.ip("link", "add", "name", "lossy0", "type", "veth", "peer", "name", "lossy1")
        for name in ("lossy0", "lossy1"):
            space.no_offload(name)
            space.ip("link", "set", "dev", name, "arp", "off", "up")
        space.ip("link", "set", "dev", "lossy1", "master", "bridge")
        space.ip("link", "set", "dev", port, "nomaster")
        words = (*PYTHON, str(FOLDER / "lossy.py"), port, "lossy0", str(seed))
        self.child = space.start(*words, stdin=subprocess.PIPE, stdout=subprocess.PIPE)
        if self.child.stdout.readline() != b"joined\n":
            raise SystemExit("demo: the lossy cable isn't joined")

    def end(self):
        """How many frames there were, and how many of them were lost, came twice and were late."""
        self.child.stdin.close()
        return list(map(int, self.child.stdout.read().split()))


def lossy(current):
    """Both ways, datagrams of which fragments are lost, doubled, and out of order."""
    server = Server(current)
    flows = [Flow(current, who, address, LOSSY) for who, address in enumerate(HOSTS)]
    warm(current, flows)
    cables = [Lossy(current, side, port, seed) for seed, (side, port) in enumerate(zip(SIDES, ("host", "router")), 1)]
    wires, gathered = Wires(current), {side: more(current, side, "whole") for side in SIDES}
    begun = time.monotonic()
    ask_all(current, flows, LOSSY_SECONDS, LOSSY_AGAIN)
    current.loop.until(lambda: False, LATE)
    frames, *changed = (sum(each) for each in zip(*(cable.end() for cable in cables)))
    yield f"of {frames:,} frames are lost, doubled, late", ", ".join(map(str, changed)), all(changed)
    for text, side, other in (("question", *SIDES), ("answer", *reversed(SIDES))):
        came, went, said = texts(wires.came(side)), texts(wires.sent(other, 0)), gathered[side]()
        yield (f"each {text} of which all fragments came goes on, once", f"{went.total()} of {came.total()}",
               came == went and came.total() > 0)
        yield f"so many {text}s box 0 has put together", str(said), said == came.total()
    asked = sum(moment >= begun for flow in flows for moment in flow.moments)
    lost = sum(len(flow.lost(begun)) for flow in flows)
    yield f"of {asked} questions {ANSWERED:.0%} are answered", str(asked - lost), asked - lost >= ANSWERED * asked > 0
    wrong = server.wrong + sum(flow.wrong for flow in flows)
    yield "no text is joined wrongly, or lacks a byte", f"{wrong} wrong", wrong == 0
    yield "the switches' frames that weren't seen", str(unseen := wires.unseen()), unseen == 0
    yield from given_up(current)


def given_up(current):
    """What stays incomplete is given up."""
    current.loop.until(lambda: False, GIVEN_UP)
    for side in SIDES:
        said = counts(current, 0, side)
        yield (f"{side}: what stays incomplete is given up", f"{said['late']} late, {said['incomplete']} left",
               said["late"] > 0 == said["incomplete"])


def narrow(current):
    """An outside that takes less than the hosts' network."""
    server, wires = Server(current), Wires(current)
    for who, size in enumerate(LENGTHS):
        flow = Flow(current, who, HOSTS[who], size)
        ask_all(current, [flow], 10, LATE, lambda flow=flow: flow.heard)
        yield (f"a host's datagram of {size + 28:,} bytes comes, and its answer", "both do" if flow.heard else "nothing",
               bool(flow.heard) and server.wrong == flow.wrong == 0)
    hosts = Hosts(current, current.stack)
    told, most = hosts.told(UDP_PLACE, WIDTH)
    yield f"one of {WIDTH + 28:,} bytes that isn't to be cut: its sender is told", f"{told}, {most:,}", (told, most) == (
        "Message too long", WIDTH)
    hosts.widen()
    fits = hosts.datagram(WIDTH - 28, NEVER_CUT)
    yield f"one of {WIDTH:,} bytes that isn't to be cut comes", "it does" if fits else "nothing", fits
    hosts.widen()
    found = pinged(current, current.networks.router, SIZES[0], current.networks.settings["outside"]["virtual"])
    yield f"outside: `ping -s {SIZES[0]}` to the outside address", f"{found} of {PINGS}", found == PINGS
    longest = max((Packet(frame).length for frame in wires.sent("outside", 0)), default=0)
    yield f"no packet that box 0 sends outside has more than {WIDTH:,} bytes", f"{longest:,}", WIDTH - 8 < longest <= WIDTH


def missing(text):
    """Which pings of a run have no answer, and how many have one."""
    found = {int(number) for number in re.findall(r"icmp_seq=(\d+) ttl", text)}
    return [number for number in range(1, max(found, default=0) + 1) if number not in found], len(found)


def kill(current):
    """The Active box is killed while each host asks by large datagrams, and one has sent a part of a datagram."""
    server, wires, raw = Server(current), Wires(current), Raw(current, current.networks.host)
    flows = [Flow(current, who, address, LARGE) for who, address in enumerate(HOSTS)]
    begun = warm(current, flows)
    child = current.networks.host.start("ping", "-n", *LONG_RUN, SERVER, stdout=subprocess.PIPE)
    ask_all(current, flows, 1.0, AGAIN)
    *parts, last = parts_of((HOSTS[0], 6100), text_of(len(HOSTS), 1, LARGE), IDENTIFICATION)
    raw.send(*parts)
    ask_all(current, flows, AGAIN, AGAIN)
    killed = current.kill(0)
    ask_all(current, flows, 15, AGAIN, lambda: current.observer.active(1))
    current.tell_takeover(1, killed)
    raw.send(last)
    ask_all(current, flows, 15, AGAIN, lambda: child.poll() is not None)
    current.loop.until(lambda: False, LATE)
    yield from through_the_kill(current, server, flows, begun, killed)
    lost, answered = missing(child.communicate()[0].decode())
    is_one_gap = not lost or lost[-1] - lost[0] == len(lost) - 1
    yield ("the `ping -s 3000` beside it lacks the answers of one gap", f"{len(lost)}, and has {answered}",
           is_one_gap and answered > 0)
    for number in (0, 1):
        names = wires.cut_outward(number)
        wanted = [(2 * each + number) % 65536 for each in range(len(names))]
        yield (f"what box {number} cuts has identifications {number}, {number + 2}, and so on", f"{len(names)} packets",
               names == wanted != [])
    yield from to_boxes(current, (1,))


def through_the_kill(current, server, flows, begun, killed):
    """What became of the questions that were asked all the while."""
    active = current.observer.took_over(1, killed) or killed
    lost = sorted(moment for flow in flows for moment in flow.lost(begun))
    asked, held = sum(len(flow.moments) for flow in flows), sum(len(flow.ports) == 1 for flow in flows)
    when = f", {lost[0] - killed:.2f} to {lost[-1] - killed:.2f} s after the kill" if lost else ""
    yield (f"of {asked} questions of {LARGE:,} bytes those of the outage are lost", f"{len(lost)}{when}",
           bool(lost) and lost[0] > killed - UNDER_WAY and lost[-1] < active + SEEN_LATE)
    yield "each flow has its port before and after", f"{held} of {len(flows)}", held == len(flows)
    wrong, half = server.wrong + sum(flow.wrong for flow in flows), (len(HOSTS), 1) in server.right
    yield "no text is joined wrongly, or lacks a byte", f"{wrong} wrong", wrong == 0
    yield "the datagram of which each box had a part doesn't come", "it does" if half else "it doesn't", not half
    endpoints, twice, shared = audit(current.observer)
    yield (f"of {endpoints} endpoints none has two ports, and no port has two", f"{twice}, {shared}",
           twice == shared == 0 < endpoints)


def send_from_both(current, raw, both, count):
    """Two ends send so many datagrams each: the fragments of one in order, those of the other in the opposite one, between
    them."""
    for number in range(1, count + 1):
        first, other = (parts_of(end, text_of(who, number, LARGE), IDENTIFICATION) for who, end in enumerate(both))
        raw.send(*(part for parts in zip(first, reversed(other)) for part in parts))
        current.loop.until(lambda: False, EACH_AGAIN)
    current.loop.until(lambda: False, LATE)


def identification(current):
    """Two hosts use one identification towards one receiver, behind a network that loses and turns round."""
    server, raw = Server(current, False), Raw(current, current.networks.host)
    send_from_both(current, Raw(current, current.networks.router), ((BEYOND, 6001), (BEYOND, 6002)), ALONE)
    yield (f"without a pair, by one address: of {2 * ALONE} datagrams some are joined wrongly", f"{server.wrong} wrong",
           server.wrong > 0)
    # The first packet of each waits for its pair.
    send_from_both(current, raw, ENDS, 1)
    server.right, server.wrong = [], 0
    cable, wires, cut = Lossy(current, "outside", "router", 3), Wires(current), more(current, "outside", "cut")
    send_from_both(current, raw, ENDS, EACH)
    names, said, right = wires.cut_outward(0), cut(), len(set(server.right))
    yield f"{2 * EACH} leave the pair, each under an identification of its own", f"{len(set(names))}", (
        len(set(names)) == len(names) == 2 * EACH)
    yield "so many packets box 0 says it has cut", str(said), said == 2 * EACH
    changed = cable.end()[1:]
    yield "then fragments are lost, doubled, late", ", ".join(map(str, changed)), all(changed)
    yield (f"{COME:.0%} come all the same, and none is joined wrongly", f"{right}, {server.wrong} wrong",
           right >= COME * 2 * EACH and server.wrong == 0)


def plain_turn(options, passes):
    """A pair with `pass`, or without: the load's lost questions, what the gate took, whether a large datagram comes, how often
    a fragment was dropped, and how many were taken of the load."""
    with settings_with(*[WITHOUT] * (not passes)) as file, scene(options, None, False, settings=file) as current:
        serve_load(current)
        before = taken(current.boxes[0])
        lost, took = ask(current, RATE, SECONDS)[2], taken(current.boxes[0]) - before
        fragments_taken = sum(counts(current, 0, side)["taken"] for side in SIDES)
        server, flow = Server(current), Flow(current, 0, HOSTS[0], LARGE)
        ask_all(current, [flow], 2 * LATE, LATE, lambda: flow.heard)
        dropped = current.boxes[0].dropped().get("inside dropped 6 Fragment", 0)
        return lost, took, bool(flow.heard) and server.wrong == 0, dropped, fragments_taken


def plain(options):
    """The same packets, none of them a fragment, with `pass` and without, in turns."""
    turns = [plain_turn(options, passes) for _ in range(TURNS) for passes in (False, True)]
    yield from plain_lines("without `pass`", False, turns[::2])
    yield from plain_lines("with `pass`", True, turns[1::2])
    without, with_it = (statistics.median(turn[1] for turn in found) for found in (turns[::2], turns[1::2]))
    ratio = with_it / max(without, 0.01)
    yield f"with it the gate takes {MORE} times as much at most", f"{ratio:.2f}", ratio <= MORE


def plain_lines(name, is_on, turns):
    """What turns of one kind came to."""
    lost, times, came, dropped, fragments_taken = zip(*turns)
    each = ", ".join(f"{seconds:.2f} s" for seconds in times)
    yield f"{name} no question is lost; the gate took", f"{', '.join(map(str, lost))} lost; {each}", not any(lost)
    yield (f"{name} a datagram of {LARGE + 28:,} bytes {'comes' if is_on else 'is dropped with 6'}",
           f"{sum(came)} of {TURNS}, {sum(map(bool, dropped))} times 6",
           set(came) == {is_on} and set(map(bool, dropped)) == {not is_on})
    yield f"{name} no fragment is taken of the load", str(sum(fragments_taken)), not any(fragments_taken)


CONDITIONS = {"pings": pings, "answer": answer, "lossy": lossy, "narrow": narrow, "kill": kill,
              "identification": identification, "plain": plain}


def try_condition(options, name):
    """A condition's lines."""
    print(f"\n{name}", flush=True)
    if name == "plain":
        return list(plain(options))
    capture = options.capture and options.capture / name
    with settings_with(*[NARROW] * (name == "narrow")) as file, scene(options, capture, settings=file) as current:
        lines = list(CONDITIONS[name](current))
        current.tell_drops()
    return lines


def fragments(options):
    lines = [(name, *line) for name in options.conditions or CONDITIONS for line in try_condition(options, name)]
    show("fragments", ["", "expected", "seen", ""], [(*line, "so" if holds else "NOT SO") for *line, holds in lines], left=True)
    wrong = sum(not holds for *_, holds in lines)
    print(f"{len(lines)} checks, {wrong} of them not so", flush=True)
    return wrong == 0
