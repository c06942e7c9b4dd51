"""What a stranger or a single host can do to a pair: with each guard and without it.

Where a guard is a setting, both are tried by one program. Where it is none, what there was before it is shown by a
program of a release before, where one is named.
"""

import argparse
import json
import socket
import subprocess
import time
from typing import NamedTuple

import guards_sim
from cards import card
from download import follow
from flows import PORT
from packets import ARP, IPV4, UDP, Advert, Station, arp_reply, arp_request, ethernet, ip_bytes, ipv4, is_arp, udp, virtual_mac
from pair import FOLDER, HOSTS, PYTHON, ROUTER, SERVER
from rates import LOAD_PORT, serve_load
from scene import Probe, scene, settings_with, show
from wires import mac_of

# So long the world is looked at behind an attack that lasts.
PATIENCE = 20
# Whoever isn't answered for so many seconds is silent; what is asked again at once is answered within so many.
SILENT, HEALED = 0.5, 1.6
ATTACKER = bytes.fromhex("020000000066")
# A network with room for more hosts than a box keeps neighbours, and how fast they speak, for how long.
WIDE_INSIDE = ("prefix = 24\nvrid = 11", "prefix = 16\nvrid = 11")
SENDERS, FLOOD_RATE, FLOOD_SECONDS = 60_000, 20_000, 4
# Questions a second of the hosts meanwhile. A box that forgot them asks for them more often than for each once.
ASKED = 500
# One host's new flows, and then those of each other host, while the other box stands still for so many seconds.
FIRST, OTHERS, STILL = 100, 6, 1.0
PEER_ONLY = ("[gateway_0]", "[vrrp]\npeer_only = true\n\n[gateway_0]")
OUTWARD_ALONE = ("one = [40000, 59999]", "one = [40000, 59999]\ninward_refresh = false")
# A resolver asks so often, each time by a new port. Of so many questions a stranger who names two ports of 20,000 meets the
# port of some by chance, and hardly ever more than that.
QUESTIONS, BY_CHANCE = 400, 3
DRAWN = ("one = [40000, 59999]", 'one = [40000, 59999]\nchoice = "drawn"')
QUESTION, FORGED = b"flow 1 1\n", b"forged\n"
# A question that has no answer is asked again each second, and so often.
TRIES = 10
# Box 0 has so many ports; once they are used up, so many flows begin, so many a second. The other box gives 16 ports at a
# time: where it is asked once none is left, one of each 17 loses its first packet at least.
OWN, BEYOND_OWN, A_SECOND, EACH = 100, 600, 300, 17
FEW_OWN = ("zero = [20000, 39999]", f"zero = [20000, {20_000 + OWN - 1}]")
AHEAD = ("one = [40000, 59999]", "one = [40000, 59999]\nahead = 64")
NO_PORT = "inside dropped 14 NoPort"
# By a slip the file of box 1 has ranges that overlap those of box 0's.
OVERLAP = ("zero = [20000, 39999]\none = [40000, 59999]", "zero = [20000, 29999]\none = [30000, 59999]")
# So long two boxes hear each other before they are asked.
MEETING = 5
# A box tells the drops of a second when it has ended.
TOLD = 1.3

LISTED = ("outside_port = 7022", 'outside_port = 7022\n\n[[neighbour]]\nside = "outside"\nip = "192.0.2.254"\n'
          'mac = "02-00-00-00-00-FE"')


class Way(NamedTuple):
    """One way to run an attack: by which program, with which changes of the settings, and whether the guard is there."""

    name: str
    program: str
    changes: tuple
    is_guarded: bool


class Line(NamedTuple):
    """A row of the table."""

    attack: str
    way: str
    owed: str
    seen: str
    holds: bool


def by_setting(options, change, *always):
    """The guard is a setting: without it, and with it."""
    return [Way("setting off", options.program, always, False),
            Way("setting on", options.program, (change, *always), True)]


def by_program(options, *always):
    """The guard is no setting: the program before it, where there is one, and today's."""
    before = [Way("before", options.older, always, False)] if options.older else []
    return [*before, Way("today", options.program, always, True)]


def with_program(options, program):
    return argparse.Namespace(**{**vars(options), "program": program})


def in_scene(options, way, attack):
    """What an attack on a fresh pair comes to."""
    with settings_with(*way.changes) as file:
        with scene(with_program(options, way.program), options.capture, bool(options.capture), file) as current:
            found = attack(current)
            current.tell_drops()
            return found


class Silence:
    """A UDP flow that asks each 20 ms, and for how long it wasn't answered behind an attack."""

    def __init__(self, current):
        self.current = current
        self.probe = Probe(current)
        follow(current, self.probe, lambda: self.probe.flow.answered > 10, 10)

    def behind(self, attack):
        """The longest time without an answer, of PATIENCE seconds; these are over early where it was answered again."""
        self.probe.gap, self.probe.last = 0.0, time.monotonic()
        attack()
        follow(self.current, self.probe, lambda: self.probe.gap > SILENT, PATIENCE)
        follow(self.current, self.probe, lambda: False, 2 * HEALED)
        return max(self.probe.gap, time.monotonic() - self.probe.last)


def card_of(current, space):
    with space.entered():
        sock = card("eth0")
    current.stack.callback(sock.close)
    return sock


def forged_router(current):
    """One ARP reply to box 0 that says that the router has another MAC."""
    own = current.networks.settings["gateway_0"]
    asked = bytes(22) + mac_of(own["outside_mac"]) + ip_bytes(own["outside_ip"])
    frame = arp_reply(Station("outside", ROUTER, ATTACKER), asked)
    sock = card_of(current, current.networks.router)
    return Silence(current).behind(lambda: sock.send(frame))


def told_silence(seconds):
    return f"no answer for {seconds:.1f} s" if seconds > SILENT else "answered all the time"


def router(options):
    """A forged ARP reply for the router, of which the hosts' network knows nothing."""
    for way in by_program(options):
        seconds = in_scene(options, way, forged_router)
        owed = f"answered again within {HEALED} s" if way.is_guarded else f"silent for {PATIENCE} s and more"
        holds = seconds < HEALED if way.is_guarded else seconds > PATIENCE - SILENT
        yield Line("forged ARP for the router", way.name, owed, told_silence(seconds), holds)


def forged_advertisement(current):
    """One advertisement of the highest priority and the longest interval, from a host inside. It comes from the virtual
    router's MAC, as each does: the switch sends what is for that MAC to the host until the Active box advertises again."""
    inside = current.networks.settings["inside"]
    frame = Advert(inside["vrid"], 255, "192.168.1.66", inside["virtual"], interval=4095).frame()
    sock = card_of(current, current.networks.host)
    silence = Silence(current)
    return silence.behind(lambda: sock.send(frame)), sum(
        count for box in current.boxes for name, count in box.dropped().items() if name == "inside dropped 11 BadAdvert")


def advert(options):
    """The side is silent until the down interval that was advertised is over."""
    for way in by_setting(options, PEER_ONLY):
        seconds, dropped = in_scene(options, way, forged_advertisement)
        owed = f"dropped by both, answered again in {HEALED} s" if way.is_guarded else f"silent for {PATIENCE} s and more"
        holds = seconds < HEALED and dropped == 2 if way.is_guarded else seconds > PATIENCE - SILENT
        seen = f"{told_silence(seconds)}, dropped {dropped} times"
        yield Line("forged advertisement", way.name, owed, seen, holds)


def speakers():
    """ARP packets of many stations inside, each of which asks for itself, over and over."""
    while True:
        for number in range(SENDERS):
            address = f"192.168.{2 + number // 250}.{1 + number % 250}"
            mac = b"\x02\0\1" + number.to_bytes(3, "big")
            yield arp_request(Station("inside", address, mac), address)


class Requests:
    """How often box 0 asks for the hosts, which it has to once it has forgotten them."""

    def __init__(self, current):
        self.own = mac_of(current.networks.settings["gateway_0"]["inside_mac"])
        self.hosts = {ip_bytes(host) for host in HOSTS}
        self.count = 0
        with current.networks.host.entered():
            self.sock = socket.socket(socket.AF_PACKET, socket.SOCK_RAW, 0)
            self.sock.bind(("eth0", ARP))
        self.sock.setblocking(False)
        current.stack.callback(self.sock.close)
        current.loop.watch(self.sock, self.look)

    def look(self):
        """Takes frames that are there, and not more than leave time for others."""
        try:
            for _ in range(64):
                frame = self.sock.recv(2048)
                self.count += frame[6:12] == self.own and is_arp(frame, 1) and frame[38:42] in self.hosts
        except BlockingIOError:
            pass


def flooded(current):
    """Which share of a load is answered while everybody inside speaks, and how often its hosts are asked for."""
    serve_load(current)
    requests = Requests(current)
    words = ("ask", SERVER, str(LOAD_PORT), str(ASKED), str(FLOOD_SECONDS))
    child = current.networks.host.start(*PYTHON, str(FOLDER / "load.py"), *words, stdout=subprocess.PIPE, text=True)
    sock, frames, sent = card_of(current, current.networks.host), speakers(), 0
    begun = time.monotonic()
    while child.poll() is None:
        current.loop.turn(0.001)
        while child.poll() is None and sent < (time.monotonic() - begun) * FLOOD_RATE:
            try:
                sock.send(next(frames))
                sent += 1
            except BlockingIOError:
                break
    current.loop.until(lambda: False, 0.2)
    asked, answered, _ = map(int, child.stdout.read().split())
    return answered / asked, requests.count, sent / (time.monotonic() - begun)


def flood(options):
    for way in by_program(options, WIDE_INSIDE):
        share, count, rate = in_scene(options, way, flooded)
        owed = "hosts in use are known all the time" if way.is_guarded else "they are forgotten, and asked for"
        holds = count <= len(HOSTS) if way.is_guarded else count > len(HOSTS)
        seen = f"{count} requests, {share:.1%} answered, at {rate:,.0f} a second"
        yield Line("ARP packets of all stations", way.name, owed, seen, holds)


def ask_from(current, host):
    """A socket of a host that has asked the server once, and hears nobody else."""
    with current.networks.host.entered():
        sock = socket.socket(socket.AF_INET, socket.SOCK_DGRAM)
    current.stack.callback(sock.close)
    sock.setblocking(False)
    sock.bind((host, 0))
    sock.connect((SERVER, PORT))
    sock.send(QUESTION)
    return sock


def answer_of(sock):
    """What a socket has heard, if anything is there."""
    try:
        return sock.recv(2048)
    except OSError:
        return b""


def is_answered(sock):
    return bool(answer_of(sock))


class Question:
    """A host's question by a port of its own, and all that comes to that port."""

    def __init__(self, current, host):
        self.current = current
        self.sock = ask_from(current, host)
        self.heard = []

    def hear(self):
        while text := answer_of(self.sock):
            self.heard.append(text)
        return self.heard

    def answer(self):
        return next((text for text in self.hear() if text != FORGED), None)

    def port(self):
        """From which outside port the server saw it, as its answer says."""
        for _ in range(TRIES):
            if self.current.loop.until(self.answer, 1.0):
                return int(self.answer().split()[5])
            self.sock.send(QUESTION)
        raise SystemExit(f"demo: a question isn't answered in {TRIES} s")


def greedy_host(current):
    """Each host is answered once, so that box 0 knows its MAC. Then the other box stands still; one host opens many flows,
    and then the others some: how many of theirs are answered, none of which asks twice."""
    for host in HOSTS:
        first = ask_from(current, host)
        current.loop.until(lambda sock=first: is_answered(sock), 10)
    current.boxes[1].halt()
    flows = [(host, FIRST if host == HOSTS[0] else OTHERS) for host in HOSTS]
    socks = [(host, ask_from(current, host)) for host, count in flows for _ in range(count)]
    current.loop.until(lambda: False, STILL)
    current.boxes[1].go_on()
    answered = {host: 0 for host in HOSTS}

    def is_over():
        for host, sock in socks:
            answered[host] += is_answered(sock)
        return sum(answered.values()) == len(socks)

    current.loop.until(is_over, 3)
    return answered[HOSTS[0]], sum(answered[host] for host in HOSTS[1:])


def places(options):
    owed_others = OTHERS * len(HOSTS[1:])
    for way in by_program(options):
        own, others = in_scene(options, way, greedy_host)
        owed = f"the others' {owed_others} flows are answered" if way.is_guarded else "none of the others' is answered"
        holds = others == owed_others if way.is_guarded else others == 0
        yield Line("one host opens 100 flows", way.name, owed, f"{others} of {owed_others}, {own} of its own", holds)


class Stranger:
    """Sees the outside port of each question once it is answered, names two for the next one, and forges answers to them."""

    def __init__(self, current):
        outside = current.networks.settings["outside"]
        self.virtual, self.mac = outside["virtual"], virtual_mac(outside["vrid"])
        self.sock = card_of(current, current.networks.router)
        self.last = {0: 19_998, 1: 19_999}

    def names(self):
        """The next port behind the last one that it has seen, of each parity."""
        return [port + 2 for port in self.last.values()]

    def forge(self, ports):
        """An answer in the server's name to each port."""
        for port in ports:
            packet = ipv4(SERVER, self.virtual, UDP, udp((SERVER, PORT), (self.virtual, port), FORGED))
            self.sock.send(ethernet(self.mac, ATTACKER, IPV4, packet))


def guessed(current):
    """A resolver asks, each time by a new port; how many of its questions have a port that a stranger has named before, and how
    many of these hear the answer that he forged to it."""
    stranger, asked, met = Stranger(current), [], []
    for _ in range(QUESTIONS):
        named = stranger.names()
        asked.append(Question(current, HOSTS[0]))
        port = asked[-1].port()
        if port in named:
            met.append(asked[-1])
        stranger.last[port % 2] = port
        stranger.forge(named)
    current.loop.until(lambda: False, SILENT)
    return len(met), sum(FORGED in question.hear() for question in met)


def next_port(options):
    for way in by_setting(options, DRAWN):
        met, heard = in_scene(options, way, guessed)
        owed = f"at most {BY_CHANCE} of {QUESTIONS} are met" if way.is_guarded else "each is met"
        holds = heard == met and (met <= BY_CHANCE if way.is_guarded else met == QUESTIONS)
        seen = f"{met} of {QUESTIONS}, {heard} of them hear a forged answer"
        yield Line("a stranger names two ports for a resolver's next question", way.name, owed, seen, holds)


def begin_flows(current):
    """Begins many flows, each by one packet: their sockets, and how many a second they were."""
    begun, socks = time.monotonic(), []
    while len(socks) < BEYOND_OWN:
        current.loop.turn(0.001)
        if time.monotonic() >= begun + len(socks) / A_SECOND:
            socks.append(ask_from(current, HOSTS[len(socks) % len(HOSTS)]))
    return socks, len(socks) / (time.monotonic() - begun)


def first_packets(current):
    """So many flows begin as box 0 has ports of its own, and then many more: how many of these have no answer to their one packet, how many packets
    were dropped for want of a port, and how fast the flows began."""
    for number in range(OWN):
        Question(current, HOSTS[number % len(HOSTS)]).port()
    socks, rate = begin_flows(current)
    waiting = set(socks)

    def is_over():
        waiting.difference_update({sock for sock in waiting if is_answered(sock)})
        return not waiting

    current.loop.until(is_over, 3)
    current.loop.until(lambda: False, TOLD)
    return len(waiting), current.boxes[0].dropped().get(NO_PORT, 0), rate


def ahead(options):
    fewest = -(-BEYOND_OWN // EACH)
    for way in by_setting(options, AHEAD, FEW_OWN):
        lost, dropped, rate = in_scene(options, way, first_packets)
        owed = "none loses its first packet" if way.is_guarded else f"{fewest} and more of {BEYOND_OWN} lose their first packet"
        fits = lost == dropped == 0 if way.is_guarded else fewest <= lost <= 3 * fewest and lost == dropped
        holds = fits and rate >= 0.9 * A_SECOND
        seen = f"{lost} of {BEYOND_OWN}, {dropped} for want of a port, at {rate:.0f} a second"
        yield Line("flows begin beyond a box's own ports", way.name, owed, seen, holds)


def differing(box):
    """The keys in which the other box runs on other settings, as this one says."""
    said = json.loads(box.natpair("status", str(box.settings), "--id", str(box.number), "--json"))
    found = said.get("other_settings", {})
    return [each["key"] for each in found["differing"]] if found.get("now") else []


def slipped(current):
    """Box 1 starts again with a file whose ranges overlap: whether it has a table then, what each box says of the other's
    settings, and for how long a flow wasn't answered meanwhile."""
    def start_anew():
        with settings_with(OVERLAP) as file:
            path = current.networks.folder / "slip.toml"
            path.write_text(file.read_text(encoding="utf-8"), encoding="utf-8")
        current.kill(1)
        current.boxes[1].settings = path
        current.boxes[1].start()

    silent = Silence(current).behind(start_anew)
    current.loop.until(lambda: False, MEETING)
    return current.boxes[1].is_synced(), [differing(box) for box in current.boxes], silent


def overlap(options):
    ranges = ["ports.zero", "ports.one"]
    for way in by_program(options):
        synced, said, silent = in_scene(options, way, slipped)
        told = "both boxes name " + " and ".join(ranges) if said == [ranges, ranges] else f"said is {said}"
        table = "a table" if synced else "no table"
        owed = "no table, both boxes name the ranges" if way.is_guarded else "a table, and nobody says so"
        holds = (not synced and said == [ranges, ranges] and silent <= SILENT) if way.is_guarded else synced and said == [[], []]
        yield Line("box 1 starts on ranges that overlap", way.name, owed, f"{table}, {told}, {told_silence(silent)}", holds)


def by_sim(options, ways, attack):
    """What an attack comes to in `natpair sim`, of which a way's changes are the settings."""
    for way in ways:
        with settings_with(*way.changes) as file:
            for name, owed, seen, holds in attack(way.program, file, way.is_guarded):
                yield Line(name, way.name, owed, seen, holds)


def routes(options):
    yield from by_sim(options, by_program(options), guards_sim.routes)


def neighbours(options):
    yield from by_sim(options, by_program(options, WIDE_INSIDE), guards_sim.neighbours)


def moved(options):
    yield from by_sim(options, by_program(options), guards_sim.moved)


def host(options):
    yield from by_sim(options, by_program(options), guards_sim.forged_host)


def listed(options):
    yield from by_sim(options, by_setting(options, LISTED), guards_sim.listed)


def pairs(options):
    """What comes inward keeps a pair of UDP or of a ping where the setting is left out; of TCP it kept one before."""
    yield from by_sim(options, by_setting(options, OUTWARD_ALONE), guards_sim.pairs)
    yield from by_sim(options, by_program(options), guards_sim.connections)


def ports(options):
    few = ("zero = [20000, 39999]", "zero = [20000, 20009]")
    yield from by_sim(options, by_setting(options, OUTWARD_ALONE, few), guards_sim.datagrams_refused)
    yield from by_sim(options, by_program(options, few), guards_sim.segments_refused)


CONDITIONS = {"router": router, "advert": advert, "flood": flood, "places": places, "routes": routes,
              "neighbours": neighbours, "moved": moved, "host": host, "listed": listed, "pairs": pairs, "ports": ports,
              "next": next_port, "ahead": ahead, "overlap": overlap}


def guards(options):
    lines = [line for name in options.conditions or CONDITIONS for line in CONDITIONS[name](options)]
    show("guards", ["attack", "", "owed", "seen", ""],
         [(*line[:4], "so" if line.holds else "NOT SO") for line in lines], left=True)
    wrong = sum(not line.holds for line in lines)
    print(f"{len(lines)} lines, {wrong} of them not so", flush=True)
    return wrong == 0
