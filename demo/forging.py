"""Whoever sends as the other box, without being that: datagrams with the link's two ends, from elsewhere."""

import argparse
import contextlib
import os
import pwd
import socket
import time
import tomllib
from typing import NamedTuple

from cards import card
from flows import PATIENCE, Flows, verdict
from namespaces import Namespace
from packets import EVERYBODY, IPV4, UDP, Header, ethernet, ip_bytes, ipv4, udp
from pair import HOSTS, LINK_ADDRESSES, SETTINGS, SIDES
from scene import scene, show

FLOWS = 20
WINDOW = 48
# So many new flows are opened after each try; those that the pair takes have an answer within so many seconds.
FRESH = 15
SOON = 5
# A boot that no box has for a long time: each later one of the other box is Stale to whoever takes it.
FALSE_BOOT = 1 << 62
# A boot is a small number: these are guessed.
GUESSES = range(1, 9)
# The farthest that a TTL gets: a box that is next door sends with it, and so does whoever forges its datagrams.
NEAR = 255
# A host inside has a server at this port, which nobody outside is to reach. By these ports, one of each box's range,
# somebody would.
SHUT_PORT = 22
OPENED = (21_000, 41_000)
SECRET = b"inside\n"
# The networks of a management interface, and their stations.
MANAGEMENT = "10.7.0"
STRANGE_USER = "daemon"
FORGER_MAC = b"\x02\0\0\0\0\x99"
# What a try came to.
THROUGH, HELD = "gets through", "nothing changes"


def values():
    """The bytes of a datagram that say on which settings its sender runs. A forger may well know them."""
    settings = tomllib.loads(SETTINGS.read_text(encoding="utf-8"))
    ports = [port for name in ("zero", "one") for port in settings["ports"][name]]
    sides = [settings[name] for name in ("inside", "outside")]
    return (b"".join(port.to_bytes(2, "big") for port in ports) + b"".join(ip_bytes(side["virtual"]) for side in sides)
            + bytes(side["prefix"] for side in sides))


def header(sender, receiver_boot, count):
    return (b"NP\x04" + bytes((sender,)) + FALSE_BOOT.to_bytes(8, "big") + receiver_boot.to_bytes(8, "big") + values()
            + b"\0" + (0).to_bytes(8, "big") + (1).to_bytes(8, "big") + bytes((count,)))


def install(sender):
    """The record by which a port of the sender's range is the shut port of the first host."""
    return (b"\x01\x06" + OPENED[sender].to_bytes(2, "big") + ip_bytes(HOSTS[0]) + SHUT_PORT.to_bytes(2, "big"))


def forged(sender):
    """What a false box says: that it starts, and then, with each guess of the boot to which it speaks, that it has a
    pair."""
    return [header(sender, 0, 0)] + [header(sender, guess, 1) + install(sender) for guess in GUESSES]


def frames_for(box, mac, ttl):
    """The frames that carry them, to everybody and to an interface's own address."""
    own, other = ((LINK_ADDRESSES[n], box.link_port) for n in (box.number, 1 - box.number))
    for datagram in forged(1 - box.number):
        packet = ipv4(other[0], own[0], UDP, udp(other, own, datagram), Header(ttl=ttl))
        for target in (EVERYBODY, mac):
            yield ethernet(target, FORGER_MAC, IPV4, packet)


class Way(NamedTuple):
    """By what a forger's frames come to a box: where they are sent, and the box's interface at which they come in."""

    space: Namespace
    name: str
    at: str


def send_forged(box, way, ttl=NEAR):
    """Sends them all; how many the system took."""
    with box.space.entered(), card(way.at) as sock:
        mac = sock.getsockname()[4]
    with way.space.entered(), card(way.name) as sock:
        return sum(sock.send(frame) > 0 for frame in frames_for(box, mac, ttl))


def filters(box, **values):
    """Whether the kernel asks for the way back of what comes in, by interface: for none where it isn't said."""
    for name in ("all", "link", *values):
        box.space.sysctl(f"ipv4/conf/{name}/rp_filter", values.get(name, 0))


def shut(box):
    """By nftables, what is for an address of the box comes by the interface of that address alone, as OPERATING has it
    for sockets that the gate opens."""
    own = {"link": LINK_ADDRESSES[box.number]}
    if box.options.sides == "vxlan":
        own |= {side: box.tunnel(side)[0] for side in SIDES}
    box.space.run("nft", "add", "table", "ip", "natpair")
    box.space.run("nft", "add", "chain", "ip", "natpair", "early", "{ type filter hook prerouting priority -450; }")
    for name, address in own.items():
        box.space.run("nft", "add", "rule", "ip", "natpair", "early",
                      f'iifname != {{ "{name}", "lo" }} ip daddr {address} drop')


def side_way(current, box, side):
    """From a host of that network. By VXLAN its interface is where the tunnel's datagrams come in."""
    if current.options.sides == "vxlan":
        return Way(current.networks.switches[side].space, f"box{box.number}", side)
    return Way({"inside": current.networks.host, "outside": current.networks.router}[side], "eth0", side)


def management_way(current, box):
    """From a station of another network at which the box's machine has an address. It is made once."""
    if box.number not in current.stations:
        station = Namespace("management")
        current.stack.callback(station.close)
        station.cable("eth0", box.space, "management")
        box.space.ip("addr", "add", f"{MANAGEMENT}.{box.number + 1}/24", "dev", "management")
        current.stations[box.number] = station
    return Way(current.stations[box.number], "eth0", "management")


def by_frames(way_of, ttl=NEAR, **values):
    """A place from which frames come to both boxes, with the kernel's filters of the way back set so."""

    def try_it(current):
        sent = 0
        for box in current.boxes:
            way = way_of(current, box)
            filters(box, **values)
            sent += send_forged(box, way, ttl)
        return sent

    return try_it


def at_side(side):
    return by_frames(lambda current, box: side_way(current, box, side), inside=0, outside=0)


def other_end(name):
    """A place at the other end of a cable of a box's own: who sits there is the other box's machine."""
    return lambda current, box: Way(current.boxes[1 - box.number].space, name, name)


def bind_as_other(own):
    """A socket of a user at the link's own end, or where that can't be had at any port: whether it could, and the
    socket."""
    sock = socket.socket(socket.AF_INET, socket.SOCK_DGRAM)
    sock.setsockopt(socket.IPPROTO_IP, socket.IP_TTL, NEAR)
    for place in (own, ("0.0.0.0", own[1])):
        with contextlib.suppress(OSError):
            sock.bind(place)
            return True, sock
    sock.bind((own[0], 0))
    return False, sock


def hold_end(box, read, write):
    """A child of the user's, who sends from a box's end of the link, and holds that until it is told to let go."""
    own, other = ((LINK_ADDRESSES[n], box.link_port) for n in (box.number, 1 - box.number))
    user = pwd.getpwnam(STRANGE_USER)
    os.setgroups([])
    os.setresgid(user.pw_gid, user.pw_gid, user.pw_gid)
    os.setresuid(user.pw_uid, user.pw_uid, user.pw_uid)
    has_end, sock = bind_as_other(own)
    sent = 0
    for datagram in forged(box.number):
        with contextlib.suppress(OSError):
            sent += sock.sendto(datagram, other) > 0
    os.write(write, f"{sent} {int(has_end)}\n".encode("ascii"))
    os.read(read, 1)


def as_user(current):
    """Another user of box 1's machine, while that box is down: he sends from its end, and goes on holding it as the box
    starts again."""
    box = current.boxes[1]
    current.kill(1)
    told, tell = os.pipe()
    hear, say = os.pipe()
    with box.space.entered():
        child = os.fork()
        if not child:
            with contextlib.suppress(BaseException):
                hold_end(box, told, say)
            os._exit(0)
    sent, has_end = map(int, os.read(hear, 64).split())
    current.say(f"{STRANGE_USER} {'has' if has_end else 'is refused'} the link's end of box 1 while that is down")
    current.loop.until(lambda: False, 1)
    try:
        box.start()
    except SystemExit:
        why = " ".join(box.log.read_text().splitlines()[-1:])
        current.say(f"box 1 can't start while {STRANGE_USER} has its end: {why}")
    os.write(tell, b"\n")
    os.waitpid(child, 0)
    for end in (told, tell, hear, say):
        os.close(end)
    if box.gate.poll() is not None:
        box.start()
    current.say(f"box 1 {'is' if current.loop.until(box.is_synced, SOON) else 'is not'} synced after its start")
    return sent


class Place(NamedTuple):
    """A place from which a false box speaks, and what the link runs over there."""

    name: str
    try_it: object
    link_over: str = "cable"


USER = Place("as another user, box 1 down", as_user)
PLACES = (
    Place("the inside network", at_side("inside")),
    Place("the outside network", at_side("outside")),
    Place("a management network, rp_filter 0", by_frames(management_way, management=0)),
    Place("a management network, rp_filter 2", by_frames(management_way, management=2)),
    USER,
    Place("below a tunnel", by_frames(other_end("cable"), cable=0), "tunnel"),
)
# Who isn't next door, at the link itself.
FAR = Place("the link itself, TTL 254", by_frames(other_end("link"), ttl=NEAR - 1))
# That is where the other box is: what it sends has to be heard, or all the others show nothing.
TRUE = Place("the link itself, TTL 255", by_frames(other_end("link")))


class Door:
    """A server of an inside host, and whether somebody outside reaches it."""

    def __init__(self, current):
        self.current = current
        with current.networks.host.entered():
            self.listener = socket.create_server((HOSTS[0], SHUT_PORT))
        self.listener.setblocking(False)
        current.stack.callback(self.listener.close)
        current.loop.watch(self.listener, self.answer)

    def answer(self):
        sock, _ = self.listener.accept()
        sock.sendall(SECRET)
        sock.close()

    def is_open(self):
        return any(self.leads(port) for port in OPENED)

    def leads(self, port):
        """Whether a connection from outside to the virtual address comes to the server."""
        with self.current.networks.server.entered(), socket.socket() as sock:
            sock.setblocking(False)
            sock.connect_ex((self.current.networks.settings["outside"]["virtual"], port))
            said = []

            def hears():
                with contextlib.suppress(OSError):
                    said.append(sock.recv(64))
                return bool(said)

            return self.current.loop.until(hears, 1) and said[0] == SECRET


def false_boots(current):
    """The boxes that take a false box's boot for the other's."""
    told = f" {FALSE_BOOT}"
    return [box.number for box in current.boxes
            if told in box.natpair("status", str(box.top / SETTINGS.name), "--id", str(box.number))]


def try_place(current, place, flows, door):
    """A row of the table, and whether the false box got through."""
    sent = place.try_it(current)
    current.loop.until(lambda: False, 1)
    is_open = door.is_open()
    fresh = flows.open(FRESH, FRESH, SOON)
    new = sum(flow.answered > 0 for flow in fresh)
    kept = [flow for flow in flows.flows if flow not in fresh and flow.answered]
    flows.ask(kept, PATIENCE)
    held, moved, silent = verdict(kept)
    taken = false_boots(current)
    through = bool(taken) or is_open or new < FRESH or moved + silent > 0
    took = " and ".join(f"box {number}" for number in taken) or "no box"
    current.say(f"{place.name}: {took} takes boot 2^62, {new} of {FRESH} new flows, {held} of {len(kept)} flows hold,"
                f" port {SHUT_PORT} inside is {'open' if is_open else 'shut'}")
    row = (place.name, sent, took, new, f"{held} of {len(kept)}", "open" if is_open else "shut",
           THROUGH if through else HELD)
    return row, through


def try_until(options, places, rows):
    """Tries places at one pair until it is ruined; gives those that are left."""
    with scene(argparse.Namespace(**{**vars(options), "link_over": places[0].link_over})) as current:
        current.stations = {}
        for box in current.boxes if options.nft else ():
            shut(box)
        flows = Flows(current.loop, current.networks.host, current.stack)
        flows.open(FLOWS, WINDOW, 30)
        door = Door(current)
        for number, place in enumerate(places):
            if place.link_over != places[0].link_over:
                return places[number:]
            row, through = try_place(current, place, flows, door)
            rows.append(row)
            if through:
                return places[number + 1 :]
    return ()


def forging(options):
    """Tries each place; whether what is owed is so. The launcher binds its link to an interface, and owes that nobody
    else is heard; where the gate opens the link's socket others are, and with nftables those at the link itself and who
    has its end."""
    owed = (options.sides, options.link) == ("descriptor", "descriptor")
    allowed = {TRUE.name} if owed else {TRUE.name, FAR.name, USER.name} if options.nft else None
    places, rows = (*PLACES[:-1], FAR, TRUE, PLACES[-1]), []
    left = places
    while left:
        left = try_until(options, left, rows)
    heads = ["as the other box, from", "sent", "false boot at", f"new of {FRESH}", "held", "inside port", "outcome"]
    show("the link's two ends, from elsewhere", heads, rows)
    heard = {row[0] for row in rows if row[-1] == THROUGH}
    if allowed is None:
        print("here the gate opens the link's socket, which hears the other's address and port by any interface")
    if TRUE.name not in heard:
        print("at the link itself it wasn't heard: the other rows show nothing")
    return TRUE.name in heard and (allowed is None or heard <= allowed)
