"""Whoever isn't asked sends at every socket of a running pair: nothing changes but counters."""

import itertools
import os
import pwd
import random
import socket
import subprocess
import time

from flows import PATIENCE, Flows, verdict
from forging import forging
from pair import DROP, LINK_ADDRESSES, SIDES, TUNNEL_PORT
from scene import audit, scene, show

FLOWS = 100
WINDOW = 48
# The pair has this time to go through what is there.
REST = 1.0
# So late the demo may see what passed the switches, on a machine that has other work.
LAG = 10
# Addresses and users that are nobody's.
STRANGE_ADDRESS = "10.0.0.9"
STRANGE_PORT = 7999
STRANGE_USER = "daemon"
LONGEST = 1400
# Frames of the networks come at this rate: a box has to read each, and drop it. What the link's and the control socket's
# strangers send the kernel drops, so that comes as fast as it can.
FRAMES_A_SECOND = 5000
# At a tunnel the box refuses strangers itself, before it looks at what they sent.
TUNNELLED_A_SECOND = 20_000


def random_bytes(chance):
    """Any bytes, of any length up to a frame's."""
    while True:
        yield chance.randbytes(chance.randrange(LONGEST))


def link_datagrams(current, chance):
    """What the link itself carries: each datagram as the other box sent it, and the word that a boot is off."""
    frames = []

    def enough():
        with current.networks.boxes[0].space.entered():
            return len(frames) >= 20

    sock = current.observer.link()
    end = time.monotonic() + 10
    while not enough() and time.monotonic() < end:
        try:
            frame = sock.recv(4096)
        except BlockingIOError:
            current.loop.turn()
            continue
        if frame[12:14] == b"\x08\x00" and frame[23] == socket.IPPROTO_UDP and len(frame) > 60:
            frames.append(frame[42:])
    sock.close()
    frames.append(b"NO" + (1).to_bytes(8, "big"))
    frames.append(b"NS\x00\x00\x01")
    while True:
        yield chance.choice(frames)


def both(chance, well_formed):
    """Random ones and well-formed ones in turn."""
    return (one for pair in zip(random_bytes(chance), well_formed) for one in pair)


def send_datagrams(space, own, to, datagrams, count):
    """Sends so many to an end from an end of a namespace; how many the system took."""
    with space.entered(), socket.socket(socket.AF_INET, socket.SOCK_DGRAM) as sock:
        sock.bind(own)
        taken = 0
        for datagram in itertools.islice(datagrams, count):
            try:
                sock.sendto(datagram, to)
                taken += 1
            except OSError:
                # What was sent before found nobody: the box's socket isn't this sender's.
                pass
    return taken


def frames_of(current, side, chance):
    """Frames that no station of the network would send: random ones to everybody, and whole packets to the virtual
    address at ports that serve nobody, or that aren't for the pair."""
    settings = current.networks.settings
    virtual = bytes.fromhex(f"00005e0001{settings[side]['vrid']:02x}")
    own = bytes.fromhex(settings["gateway_0"][f"{side}_mac"].replace("-", ""))
    target = socket.inet_aton(settings["outside"]["virtual"])
    source = socket.inet_aton("203.0.113.7")
    while True:
        kind = chance.randrange(4)
        head = (virtual, own, b"\xff" * 6, chance.randbytes(6))[kind] + b"\x02\0\0\0\0\x99"
        if chance.randrange(2):
            yield head + chance.randbytes(2 + chance.randrange(LONGEST))
        else:
            yield head + packet(source, target, chance.randrange(1, 65536), chance.randrange(60000, 65536))


def packet(source, target, port, other_port):
    """The EtherType and a UDP packet, with its checksums."""
    text = b"nobody asked"
    udp = port.to_bytes(2, "big") + other_port.to_bytes(2, "big") + (8 + len(text)).to_bytes(2, "big")
    head = b"\x45\0" + (28 + len(text)).to_bytes(2, "big") + b"\0\0\0\0\x40\x11"
    head += checksum(head + source + target) + source + target
    return b"\x08\0" + head + udp + b"\0\0" + text


def checksum(data):
    total = sum(int.from_bytes(data[i : i + 2], "big") for i in range(0, len(data), 2))
    while total >> 16:
        total = (total & 0xFFFF) + (total >> 16)
    return (total ^ 0xFFFF).to_bytes(2, "big")


def advertisement(settings, side):
    """A frame that says that another router of the highest priority has the virtual address: a box that hears it is
    Backup from then on."""
    virtual = socket.inet_aton(settings[side]["virtual"])
    source = virtual[:3] + b"\xfa"
    said = b"\x31" + bytes((settings[side]["vrid"], 255, 1)) + (100).to_bytes(2, "big")
    said += checksum(said + virtual) + virtual
    group = socket.inet_aton("224.0.0.18")
    head = b"\x45\0" + (20 + len(said)).to_bytes(2, "big") + b"\0\0\0\0\xff\x70"
    head += checksum(head + source + group) + source + group
    return b"\x01\0\x5e\0\0\x12" + b"\0\0\x5e\0\x01" + said[1:2] + b"\x08\0" + head + said


def tunnelled(frames, number, flags=8):
    """Frames as VXLAN carries them in the network of a number."""
    head = bytes((flags, 0, 0, 0)) + number.to_bytes(3, "big") + b"\0"
    return (head + frame for frame in frames)


def paced(items, count, rate, turn):
    """So many of them, at so many a second, and lets the flows be meanwhile."""
    begun = time.monotonic()
    for number, item in enumerate(itertools.islice(items, count)):
        while number > (time.monotonic() - begun) * rate:
            turn(0.005)
        yield item


def send_frames(space, name, frames):
    """Sends frames; how many the system took."""
    taken = 0
    with space.entered():
        sock = socket.socket(socket.AF_PACKET, socket.SOCK_RAW, 0)
        sock.bind((name, 0))
    for frame in frames:
        try:
            sock.send(frame)
            taken += 1
        except OSError:
            pass
    sock.close()
    return taken


def try_control(box, words, count, user):
    """Calls at the control socket as a user; how many connections were had."""
    path = str(box.folder / f"boot{box.number}.control" / "socket")
    child = os.fork()
    if child:
        _, status = os.waitpid(child, 0)
        if status:
            raise SystemExit("demo: the calls at the control socket weren't made")
        return int((box.top / "calls").read_text())
    os.setgroups([])
    found = open(box.top / "calls", "w", encoding="ascii")
    os.setresgid(user.pw_gid, user.pw_gid, user.pw_gid)
    os.setresuid(user.pw_uid, user.pw_uid, user.pw_uid)
    had = 0
    for word in itertools.islice(words, count):
        with socket.socket(socket.AF_UNIX) as sock:
            sock.settimeout(3)
            try:
                sock.connect(path)
                sock.sendall(word)
                had += 1
            except OSError:
                pass
    found.write(str(had))
    found.close()
    os._exit(0)


def no_words(chance):
    """Bytes at the control socket that are no word."""
    for text in random_bytes(chance):
        if not text.startswith((b"NO", b"NS")):
            yield text


class Watch:
    """What a pair must not change: who is Active, the boots, each line that tells a change, and every flow."""

    def __init__(self, current, flows):
        self.current = current
        self.flows = flows
        self.rows = []
        self.before = self.lines()

    def lines(self):
        """The boxes' lines but those of drops, of which there may be any number."""
        return sorted((box.number, f"{place} {text}") for box in self.current.boxes for place, text in box.records()
                      if not DROP.fullmatch(text))

    def after(self, name, tried, taken):
        """Looks again, and notes a row of the table."""
        self.rest()
        self.flows.ask(self.flows.flows, PATIENCE)
        held, moved, silent = verdict(self.flows.flows)
        lines = self.lines()
        news = [line for line in lines if line not in self.before]
        self.before = lines
        running = all(box.gate.poll() is None for box in self.current.boxes)
        # The demo sees what passed the switches some time after it did.
        active = self.current.loop.until(lambda: self.current.observer.active(0), LAG)
        changed = len(news) + (not running) + (not active)
        for number, line in news[:5]:
            self.current.say(f"box {number} says: {line}")
        self.current.say(f"{name}: {taken:,} of {tried:,} sent, {held} of {len(self.flows.flows)} flows hold")
        self.rows.append((name, f"{tried:,}", f"{taken:,}", changed, held, moved + silent))

    def rest(self):
        end = time.monotonic() + REST
        while time.monotonic() < end:
            self.flows.turn(0.01)


def at_links(current, watch, chance, count):
    """Each box's link: from the other box's address and another port, from an address that is nobody's, and from
    users of the box itself."""
    known = link_datagrams(current, chance)
    current.networks.boxes[1].space.ip("addr", "add", f"{STRANGE_ADDRESS}/24", "dev", "link")
    for box in current.boxes:
        other = current.boxes[1 - box.number]
        to = (LINK_ADDRESSES[box.number], box.link_port)
        sources = [(other.space, (LINK_ADDRESSES[other.number], STRANGE_PORT)),
                   (box.space, (LINK_ADDRESSES[box.number], STRANGE_PORT)), (box.space, ("127.0.0.1", box.link_port))]
        if box.number == 0:
            sources.append((other.space, (STRANGE_ADDRESS, box.link_port)))
        share = count // len(sources)
        taken = sum(send_datagrams(space, own, to, both(chance, known), share) for space, own in sources)
        watch.after(f"the link of box {box.number}", share * len(sources), taken)


def at_sides(current, watch, chance, count):
    """Both networks: frames that each box hears on its interface."""
    places = {"inside": (current.networks.host, "eth0"), "outside": (current.networks.router, "eth0")}
    for side in SIDES:
        space, name = places[side]
        frames = paced(frames_of(current, side, chance), count, FRAMES_A_SECOND, watch.flows.turn)
        taken = send_frames(space, name, frames)
        watch.after(f"the {side} network", count, taken)


def at_tunnels(current, watch, chance, count):
    """Each box's end of a tunnel: from an address that is nobody's, from users of the box itself, and from the far end
    with another network's number or without the flag."""
    for box, side in itertools.product(current.boxes, SIDES):
        own, other, number = box.tunnel(side)
        switch = current.networks.switches[side].space
        nobody = other.rsplit(".", 1)[0] + ".8"
        switch.ip("addr", "add", f"{nobody}/24", "dev", f"box{box.number}")
        whole = itertools.islice(frames_of(current, side, chance), 20)
        heard = itertools.cycle((advertisement(current.networks.settings, side), *whole))
        known = tunnelled(heard, number)
        sources = [(switch, nobody, known), (box.space, own, known), (box.space, "127.0.0.1", known),
                   (switch, other, tunnelled(heard, number + 1)), (switch, other, tunnelled(heard, number, flags=0))]
        share = count // len(sources)
        taken = 0
        for space, address, frames in sources:
            sent = paced(both(chance, frames), share, TUNNELLED_A_SECOND, watch.flows.turn)
            taken += send_datagrams(space, (address, STRANGE_PORT), (own, TUNNEL_PORT), sent, share)
        watch.after(f"the {side} tunnel of box {box.number}", share * len(sources), taken)


def at_controls(current, watch, chance, count):
    """The control sockets: other users with every word, and the box's own user with what is none."""
    words = itertools.cycle((b"NO" + (1).to_bytes(8, "big"), b"NS\0\0\1", b"NS\1\0\0"))
    stranger, owner = pwd.getpwnam(STRANGE_USER), current.boxes[0].user
    for box in current.boxes:
        had = try_control(box, words, count, stranger)
        watch.after(f"control of box {box.number}, as {STRANGE_USER}", count, had)
        if had:
            raise SystemExit(f"demo: {STRANGE_USER} may call at the control socket of box {box.number}")
        had = try_control(box, no_words(chance), count // 10, owner)
        watch.after(f"control of box {box.number}, no words", count // 10, had)


def start_again(current, box, words, user, wanted):
    parent = os.getpid()
    done = subprocess.run(words, cwd=box.folder, capture_output=True, text=True, timeout=10,
                          preexec_fn=lambda: box.space.begin(parent, user))
    said = [line for line in done.stderr.splitlines() if line.startswith("natpair")][-1:]
    current.say(f"a second start of box {box.number} ends with {done.returncode}: {' '.join(said)}")
    if done.returncode != 1 or wanted not in done.stderr:
        raise SystemExit(f"demo: a second start isn't refused as it should be: {done.stderr}")


def at_starts(current, watch):
    """A second start of each box while it runs, by the launcher and by the gate alone: each is refused."""
    options = current.options
    for box in current.boxes:
        alone = box.words[box.words.index("--") + 1 :] if "--" in box.words else box.words
        if "--link" in alone:
            alone = alone[: alone.index("--link")]
        # Where the launcher opens the link's socket, that is in use; else the gate finds the boot file in use.
        first = "in use" if (options.sides, options.link) == ("descriptor", "descriptor") else "boot 5 InUse"
        start_again(current, box, box.words, box.starter, first)
        start_again(current, box, alone, box.user, "boot 5 InUse")
        watch.after(f"second starts of box {box.number}", 2, 2)


def strangers(options):
    chance = random.Random(36)
    with scene(options, options.capture) as current:
        flows = Flows(current.loop, current.networks.host, current.stack)
        flows.open(FLOWS, WINDOW, 30)
        current.say(f"{FLOWS} flows have an answer")
        watch = Watch(current, flows)
        at_links(current, watch, chance, options.count)
        at_sides(current, watch, chance, options.count)
        if options.sides == "vxlan":
            at_tunnels(current, watch, chance, options.count)
        at_controls(current, watch, chance, options.count)
        at_starts(current, watch)
        current.tell_drops()
        _, twice, shared = audit(current.observer)
    heads = ["sent at", "tried", "sent", "changes", f"held of {FLOWS}", "lost"]
    show("strangers", heads, watch.rows)
    changed = sum(row[3] + row[5] for row in watch.rows)
    return forging(options) and changed == 0 and twice == 0 and shared == 0
