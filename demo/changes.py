"""The link of a pair that runs changes box by box: by another launcher, to a tunnel, and as its interface is made anew.

Each box is synced before the next one is touched, and no flow that had an answer is lost.
"""

import argparse
import pathlib
import shutil
import subprocess

from flows import PATIENCE, verdict
from forging import Way, false_boots, send_forged
from handover import Traffic
from pair import CABLE_ADDRESSES, LAUNCHER, LINK_ADDRESSES, SIDES, wait_until
from scene import audit, scene, show

# So many flows more are opened after each turn.
FRESH = 20
WINDOW = 20
# A box that is told to end ends, and one that begins is synced, within so many seconds.
SOON = 15
# The unit of a box starts it again after so many seconds.
RESTART = 1
# So long nothing is done: so long the load is looked at after each turn.
REST = 3
# The hops of a link whose other box may be of a release before.
FAR = 192
WIREGUARD_PORT = 51820
# What the keeper says where the link's interface was made again.
MADE_AGAIN = "keeper link link was made again, and the link's socket is bound to the old one: the gate ends"


class Changes:
    """The load, and a row of the table after each turn."""

    def __init__(self, current, count):
        self.current = current
        self.traffic = Traffic(current, count)
        self.rows = []
        self.note("opened")

    def note(self, name):
        """After a turn all flows that had an answer ask once more, and some more are opened."""
        flows, held, moved, silent = self.ask()
        fresh = self.traffic.flows.open(FRESH, WINDOW, SOON)
        new = sum(flow.answered > 0 for flow in fresh)
        self.current.say(f"{name}: {held} of {flows} flows hold their port, {new} of {FRESH} new ones")
        self.rows.append((name, flows, held, moved, silent, new))

    def note_without_link(self, name):
        """The same while the link is gone: new flows have no answer then."""
        flows, held, moved, silent = self.ask()
        self.current.say(f"{name}: {held} of {flows} flows hold their port")
        self.rows.append((name, flows, held, moved, silent, "-"))

    def ask(self):
        """How many flows had an answer, and in the next round how many of them are held, have moved, and are silent."""
        self.traffic.go_on(REST)
        flows = [flow for flow in self.traffic.flows.flows if flow.answered]
        self.traffic.flows.ask(flows, PATIENCE)
        held, moved, silent = verdict(flows)
        moved += sum(len(set(flow.ports)) > 1 for flow in self.traffic.steady)
        return len(flows), held, moved, silent

    def wait(self, test, what):
        self.traffic.go_on(SOON, test)
        if not test():
            raise SystemExit(f"demo: {what}: not within {SOON} s")

    def stop(self, number):
        """Tells a box to end, and waits until it has."""
        box = self.current.boxes[number]
        box.stop()
        self.wait(lambda: box.gate.poll() is not None, f"box {number} ends")
        if box.gate.poll() != 0:
            raise SystemExit(f"demo: box {number} ends with {box.gate.poll()}")

    def start(self, number, name):
        """Starts a box, and waits until it is synced, and box 0 until it is Active again."""
        box = self.current.boxes[number]
        box.start()
        self.wait(box.is_synced, f"box {number} is synced")
        if number == 0:
            self.wait(lambda: all((side, "Active") in box.records() for side in SIDES), "box 0 is Active")
        self.note(name)

    def restart(self, name, change):
        """A change of both boxes, the Backup first, each as `systemctl restart` does it."""
        for number in (1, 0):
            self.stop(number)
            change(self.current.boxes[number])
            self.start(number, f"box {number} {name}")

    def show(self, title):
        """Prints the tables; whether nothing was lost."""
        self.current.tell_drops()
        _, twice, shared = audit(self.current.observer)
        show(title, ["", "flows", "held", "moved", "silent", f"new of {FRESH}"], self.rows)
        lost = sum(moved + silent + (new not in (FRESH, "-")) for _, _, _, moved, silent, new in self.rows)
        return lost == 0 and twice == 0 and shared == 0


def expect_launcher(options, before=False):
    """The scene has to be of a link that the launcher opens, and of the launcher before where it begins with that."""
    if (options.sides, options.link) != ("descriptor", "descriptor"):
        raise SystemExit(f"demo: {options.scene} is of a link that the launcher opens, without --sides and --link")
    if before and not options.before:
        raise SystemExit(f"demo: {options.scene} wants a launcher --before")


def over(options, link_over):
    return argparse.Namespace(**{**vars(options), "link_over": link_over})


def hears_far(box):
    box.launcher, box.link_hops = LAUNCHER, FAR


def hears_near(box):
    box.link_hops = 1


def hears_any(box):
    box.link_interface = "any"


def hears_tunnel(box):
    box.link_interface = tunnel_name(box)


def upgrade(options):
    """From a launcher whose link sends with TTL 64, hears each interface, and has a port that anybody may have."""
    expect_launcher(options, before=True)
    with scene(options, options.capture) as current:
        changes = Changes(current, options.flows)
        changes.restart(f"has the new launcher, {FAR} hops", hears_far)
        changes.restart("has 1 hop", hears_near)
        return changes.show("upgrade")


def tunnel_name(box):
    return f"tunnel{box.number}"


def wireguard(box, keys, stack):
    """A tunnel of WireGuard over the link's cable, by its program that needs no kernel of its own."""
    name, own, other = tunnel_name(box), box.number, 1 - box.number
    box.space.ip("addr", "add", f"{CABLE_ADDRESSES[own]}/24", "dev", "link")
    box.space.start("wireguard-go", "--foreground", name, stdout=subprocess.DEVNULL, stderr=subprocess.DEVNULL)
    socket_file = pathlib.Path(f"/var/run/wireguard/{name}.sock")
    stack.callback(socket_file.unlink, missing_ok=True)
    wait_until(socket_file.exists, 5, f"{name} is there")
    secret = box.folder / "key"
    secret.write_text(keys[own], encoding="ascii")
    public = subprocess.run(("wg", "pubkey"), input=keys[other], capture_output=True, text=True, check=True).stdout
    box.space.run("wg", "set", name, "listen-port", str(WIREGUARD_PORT), "private-key", str(secret), "peer",
                  public.strip(), "allowed-ips", f"{LINK_ADDRESSES[other]}/32", "endpoint",
                  f"{CABLE_ADDRESSES[other]}:{WIREGUARD_PORT}")


def dig(changes, is_wireguard):
    """Both boxes' tunnels, one after the other: the link is down until both are there."""
    keys = [subprocess.run(("wg", "genkey"), capture_output=True, text=True, check=True).stdout
            for _ in changes.current.boxes if is_wireguard]
    for box in changes.current.boxes:
        box.space.ip("addr", "flush", "dev", "link")
        if is_wireguard:
            wireguard(box, keys, changes.current.stack)
        else:
            box.dig(tunnel_name(box), "link")
        box.set_link_up(tunnel_name(box))
        changes.traffic.go_on(REST)


def tunnel(options):
    """The link of a pair that runs moves to a tunnel over its cable."""
    expect_launcher(options)
    for word in ("wg", "wireguard-go") if options.wireguard else ():
        if shutil.which(word) is None:
            raise SystemExit(f"demo: no {word}, which Debian's wireguard-tools and wireguard-go have")
    with scene(options, options.capture) as current:
        changes = Changes(current, options.flows)
        changes.restart("hears any interface", hears_any)
        dig(changes, options.wireguard)
        changes.note("the tunnel is up on both")
        changes.restart("hears the tunnel alone", hears_tunnel)
        sent = sum(send_forged(box, Way(current.boxes[1 - box.number].space, "link", "link")) for box in current.boxes)
        changes.note(f"{sent} forged frames below the tunnel")
        heard = false_boots(current)
        if heard:
            print(f"below the tunnel boxes {heard} hear a false box")
        return changes.show("tunnel") and not heard


def remade(options):
    """The link's interface of each box is deleted, and made again: the keeper ends the box, and it is started anew."""
    expect_launcher(options)
    with scene(over(options, "switch"), options.capture) as current:
        changes = Changes(current, options.flows)
        for number in (1, 0):
            box = current.boxes[number]
            box.space.ip("link", "del", "dev", "link")
            changes.note_without_link(f"box {number} has no interface of the link")
            if box.gate.poll() is not None:
                raise SystemExit(f"demo: box {number} has ended, and its link is just gone")
            current.networks.switch.plug(f"box{number}", box.space, "link")
            box.set_link_up("link")
            changes.wait(lambda box=box: box.gate.poll() is not None, f"box {number} ends")
            said = box.log.read_text().splitlines()
            if MADE_AGAIN not in said:
                raise SystemExit(f"demo: the keeper doesn't say why box {number} ends: {said[-5:]}")
            current.say(f"{MADE_AGAIN}, with {box.gate.poll()}")
            changes.traffic.go_on(RESTART)
            changes.start(number, f"box {number} is started anew")
        return changes.show("the link made again")
