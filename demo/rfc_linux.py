"""The probes of packets at a NAT of Linux's kernel in place of the pair: that they can tell what is met from what isn't."""

import contextlib
import tomllib

from benches import Wired
from flows import Loop
from namespaces import Namespace
from packets import virtual_mac
from pair import ROUTER, SETTINGS, SIDES, Surroundings
from rfc_errors import OF_ERRORS
from rfc_fragments import OF_FRAGMENTS
from rfc_hosts import by_hosts
from rfc_packets import AT_A_BOX
from rfc_pings import OF_PINGS
from scene import show

RULES = ("add table ip nat; add chain ip nat out { type nat hook postrouting priority 100; };"
         "add rule ip nat out oifname outside masquerade")
# What this NAT meets, of which the pair meets a part, and what it doesn't and the pair does.
MEETS = ("4787 REQ-12 b", "4787 REQ-14", "5382 REQ-2", "5382 REQ-9", "5508 REQ-1 a", "5508 REQ-1 b", "5508 REQ-4",
         "5508 REQ-10 a", "5508 REQ-10 b")
DOES_NOT = ("4787 REQ-8", "4787 REQ-9", "5382 REQ-3", "5382 REQ-4 a", "5382 REQ-8", "5508 REQ-3", "5508 REQ-5",
            "5508 REQ-7", "7857 10 a", "6864 4.3 a")


class Kernel:
    """What a scene has, with one namespace in place of both boxes, which has the virtual addresses and MACs."""

    def __init__(self, stack):
        self.stack = stack
        self.loop = Loop()
        with open(SETTINGS, "rb") as file:
            self.networks = Surroundings(tomllib.load(file))
        self.space = Namespace("kernel")
        for space in (*self.networks.spaces(), self.space):
            stack.callback(space.close)
        self.networks.plug()
        for side in SIDES:
            self.join(side)
        self.space.ip("route", "add", "default", "via", ROUTER)
        self.space.sysctl("ipv4/ip_forward", 1)
        self.space.run("nft", RULES)
        self.networks.address()

    def join(self, side):
        settings = self.networks.settings[side]
        self.networks.switches[side].plug("kernel", self.space, side)
        mac = virtual_mac(settings["vrid"]).hex(":")
        self.space.ip("link", "set", "dev", side, "down")
        self.space.ip("link", "set", "dev", side, "address", mac)
        self.space.ip("link", "set", "dev", side, "up")
        self.space.ip("addr", "add", f"{settings['virtual']}/{settings['prefix']}", "dev", side)


def at_linux(report, page):
    """Whether each probe sees of the kernel's NAT what is known of it."""
    with contextlib.ExitStack() as stack:
        current = Kernel(stack)
        bench = Wired(0, current)
        bench.name = "linux"
        for probe in (*AT_A_BOX, *OF_FRAGMENTS, *OF_ERRORS, *OF_PINGS):
            probe(bench, report)
        by_hosts(current, bench, report)
    heads = ["requirement", "at", "expected", "seen", "verdict"]
    lines = sorted(report.lines)
    show("what was seen", heads, [(*line[:4], "met" if line.holds else "not met") for line in lines], left=True)
    found = report.verdicts(page)
    wrong = [name for name in MEETS if found[name] != "met"] + [name for name in DOES_NOT if found[name] == "met"]
    print(f"{len(MEETS)} requirements that it meets, {len(DOES_NOT)} that it doesn't: "
          + (f"seen otherwise: {', '.join(wrong)}" if wrong else "seen so"), flush=True)
    return not wrong
