#!/usr/bin/env python3
"""Measures natpair on interfaces, beside a bare forwarder with the same sockets and the kernel's own NAT.

    sudo bench/interfaces.py [--turns N] [--seconds S] [--program FILE] [--launcher FILE] [--keep FILE] [KIND..]

KIND is natpair, bare or kernel. All three stand in the same namespaces between the same virtual cables, one at a time,
in turns: a host inside, the box, and a host outside that is the router too. One sender sends datagrams as fast as it
can, in frames of 64 bytes (46 of them a packet, 14 the Ethernet header, 4 the checksum that a real cable adds) and
in packets of 1,500; then datagrams of 3,000 bytes, each in three packets, and packets of 1,500, as many packets a second of
the one as of the other; then one connection of iperf3; then questions and answers, one at a time. Printed are medians.

Where a tool is missing it says which, and installs it by apt-get where it can. Each of the sender, the box and the
receiver has a processor of its own where there are enough, and goes before other work. It needs root.
"""

import sys

sys.dont_write_bytecode = True

import argparse
import json
import os
import pathlib
import pwd
import shutil
import statistics
import subprocess
import tempfile
import time

TOP = pathlib.Path(__file__).resolve().parent.parent
SOURCES = TOP / "bench" / "interfaces"
sys.path.insert(0, str(TOP / "demo"))

from namespaces import Namespace

SETTINGS = TOP / "demo" / "natpair.toml"
USER = "nobody"
KINDS = ("natpair", "bare", "kernel")
HOST, INSIDE, OUTSIDE, ROUTER = "192.168.1.10", "192.168.1.1", "192.0.2.1", "192.0.2.254"
VIRTUAL = {"inside": "00:00:5e:00:01:0b", "outside": "00:00:5e:00:01:0a"}
PORT = 7700
# The bytes of a datagram in a frame of 64 bytes, and in a packet of 1,500.
SIZES = {"64": 18, "1500": 1472}
# The bytes of a datagram in one packet of 1,500, and in three packets; and how many are sent a second, so that few are lost.
PACED = {"one": (1472, 30_000), "three": (3000, 10_000)}
QUESTIONS = 1000
# The processors of the sender, the box and the receiver.
SENDER, BOX, RECEIVER = {0}, {1}, {2}
TOOLS = {"cc": ("gcc", "libc6-dev"), "iperf3": ("iperf3",), "nft": ("nftables",), "ip": ("iproute2",)}
NAT = """table ip bench {
    chain out {
        type nat hook postrouting priority srcnat;
        oifname "outside" masquerade
    }
}
"""


def fetch_tools():
    missing = [name for name in TOOLS if shutil.which(name) is None]
    if not missing:
        return
    packages = [package for name in missing for package in TOOLS[name]]
    print(f"missing: {', '.join(missing)}", flush=True)
    if shutil.which("apt-get"):
        done = subprocess.run(("apt-get", "install", "-y", "--no-install-recommends", *packages), capture_output=True,
                              env=dict(os.environ, DEBIAN_FRONTEND="noninteractive"), check=False)
        if done.returncode == 0 and all(shutil.which(name) for name in missing):
            print(f"installed: {' '.join(packages)}", flush=True)
            return
    raise SystemExit(f"interfaces: install {' '.join(packages)}, or what has {', '.join(missing)} here")


def on(processors, words):
    """The words that run a program before other work, and on these processors where the machine has enough of them."""
    pinned = ("taskset", "-c", ",".join(map(str, sorted(processors)))) if os.cpu_count() >= 4 else ()
    return ("nice", "-n", "-15", *pinned, *words)


def busy():
    """The time for which all processors worked so far, in nanoseconds."""
    with open("/proc/stat", encoding="ascii") as file:
        words = file.readline().split()
    user, nice, system, _, _, irq, softirq = map(int, words[1:8])
    return (user + nice + system + irq + softirq) * 1_000_000_000 // os.sysconf("SC_CLK_TCK")


def ran(process):
    """For how long a program ran so far, in nanoseconds."""
    with open(f"/proc/{process.pid}/schedstat", encoding="ascii") as file:
        return int(file.readline().split()[0])


class Lab:
    """The namespaces, the cables between them, and the programs."""

    def __init__(self, options):
        self.options = options
        self.room = pathlib.Path(tempfile.mkdtemp(prefix="natpair-bench-"))
        self.room.chmod(0o711)
        for name in ("bare", "traffic"):
            subprocess.run(("cc", "-O2", "-Wall", "-Wextra", "-o", str(self.room / name), str(SOURCES / f"{name}.c")), check=True)
        shutil.copy(options.program, self.room / "natpair")
        shutil.copy(options.launcher, self.room / "natpair-launch")
        shutil.copy(SETTINGS, self.room / "natpair.toml")
        self.own = self.room / "box"
        self.own.mkdir()
        user = pwd.getpwnam(USER)
        os.chown(self.own, user.pw_uid, user.pw_gid)
        self.user = user
        self.host, self.box, self.far = Namespace("host"), Namespace("box"), Namespace("far")
        self.host.cable("eth0", self.box, "inside")
        self.far.cable("eth0", self.box, "outside")
        self.host.ip("addr", "add", f"{HOST}/24", "dev", "eth0")
        self.far.ip("addr", "add", f"{ROUTER}/24", "dev", "eth0")
        self.host.ip("route", "add", "default", "via", INSIDE)
        # The bare forwarder leaves addresses as they are.
        self.far.ip("route", "add", "192.168.1.0/24", "via", OUTSIDE)
        self.traffic = str(self.room / "traffic")
        self.process = None

    def mac(self, space, name):
        return json.loads(space.ip("-j", "link", "show", "dev", name))[0]["address"]

    def tell_macs(self, inside, outside):
        """Who answers for the box's addresses: nobody has to ask."""
        self.host.ip("neigh", "replace", INSIDE, "lladdr", inside, "dev", "eth0", "nud", "permanent")
        self.far.ip("neigh", "replace", OUTSIDE, "lladdr", outside, "dev", "eth0", "nud", "permanent")

    def leave_to_program(self):
        self.box.run("nft", "flush", "ruleset")
        for name in ("inside", "outside"):
            self.box.ip("addr", "flush", "dev", name)
            self.box.ip("link", "set", "dev", name, "arp", "off")
        self.box.sysctl("ipv4/ip_forward", 0)
        self.tell_macs(VIRTUAL["inside"], VIRTUAL["outside"])

    def begin(self, kind):
        if kind == "kernel":
            self.begin_kernel()
            return
        self.leave_to_program()
        launcher = (str(self.room / "natpair-launch"), "--inside", "inside", "--outside", "outside", "--user", USER)
        if kind == "bare":
            macs = (VIRTUAL["inside"], self.mac(self.host, "eth0"), VIRTUAL["outside"], self.mac(self.far, "eth0"))
            self.start((*launcher, "--", str(self.room / "bare"), *macs), b"ready\n")
            return
        shutil.rmtree(self.own / "boot0.control", ignore_errors=True)
        (self.own / "boot0").unlink(missing_ok=True)
        program = str(self.room / "natpair")
        self.box.run(program, "init", "boot0", cwd=self.own, user=self.user)
        gate = (program, "gate", str(self.room / "natpair.toml"), "--id", "0", "--rounds", "4294967295", "--found")
        self.start((*launcher, "--boot-file", "boot0", "--", *gate), b"boot 1\n")
        time.sleep(4.5)

    def start(self, words, first):
        with open(self.room / "errors", "wb") as errors:
            self.process = self.box.start(*on(BOX, words), cwd=self.own, stdout=subprocess.PIPE, stderr=errors)
        said = self.process.stdout.readline()
        if said != first:
            raise SystemExit(f"interfaces: {words}: {said} {(self.room / 'errors').read_text()}")

    def begin_kernel(self):
        for name, address in (("inside", INSIDE), ("outside", OUTSIDE)):
            self.box.ip("link", "set", "dev", name, "arp", "on")
            self.box.ip("addr", "replace", f"{address}/24", "dev", name)
        self.box.sysctl("ipv4/ip_forward", 1)
        (self.room / "nat").write_text(NAT)
        self.box.run("nft", "flush", "ruleset")
        self.box.run("nft", "-f", str(self.room / "nat"))
        self.tell_macs(self.mac(self.box, "inside"), self.mac(self.box, "outside"))

    def end(self):
        if self.process:
            self.process.kill()
            self.process.wait()
            self.process.stdout.close()
            self.process = None

    def packets(self, size, rate=0):
        """Datagrams a second, the box's own time for each and all processors' time for each, in nanoseconds. They are sent as
        fast as they can be, or so many a second."""
        sink = self.far.start(*on(RECEIVER, (self.traffic, "sink", str(PORT), str(size))), stdout=subprocess.PIPE)
        sink.stdout.readline()
        before, worked = self.process and ran(self.process), busy()
        sender = (self.traffic, "send", ROUTER, str(PORT), str(size), str(self.options.seconds), str(rate))
        sent = int(self.host.run(*on(SENDER, sender)))
        time.sleep(0.2)
        after, worked = self.process and ran(self.process), busy() - worked
        count, lasted = map(int, sink.stdout.read().split())
        sink.wait()
        if count < 2:
            raise SystemExit(f"interfaces: {count} of {sent} packets came")
        own = (after - before) / count if self.process else None
        return {"rate": count / lasted * 1e9, "own": own, "all": worked / count, "sent": sent / self.options.seconds,
                "lost": max(sent - count, 0) / sent}

    def stream(self):
        """Bits a second of one connection of iperf3."""
        server = self.far.start(*on(RECEIVER, ("iperf3", "-s", "-1", "-p", "5201")), stdout=subprocess.DEVNULL)
        time.sleep(0.3)
        client = ("iperf3", "-c", ROUTER, "-p", "5201", "-t", str(self.options.seconds), "-J")
        found = json.loads(self.host.run(*on(SENDER, client)))
        server.wait()
        return found["end"]["sum_received"]["bits_per_second"]

    def trips(self):
        """The median and the 99th hundredth of round trips, in nanoseconds."""
        echo = self.far.start(*on(RECEIVER, (self.traffic, "echo", str(PORT + 1))), stdout=subprocess.PIPE)
        echo.stdout.readline()
        ask = (self.traffic, "ask", ROUTER, str(PORT + 1), "18", str(QUESTIONS))
        self.host.run(*on(SENDER, (*ask[:-1], "20")))
        median, late, lost = map(int, self.host.run(*on(SENDER, ask)).split())
        echo.kill()
        echo.wait()
        return {"median": median, "late": late, "lost": lost}

    def measure(self, kind):
        self.begin(kind)
        try:
            self.trips()
            found = {name: self.packets(size) for name, size in SIZES.items()}
            found |= {name: self.packets(size, rate) for name, (size, rate) in PACED.items()}
            found["stream"] = self.stream()
            found["trips"] = self.trips()
            return found
        finally:
            self.end()

    def close(self):
        self.end()
        for space in (self.host, self.box, self.far):
            space.close()
        shutil.rmtree(self.room, ignore_errors=True)


def spread(values):
    return statistics.median(values), min(values), max(values)


def row(name, turns, value, unit, digits=0):
    """A line of the table: the median of each kind, with the least and the greatest."""
    cells = [name.ljust(44)]
    medians = {}
    for kind in turns:
        values = [value(turn) for turn in turns[kind]]
        if None in values:
            cells.append("-".rjust(30))
            continue
        middle, low, high = spread([each / unit for each in values])
        medians[kind] = middle
        cells.append(f"{middle:,.{digits}f} ({low:,.{digits}f} to {high:,.{digits}f})".rjust(30))
    print("  ".join(cells).rstrip())
    return medians


def ratio(text, part, whole):
    if part and whole:
        print(f"{text}: {part / whole:.2f}")


def tell(turns):
    print("\n" + "  ".join(["".ljust(44), *(kind.rjust(30) for kind in turns)]))
    rates, own = {}, {}
    for size in SIZES:
        row(f"sent a second, {size} bytes", turns, lambda turn, size=size: turn[size]["sent"], 1)
        rates[size] = row(f"packets a second, {size} bytes", turns, lambda turn, size=size: turn[size]["rate"], 1)
        own[size] = row(f"the box's own time a packet, {size} bytes, us", turns, lambda turn, size=size: turn[size]["own"],
                        1000, 2)
        row(f"all processors' time a packet, {size} bytes, us", turns, lambda turn, size=size: turn[size]["all"], 1000, 2)
    paced = tell_paced(turns)
    row("one connection, Mbit/s", turns, lambda turn: turn["stream"], 1_000_000)
    row("round trip, us", turns, lambda turn: turn["trips"]["median"], 1000, 1)
    row("round trip, the slowest hundredth, us", turns, lambda turn: turn["trips"]["late"], 1000, 1)
    print()
    for size in SIZES:
        ratio(f"{size} bytes: the bare forwarder's own time a packet, of natpair's", own[size].get("bare"),
              own[size].get("natpair"))
        ratio(f"{size} bytes: natpair's packets a second, of kernel NAT's", rates[size].get("natpair"),
              rates[size].get("kernel"))
    for kind in paced["three"]:
        ratio(f"{kind}: its own time for a datagram in three packets, of that for three in one each", paced["three"][kind],
              3 * paced["one"][kind])


def tell_paced(turns):
    """The rows of datagrams in one packet and in three; the medians of the box's own time for each."""
    own = {}
    for name, (size, rate) in PACED.items():
        text = f"{size:,} bytes, {rate:,} a second"
        own[name] = row(f"{text}: own time, us", turns, lambda turn, name=name: turn[name]["own"], 1000, 2)
        row(f"{text}: lost, %", turns, lambda turn, name=name: turn[name]["lost"], 0.01, 2)
    return own


def options_of(words):
    parser = argparse.ArgumentParser(prog="interfaces.py", description=__doc__.split("\n")[0])
    parser.add_argument("--turns", type=int, default=7)
    parser.add_argument("--seconds", type=int, default=3)
    parser.add_argument("--program", type=pathlib.Path, default=TOP / "crates/natpair/out/natpair")
    parser.add_argument("--launcher", type=pathlib.Path, default=TOP / "launcher/out/natpair-launch")
    parser.add_argument("--keep", type=pathlib.Path, help="a file for all figures, as JSON")
    parser.add_argument("kinds", nargs="*", choices=[[], *KINDS])
    return parser.parse_args(words)


def main():
    options = options_of(sys.argv[1:])
    if os.geteuid() != 0:
        raise SystemExit("interfaces: it makes network namespaces, and has to be root for that")
    fetch_tools()
    lab = Lab(options)
    turns = {kind: [] for kind in options.kinds or KINDS}
    try:
        for number in range(options.turns):
            for kind, found in turns.items():
                found.append(lab.measure(kind))
                print(f"turn {number + 1} {kind:8} {found[-1]['64']['rate']:10,.0f} packets/s of 64 bytes,"
                      f" {found[-1]['1500']['rate']:10,.0f} of 1,500", flush=True)
    finally:
        lab.close()
    tell(turns)
    if options.keep:
        options.keep.write_text(json.dumps(turns, indent=1) + "\n", encoding="utf-8")
    return 0


if __name__ == "__main__":
    sys.exit(main())
