#!/usr/bin/env python3
"""What a gateway's steps cost outside the sockets, beside the same work in plain Rust: prints tables in Markdown.

    bench/gateway.py [--program FILE] [--turns N] [--count N] [--jobs N] [--keep FILE] [PART..]

PART is instructions, fragments, time, memory, churn or many; without one all are measured. It builds crates/bench by
`rt run`, or takes the program of --program, which is built already; and bench/gateway/bare.rs by `rustc -O`, for the same
processor. Both get the same words, but for datagrams in fragments, which the plain one doesn't know.

Instructions are counted by valgrind's cachegrind, exactly and whatever else runs: two runs, of which one does more, and
the difference divided. What a program does before and after is in both. Each round of a `rep` counts as one, so memory that
is cleared or copied by `rep stos` or `rep movs` weighs more here than in time. Times are the best of N turns in which both
programs alternate, with the median of the turns' ratios. Requests for memory are counted by bench/memory/count.c, again by
two runs. The churn and its longest step are by the processor's time of the thread. Nothing compares the numbers.
"""

import argparse
import concurrent.futures
import json
import os
import pathlib
import platform
import re
import shutil
import statistics
import subprocess
import sys
import tempfile

HERE = pathlib.Path(__file__).resolve().parent
CRATE = HERE.parent / "crates/bench"
PARTS = ("instructions", "fragments", "time", "memory", "churn", "many")
PAIRS = (1, 1000, 40_000)
KINDS = [(protocol, size, side) for protocol in ("udp", "tcp") for size in (44, 1500) for side in ("inside", "outside")]
WAYS = {"inside": "outward", "outside": "inward"}
# What else is measured: its words with a place for how often, how often in the shorter and in the longer run, and in a turn.
STEPS = {
    "udp, 44 bytes, outward, 1,000 pairs, at one of two boxes": ("synced inside udp 44 {} 1000", 1000, 5000, 100_000),
    "udp, 44 bytes, inward, 1,000 pairs, at one of two boxes": ("synced outside udp 44 {} 1000", 1000, 5000, 100_000),
    "the same, outward, with alone = 100": ("alone synced inside udp 44 {} 1000", 1000, 5000, 100_000),
    "the same, inward, with alone = 100": ("alone synced outside udp 44 {} 1000", 1000, 5000, 100_000),
    "a new flow, both boxes together": ("new {}", 2000, 6000, 30_000),
    "a new flow of a lone box": ("lone {}", 2000, 6000, 30_000),
    "the same, its ports drawn, 64 asked for ahead": ("drawn lone {}", 2000, 6000, 30_000),
    "a new flow of a lone box, its other box starts": ("begun {}", 2000, 6000, 30_000),
    "a new flow of a box that is apart": ("alone begun {}", 2000, 6000, 30_000),
    "a tick of both boxes, each with its datagram, 1,000 pairs": ("pair {} 1000", 1000, 5000, 5000),
    "the same, 20,000 pairs": ("pair {} 20000", 1000, 5000, 5000),
    "a tick, the clock goes on, no pairs": ("idle {} 0", 1000, 5000, 20_000),
    "a tick, the clock goes on, 40,000 pairs": ("idle {} 40000", 1000, 5000, 20_000),
    "a tick, the clock stands, 40,000 pairs": ("still {} 40000", 1000, 5000, 20_000),
}
PORTS = {
    "a Want at 40,000 ports, half of them taken": "ports want {}",
    "the Begin of a batch": "ports begin {}",
    "a batch of 20,000 pairs, both boxes together": "ports batch {}",
}
# Datagrams of 3,000 bytes in three fragments, which go out in three; and the packet beside which they stand.
FRAGMENTS = {WAYS[side]: (f"pass fragments {side} {{}} 1000", f"pass kind {side} udp 1500 {{}} 1000") for side in WAYS}
# What must ask for no memory: the words of a shorter and of a longer run, and how many more things the longer one does.
MEMORY = {
    **{f"{protocol} {size} bytes, {WAYS[side]}, 1,000 pairs": (f"kind {side} {protocol} {size} {{}} 1000", 20_000, 40_000)
       for protocol, size, side in KINDS},
    **{name: (words, short, long) for name, (words, short, long, _) in STEPS.items()},
    **{f"datagrams of 3,000 bytes in three fragments, {way}": (words, 5000, 10_000) for way, (words, _) in FRAGMENTS.items()},
    "flows that come and go, 2,000 at a time": ("churn {} 2000", 2, 6),
    **{name: (words, 0, 1) for name, words in PORTS.items()},
}
ROUNDS, ENDPOINTS = 60, 20_000


def options_of(words):
    parser = argparse.ArgumentParser(description=__doc__.split("\n")[0])
    parser.add_argument("--program", metavar="FILE", type=pathlib.Path, help="out/bench, built already")
    parser.add_argument("--turns", metavar="N", type=int, default=7)
    parser.add_argument("--count", metavar="N", type=int, default=200_000, help="packets of a kind in a turn")
    parser.add_argument("--jobs", metavar="N", type=int, default=2, help="programs whose instructions are counted at once")
    parser.add_argument("--rounds", metavar="N", type=int, default=ROUNDS, help="rounds of the churn")
    parser.add_argument("--keep", metavar="FILE", type=pathlib.Path, help="keeps all figures as JSON")
    parser.add_argument("parts", metavar="PART", nargs="*", choices=[[], *PARTS])
    options = parser.parse_args(words)
    options.parts = options.parts or list(PARTS)
    return options


def run(*words, **options):
    done = subprocess.run([str(word) for word in words], capture_output=True, text=True, **options)
    if done.returncode != 0:
        raise SystemExit(f"bench: {' '.join(map(str, words))}: {done.stderr[-2000:] or done.stdout[-2000:]}")
    return done


def build(options, made):
    """The two programs by their names; the plain one only where there is rustc."""
    if options.program is None:
        run("rt", "run", "--", "start", cwd=CRATE)
    found = options.program or CRATE / "out/bench"
    shutil.copy(found, made / "gateway")
    programs = {"gateway": made / "gateway"}
    if shutil.which("rustc"):
        cpu = ["-C", "target-cpu=x86-64-v2"] if platform.machine() == "x86_64" else []
        run("rustc", "--edition", "2021", "-O", *cpu, "-o", made / "plain", HERE / "gateway/bare.rs")
        programs["plain"] = made / "plain"
    return programs


def cell(gateway, plain, ratio=None):
    if plain is None:
        return f"{gateway:,.0f}"
    ratio = ratio or gateway / max(plain, 1e-9)
    return f"{gateway:,.0f} / {plain:,.0f}: {ratio:.2f}"


def table(heads, rows):
    print("| " + " | ".join(heads) + " |\n|" + "---|" * len(heads))
    for row in rows:
        print("| " + " | ".join(row) + " |")
    print(flush=True)


# ---- instructions


def instructions(program, words):
    words = [program, *words.split()]
    done = run("valgrind", "--tool=cachegrind", "--cache-sim=no", "--cachegrind-out-file=/dev/null", *words)
    return int(re.search(r"I *refs: *([\d,]+)", done.stderr)[1].replace(",", ""))


def count_all(programs, jobs):
    """Instructions of each program for each thing: of the shorter and the longer run the difference, divided."""
    things = {}
    for pairs in PAIRS:
        for protocol, size, side in KINDS:
            things[f"{protocol} {size} {side} {pairs}"] = (f"kind {side} {protocol} {size} {{}} {pairs}", 1000, 5000)
    things |= {name: (words, short, long) for name, (words, short, long, _) in STEPS.items()}
    things |= {name: (words, 0, 1) for name, words in PORTS.items()}

    def each(program, words, short, long):
        more, less = (instructions(program, words.format(count)) for count in (long, short))
        return (more - less) / (long - short)

    with concurrent.futures.ThreadPoolExecutor(jobs) as pool:
        waits = {(name, thing): pool.submit(each, program, *how)
                 for thing, how in things.items() for name, program in programs.items()}
        counted = {key: wait.result() for key, wait in waits.items()}
    return {thing: [counted.get((name, thing)) for name in ("gateway", "plain")] for thing in things}


def tell_instructions(counted):
    print("Instructions, in the gateway, in plain Rust, and the ratio:\n")
    kinds_table(lambda *kind: cell(*counted[" ".join(map(str, kind))]))
    table(["", "gateway", "plain Rust", "ratio"],
          [three(name, *counted[name]) for name in (*STEPS, *PORTS)])


def three(name, gateway, plain):
    if plain is None:
        return [name, f"{gateway:,.0f}", "", ""]
    return [name, f"{gateway:,.0f}", f"{plain:,.0f}", f"{gateway / max(plain, 1):.2f}"]


def kind_of(protocol, size, side):
    """The words of a kind of packets, with a place for how often."""
    return f"kind {side} {protocol} {size} {{}} 1000"


def of_one(program, words):
    """Instructions of one of the things that a program does."""
    more, less = (instructions(program, words.format(count)) for count in (5000, 1000))
    return (more - less) / 4000


def count_fragments(program, jobs):
    """Instructions of datagrams in fragments, and of packets that are none, with `pass` and without."""
    words = {each for both in FRAGMENTS.values() for each in both}
    words |= {before + kind_of(*kind) for kind in KINDS for before in ("", "pass ")}
    with concurrent.futures.ThreadPoolExecutor(jobs) as pool:
        waits = {each: pool.submit(of_one, program, each) for each in sorted(words)}
        return {each: wait.result() for each, wait in waits.items()}


def tell_fragments(counted):
    print("Instructions of a UDP datagram of 3,000 bytes in three fragments, which goes out in three:\n")
    rows = []
    for way, (whole, packet) in FRAGMENTS.items():
        rows.append([way, f"{counted[whole]:,.0f}", f"{counted[packet]:,.0f}", f"{counted[whole] / counted[packet]:.2f}"])
    table(["", "a datagram", "a UDP packet of 1,500 bytes", "ratio"], rows)
    print("Instructions of a packet that is no fragment:\n")
    rows = []
    for protocol, size, side in KINDS:
        without, with_it = (counted[before + kind_of(protocol, size, side)] for before in ("", "pass "))
        name = f"{protocol}, {size:,} bytes, {WAYS[side]}"
        rows.append([name, f"{without:,.0f}", f"{with_it:,.0f}", f"{with_it - without:+,.0f}"])
    table(["a packet", "without `pass`", "with `pass`", "more"], rows)


def kinds_table(text):
    rows = []
    for protocol, size, side in KINDS:
        cells = [text(protocol, size, side, pairs) for pairs in PAIRS]
        rows.append([f"{protocol}, {size:,} bytes, {WAYS[side]}", *cells])
    table(["a packet", "1 pair", "1,000 pairs", "40,000 pairs"], rows)


# ---- time


def nanoseconds(program, words, count):
    found = re.match(r"(\d+) ns, (?:(\d+) of (\d+) sent|\d+ pairs held)", run(program, *words.format(count).split()).stdout)
    if found[2] != found[3]:
        raise SystemExit(f"bench: not all were sent: {words}: {found[0]}")
    return int(found[1])


def turns_of(programs, things, turns):
    """Nanoseconds of each program for each thing, the best of some turns in which they alternate; and the median ratio."""
    took = {thing: {name: [] for name in programs} for thing in things}
    for _ in range(turns):
        for thing, (words, count) in things.items():
            for name, program in programs.items():
                took[thing][name].append(nanoseconds(program, words, count))
    best = {}
    for thing, by in took.items():
        gateway, plain = by["gateway"], by.get("plain")
        ratio = plain and statistics.median(a / max(b, 1) for a, b in zip(gateway, plain))
        best[thing] = [min(gateway), plain and min(plain), ratio]
    return best


def time_all(programs, options):
    things = {f"{protocol} {size} {side} {pairs}": (f"kind {side} {protocol} {size} {{}} {pairs}", options.count)
              for pairs in PAIRS for protocol, size, side in KINDS}
    things |= {name: (words, count) for name, (words, _, _, count) in STEPS.items()}
    return turns_of(programs, things, options.turns)


def tell_time(best):
    print("Nanoseconds, in the gateway, in plain Rust, and the ratio:\n")
    kinds_table(lambda *kind: cell(*best[" ".join(map(str, kind))]))
    rows = []
    for name in STEPS:
        gateway, plain, ratio = best[name]
        rows.append([name, f"{gateway:,}", f"{plain:,}" if plain else "", f"{ratio:.2f}" if ratio else ""])
    table(["", "gateway", "plain Rust", "ratio"], rows)


# ---- memory


def asked(made, program, words):
    """The bytes that a program had at the most, and how many requests it made."""
    done = run(program, *words.split(), env={**os.environ, "LD_PRELOAD": str(made / "count.so")})
    most, requests = done.stderr.strip().splitlines()[-2:]
    return int(most.split()[0]), int(requests)


def ask_all(made, programs):
    run("cc", "-shared", "-fPIC", "-O1", "-o", made / "count.so", HERE / "memory/count.c", "-ldl")
    program = programs["gateway"]
    most, requests = asked(made, program, "start")
    found = {}
    for name, (words, short, long) in MEMORY.items():
        less, more = (asked(made, program, words.format(count))[1] for count in (short, long))
        found[name] = (more - less, long - short)
    return {"start": [most, requests], "more": found}


def tell_memory(found):
    most, requests = found["start"]
    print(f"A gateway that starts asks for {most / 1e6:.1f} MB in {requests} requests. Requests behind that:\n")
    rows = [[name, f"{count:,}", f"{more:,}"] for name, (more, count) in found["more"].items()]
    table(["", "so many more", "requests for memory"], rows)


# ---- churn


def churn(program, rounds):
    words = (rounds, ENDPOINTS)
    return [run(program, word, *words).stdout.strip() for word in ("churn", "longest")]


def tell_churn(lines):
    flows, longest = lines
    count, each, rate = map(int, re.match(r"(\d+) flows: (\d+) ns each, (\d+) a second", flows).groups())
    found = re.search(r"longest step: (\d+) ns, number (\d+); (\d+) of (\d+)", longest)
    step, number, slow, steps = map(int, found.groups())
    tick = re.search(r"worst tick: (\d+) ns, let go (\d+), (\d+) ns beyond; (\d+) of (\d+) late", longest)
    spent, let_go, beyond, late, ticks = map(int, tick.groups())
    print(f"Flows that come and go, {ENDPOINTS:,} at a time, {count // ENDPOINTS} times; by the processor's time:\n")
    table(["", ""], [
        ["flows a second of one processor, both boxes together", f"{rate:,}"],
        ["a flow, from its first packet until both boxes have let it go", f"{each:,} ns"],
        ["the longest step that isn't a tick", f"{step / 1000:,.0f} us, number {number:,}; {slow} of {steps:,} above 100 us"],
        ["the tick that took most beyond 10 us, and 1 us for each pair that it let go",
         f"{spent / 1000:,.1f} us, let go {let_go:,}, {beyond / 1000:,.1f} us beyond; {late} of {ticks:,} beyond"],
    ])


# ---- many


def many(program):
    found = {}
    for pairs in (10_000, 20_000, 40_000):
        lines = run(program, "many", pairs).stdout.splitlines()
        found[pairs] = [int(re.search(r": (\d+) us", line)[1]) for line in lines]
    return found


def tell_many(found):
    names = ("opened one after another", "all idle at one tick, which drops them",
             "loaded by a gateway that starts: steps of both", "100 ticks while the peer is silent, all idle",
             "100 ticks of the gateway that holds them for the other, all idle")
    print("What many pairs cost at once, in microseconds:\n")
    table(["", *(f"{pairs:,}" for pairs in found)],
          [[name, *(f"{found[pairs][at]:,}" for pairs in found)] for at, name in enumerate(names)])


def machine():
    model = "a processor of no name"
    with open("/proc/cpuinfo", encoding="ascii") as file:
        if found := re.search(r"model name\s*: (.*)", file.read()):
            model = found[1]
    load = os.getloadavg()[0]
    return f"{os.cpu_count()} x {model}, load {load:.1f} at the start"


def main():
    options = options_of(sys.argv[1:])
    kept = {"machine": machine()}
    print(f"Measured on {kept['machine']}.\n", flush=True)
    with tempfile.TemporaryDirectory(prefix="natpair-bench-") as folder:
        made = pathlib.Path(folder)
        programs = build(options, made)
        if "plain" not in programs:
            print("No rustc: nothing stands beside the gateway.\n")
        steps = {
            "instructions": (lambda: count_all(programs, options.jobs), tell_instructions, "valgrind"),
            "fragments": (lambda: count_fragments(programs["gateway"], options.jobs), tell_fragments, "valgrind"),
            "time": (lambda: time_all(programs, options), tell_time, None),
            "memory": (lambda: ask_all(made, programs), tell_memory, "cc"),
            "churn": (lambda: churn(programs["gateway"], options.rounds), tell_churn, None),
            "many": (lambda: many(programs["gateway"]), tell_many, None),
        }
        for part in options.parts:
            measure, tell, tool = steps[part]
            if tool and shutil.which(tool) is None:
                print(f"No {tool}: no {part}.\n")
                continue
            kept[part] = measure()
            tell(kept[part])
    if options.keep:
        options.keep.write_text(json.dumps(kept, indent=1))
    return 0


if __name__ == "__main__":
    sys.exit(main())
