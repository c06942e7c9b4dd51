#!/usr/bin/env python3
"""Runs the gate, `rt ci` with one prover a processor (or as many as RT_JOBS says), once, and prints what it took: for each
crate the processor seconds of its proof, its tests, its must-fail edits, and its builds and runs; the share of each; and
the longest chain of crates by crates.txt.

usage: bench/gate.py [--proofs] [--keep FILE]   runs the gate; with --keep it writes what the gate said and took into
                                                FILE; with --proofs it ends the gate once each crate's proof has ended,
                                                which is enough for the longest chain, and says nothing of the rest
       bench/gate.py --log FILE                 prints the figures of such a FILE again, and runs nothing

Run it from the top of the repository, with nothing beside it where figures are to be compared. The exit status is the
gate's; of a gate that was ended it is 0 where each proof ended well. Where this script itself is interrupted, it ends
the gate and prints what it has seen. A FILE of the gate's bare output has no times: then each crate's outcomes are
printed alone.

A processor second is one that a process of the gate's, or one that it started, spent computing. They are read from
/proc twice a second, so that up to half a second of each is lost; to read them takes a hundredth of a processor. What no
crate's process took (the gate itself, formats, what was lost) stands in the line `others`.
"""
import os
import re
import resource
import signal
import subprocess
import sys
import threading
import time

KINDS = ("proof", "tests", "edits", "builds")
PERIOD = 0.5
TICKS = os.sysconf("SC_CLK_TCK")


def stats():
    """Each process, by its number: its parent, its start, and what it and its ended children computed, in seconds."""
    found = {}
    for name in os.listdir("/proc"):
        if not name.isdigit():
            continue
        try:
            with open(f"/proc/{name}/stat", encoding="utf-8", errors="replace") as it:
                words = it.read().rpartition(")")[2].split()
        except OSError:
            continue
        found[int(name)] = (int(words[1]), words[19], sum(map(int, words[11:15])) / TICKS)
    return found


def task_of(pid):
    """Which crate's process this is, and for what; None for the gate's own."""
    try:
        with open(f"/proc/{pid}/cmdline", encoding="utf-8", errors="replace") as it:
            words = it.read().split("\0")
        cwd = os.readlink(f"/proc/{pid}/cwd")
    except OSError:
        return None
    if "--crate-name" in words:
        name = words[words.index("--crate-name") + 1]
        if os.path.basename(cwd).startswith("rt-edit-"):
            return name, "edits"
        if "--crate-checked" in words:
            return name, "builds"
        return name, "tests" if "--test" in words else "proof"
    linked = [it for it in words if os.path.basename(it) == "rattle-link"]
    if linked and os.path.basename(os.path.dirname(cwd)) == "crates":
        return os.path.basename(cwd), "builds"
    ran = [re.search(r"/rt-run-[^/]*/bin/(\w+?)(_tests)?(\.by-rattle)?$", it) for it in words]
    ran = [it for it in ran if it]
    return (ran[0][1], "tests" if ran[0][2] else "builds") if ran else None


class Sampler(threading.Thread):
    """Watches the processes that the gate starts."""

    def __init__(self, gate):
        super().__init__(daemon=True)
        self.gate, self.over = gate, threading.Event()
        self.tasks, self.computed, self.first, self.last = {}, {}, {}, {}

    def run(self):
        while not self.over.wait(PERIOD):
            self.sample()

    def sample(self):
        now, found = time.monotonic(), stats()
        below = {}
        for pid, (parent, _, _) in found.items():
            below.setdefault(parent, []).append(pid)
        for pid in below.get(self.gate, []):
            key = pid, found[pid][1]
            self.tasks[key] = task_of(pid) or self.tasks.get(key)
            self.first.setdefault(key, now)
            self.last[key] = now
            total, left = 0, [pid]
            while left:
                at = left.pop()
                total += found[at][2]
                left += below.get(at, [])
            self.computed[key] = max(total, self.computed.get(key, 0))

    def took(self):
        """For each crate and kind the processor seconds, and the seconds that passed."""
        given = {}
        for key, task in self.tasks.items():
            if task:
                computed, passed = given.get(task, (0, 0))
                given[task] = computed + self.computed[key], passed + self.last[key] - self.first[key]
        return given


def end(gate):
    """Ends the gate and all that it runs. It puts the crates' kept work back where it is given the time."""
    for sent, patience in ((signal.SIGINT, 20), (signal.SIGKILL, 20)):
        try:
            os.killpg(gate.pid, sent)
            gate.wait(patience)
        except (ProcessLookupError, subprocess.TimeoutExpired):
            pass


def run_gate(kept, proofs_alone):
    """Runs the gate, or only until each proof has ended. Returns its lines, what its tasks took, its processor seconds,
    its seconds and its status."""
    began, lines, left = time.monotonic(), [], set(crates())
    around = {"RT_JOBS": str(os.cpu_count()), **os.environ}
    gate = subprocess.Popen(["rt", "ci"], env=around, stdin=subprocess.DEVNULL, stdout=subprocess.PIPE, stderr=subprocess.STDOUT, text=True, errors="replace", start_new_session=True)
    sampler, status = Sampler(gate.pid), None
    sampler.start()
    try:
        for line in gate.stdout:
            lines.append(line.rstrip("\n"))
            if line.startswith("rt: ") or re.match(r"\d+ passed, \d+ failed", line):
                print(f"{time.monotonic() - began:7.0f} s  {line.rstrip()[:140]}", flush=True)
            ended = re.fullmatch(r"rt: (\w+) (?:proved|NOT PROVED\b.*)", line.rstrip("\n"))
            left -= {ended[1]} if ended else set()
            if proofs_alone and not left:
                status = int(any("NOT PROVED" in it for it in lines))
                break
    except KeyboardInterrupt:
        status = 130
    if status is None:
        status = gate.wait()
    else:
        sampler.sample()
        end(gate)
    sampler.over.set()
    sampler.join()
    used = resource.getrusage(resource.RUSAGE_CHILDREN)
    took, computed, passed = sampler.took(), used.ru_utime + used.ru_stime, time.monotonic() - began
    if kept:
        with open(kept, "w", encoding="utf-8") as it:
            for (name, kind), (processor, elapsed) in sorted(took.items()):
                it.write(f"took {name} {kind} {processor:.2f} {elapsed:.2f}\n")
            it.write(f"took all {computed:.2f} {passed:.2f} {status}\n")
            it.writelines(f"{line}\n" for line in lines)
    return lines, took, computed, passed, status


def read_log(path):
    """The same from a file that an earlier run wrote; from bare output, no times."""
    lines, took, computed, passed, status = [], {}, 0.0, 0.0, 0
    with open(path, encoding="utf-8", errors="replace") as it:
        for line in it.read().splitlines():
            words = line.split()
            if words[:2] == ["took", "all"]:
                computed, passed, status = float(words[2]), float(words[3]), int(words[4])
            elif words[:1] == ["took"]:
                took[words[1], words[2]] = float(words[3]), float(words[4])
            else:
                lines.append(line)
    return lines, took, computed, passed, status


def crates():
    """The crates of crates.txt, each with those of them that it stands on."""
    given = {}
    with open("crates.txt", encoding="utf-8") as it:
        for line in it:
            name, _, below = line.partition("#")[0].partition(":")
            if name.strip():
                given[name.split()[0]] = below.split()
    return {name: [it for it in below if it in given] for name, below in given.items()}


def longest_chain(below, weight):
    """The chain of crates, lowest first, whose proofs take longest one after another."""
    known = {}

    def chain(name):
        if name not in known:
            best = max((chain(it) for it in below[name]), key=lambda it: it[0], default=(0, []))
            known[name] = best[0] + weight(name), [*best[1], name]
        return known[name]

    return max((chain(it) for it in below), key=lambda it: it[0])


def outcomes(lines):
    """What the gate said of each crate: its proof, its tests, its edits that were refused and all of them."""
    said = {}
    for line in lines:
        proof = re.fullmatch(r"rt: (\w+)(: its tests are)? (proved|NOT PROVED)", line)
        edit = re.match(r"rt: must-fail (\w+)/\S+: (refused)?", line)
        if proof:
            said.setdefault(proof[1], {})["tests" if proof[2] else "proof"] = proof[3]
        elif edit:
            it = said.setdefault(edit[1], {})
            it["tried"], it["refused"] = it.get("tried", 0) + 1, it.get("refused", 0) + bool(edit[2])
    return said


def report(lines, took, computed, passed):
    below, said = crates(), outcomes(lines)
    names = [*below, *sorted({name for name, _ in took} - {*below})]
    second = lambda name, kind: took.get((name, kind), (0, 0))[0]
    print(f"\n{'crate':16}{'proof':>8}{'tests':>8}{'edits':>8}{'builds':>8}{'all':>8}   outcome")
    for name in sorted(names, key=lambda it: -sum(second(it, kind) for kind in KINDS)):
        it, each = said.get(name, {}), [second(name, kind) for kind in KINDS]
        told = [it.get("proof", "not told of"), f"tests {it['tests']}" if "tests" in it else "no tests"]
        told += [f"{it['refused']} of {it['tried']} edits refused"] if "tried" in it else ["no edits"]
        print(f"{name:16}" + "".join(f"{x:8.1f}" for x in [*each, sum(each)]) + "   " + ", ".join(told))
    sums = [sum(second(name, kind) for name in names) for kind in KINDS]
    print(f"{'sum':16}" + "".join(f"{x:8.1f}" for x in [*sums, sum(sums)]))
    if computed:
        shares = [100 * x / sum(sums) if sum(sums) else 0 for x in sums]
        print(f"{'share, %':16}" + "".join(f"{x:8.1f}" for x in shares))
        print(f"{'others':16}{'':32}{computed - sum(sums):8.1f}")
        print(f"{'whole gate':16}{'':32}{computed:8.1f}   {computed / 60:.1f} processor minutes, in {passed / 60:.1f} minutes")
        for what, at in (("seconds", 1), ("processor seconds", 0)):
            length, chain = longest_chain(below, lambda name: took.get((name, "proof"), (0, 0))[at])
            print(f"longest chain, by the {what} of its proofs: {length:.0f}: {', '.join(chain)}")
    else:
        _, chain = longest_chain(below, lambda name: 1)
        print(f"no times are known; the longest chain, by crates: {', '.join(chain)}")
    print(next((it for it in reversed(lines) if re.fullmatch(r"\d+ passed, \d+ failed", it)), "the gate didn't end"))


def main(words):
    for it in (signal.SIGINT, signal.SIGTERM):
        signal.signal(it, signal.default_int_handler)
    proofs_alone, words = words[:1] == ["--proofs"], words[words[:1] == ["--proofs"]:]
    if words[:1] == ["--log"] and len(words) == 2 and not proofs_alone:
        given = read_log(words[1])
    elif not words or words[0] == "--keep" and len(words) == 2:
        given = run_gate(words[1] if words else None, proofs_alone)
    else:
        sys.exit(__doc__)
    report(*given[:4])
    return given[4]


if __name__ == "__main__":
    sys.exit(main(sys.argv[1:]))
