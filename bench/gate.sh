#!/usr/bin/env bash
# Frames a second that one gateway passes on loopback, beside a bare loop in plain Rust that only passes frames between
# the same sockets; and the ratio of the two.   usage: bench/gate.sh [SECONDS [WINDOW]]
# It needs crates/natpair/out/natpair (./build makes it) and rustc. The two take turns,
# nine times each; the medians are compared. A benchmark and no test: nothing compares its numbers.
set -euo pipefail
here="$(cd "$(dirname "$0")" && pwd)"
natpair="$here/../crates/natpair/out/natpair"
seconds="${1:-2}"
window="${2:-64}"
[ -x "$natpair" ] || { echo "build natpair first: ./build"; exit 1; }
# A UDP packet of an inside host to 198.51.100.7, port 53, at the virtual hardware address of the inside.
frame=00005e00010b02000000000a08004500001e0001000040118ee1c0a8010ac633640713880035000a97c66869
made="$(mktemp -d)"
running=""
stop() { [ -z "$running" ] || kill "$running" 2>/dev/null || true; running=""; }
trap 'stop; rm -rf "$made"' EXIT
rustc -O -o "$made/bare" "$here/gate/bare.rs"
rustc -O -o "$made/load" "$here/gate/load.rs"
cp "$here/../examples/S.toml" "$made/S.toml"
cd "$made"
median() { sort -n | sed -n 5p; }
measure() { ./load 7011 7101 7102 "$seconds" "$window" "$frame"; }
for turn in 1 2 3 4 5 6 7 8 9; do
    rm -f boot0
    "$natpair" init boot0
    "$natpair" gate S.toml --id 0 --rounds 4294967295 --found > gate.out 2> gate.err &
    running=$!
    # Its routers are Active after three advertisement intervals and the skew.
    sleep 4.5
    measure | tee -a gate.lines
    stop
    ./bare 7001 7011 7021 7101 7102 &
    running=$!
    sleep 0.5
    measure | tee -a bare.lines
    stop
    sleep 0.2
done 2>/dev/null
gate="$(cut -d' ' -f1 gate.lines | median)"
bare="$(cut -d' ' -f1 bare.lines | median)"
echo "gateway $gate frames a second, bare loop $bare: ratio $(awk "BEGIN { printf \"%.2f\", $gate / $bare }")"
