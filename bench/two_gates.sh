#!/usr/bin/env bash
# Two gateways as two processes with boot files, side by side on loopback.   usage: bench/two_gates.sh [ROUNDS]
# It needs crates/natpair/out/natpair (./build makes it). It prints what each process
# printed, its status, and the lines on standard error that tell how the two found each other.
set -euo pipefail
here="$(cd "$(dirname "$0")" && pwd)"
natpair="$here/../crates/natpair/out/natpair"
rounds="${1:-1000}"
[ -x "$natpair" ] || { echo "build natpair first: ./build"; exit 1; }
made="$(mktemp -d)"
trap 'rm -rf "$made"' EXIT
cp "$here/../examples/S.toml" "$made/S.toml"
cd "$made"
"$natpair" init boot0
"$natpair" init boot1
"$natpair" gate S.toml --id 0 --rounds "$rounds" --found > out0 2> log0 &
zero=$!
"$natpair" gate S.toml --id 1 --rounds "$rounds" > out1 2> log1 &
one=$!
worst=0
for id in 0 1; do
    status=0
    wait "$([ "$id" = 0 ] && echo "$zero" || echo "$one")" || status=$?
    echo "== gateway $id: status $status"
    cat "out$id" "log$id"
    [ "$status" = 0 ] || worst=1
done
exit "$worst"
