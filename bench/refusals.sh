#!/usr/bin/env bash
# Refuses each request for memory of `cases_gateway refusals` in turn, up to the first number that none has. It says in how
# many runs a step was refused and went when it was asked for again, and in how many what was printed isn't what is owed,
# which shows where a refused step had changed something.   usage: bench/refusals.sh [FIRST [LAST]]
# Then it says how many requests two steps have where the table has 1, 1,000 and 3,000 pairs: as many in each. No clause
# bounds how the maps and slots below the table grow.
# It builds the program, and needs cc. `rt try --fail-alloc N` refuses a request too, but builds anew for each.
# Its status is 1 where a run printed something else, or where these numbers differ.
set -euo pipefail
here="$(cd "$(dirname "$0")" && pwd)"
crate="$here/../crates/cases_gateway"
made="$(mktemp -d)"
trap 'rm -rf "$made"' EXIT
# Its files don't lie where rt runs it, so there it only ends.
(cd "$crate" && rt run) > "$made/built" 2>&1 || true
grep -q '^rt: running ' "$made/built" || { tail -n 5 "$made/built"; exit 1; }
cc -shared -fPIC -O1 -o "$made/count.so" "$here/memory/count.c" -ldl
cd "$crate/data"
program="$PWD/../out/cases_gateway"
# What is owed stands behind all that the program prints without a word.
sed -n '/^== word.cases$/,$p' ../stdout > "$made/owed"
last="${2:-$(LD_PRELOAD="$made/count.so" "$program" refusals 2>&1 > /dev/null | tail -n 1)}"
runs=0
refused=0
other=0
for number in $(seq "${1:-1}" "$last"); do
    runs=$((runs + 1))
    REFUSED="$number" LD_PRELOAD="$made/count.so" "$program" refusals > "$made/printed" 2> /dev/null || true
    ! grep -q '^  refused$' "$made/printed" || refused=$((refused + 1))
    grep -v '^  refused$' "$made/printed" | cmp -s - "$made/owed" || { other=$((other + 1)); echo "request $number: something else"; }
done
echo "$runs runs: in $refused a step was refused and went when it was asked for again, $other printed something else"
# The requests of a run whose table has so many pairs, with its last steps or without them (as comments, as long as they were).
requests() {
    mkdir -p "$made/data"
    cp ./*.cases "$made/data"
    sed "s/^pairs .*/pairs $1/; s/^plain/$2/" pairs.cases > "$made/data/pairs.cases"
    (cd "$made/data" && LD_PRELOAD="$made/count.so" "$program" refusals 2>&1 > /dev/null | tail -n 1)
}
counts=""
for pairs in 1 1000 3000; do
    counts="$counts $(($(requests "$pairs" plain) - $(requests "$pairs" '#lain')))"
done
echo "two steps at 1, 1,000 and 3,000 pairs:$counts requests"
[ "$other" = 0 ] && [ "$(echo "$counts" | tr ' ' '\n' | sort -u | wc -l)" = 2 ]
