#!/usr/bin/env bash
# What a renewal, a stranger and a look-up cost in a full ARP cache of 1,024 entries, and a stranger where packets were
# sent by all others.   usage: bench/arp.sh [COUNT]
# It builds and runs crates/bench. A benchmark and no test: nothing compares its numbers.
set -euo pipefail
cd "$(dirname "$0")/../crates/bench"
rt run -- arp "${1:-1000000}" | tail -n 2
