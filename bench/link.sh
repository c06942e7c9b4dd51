#!/usr/bin/env bash
# What datagrams of the link cost to make, to parse and to take (empty; 64 records), a push, and 160,000 records drained.
# usage: bench/link.sh [COUNT]
# It builds and runs crates/bench. A benchmark and no test: nothing compares its numbers.
set -euo pipefail
cd "$(dirname "$0")/../crates/bench"
rt run -- link "${1:-200000}" | tail -n 5
