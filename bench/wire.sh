#!/usr/bin/env bash
# What it costs to parse a packet and send it on outward: UDP, TCP and Echo, 44 and 1,500 bytes.   usage: bench/wire.sh [COUNT]
# It builds and runs crates/bench. A benchmark and no test: nothing compares its numbers.
set -euo pipefail
cd "$(dirname "$0")/../crates/bench"
rt run -- wire "${1:-1000000}" | tail -n 6
