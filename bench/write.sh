#!/usr/bin/env bash
# Times the writing of a module: seconds and peak memory for so many cells (2,000,000 unless a number is given).
set -eu
count=${1:-2000000}
cd "$(dirname "$0")/../crates/bench_calls"
. ../../bench/timed.sh
# Builds the program, and runs it once on a small netlist.
rt run -- write 1000 </dev/null >&2
command -v /usr/bin/time >/dev/null 2>&1 || apt-get install -y time >/dev/null 2>&1 || true
timed ./out/bench_calls write "$count"
