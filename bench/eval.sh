#!/usr/bin/env bash
# Times the evaluator: word operations a second of a five-line function on each word of a [4096][4]u16 (200 times unless a
# number is given), and seconds for 1,023 rows of 4,096 copies of a word.
set -eu
times=${1:-200}
cd "$(dirname "$0")/../crates/bench_calls"
# Builds the program, and runs it once.
rt run -- map 1 </dev/null >&2
began=$(date +%s%N)
./out/bench_calls map "$times"
ended=$(date +%s%N)
awk -v n="$times" -v t="$((ended - began))" 'BEGIN { printf "%.1f million word operations a second\n", n * 81920 / t * 1000 }'
began=$(date +%s%N)
./out/bench_calls up 1023
ended=$(date +%s%N)
awk -v t="$((ended - began))" 'BEGIN { printf "%.3f seconds for 1,023 rows of 4,096 words\n", t / 1e9 }'
