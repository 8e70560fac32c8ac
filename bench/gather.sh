#!/usr/bin/env bash
# Times the building of a move of four words in so many clocks, backwards and transposed: the mean of 20 runs for 512 to
# 4,096 clocks, and the peak memory for 16,384 words in 4,096 clocks. Where valgrind is installed it also counts the
# instructions for each cell, which stay the same on a busy machine.
set -eu
cd "$(dirname "$0")/../crates/bench_calls"
# Builds the program, and runs it once on a small move.
rt run -- reversed 2 </dev/null >&2
runs=20
build() {
  local order=$1 clocks=$2 began ended said
  said=$(./out/bench_calls "$order" "$clocks")
  began=$(date +%s%N)
  for ((k = 0; k < runs; k++)); do
    ./out/bench_calls "$order" "$clocks" >/dev/null
  done
  ended=$(date +%s%N)
  awk -v o="$order" -v s="$said" -v r="$runs" -v t="$((ended - began))" \
    'BEGIN { split(s, w, " "); printf "%s, %s: %.4f seconds, %.1f million cells a second\n", o, s, t / r / 1e9, w[3] * r / t * 1000 }'
  if command -v valgrind >/dev/null 2>&1; then
    valgrind --tool=callgrind --callgrind-out-file=/dev/null ./out/bench_calls "$order" "$clocks" 2>&1 >/dev/null |
      awk -v s="$said" '/Collected/ { split(s, w, " "); printf "  %d instructions a cell\n", $NF / w[3] }'
  fi
}
for order in reversed transposed; do
  for clocks in 512 1024 2048 4096; do
    build "$order" "$clocks"
  done
  if command -v /usr/bin/time >/dev/null 2>&1; then
    /usr/bin/time -f '%e seconds, %M KiB at most' ./out/bench_calls "$order" 4096 >/dev/null
  fi
done
