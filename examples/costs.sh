#!/usr/bin/env bash
# Prints what an example costs at some slowdowns, as a table: what does a slower circuit cost?
set -eu
cd "$(dirname "$0")/.."
example=${1:-blur}
echo "| Slowdown | Latency | Load | Multipliers |"
echo "|---|---|---|---|"
for slowdown in 1 2 4 8 16 32; do
  ./aeth plan "$slowdown" <"examples/$example.aeth" |
    awk '{ value[$1] = $2 } NR == 4 { print "| " value["slowdown"] " | " value["latency"] " | " value["load"] " | " value["muls"] " |"; exit }'
done
