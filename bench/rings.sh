#!/usr/bin/env bash
# Times `run` of 500 blocks of 4,096 words, shifted by 8 and by 2,500 places at one word a clock: what waits stands in a memory
# of 8 words in the one module, and of 4,096 in the other. A step of the one takes as long as one of the other.
set -eu
cd "$(dirname "$0")/.."
. bench/timed.sh
dir=$(mktemp -d)
trap 'rm -rf -- "$dir"' EXIT
for places in 8 2500; do
  python3 -B - "$places" >"$dir/shift_$places" <<'ROWS'
import random
import sys

random.seed(1)
print(f"fn main a:[4096]u8\nb = shift {sys.argv[1]} a\nend b\n%%")
row = " ".join(str(random.randrange(256)) for _ in range(4096))
print("\n".join([row] * 500))
ROWS
  ./aeth build 4096 <"$dir/shift_$places" | grep -o 'reg .* \[0:[0-9]*\];'
  told "$dir/shift_$places" run 4096 0
done
