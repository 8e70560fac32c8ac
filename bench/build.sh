#!/usr/bin/env bash
# Times `build` and `run` on large circuits: 32,768 multipliers side by side (a load of 98,312); many moves of a picture row
# in a few clocks; and the run of a blur over 100 rows of 1,920 pixels, 480 clocks each.
# On a machine of four processors that were all at work: 0.16, 0.09 and 0.11 seconds, in 10 MB at most. Of each about 0.1
# seconds are those of `./aeth` itself, which looks whether the program is the one of these sources.
set -eu
cd "$(dirname "$0")/.."
. bench/timed.sh
dir=$(mktemp -d)
trap 'rm -rf -- "$dir"' EXIT
told "$(made squares)" build 1
told "$(made shifts)" build 4
told "$(made blur)" run 480 0
