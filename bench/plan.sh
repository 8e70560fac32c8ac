#!/usr/bin/env bash
# Times `plan` on programs that ask most of it: thousands of moves of 16,384 words, a chain of functions in which each
# calls the one before twice, and a plain one. The moves are made as one (docs/FUSED.md): what each of their words is, is kept as
# long as a line behind wants it. The chain passes the limit of the load, and is refused at a line.
# On a machine of four processors that were all at work: a second for the moves, 0.1 seconds for the chain and the plain
# program, these two in 5 MB at most. Of each about 0.1 seconds are those of `./aeth` itself, which looks whether the program is the one of
# these sources. An unproved build takes many times as long.
set -eu
cd "$(dirname "$0")/.."
. bench/timed.sh
dir=$(mktemp -d)
trap 'rm -rf -- "$dir"' EXIT
moves=$(made moves)
told "$moves" plan 4096
told "$moves" plan 1
told "$(made chain)" plan 1
told examples/blur.aeth plan 4
