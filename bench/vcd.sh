#!/usr/bin/env bash
# Times the reading of a wave of 4,194,304 words, and the reading and writing of it: seconds and peak memory.
set -eu
cd "$(dirname "$0")/../crates/bench_calls"
. ../../bench/timed.sh
text=$(mktemp)
trap 'rm -f -- "$text"' EXIT
# Fifteen variables at 262,144 times, each with a new word at each time.
python3 -B - >"$text" <<'END'
print("$scope module wide $end")
for k in range(15):
    print(f"$var wire 16 {chr(33 + k)} v{k} $end")
print("$upscope $end $enddefinitions $end")
for time in range(4194304 // 16):
    words = "".join(f"b{(time * (k + 7) + k) % 65536:b} {chr(33 + k)}\n" for k in range(15))
    print(f"#{time}\n{words}", end="")
END
# Builds the program, and runs it once on a small wave.
rt run -- rewrite <stdin >&2
command -v /usr/bin/time >/dev/null 2>&1 || apt-get install -y time >/dev/null 2>&1 || true
timed ./out/bench_calls waves <"$text"
timed ./out/bench_calls rewrite <"$text"
