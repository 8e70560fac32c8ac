#!/usr/bin/env bash
# Random modules of the profile show under Icarus, word by word and clock by clock, what `sim` says of them.
# Words: how many modules, the first seed, and how many random parts each has. Without words a hundred modules of three
# parts, which wants the built program: without it each takes a minute or two.
set -u
cd "$(dirname "$0")/.."
modules=${1:-100}
seed=${2:-1}
parts=${3:-3}
if ! command -v iverilog >/dev/null 2>&1; then
  echo "random modules: iverilog is not to be had here; nothing was compared"
  exit 0
fi
folder=$(mktemp -d)
trap 'rm -rf -- "$folder"' EXIT
python3 -B tests/random_modules.py "$seed" "$modules" "$parts" 20 "$folder" || exit 1
passed=0
failed=0
for ((k = 0; k < modules; k++)); do
  { cat "$folder/$k.v"; echo '%%'; cat "$folder/$k.rows"; } >"$folder/input"
  "${AETH:-./aeth}" sim "$(cat "$folder/$k.fill")" <"$folder/input" >"$folder/ours" 2>"$folder/told"
  iverilog -g2001 -o "$folder/play" "$folder/$k.v" "$folder/$k.bench.v" && vvp -n "$folder/play" >"$folder/theirs"
  if [ -s "$folder/theirs" ] && cmp -s "$folder/ours" "$folder/theirs"; then
    passed=$((passed + 1))
  else
    failed=$((failed + 1))
    echo "random modules: seed $seed, module $k of $modules with $parts parts"
    diff "$folder/ours" "$folder/theirs" | cut -c 1-200 | head -10
  fi
  rm -f "$folder/theirs"
done
echo "random modules: $passed passed, $failed failed"
[ "$failed" = 0 ]
