#!/usr/bin/env bash
# Measures the gate from nothing, in a fresh clone of what is committed: processor minutes by crate and kind (proof, tests,
# planted bugs, builds), and the wall seconds of each script behind it. To be run alone on the machine; it takes as long
# as the gate. The table goes to standard output, the gate's own words to bench/gate.log (not committed).
set -eu
cd "$(dirname "$0")/.."
top=$PWD
dir=$(mktemp -d)
trap 'rm -rf -- "$dir"' EXIT
git clone -q . "$dir/repository"
cd "$dir/repository"
status=0
gate='rt ci --anew && bash tests/edits.sh --planted'
python3 -B "$top/bench/gate_times.py" "$dir/table" bash -c "$gate" >"$top/bench/gate.log" 2>&1 || status=$?
date +%F
echo "$(rt version), $(nproc) processors"
cat "$dir/table"
tail -n 1 "$top/bench/gate.log"
[ "$status" = 0 ] || exit "$status"
# The scripts behind the gate, as .ci/run has them.
./build --sources >crates/aeth/out/aeth.sources
grep -E '^(bash|python3) ' .ci/run | while read -r script; do
  begin=$(date +%s)
  status=0
  bash -c "$script" >>"$top/bench/gate.log" 2>&1 </dev/null || status=$?
  echo "$script: $(($(date +%s) - begin)) s$([ "$status" = 0 ] || echo ", failed with $status")"
done
