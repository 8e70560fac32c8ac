#!/usr/bin/env bash
# Times `check` on a text of about 16 MiB: many lines that say little, as 4,096 of them may say something.
set -eu
cd "$(dirname "$0")/.."
. bench/timed.sh
dir=$(mktemp -d)
trap 'rm -rf -- "$dir"' EXIT
told "$(made long)" check
