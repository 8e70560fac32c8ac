#!/usr/bin/env bash
# The size of circuits: of the written module, of the one with a stall input, and of the one by hand beside it where tests/hand
# has one.
#
#   area.sh [ice40]    logic cells of an iCE40, as yosys makes them and nextpnr-ice40 packs and counts them, and behind a + its
#                      block RAMs; without nextpnr-ice40 yosys' count of lookup tables stands in the place of cells
#   area.sh ecp5       lookup tables / flip-flops of an ECP5 by yosys, and behind a + its block RAMs and distributed RAMs
#   area.sh xilinx     the same of a Xilinx 7
#
# Without yosys it says so and ends well.
set -eu
cd "$(dirname "$0")/.."
aeth=${AETH:-./aeth}
family=${1:-ice40}
if ! command -v yosys >/dev/null 2>&1; then
  echo "area: yosys is not to be had here; nothing was measured"
  exit 0
fi
dir=$(mktemp -d)
trap 'rm -rf -- "$dir"' EXIT

# count PATTERN: how many cells of such kinds yosys has made.
count() {
  awk -v kinds="^($1)" '$1 ~ kinds && $2 ~ /^[0-9]+$/ { sum += $2 } END { print sum + 0 }' "$dir/stat"
}

# with_memories SIZE RAMS..: the size, and behind it how many memories of each kind there are, where there is one.
with_memories() {
  local size=$1 rams
  shift
  for rams in "$@"; do
    [ "$rams" = 0 ] || size="$size+$rams"
  done
  echo "$size"
}

# cells TOP FILE: the size of a module.
cells() {
  yosys -q -p "read_verilog $2; synth_$family -top $1 -json $dir/$1.json; tee -q -o $dir/stat stat" >"$dir/$1.log" 2>&1
  case $family in
    ice40)
      if command -v nextpnr-ice40 >/dev/null 2>&1; then
        nextpnr-ice40 --hx8k --package ct256 --json "$dir/$1.json" --pcf-allow-unconstrained --pack-only >"$dir/$1.log" 2>&1
        with_memories "$(sed -n 's/.*ICESTORM_LC: *\([0-9]*\).*/\1/p' "$dir/$1.log" | tail -1)" "$(count SB_RAM)"
      else
        with_memories "$(count SB_LUT4)" "$(count SB_RAM)"
      fi
      ;;
    ecp5) with_memories "$(count LUT4)/$(count TRELLIS_FF)" "$(count DP16)" "$(count TRELLIS_DPR)" ;;
    xilinx) with_memories "$(count LUT)/$(count FD)" "$(count RAMB)" "$(count 'RAM[36]|SRL')" ;;
  esac
}

# size NAME SLOWDOWN [FILE]: a line for a program of tests/hand, or of the file.
size() {
  local ours stalled=- hand=-
  if ! "$aeth" build "$2" <"${3:-tests/hand/$1.aeth}" >"$dir/ours.v" 2>/dev/null; then
    printf '%-12s %8s %8s\n' "$1" "$2" "$(head -1 "$dir/ours.v")"
    return
  fi
  ours=$(cells aeth "$dir/ours.v")
  if "$aeth" stall "$2" <"${3:-tests/hand/$1.aeth}" >"$dir/stalled.v" 2>/dev/null; then
    stalled=$(cells aeth "$dir/stalled.v")
  fi
  if [ -f "tests/hand/$1_$2.v" ]; then
    hand=$(cells hand "tests/hand/$1_$2.v")
  fi
  printf '%-12s %8s %12s %12s %12s\n' "$1" "$2" "$ours" "$stalled" "$hand"
}

printf '%-12s %8s %12s %12s %12s\n' program slowdown cells stalled "by hand"
for slowdown in 1 4 2 3 8; do size increment "$slowdown"; done
for slowdown in 1 2; do size square "$slowdown"; done
size shift 3
for slowdown in 1 2 4; do size sum "$slowdown"; done
size row_sum 6
size partition 6
size long_blur 480
size gaussian 4096
size integral 4096
