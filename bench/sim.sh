#!/usr/bin/env bash
# Times the simulator: cells stepped a second on netlists of 1,000 and of 100,000 cells, and the peak memory. Then the
# program that `./build` makes: `sim` on 8 MB of Verilog with 100,000 operators and no rows, and on modules of 100 and of
# 10,000 operators, beside Icarus on the same clocks; and `run` of a blur for 500,000 clocks.
set -eu
cd "$(dirname "$0")/.."
. bench/timed.sh
dir=$(mktemp -d)
trap 'rm -rf -- "$dir"' EXIT
(
  cd crates/bench_calls
  # Builds the program, and runs it once on a small netlist.
  rt run -- step 100 10 </dev/null >&2
)
step() {
  local groups=$1 clocks=$2 began ended
  began=$(date +%s%N)
  crates/bench_calls/out/bench_calls step "$groups" "$clocks" >/dev/null
  ended=$(date +%s%N)
  awk -v c="$((groups * 3 + 2))" -v k="$clocks" -v t="$((ended - began))" \
    'BEGIN { printf "%d cells: %.1f million cells a second\n", c, c * k / t * 1000 }'
}
step 333 300000
step 33333 1000
echo "100,001 cells"
timed crates/bench_calls/out/bench_calls step 33333 10 >/dev/null

python3 - "$dir" <<'PY'
import random
import sys
out = sys.argv[1]
rng = random.Random(1)
def write(name, lines):
    open(out + "/" + name, "w").write("\n".join(lines) + "\n")
def module(count):
    """Operators on earlier words; every tenth is kept in a register, and all begins with a counter."""
    lines = ["module m (input wire clk, output wire [31:0] q);", "reg [31:0] value_number_000000;"]
    lines += ["always @(posedge clk) value_number_000000 <= value_number_000000 + 32'd1;"]
    name = lambda k: "value_number_%06d" % k
    for k in range(1, count):
        left, right = name(rng.randrange(k)), name(k - 1 - k % min(k, 64))
        sign = "+-^&|"[k % 5]
        if k % 10 == 9:
            lines.append("reg [31:0] %s; always @(posedge clk) %s <= %s %s %s;" % (name(k), name(k), left, sign, right))
        else:
            lines.append("wire [31:0] %s = %s %s %s;" % (name(k), left, sign, right))
    return lines + ["assign q = %s;" % name(count - 1), "endmodule"]
def bench(count, clocks):
    lines = ["module bench;", "reg clk;", "integer k;", "wire [31:0] q;", "m dut (.clk(clk), .q(q));", "initial begin", "clk = 0;"]
    lines += ["dut.value_number_%06d = 0;" % k for k in range(count) if k == 0 or k % 10 == 9]
    lines += ["for (k = 0; k < %d; k = k + 1) begin" % clocks, "#1 $write(\"%0d %0d\\n\", k, q);", "clk = 1; #1 clk = 0; #1;"]
    return lines + ["end", "end", "endmodule"]
write("large", module(100000))
for count, clocks in ((100, 200000), (10000, 2000)):
    lines = module(count)
    for many in (1, clocks):
        write("%d.%d" % (count, many), lines + ["%%"] + ["0"] * many)
    for many in (1, clocks // 10):
        write("%d.%d.v" % (count, many), lines + bench(count, many))
blur = """fn outer x:u16 y:u16
s = add x y
end s
fn mid x:u16 y:u16
d = shl 1 y
s = add x d
q = shr 2 s
end q
fn main a:[1920]u16
b = shift 1 a
c = shift 2 a
e = map2 outer a c
g = map2 mid e b
end g
%%""".split("\n")
write("blur", blur + [" ".join(str((k * 7 + row) % 65536) for k in range(1920)) for row in range(1042)])
PY
echo "sim 0 on $(wc -c <"$dir/large") bytes with 100,000 operators"
timed ./aeth sim 0 <"$dir/large"
echo "run 480 0 of a blur over 1,042 rows of 1,920 pixels"
timed ./aeth run 480 0 <"$dir/blur" | tail -n 1 | awk '{ print "the last clock is", $1 }'

# seconds COMMAND..: how long it takes.
seconds() {
  local began ended
  began=$(date +%s%N)
  "$@" >"$dir/said"
  ended=$(date +%s%N)
  awk -v t="$((ended - began))" 'BEGIN { print t / 1e9 }'
}
ours() {
  ./aeth sim 0 <"$dir/$1"
}
# How long the clocks behind the first take; Icarus has a tenth of them.
beside() {
  local operators=$1 clocks=$2 fewer=$(($2 / 10)) once all rate
  once=$(seconds ours "$operators.1")
  all=$(seconds ours "$operators.$clocks")
  cp "$dir/said" "$dir/ours"
  rate=$(awk -v o="$operators" -v k="$clocks" -v t="$all" -v s="$once" 'BEGIN { printf "%.2f", o * k / (t - s) / 1e6 }')
  echo "$operators operators, $clocks clocks under sim: $rate million operators a second"
  command -v iverilog >/dev/null 2>&1 || return 0
  for many in 1 "$fewer"; do
    iverilog -g2001 -s bench -o "$dir/play.$many" "$dir/$operators.$many.v"
  done
  once=$(seconds vvp -n "$dir/play.1")
  all=$(seconds vvp -n "$dir/play.$fewer")
  head -n "$fewer" "$dir/ours" | cmp - "$dir/said"
  awk -v o="$operators" -v k="$fewer" -v t="$all" -v s="$once" -v r="$rate" \
    'BEGIN { v = o * k / (t - s) / 1e6; printf "  under Icarus, on %d clocks: %.2f million; sim is %.0f times as fast\n", k, v, r / v }'
}
beside 100 200000
beside 10000 2000
