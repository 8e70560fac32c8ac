#!/usr/bin/env python3
"""The modules of small programs are equal, in all clocks in which results stand, to modules written by hand, for all inputs
and whatever registers begin with: yosys puts both side by side, and abc proves that no clock tells them apart, without a bound,
or for two blocks after reset where that takes too long; of a picture in memories Icarus plays twelve blocks of random words
through both. hand/NAME.aeth is a program, and hand/NAME_S.v the module by hand for the slowdown S. A module with a fault is
told apart. Without yosys the script says so and ends well.

equal.py [NAME_S ..]: these pairs, or all."""
import pathlib
import re
import subprocess
import sys
import tempfile

from common import TOP, aeth, latency, missing, out_layouts, ports, side_by_side, slots

HAND = TOP / "tests" / "hand"
SECONDS = 40
BOUNDED = ("partition_6", "long_blur_480")
PLAYED = ("gaussian_4096", "integral_4096")
BLOCKS = 12


def live_words(module, slowdown):
    """Each output with the clocks of a block in which an element stands on its lane."""
    outs = iter(ports(module, "output"))
    for layout in out_layouts(module):
        places, time, lanes, words = slots(layout)
        assert time == slowdown
        for lane in range(lanes):
            clocks = sorted(clock for clock, there in places if there == lane)
            for _ in range(words):
                yield *next(outs), clocks


def miter(module, slowdown):
    """Both modules on the same inputs. `apart` is 1 where a word differs in a clock in which a result stands; `early` and
    `clock` count the clocks since reset, and `rst` is 1 in the first clock alone."""
    ins, late = ports(module, "input")[2:], latency(module)
    fed = "".join(f", input wire [{width - 1}:0] {name}" for name, width in ins)
    lines = [f"module miter(input wire clk{fed}, output wire apart);", "  reg rst = 1'd1;", "  reg [15:0] clock = 16'd0;"]
    lines += [f"  reg [15:0] early = 16'd{late};", "  wire stands = !rst && early == 16'd0;"]
    lines += ["  always @(posedge clk) begin", "    rst <= 1'd0;", "    if (!rst && early != 16'd0) early <= early - 16'd1;"]
    lines += [f"    if (stands) clock <= clock == 16'd{slowdown - 1} ? 16'd0 : clock + 16'd1;", "  end"]
    tests, outs = [], list(live_words(module, slowdown))
    for name, width, clocks in outs:
        lines += [f"  wire [{width - 1}:0] ours_{name}, hand_{name};"]
        stands = "1'd1" if len(clocks) == slowdown else " || ".join(f"clock == 16'd{clock}" for clock in clocks)
        tests += [f"({stands}) && ours_{name} != hand_{name}"]
    for kind, own in (("aeth", "ours"), ("hand", "hand")):
        joined = [f".{name}({name})" for name in ["clk", "rst"] + [name for name, _ in ins]]
        joined += [f".{name}({own}_{name})" for name, _, _ in outs]
        lines += [f"  {kind} {own}({', '.join(joined)});"]
    return "\n".join([*lines, "  assign apart = stands && (" + " || ".join(tests) + ");", "endmodule", ""])


def played(module, slowdown):
    """A bench that gives the miter random words for some blocks, and counts the clocks in which the modules are apart."""
    ins = ports(module, "input")[2:]
    fed = ", ".join(f".{name}(in[{place}][{width - 1}:0])" for place, (name, width) in enumerate(ins))
    clocks = 1 + latency(module) + BLOCKS * slowdown
    return f"""module bench;
  reg clk = 1'd0;
  reg [63:0] in [0:{len(ins) - 1}];
  wire apart;
  integer clock, place, wrong = 0, seed = 1;
  miter both(.clk(clk), {fed}, .apart(apart));
  initial begin
    for (clock = 0; clock < {clocks}; clock = clock + 1) begin
      for (place = 0; place < {len(ins)}; place = place + 1) in[place] = {{$random(seed), $random(seed)}};
      #1 if (apart !== 1'd0) wrong = wrong + 1;
      clk = 1'd1;
      #1 clk = 1'd0;
    end
    $display("%0d wrong", wrong);
  end
endmodule
"""


def play(folder):
    """What Icarus says of both modules, or None where no clock tells them apart."""
    subprocess.run(["iverilog", "-g2005", "-o", "both", "both.v"], cwd=folder, check=True, capture_output=True)
    said = subprocess.run(["vvp", "-n", "both"], cwd=folder, check=True, capture_output=True, text=True).stdout
    return None if said == "0 wrong\n" else said


def prove(folder, pair, fault=("", "")):
    """What abc says of a pair, or None where it is proved equal. The fault is a text of the module by hand and another."""
    name, slowdown = re.fullmatch(r"(\w+)_(\d+)", pair).groups()
    status, module = aeth(["build", slowdown], (HAND / f"{name}.aeth").read_text())
    assert status == 0, (pair, module)
    hand = (HAND / f"{pair}.v").read_text().replace(*fault)
    folder.mkdir()
    both = module + hand + miter(module, int(slowdown))
    if pair in PLAYED:
        (folder / "both.v").write_text(both + played(module, int(slowdown)))
        return play(folder)
    (folder / "both.v").write_text(both)
    gates = "proc; flatten; opt -full; techmap; opt; dffunmap; aigmap; opt_clean"
    made = f"read_verilog both.v; hierarchy -check -top miter; {gates}; write_aiger both.aig"
    subprocess.run(["yosys", "-q", "-p", made], cwd=folder, check=True, capture_output=True)
    frames = 1 + latency(module) + 2 * int(slowdown)
    search, end = f"pdr -T {SECONDS}", "Property proved."
    if pair in BOUNDED:
        search, end = f"bmc3 -F {frames}", f"No output asserted in {frames} frames."
    # The words that registers begin with become free inputs.
    asked = f"read_aiger both.aig; logic; undc; strash; zero; {search}"
    said = subprocess.run(["yosys-abc", "-c", asked], cwd=folder, check=True, capture_output=True, text=True).stdout
    return None if end in said else said


def main():
    if missing("yosys", "yosys-abc", "iverilog"):
        return 0
    pairs = sys.argv[1:] or sorted(path.stem for path in HAND.glob("*.v"))
    failed = 0
    with tempfile.TemporaryDirectory() as folder:
        folder = pathlib.Path(folder)
        told = prove(folder / "fault", "sum_4", ("== 2'd3", "== 2'd2"))
        assert told and "was asserted" in told, told
        told = prove(folder / "played", "gaussian_4096", ("pixel < 12'd64", "pixel < 12'd65"))
        assert told and not told.startswith("0 "), told
        for pair, said in zip(pairs, side_by_side(lambda pair: prove(folder / pair, pair), pairs)):
            if said is not None:
                failed += 1
                print(f"equal: {pair}: {said}", flush=True)
    bounded, seen = (sum(pair in some for pair in pairs) for some in (BOUNDED, PLAYED))
    equal = len(pairs) - failed
    print(f"equal: {equal} modules are equal to modules by hand, {bounded} of them for two blocks, {seen} as played, {failed} failed")
    return failed > 0


sys.exit(main())
