#!/usr/bin/env python3
"""Wrappers round modules, `aethkit top`: the module in one is that of `build` but for its name; in each clock a wrapper shows what
`run` says, and tells when blocks begin and when results stand, alone and as one of two in a design; linters find nothing."""
import pathlib
import re
import shutil
import subprocess
import tempfile

from common import aeth, input_rows, kit, missing, ports, runs_of_examples, side_by_side, told

# Pairs of an example and a slowdown that stand in one design.
PAIRS = [(("blur", 8), ("increment", 3)), (("luma", 1), ("extremes", 8)), (("histogram", 8), ("blur", 1))]
# Words that name no module.
NO_NAMES = ["", "4", "4a", "a-b", "a b", "module", "endmodule", "reg", "fn", "a" * 33]


def packed(words, widths):
    """Words in one, the first in the lowest bits."""
    value, first = 0, 0
    for word, width in zip(words, widths):
        value |= int(word) << first
        first += width
    return value


def grouped(module, kind):
    """The widths of the words of each parameter or result, in the order of the ports."""
    groups = {}
    for port, width in ports(module, kind):
        if port[0] in "io":
            groups.setdefault(port.split("_")[0], []).append(width)
    return list(groups.values())


def pieces(words, groups):
    """The words of each parameter or result, in one."""
    words = iter(words)
    return [packed([next(words) for _ in widths], widths) for widths in groups]


class Part:
    """A wrapped module under a name, what is given to it in each clock, and what its program's run says."""

    def __init__(self, run, name):
        self.what, self.slowdown, self.program, rows, shown = run
        self.name = name
        self.built, lines = shown.split("%% clocks\n")
        self.lines = [line.split() for line in lines.splitlines()]
        self.status, self.text = kit(["top", self.slowdown, *(["name", name] if name != "aeth" else [])], self.program)
        self.module, begin, rest = self.text.partition(f"module {name}_top (")
        self.wrapper = begin + rest
        ins = grouped(self.built, "input")
        self.given = [pieces(row, ins) for row in input_rows(self.built, self.slowdown, rows, len(self.lines))]
        self.ins = ports(self.wrapper, "input")[2:]
        self.outs = ports(self.wrapper, "output")

    def fault(self):
        """What is wrong with the text."""
        if self.status or self.module.replace(f"module {self.name} (", "module aeth (", 1) != self.built:
            return "the module is not that of build"
        names = [port for port, _ in self.ins + self.outs]
        program = self.program.partition("%%")[0].split("\nfn ")[-1].splitlines()
        params = [field.partition(":")[0] for field in program[0].removeprefix("fn ").split("#")[0].split()[1:]]
        results = next(line for line in program if line.startswith("end ")).split("#")[0].split()[1:]
        many = len(results) > 1
        wanted = [f"in_{param}" for param in params] + ["block"]
        for number, result in enumerate(results):
            wanted += [f"{kind}{number if many else ''}_{result}" for kind in ("out", "valid")]
        return "" if names == wanted else f"the ports are {names} and not {wanted}"

    def declared(self):
        yield from (f"  reg [{width - 1}:0] {self.name}_{port} = 0;" for port, width in self.ins)
        yield from (f"  wire [{width - 1}:0] {self.name}_{port};" for port, width in self.outs)
        joined = ", ".join(f".{port}({self.name}_{port})" for port, _ in self.ins + self.outs)
        yield f"  {self.name}_top {self.name}_dut(.clk(clk), .rst(rst), {joined});"

    def clocked(self, clock):
        if clock < len(self.given):
            words = zip(self.ins, self.given[clock])
            yield from (f"    {self.name}_{port} = {width}'h{word:x};" for (port, width), word in words)
        names = ", ".join(f"{self.name}_{port}" for port, _ in self.outs)
        yield f'    #0 $write("{" ".join(["%0h"] * len(self.outs))}|", {names});'

    def wrong(self, clock, told_words):
        """What is wrong with what was shown in a clock."""
        if clock >= len(self.lines):
            return ""
        line = self.lines[clock]
        block, *found = told_words.split()
        words = pieces(line[2:], grouped(self.built, "output"))
        if int(block, 16) != (clock % self.slowdown == 0) or len(found) != 2 * len(words):
            return f"clock {clock} shows {told_words}"
        for mark, word, value, valid in zip(line[1], words, found[::2], found[1::2]):
            if int(valid, 16) != (mark == "v") or (mark == "v" and int(value, 16) != word):
                return f"clock {clock} shows {told_words} and not {line}"
        return ""


def bench(parts, count):
    """A test bench that holds reset for one clock, and prints the outputs of all wrappers in each clock after it."""
    lines = ["module bench;", "  reg clk = 0;", "  reg rst = 1;", *(line for part in parts for line in part.declared())]
    lines += ["  initial begin", "    #1 clk = 1; #1 clk = 0; rst = 0;"]
    for clock in range(count):
        lines += ["    #1", *(line for part in parts for line in part.clocked(clock)), '    $write("\\n");', "    clk = 1; #1 clk = 0;"]
    return "\n".join([*lines, "  end", "endmodule", ""])


def simulated(parts):
    """The first fault of wrappers that stand in one design."""
    what = " with ".join(f"{part.what} at {part.slowdown}" for part in parts)
    for part in parts:
        if part.fault():
            return f"{what}: {part.fault()}"
    count = max(len(part.lines) for part in parts)
    with tempfile.TemporaryDirectory() as made:
        folder = pathlib.Path(made)
        (folder / "design.v").write_text("".join(part.text for part in parts))
        (folder / "bench.v").write_text(bench(parts, count))
        form = ["iverilog", "-Wall", "-g2001", "-s", "bench", "-o", folder / "tried", folder / "design.v", folder / "bench.v"]
        built = subprocess.run(form, capture_output=True, text=True)
        if built.returncode or built.stderr:
            return f"{what}: {built.stderr[:300]}"
        shown = subprocess.run(["vvp", "-n", folder / "tried"], capture_output=True, text=True).stdout.splitlines()
    if len(shown) != count:
        return f"{what}: {len(shown)} clocks and not {count}"
    for clock, line in enumerate(shown):
        for part, words in zip(parts, line.split("|")):
            if wrong := part.wrong(clock, words):
                return f"{what}: {part.name}: {wrong}"
    return ""


def linted(parts):
    """What linters say of a design."""
    text = "".join(part.text for part in parts)
    tops = " ".join(f"{part.name}_top" for part in parts)
    commands = {
        "yosys": [["yosys", "-q", "-p", f"read_verilog design.v; hierarchy -check -top {top}; proc; check -assert"] for top in tops.split()],
        "verilator": [["verilator", "--lint-only", "-Wall", "--top-module", top, "design.v"] for top in tops.split()],
    }
    with tempfile.TemporaryDirectory() as made:
        (pathlib.Path(made) / "design.v").write_text(text)
        for tool, calls in commands.items():
            for call in calls if shutil.which(tool) else []:
                done = subprocess.run(call, cwd=made, capture_output=True, text=True)
                if done.returncode or done.stderr or "warning" in done.stdout.lower():
                    return f"{tops}: {tool}: {(done.stderr + done.stdout)[:500]}"
    return ""


def refused(text):
    """The first word that names a module and should not."""
    for name in NO_NAMES:
        if kit(["top", 1, "name", name], text) != (1, ""):
            return f"{name!r} names a module"
    return "" if kit(["top", 1, "--name", "x"], text)[0] == 0 else "--name x is refused"


def main():
    runs = {run[:2]: run for run in runs_of_examples()}
    found = [refused(next(iter(runs.values()))[2])]
    if not missing("iverilog"):
        pairs = [[Part(runs[one], "one"), Part(runs[other], "other_module")] for one, other in PAIRS]
        found += side_by_side(lambda run: simulated([Part(run, "aeth")]), runs.values())
        found += side_by_side(simulated, pairs)
        found += side_by_side(linted, pairs)
    raise SystemExit(told("top", found))


main()
