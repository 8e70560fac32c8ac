#!/usr/bin/env python3
"""Programs between two channels, `aethkit stream`: under Icarus a source and a sink that keep the rules of AXI-Stream, at paces that
differ and with gaps, give a module the blocks of an example and take exactly the results that `eval` tells, in order, and no more.
Words that wait stay, and nothing at one end follows the other, or the words, within a clock. Linters find nothing, `sim` reads the
text, and its products are those of `build`. With --all each example at three slowdowns and more paces; with --verilator under
Verilator as well; with --cells it tells what Yosys counts."""
import pathlib
import random
import re
import subprocess
import sys
import tempfile

from common import aeth, examples, kit, lint, missing, out_layouts, ports, runs_of_examples, side_by_side, slots, told

# What the gate tries: an example and a slowdown.
TRIED = [("increment", 1), ("running_sum", 3), ("blur", 8), ("extremes", 8), ("luma", 3), ("moving_average", 1)]
# In how many of 100 clocks the source begins to offer and the sink takes, and whether the sink waits until words stand.
PACES = [(100, 100, 0), (50, 50, 0), (15, 100, 0), (100, 15, 1)]
MORE_PACES = [(90, 60, 0), (30, 30, 1), (5, 5, 0), (100, 50, 1)]
BLOCKS = 6
CHANNEL = ["s_valid", "m_ready", "s_ready", "m_valid"]


def in_layouts(text):
    return re.findall(r"^// in \d+ (.*)$", text, re.M)


def beats(layouts, slowdown):
    """The clocks of a block in which an element of one of the layouts stands."""
    return sorted({clock for layout in layouts for clock, _ in slots(layout)[0] if clock < slowdown})


def transfers(layouts, slowdown, words):
    """The words of each transfer of a block, None where no element stands."""
    words, first, rows = list(words), 0, {}
    columns = sum(slots(layout)[2] * slots(layout)[3] for layout in layouts)
    for clock in beats(layouts, slowdown):
        rows[clock] = [None] * columns
    for layout in layouts:
        places, _, lanes, count = slots(layout)
        for clock, lane in places:
            at = first + lane * count
            rows[clock][at : at + count] = words[:count]
            del words[:count]
        first += lanes * count
    assert not words
    return [rows[clock] for clock in sorted(rows)]


def bits(words, widths):
    """Words in one, the first in the lowest bits."""
    value, at = 0, 0
    for word, width in zip(words, widths):
        value |= word << at
        at += width
    return value


class Tried:
    """A module, and what is given to it and wanted of it."""

    def __init__(self, name, slowdown, text, rows, paces):
        self.name, self.slowdown, self.program, self.paces = name, slowdown, text, paces
        self.status, self.text = kit(["stream", slowdown], text)
        self.luck = random.Random(f"{name} {slowdown}")
        if self.status:
            return
        self.ins = [port for port in ports(self.text, "input")[2:] if port[0] not in CHANNEL]
        self.outs = [port for port in ports(self.text, "output") if port[0] not in CHANNEL]
        blocks = [rows[block % len(rows)] for block in range(BLOCKS)] if rows else []
        status, told_rows = aeth(["eval"], text.split("%%")[0] + "%%\n" + "".join(" ".join(map(str, row)) + "\n" for row in blocks))
        assert status == 0, (name, told_rows)
        self.given = [row for block in blocks for row in transfers(in_layouts(self.text), slowdown, block)]
        results = [[int(word) for word in line.split()] for line in told_rows.splitlines()]
        self.wanted = [row for block in results for row in transfers(out_layouts(self.text), slowdown, block)]
        self.clocks = (BLOCKS + 2) * slowdown + int(re.search(r"^// latency (\d+)$", self.text, re.M)[1]) + 2 * slowdown + 40

    def garbage(self, widths):
        return [self.luck.randrange(2**width) for width in widths]

    def bench(self):
        """The bench: the source offers when a pattern says so and then waits, as the sink does; both are made by this script. At
        each falling edge it turns around all that the module reads, and looks whether an output follows."""
        widths = [width for _, width in self.ins]
        rows = [bits([word if word is not None else self.luck.randrange(2**width) for word, width in zip(row, widths)], widths)
                for row in self.given]
        patterns = [self.pattern(pace) for pace in self.paces]
        wide, count, long = sum(widths), len(rows), max(map(len, patterns))
        joined_ins = ", ".join(name for name, _ in reversed(self.ins))
        joined_outs = ", ".join(name for name, _ in reversed(self.outs))
        outs_wide = sum(width for _, width in self.outs)
        declared = [f"  reg [{width - 1}:0] {name};" for name, width in self.ins]
        declared += [f"  wire [{width - 1}:0] {name};" for name, width in self.outs]
        form = " ".join(["%0d"] * len(self.outs))
        shown = ", ".join(name for name, _ in self.outs)
        named = ", ".join(f".{name}({name})" for name in ["clk", "rst", *CHANNEL, *(name for name, _ in self.ins + self.outs)])
        lines = [
            "`timescale 1ns/1ns", "module bench;", "  reg clk = 0, rst = 1, s_valid = 0, m_ready = 0;", "  wire s_ready, m_valid;", *declared,
            f"  aeth dut({named});",
            f"  reg [{wide - 1}:0] rows [0:{count}];", f"  reg [1:0] patterns [0:{len(patterns) * long}];",
            f"  reg [{wide - 1}:0] junk;", f"  reg [{outs_wide - 1}:0] former;", "  reg waited, asked, stood, offered, took;",
            "  integer pace, clock, next, seed;", f"  wire [{len(self.paces) - 1}:0] waits = {len(self.paces)}'b{''.join(str(pace[2]) for pace in reversed(self.paces))};",
            "  initial begin", "    seed = 1;", '    $readmemh("rows.hex", rows);', '    $readmemh("patterns.hex", patterns);',
            f"    for (pace = 0; pace < {len(patterns)}; pace = pace + 1) begin",
            '      $display("pace");', "      rst = 1; s_valid = 0; m_ready = 0; next = 0; waited = 0;",
            "      for (clock = 0; clock < 2; clock = clock + 1) begin #1 clk = 1; #1 clk = 0; end", "      rst = 0;",
            f"      for (clock = 0; clock < {long}; clock = clock + 1) begin",
            # The source: it goes on offering until it is asked, and chooses anew behind that.
            f"        if (!s_valid) s_valid = patterns[pace * {long} + clock][0] && next < {count};",
            f"        junk = {{{', '.join(['$random(seed)'] * ((wide + 31) // 32))}}};", f"        {{{joined_ins}}} = s_valid ? rows[next] : junk;",
            # The sink: at some paces it takes only where words stand.
            "        #1;", f"        m_ready = patterns[pace * {long} + clock][1] && (m_valid || !waits[pace]);", "        #1;",
            # What waited stays.
            f'        if (waited && (!m_valid || {{{joined_outs}}} !== former)) $display("words did not stay in clock %0d", clock);',
            # Nothing follows within the clock.
            f"        asked = s_ready; stood = m_valid; former = {{{joined_outs}}}; offered = s_valid; took = m_ready; junk = {{{joined_ins}}};",
            "        s_valid = !s_valid; m_ready = !m_ready;", f"        {{{joined_ins}}} = ~junk;", "        #1;",
            f'        if (s_ready !== asked || m_valid !== stood || {{{joined_outs}}} !== former) $display("an output follows in clock %0d", clock);',
            f"        s_valid = offered; m_ready = took; {{{joined_ins}}} = junk;", "        #1;",
            f'        if (m_valid && m_ready) $display("{form}", {shown});',
            "        waited = m_valid && !m_ready;",
            "        clk = 1; #1 clk = 0;", "        if (offered && asked) begin next = next + 1; s_valid = 0; end", "      end",
            f'      if (next != {count}) $display("only %0d transfers at the source", next);', "    end", "    $finish;", "  end", "endmodule", "",
        ]
        hexes = "\n".join(f"{row:x}" for row in [*rows, 0]) + "\n"
        codes = "\n".join(f"{code:x}" for pattern in patterns for code in pattern + [2] * (long - len(pattern))) + "\n0\n"
        return "\n".join(lines), hexes, codes

    def pattern(self, pace):
        """In each clock 1 where the source may begin to offer, and 2 where the sink takes; at the end both always do."""
        source, sink, _ = pace
        slow = 100 // min(source, sink)
        codes = []
        for _ in range(self.clocks * (1 if slow == 1 else 2 * slow)):
            codes.append((self.luck.randrange(100) < source) + 2 * (self.luck.randrange(100) < sink))
        return codes + [3] * self.clocks

    def wrong(self, lines):
        """What a simulation showed that is wrong."""
        runs = "\n".join(lines).split("pace\n")[1:]
        if len(runs) != len(self.paces):
            return f"{len(runs)} paces were run"
        for pace, run in zip(self.paces, runs):
            found = run.split("\n")
            found = [line for line in found if line]
            if bad := [line for line in found if not re.fullmatch(r"[\d ]+", line)]:
                return f"pace {pace}: {bad[0]}"
            if len(found) != len(self.wanted):
                return f"pace {pace}: {len(found)} transfers at the sink and not {len(self.wanted)}"
            for number, (line, row) in enumerate(zip(found, self.wanted)):
                words = [int(word) for word in line.split()]
                if any(word is not None and word != other for word, other in zip(row, words)):
                    return f"pace {pace}: transfer {number} is {line} and not {row}"
        return ""

    def fault(self):
        """The first fault of the text, under the linters and under Icarus."""
        what = f"{self.name} at {self.slowdown}"
        if self.status:
            return f"{what} is refused"
        plain = aeth(["build", self.slowdown], self.program)[1]
        report = plain.split("// verilator")[0]
        if not self.text.startswith(report + "// stream\n"):
            return f"{what} begins with other report lines"
        products = lambda text: re.sub(r"//.*", "", text).count("*")
        if products(self.text) != products(plain):
            return f"{what} has other products"
        with tempfile.TemporaryDirectory() as made:
            folder = pathlib.Path(made)
            passed, said = lint(folder / "lint", self.text)
            if said:
                return f"{what}: {said[0]}"
            bench, rows, patterns = self.bench()
            for name, text in (("design.v", self.text), ("bench.v", bench), ("rows.hex", rows), ("patterns.hex", patterns)):
                (folder / name).write_text(text)
            build = ["iverilog", "-g2001", "-s", "bench", "-o", "tried", "design.v", "bench.v"]
            done = subprocess.run(build, cwd=folder, capture_output=True, text=True)
            if done.returncode or done.stderr:
                return f"{what}: {done.stderr[:300]}"
            shown = subprocess.run(["vvp", "-n", "tried"], cwd=folder, capture_output=True, text=True).stdout
            if wrong := self.wrong(shown.splitlines()):
                return f"{what} under Icarus: {wrong}"
            if "--verilator" in sys.argv:
                build = ["verilator", "--binary", "--timing", "-Wno-fatal", "--top-module", "bench", "-o", "tried", "bench.v", "design.v"]
                done = subprocess.run(build, cwd=folder, capture_output=True, text=True)
                if done.returncode:
                    return f"{what}: {done.stderr[:300]}"
                shown = subprocess.run(["obj_dir/tried"], cwd=folder, capture_output=True, text=True).stdout
                shown = [line for line in shown.splitlines() if not line.startswith("- ")]
                if wrong := self.wrong(shown):
                    return f"{what} under Verilator: {wrong}"
        return ""


def main():
    everything = "--all" in sys.argv
    if missing("iverilog"):
        return
    wanted = None if everything else set(TRIED)
    found = [
        (name, slowdown, text, rows)
        for name, slowdown, text, rows, _ in runs_of_examples()
        if wanted is None or (name, slowdown) in wanted
    ]
    paces = PACES + (MORE_PACES if everything else [])
    tried = side_by_side(lambda run: Tried(*run, paces).fault(), found)
    raise SystemExit(told("streams", list(tried)))


if __name__ == "__main__":
    main()
