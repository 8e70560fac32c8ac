"""What the scripts here share: the compiler and the other tools as functions, layouts by the report lines of a module, and
test benches. AETH and KIT in the environment name other programs to be tried than `./aeth` and `./aethkit`."""
import concurrent.futures
import os
import pathlib
import re
import shutil
import subprocess

TOP = pathlib.Path(__file__).resolve().parent.parent
AETH = os.environ.get("AETH", TOP / "aeth")
KIT = os.environ.get("KIT", TOP / "aethkit")
NO_LAYOUT = 5  # the status of a refusal for want of a layout
FILL = 77
INCREMENT = """fn inc x:u8
one = const u8 1
y = add x one
end y
fn main a:[4]u8
b = map inc a
end b
"""


def aeth(words, text):
    """Status and output of the compiler for these words on a text."""
    if isinstance(text, str):
        text = text.encode()
    done = subprocess.run([AETH, *map(str, words)], input=text, capture_output=True)
    return done.returncode, done.stdout.decode()


def kit(words, text):
    """Status and output of the second program for these words on a text."""
    if isinstance(text, str):
        text = text.encode()
    done = subprocess.run([KIT, *map(str, words)], input=text, capture_output=True)
    return done.returncode, done.stdout.decode()


def examples():
    """Name, text and rows of each example."""
    for path in sorted((TOP / "examples").glob("*.aeth")):
        text = path.read_text()
        lines = [line.split("#")[0].split() for line in text.split("%%", 1)[1].splitlines()[1:]]
        yield path.stem, text, [[int(word) for word in line] for line in lines if line]


def runs_of_examples():
    """Name, slowdown, text, rows and run of each example at each of some slowdowns at which it has layouts."""
    for name, text, rows in examples():
        for slowdown in (1, 3, 8):
            status, shown = aeth(["run", slowdown, FILL], text)
            if status != NO_LAYOUT:
                yield name, slowdown, text, rows, shown


def told(test, found):
    """Tells the faults among what was found, "" where there is none, and how many there are; whether there are any."""
    faults = [fault for fault in found if fault]
    for fault in faults:
        print(f"{test}: {fault}")
    print(f"{test}: {len(found) - len(faults)} passed, {len(faults)} failed")
    return bool(faults)


def side_by_side(task, items):
    """The answers of a task for each item, in order and as they come, as many at a time as there are processors."""
    with concurrent.futures.ThreadPoolExecutor(os.cpu_count()) as pool:
        yield from pool.map(task, items)


def missing(*tools):
    """Whether one of the tools is not there; a line says so."""
    absent = [tool for tool in tools if not shutil.which(tool)]
    if absent:
        print(f"{' and '.join(absent)} not to be had here; what needs it is skipped")
    return bool(absent)


def slots(layout):
    """Clock and lane of each element, in order, with the clocks and the lanes of all, and the words of an element."""
    sort, _, rest = layout.partition(" ")
    if sort not in ("TSeq", "SSeq"):
        return [(0, 0)], 1, 1, len(re.findall(r"[ui]\d+", layout))
    if sort == "TSeq":
        valid, invalid, inner = rest.split(" ", 2)
        places, time, lanes, words = slots(inner)
        parts = [(part * time + clock, lane) for part in range(int(valid)) for clock, lane in places]
        return parts, (int(valid) + int(invalid)) * time, lanes, words
    count, inner = rest.split(" ", 1)
    places, time, lanes, words = slots(inner)
    parts = [(clock, part * lanes + lane) for part in range(int(count)) for clock, lane in places]
    return parts, time, int(count) * lanes, words


def latency(module):
    return int(re.search(r"^// latency (\d+)$", module, re.M)[1])


def out_layouts(module):
    return re.findall(r"^// out (?:\d+ )?([TSui(].*)$", module, re.M)


def ports(module, kind):
    """Name and width of each port of a kind, in order."""
    found = re.findall(rf"^  {kind} wire (?:\[(\d+):0\] )?(\w+),?$", module, re.M)
    return [(name, int(high or 0) + 1) for high, name in found]


def results(text, slowdown, blocks):
    """The words of all results of each block, by the report and the clock lines of a run."""
    late = latency(text)
    lines = [line.split() for line in text.split("%% clocks\n")[1].splitlines()]
    assert len(lines) == blocks * slowdown + late * (blocks > 0)
    for block in range(blocks):
        found, first = [], 0
        for number, layout in enumerate(out_layouts(text)):
            places, time, lanes, words = slots(layout)
            assert time == slowdown
            for clock, lane in places:
                line = lines[late + block * slowdown + clock]
                assert line[1][number] == "v", line
                at = 2 + first + lane * words
                found += line[at : at + words]
            first += lanes * words
        yield " ".join(found)


def input_rows(module, slowdown, rows, clocks):
    """The words on the inputs behind `clk` and `rst` in each clock after reset."""
    layouts = re.findall(r"^// in \d+ (.*)$", module, re.M)
    widths = [width for _, width in ports(module, "input")[2:]]
    filled = [FILL % 2**width for width in widths]
    clocked = [list(filled) for _ in range(clocks)]
    for block, row in enumerate(rows):
        words, first = list(row), 0
        for layout in layouts:
            places, _, lanes, count = slots(layout)
            for clock, lane in places:
                at = first + lane * count
                clocked[block * slowdown + clock][at : at + count] = words[:count]
                del words[:count]
            first += lanes * count
    return clocked


def bench(module, clocked):
    """A test bench that holds reset for one clock, and prints the outputs in each clock after it."""
    ins = ports(module, "input")[2:]
    reset = [1] + [FILL % 2**width for _, width in ins]
    return clocked_bench(module, [(reset, False)] + [([0, *row], True) for row in clocked])


def clocked_bench(module, rows):
    """A test bench of clocks: the words on the inputs behind `clk` in each, and whether the outputs are printed in it."""
    ins, outs = ports(module, "input")[1:], ports(module, "output")
    held = re.findall(r"^  reg (?:\[(\d+):0\] )?(\w+);$", module, re.M)
    stores = re.findall(r"^  reg (?:\[(\d+):0\] )?(\w+) \[0:(\d+)\];$", module, re.M)
    assert len(held) + len(stores) == len(re.findall(r"^  reg ", module, re.M))
    lines = ["module bench;", "  reg clk = 0;", "  integer place;"]
    lines += [f"  reg [{width - 1}:0] {name};" for name, width in ins]
    lines += [f"  wire [{width - 1}:0] {name};" for name, width in outs]
    joined = ", ".join(f".{name}({name})" for name, _ in [("clk", 1), *ins, *outs])
    lines += [f"  aeth dut({joined});", "  initial begin"]
    lines += [f"    dut.{name} = {int(high or 0) + 1}'d{FILL % 2 ** (int(high or 0) + 1)};" for high, name in held]
    for high, name, last in stores:
        word = f"{int(high or 0) + 1}'d{FILL % 2 ** (int(high or 0) + 1)}"
        lines += [f"    for (place = 0; place <= {last}; place = place + 1) dut.{name}[place] = {word};"]
    form = " ".join(["%0d"] * len(outs))
    shown = ", ".join(name for name, _ in outs)
    for row, printed in rows:
        lines += [f"    {name} = {width}'d{word};" for (name, width), word in zip(ins, row)]
        lines += ["    #1;"] + ([f'    $display("{form}", {shown});'] if printed else []) + ["    clk = 1; #1; clk = 0;"]
    return "\n".join([*lines, "  end", "endmodule", ""])


def lines_under_icarus(folder, text):
    """What Icarus prints of a module with its bench."""
    folder.mkdir()
    (folder / "bench.v").write_text(text)
    subprocess.run(["iverilog", "-s", "bench", "-o", folder / "bench", folder / "bench.v"], check=True)
    done = subprocess.run(["vvp", folder / "bench"], check=True, capture_output=True)
    return done.stdout.decode().splitlines()


def clock_words(shown):
    """The module of the text of a run, and the words of its outputs in each clock."""
    module, lines = shown.split("%% clocks\n")
    return module, [line.split(" ", 2)[2] for line in lines.splitlines()]


def first_apart(wanted, found):
    """In which clock another line was found than was wanted; "" where in none."""
    apart = [f"clock {clock}: {other}, not {line}" for clock, (line, other) in enumerate(zip(wanted, found)) if line != other]
    return "" if found == wanted else (apart or [f"{len(found)} lines, not {len(wanted)}"])[0]


def differs_under_icarus(folder, shown, slowdown, rows):
    """What Icarus shows otherwise than the text of a run with the first words FILL, in any clock; "" where nothing."""
    module, wanted = clock_words(shown)
    clocked = input_rows(module, slowdown, rows, len(wanted))
    return first_apart(wanted, lines_under_icarus(folder, module + bench(module, clocked)))


LINTERS = {
    "iverilog": ["iverilog", "-Wall", "-t", "null", "module.v"],
    "verilator": ["verilator", "--lint-only", "-Wall", "module.v"],
    "yosys": ["yosys", "-q", "-p", "read_verilog module.v; hierarchy -check; proc; check -assert"],
}


def lint(folder, module):
    """How many tools took the module without a warning, and what the others said."""
    folder.mkdir()
    # Under a name that is not the module's, of which Verilator would warn.
    (folder / "module.v").write_text(module)
    passed, said = 0, []
    for tool, command in LINTERS.items():
        if shutil.which(tool):
            done = subprocess.run(command, cwd=folder, capture_output=True, text=True)
            if done.returncode == 0 and not done.stderr and "warning" not in done.stdout.lower():
                passed += 1
            else:
                said.append(f"{tool}: {(done.stderr + done.stdout)[:1000]}")
    return passed, said
