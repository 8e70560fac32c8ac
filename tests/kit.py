#!/usr/bin/env python3
"""The second program, `aethkit`: its table of slowdowns says what `plan` says of each, its text pictures show each element in its
slot, its names are those of the module's ports and nets and the program's lines, its longest path is that of the module's wires,
and its test benches tell no wrong word of the modules of all examples at three slowdowns, and some of each of twelve modules that
were spoiled, under Icarus and, of a few, under Verilator.

kit.py verilator: those benches under Verilator alone, of all of these; by hand, as it takes long."""
import os
import pathlib
import pty
import re
import subprocess
import sys
import tempfile
import time
import xml.etree.ElementTree

from common import KIT, aeth, examples, kit, missing, ports, runs_of_examples, side_by_side, slots, told

# An example, a slowdown, a piece of its module, and what takes its place.
SPOILED = [
    ("increment", 1, "+", "-"),
    ("increment", 4, "8'd1", "8'd2"),
    ("blur", 4, "i0_2_0 + i0_0_0", "i0_2_0 - i0_0_0"),
    ("blur", 16, "<<", ">>"),
    ("running_sum", 16, " + i0_0_0", " | i0_0_0"),
    ("dot_product", 1, "*", "+"),
    ("luma", 1, " >> ", " << "),
    ("threshold", 4, " < ", " <= "),
    ("transpose", 16, " <= i0_0_0", " <= ~i0_0_0"),
    ("fir", 1, " + i0_0_0", " - i0_0_0"),
    ("median_of_three", 1, " ? ", " ^ 1'b1 ? "),
    ("histogram", 1, "==", "!="),
]
# Operators that a cell has only where its line has them.
SURE = ("mul", "sub", "xor", "shl", "shr")
# Two functions that add, one of which calls the other, and both are mapped, over two lanes at slowdown 2; and the nets of its
# module, by hand: an addition has a register behind it, and x waits in one for the sum of the other function.
ADDING = """fn bump x:u16
a = add x x
end a
fn twice x:u16
b = call bump x
c = add b x
end c
fn main row:[4]u16
r = map twice row
s = map bump r
end s
"""
BUMP = ["add, 2 a add in bump", "register, 2 a add in bump"]
TWICE = BUMP + ["register, 6 c add in twice", "add, 6 c add in twice", "register, 6 c add in twice"]
ADDED = [f"9 r map: {net}" for net in TWICE * 2] + [f"10 s map: {net}" for net in BUMP * 2]
# An example and a slowdown: pictures with blocks that are folded.
FOLDED = [("blur", 64), ("transpose", 256), ("integral_image", 64), ("gaussian", 64)]
# A type that is long to tell, and a name as long as one may be.
LONG = f"aeth 2\nfn main {'a' * 32}:{'[2]' * 6}((u64,(i64,u64)),(((i64,u64),(u64,u64)),((u64,i64),((u64,u64),(u64,(u64,u64))))))\nend {'a' * 32}\n"
# An example and a slowdown: benches under Verilator in each run.
VERILATED = [("blur", 8), ("luma", 1), ("histogram", 8)]


def planned(text, slowdown):
    """What `plan` says of a slowdown: latency, load, multipliers, lanes in and out; None where there is no circuit."""
    status, shown = aeth(["plan", slowdown], text)
    if status:
        return None
    lines = shown.splitlines()
    costs = {line.split()[0]: int(line.split()[1]) for line in lines[:4]}
    items = [line.split(" ", 3) for line in lines[4:]]
    width = lambda layout: slots(layout)[2]
    main = items[0][0]
    ins = sum(width(layout) for line, _, _, layout in items if line == main)
    outs = sum(width(layout) for _, name, _, layout in items if name == "end")
    return costs["latency"], costs["load"], costs["muls"], ins, outs


def table_is_right(name, text):
    """The faults of the table of slowdowns of a program, against `plan` of each."""
    status, shown = kit(["slowdowns", 1, 40, "csv"], text)
    rows = [list(map(int, line.split(","))) for line in shown.splitlines()[1:]]
    told_rows = {row[0]: (row[1], row[2], row[3], row[5], row[6]) for row in rows}
    wanted = {slowdown: plan for slowdown in range(1, 41) if (plan := planned(text, slowdown))}
    if status or told_rows != wanted:
        return f"{name}: the table of slowdowns is not what plan says"
    least, best = float("inf"), []
    for slowdown, plan in sorted(wanted.items()):
        if plan[1] < least:
            best.append(slowdown)
            least = plan[1]
    _, shown = kit(["slowdowns", 1, 40, "csv", "best"], text)
    if [int(line.split(",")[0]) for line in shown.splitlines()[1:]] != best:
        return f"{name}: the best slowdowns are not {best}"
    return ""


def picture_is_right(name, slowdown, text):
    """The first fault of the text picture of a program."""
    status, shown = kit(["draw", slowdown, "text"], text)
    _, plan = aeth(["plan", slowdown], text)
    layouts = [line.split(" ", 3) for line in plan.splitlines()[4:] if line.split(" ", 3)[1] != "end"]
    pictures = shown.split("\n\n")[1:]
    if status or len(pictures) != len(layouts):
        return f"{name} at {slowdown}: {len(pictures)} pictures of {len(layouts)} items"
    for picture, (number, item, arrival, layout) in zip(pictures, layouts):
        title, _, rest = picture.partition("\n  clock")
        lines = [line[10:].removesuffix(" ..").split() for line in ("  clock" + rest).splitlines() if not line.startswith("  and")]
        if "".join(title.split()) != f"line{number}{item},{layout}".replace(" ", ""):
            return f"{name} at {slowdown}: the title of {item}"
        places = {place: str(number) for number, place in enumerate(slots(layout)[0])}
        clocks = len(lines[0])
        if lines[0] != [str(int(arrival) + clock) for clock in range(clocks)]:
            return f"{name} at {slowdown}: the clocks of {item}"
        for lane, line in enumerate(lines[1:]):
            if line != [places.get((clock, lane), ".") for clock in range(clocks)]:
                return f"{name} at {slowdown}: lane {lane} of {item}"
        if max(map(len, picture.splitlines())) > 100:
            return f"{name} at {slowdown}: {item} is wider than 100 columns"
    return ""


def svg_is_right(name, slowdown, text):
    """The first fault of the SVG picture of a program: which places it shows, by the clocks and lanes beside them."""
    status, shown = kit(["draw", slowdown], text)
    _, plan = aeth(["plan", slowdown], text)
    layouts = [line.split(" ", 3) for line in plan.splitlines()[4:] if line.split(" ", 3)[1] != "end"]
    items, rects = [], 0
    for part in xml.etree.ElementTree.fromstring(shown):
        kind, words = part.get("class"), part.text or ""
        x, y = float(part.get("x") or 0), float(part.get("y") or 0)
        if kind == "title" and words.startswith("line "):
            items.append((words, {}, {}, {}, set()))
        elif kind == "clock":
            items[-1][1][x] = int(words)
        elif kind == "small" and words.startswith("lane "):
            items[-1][2][y] = int(words.split()[1])
        elif kind == "number" and words.isdigit():
            items[-1][3][x, y] = words
        elif kind == "number":
            items[-1][4].add(x)
        rects += kind in ("word", "hole")
    if status or len(items) != len(layouts):
        return f"{name} at {slowdown}: {len(items)} rows of {len(layouts)} items"
    for (title, clocks, lanes, numbers, dots), (line, item, arrival, layout) in zip(items, layouts):
        places, clock_count, _, _ = slots(layout)
        elements = {place: str(number) for number, place in enumerate(places)}
        begin, end = int(arrival), int(arrival) + clock_count
        if title != f"line {line} {item}, {layout}, from clock {arrival} on" or not {begin, end - 1} <= set(clocks.values()):
            return f"{name} at {slowdown}: the row of {item}"
        found = {(clocks[x] - begin, lanes[y]): number for (x, y), number in numbers.items()}
        wanted = {(clock - begin, lane) for clock in clocks.values() for lane in lanes.values()}
        if found != {place: elements[place] for place in wanted if place in elements} or bool(dots) != (len(clocks) < clock_count):
            return f"{name} at {slowdown}: the places of {item}"
        rects -= len(clocks) * len(lanes)
    return f"{name} at {slowdown}: {rects} places too many" if rects else ""


def longest_path(module):
    """The most operators between registers, reads of memories among them: on the way to each wire, by what its line says."""
    depths = {}
    for name, value in re.findall(r"^  wire (?:\[\d+:0\] )?(\w+) = (.*);$", module, re.M):
        logic = re.search(r"[*+&|^~?]| - |==| < |\w\[[a-z]", value) is not None
        depths[name] = logic + max((depths.get(used, 0) for used in re.findall(r"[a-z]\w*", value)), default=0)
    return max(depths.values(), default=0)


def paths_are_right(name, slowdown, text, module):
    """The fault of what is said of the longest path of a module, and of a bound that it passes by one."""
    longest = longest_path(module)
    wanted = f"longest: {longest} operators"
    status, shown = kit(["paths", slowdown], text)
    if status or shown.splitlines()[-1] != wanted:
        return f"{name} at {slowdown}: the path is not {wanted}"
    bounds = {most: kit(["paths", slowdown, most], text)[1] for most in (longest, longest - 1) if most >= 0}
    marked = {most: [f", over {most}" in line for line in lines.splitlines()] for most, lines in bounds.items()}
    if any(marked[longest]) or longest and not (marked[longest - 1][-1] and any(marked[longest - 1][:-1])):
        return f"{name} at {slowdown}: not those over the bound are marked"
    return ""


def operation(said):
    """The operator that a line computes with, and by how much it shifts or to which width it casts; None where it does not."""
    word = said[3] if said[2] in ("reduce", "scan") else said[2]
    if word in ("shl", "shr"):
        return word, int(said[3])
    if word == "cast":
        return (word, int(said[3][1:])) if said[3][0] == "u" else None
    return (word, 0) if word in ("add", "sub", "mul", "and", "or", "xor", "not", "min", "max", "eq", "lt", "mux") else None


def functions(text):
    """Of each function of a program the lines, each with its fields, and the functions that it calls; and its end line."""
    found = {}
    for number, line in enumerate(text.partition("%%")[0].splitlines(), 1):
        said = line.split("#")[0].split()
        if said[:1] == ["fn"]:
            name, found[said[1]] = said[1], ([], set(), [])
        elif said[:1] == ["end"]:
            found[name][2].extend([number, *said[1:]])
        elif said[1:2] == ["="]:
            found[name][0].append((number, said))
            found[name][1].update(callee(said))
    return found


def callee(said):
    """The function that a line calls or maps, in a set."""
    return {said[3]} if said[2] in ("call", "map", "map2") else set()


def reached(found, said):
    """The functions that a line calls, and those that these call, the last first."""
    called = callee(said)
    for name in reversed(found):
        if name in called:
            called |= found[name][1]
            yield name


def is_moved(text, module):
    """Whether a program is made by one move for each result: then its module has cells of the end line."""
    number = list(functions(text).values())[-1][2][0]
    return re.search(rf"^  // line {number}: ", module, re.M) is not None


def wanted_prefixes(text, module):
    """The lines of a program that the names of nets may belong to: those of the program function, and of what each calls."""
    found = functions(text)
    lines, _, (end, *results) = found[list(found)[-1]]
    if is_moved(text, module):
        return [f"l{end}_ {end} {result} end" for result in results]
    rows = []
    for number, said in lines:
        rows.append(f"l{number}_ {number} {said[0]} {said[2]}")
        for name in reached(found, said):
            rows += [f"l{number}_ {line} {inner[0]} {inner[2]} in {name}" for line, inner in found[name][0]]
    return rows


def cell(kind, width, array, value):
    """The cell of a declaration, and by how much it shifts or to which width it casts."""
    if kind == "reg":
        return ("memory" if array else "register"), 0
    if chosen := re.fullmatch(r"(\w+) < (\w+) \? (\w+) : \w+", value):
        return ("min or max" if chosen[1] == chosen[2] else "min" if chosen[1] == chosen[3] else "max"), 0
    if shift := re.fullmatch(r"\w+ (<<|>>) \d+'d(\d+)", value):
        return ("shl" if shift[1] == "<<" else "shr"), int(shift[2])
    if re.fullmatch(r"\w+|\w+\[\d+:\d+\]", value):
        return "cast", width
    signs = {"?": "mux", "==": "eq", "<": "lt", "+": "add", "-": "sub", "*": "mul", "&": "and", "|": "or", "^": "xor"}
    if found := re.fullmatch(r"\w+ (\S+) .*", value):
        return signs[found[1]], 0
    return ("not" if value[0] == "~" else "const" if "'d" in value else "read"), 0


def wanted_nets(text, module):
    """The name of each net of a module, how its row begins and how it may go on, by the module's declarations and comments and the
    lines of the program; and its cell."""
    found, name = functions(text), ""
    operators = {number: said for lines, _, _ in found.values() for number, said in lines}
    form = r"  (?:// line (\d+): (\w+),.*|(wire|reg) (?:\[(\d+):0\] )?l\d+_(n\d+)( \[\d+:\d+\])?(?: = (.*))?;)"
    for line, told, kind, high, net, array, value in re.findall(rf"^{form}$", module, re.M):
        if line:
            number, name, said = int(line), told, operators.get(int(line), ["", "", "end"])
            inner = [(f", {at} {words[0]} {words[2]} in {func}", operation(words)) for func in reached(found, said) for at, words in found[func][0]]
            continue
        word, much = cell(kind, int(high or 0) + 1, array, value)
        own = [row for row, made in inner if made == (word, much)]
        # What waits for the arguments of a call is of the line itself.
        ends = own if word in SURE else [row for row, _ in inner] + [""]
        yield f"l{number}_{net}", f"l{number}_{net} {number} {name} {said[2]}: {word}", ends or [""], word


def nets_are_right(name, slowdown, text, module):
    """The fault of what is said of each net of a module, as a table and as a save file."""
    wanted = list(wanted_nets(text, module))
    status, shown = kit(["notes", slowdown, "nets"], text)
    rows = [row for row in shown.splitlines() if re.match(r"l\d+_n\d", row)]
    _, file = kit(["notes", slowdown, "nets", "gtkw"], text)
    aliases = re.findall(r"^\+\{(l\d+_n\d.*)\} bench\.dut\.(\w+)(?:\[\d+:0\])?$", file, re.M)
    if status or [row.split()[0] for row in rows] != [net for net, _, _, _ in wanted]:
        return f"{name} at {slowdown}: not these are the nets"
    for row, (_, start, ends, word) in zip(rows, wanted):
        if word != "min or max" and row not in [start + end for end in ends]:
            return f"{name} at {slowdown}: {row} and not {start} with one of {ends}"
    if aliases != [(row, net) for row, (net, _, _, word) in zip(rows, wanted) if word != "memory"]:
        return f"{name} at {slowdown}: the nets of the save file"
    return ""


def inner_nets_are_right():
    """The fault of what is said of the nets of two functions with the same operator."""
    _, shown = kit(["notes", 2, "nets"], ADDING)
    rows = [row.split(" ", 1)[1] for row in shown.splitlines() if re.match(r"l\d+_n\d", row)]
    return "" if rows == ADDED else f"the nets of two functions that add: {rows}"


def names_are_right(name, slowdown, text, module):
    """The fault of what is said of the names of a module's ports and nets, and of the save file, against module and program."""
    wanted = [port for port, _ in ports(module, "input")[2:] + ports(module, "output")]
    lines = text.partition("%%")[0].splitlines()
    status, shown = kit(["notes", slowdown], text)
    told_ports = [line.split() for line in shown.splitlines() if not re.match(r"l\d+_ ", line)]
    _, file = kit(["notes", slowdown, "gtkw"], text)
    aliases = re.findall(r"^\+\{(.*)\} aeth\.(\w+)(?:\[\d+:0\])?$", file, re.M)
    if status or [row[0] for row in told_ports] != wanted:
        return f"{name} at {slowdown}: not these are the ports"
    if aliases != [(" ".join(row[2:]), row[0]) for row in told_ports]:
        return f"{name} at {slowdown}: the save file has other names"
    for place, number, word, *_ in told_ports:
        if word not in [field.partition(":")[0] for field in lines[int(number) - 1].split("#")[0].split()]:
            return f"{name} at {slowdown}: {place} is not of line {number}"
    if [line for line in shown.splitlines() if re.match(r"l\d+_ ", line)] != wanted_prefixes(text, module):
        return f"{name} at {slowdown}: the lines of the nets"
    return nets_are_right(name, slowdown, text, module)


def wrong_words(folder, bench, module):
    """How many words a bench compared under Icarus, and how many were wrong; and what Icarus said beside that."""
    (folder / "bench.v").write_text(bench)
    (folder / "aeth.v").write_text(module)
    form = ["iverilog", "-Wall", "-g2001", "-s", "bench", "-o", folder / "bench", folder / "bench.v", folder / "aeth.v"]
    made = subprocess.run(form, capture_output=True, text=True)
    if made.returncode:
        return 0, 0, made.stderr
    shown = subprocess.run(["vvp", "-n", folder / "bench"], capture_output=True, text=True).stdout
    last = re.fullmatch(r"(\d+) words compared, (\d+) wrong", shown.splitlines()[-1])
    return int(last[1]), int(last[2]), made.stderr


def verilated_words(folder, bench, module):
    """The same under Verilator."""
    (folder / "bench.v").write_text(bench)
    (folder / "aeth.v").write_text(module)
    form = ["verilator", "--binary", "--timing", "-Wall", "-MAKEFLAGS", "OPT_FAST=-O0 OPT_GLOBAL=-O0", "--top-module", "bench"]
    built = subprocess.run([*form, "bench.v", "aeth.v"], cwd=folder, capture_output=True, text=True)
    said = built.stdout + built.stderr
    if built.returncode or "warning" in said.lower():
        return 0, 0, said[:500]
    shown = subprocess.run([folder / "obj_dir" / "Vbench"], capture_output=True, text=True).stdout
    last = re.search(r"^(\d+) words compared, (\d+) wrong$", shown, re.M)
    return (int(last[1]), int(last[2]), "") if last else (0, 0, shown[-200:])


def bench_is_right(run, compared=wrong_words):
    """The fault of a bench under Icarus, or by another way to compare, on the module of its program."""
    name, slowdown, text, _, shown = run
    status, bench = kit(["bench", slowdown, 5], text)
    with tempfile.TemporaryDirectory() as made:
        words, wrong, said = compared(pathlib.Path(made), bench, shown.split("%% clocks")[0])
    return "" if not status and words and not wrong and not said else f"{name} at {slowdown}: {words} words, {wrong} wrong {said}"


def bench_finds(case, compared=wrong_words):
    """The fault of a bench that does not find what is wrong with a module."""
    name, slowdown, old, new, text = case
    _, bench = kit(["bench", slowdown, 5], text)
    head, begin, cells = aeth(["build", slowdown], text)[1].partition("\n);\n")
    assert old in cells, (name, slowdown, old)
    with tempfile.TemporaryDirectory() as made:
        words, wrong, _ = compared(pathlib.Path(made), bench, head + begin + cells.replace(old, new, 1))
    return "" if wrong else f"{name} at {slowdown}, {old} for {new}: none of {words} words is wrong"


def run_is_right(run):
    """The first fault of what is said of a program at a slowdown."""
    name, slowdown, text, _, shown = run
    picture = picture_is_right(name, slowdown, text) or svg_is_right(name, slowdown, text)
    return picture or names_are_right(name, slowdown, text, shown) or paths_are_right(name, slowdown, text, shown)


def known_moves_are_right():
    """The fault of rows of a table in which moves are known from the rows above, against the table of one slowdown."""
    text = """fn g x:(u8,u8) y:(u8,u8)
p = fst x
q = snd y
r = add p q
z = pair r p
end z
fn main a:[64](u8,u8)
s = shift 3 a
t = map2 g s a
u = shift 40 t
v = partition 8 8 u
w = shift 1 v
x = unpartition w
y = map2 g x s
k = select 3 v
m = up 8 k
n = unpartition m
b = shift 3 n
o = map2 g b y
end o
"""
    _, shown = kit(["slowdowns", 1, 300, "csv"], text)
    rows = shown.splitlines()[1:]
    alone = [row for slowdown in range(1, 301) for row in kit(["slowdowns", slowdown, slowdown, "csv"], text)[1].splitlines()[1:]]
    return "" if rows and rows == alone else "the table with known moves is not that of each slowdown alone"


def dashes_are_taken(text):
    """The fault of a word that has two dashes before it."""
    for plain, dashed in ((["slowdowns", 1, 9, "csv"], ["slowdowns", 1, 9, "--csv"]), (["draw", 4, "text"], ["draw", 4, "--text"])):
        if kit(plain, text) != kit(dashed, text) or kit(plain, text)[0]:
            return f"{dashed} is not {plain}"
    return ""


def on_terminal(words, text):
    """What the second program says on standard error where that is a terminal."""
    leader, follower = pty.openpty()
    subprocess.run([KIT, *map(str, words)], input=text.encode(), stdout=subprocess.DEVNULL, stderr=follower)
    os.close(follower)
    said = b""
    try:
        while part := os.read(leader, 4096):
            said += part
    except OSError:
        pass
    os.close(leader)
    return said.decode()


def progress_is_shown():
    """The fault of what is shown of a call that takes long: on a terminal how far it is, taken away at the end; else nothing."""
    # More different moves than are known at a time: each is weighed at each slowdown.
    shifts = "".join(f"b{k} = shift {k + 1} {f'b{k - 1}' if k else 'a'}\n" for k in range(260))
    text = f"fn twice x:u8\ny = add x x\nend y\nfn main a:[512]u8\n{shifts}z = map twice b259\nend z\n"
    most, taken = 1, 0.0
    while taken < 3 and most < 4096:
        most, begin = most * 2, time.monotonic()
        done = subprocess.run([KIT, "slowdowns", "1", str(most)], input=text.encode(), capture_output=True)
        taken = time.monotonic() - begin
        if done.returncode or done.stderr:
            return f"{most} slowdowns: {done.stderr}"
    said = on_terminal(["slowdowns", 1, most], text)
    if not re.fullmatch(rf"(\raethkit: slowdown \d+ of {most} )+\r +\r", said):
        return f"on a terminal of a search that takes long: {said[:200]!r}"
    return "" if on_terminal(["slowdowns", 1, 2], "fn main a:u8\nend a\n") == "" else "something is shown of a call that takes no time"


def under_verilator(runs, spoiled):
    """The faults of benches under Verilator, on modules and on spoiled ones."""
    found = list(side_by_side(lambda run: bench_is_right(run, verilated_words), runs))
    return found + list(side_by_side(lambda case: bench_finds(case, verilated_words), spoiled))


def main():
    texts = {name: text for name, text, _ in examples()}
    runs = list(runs_of_examples())
    spoiled = [(*case, texts[case[0]]) for case in SPOILED]
    if sys.argv[1:] == ["verilator"]:
        raise SystemExit(told("kit", under_verilator(runs, spoiled)))
    found = [dashes_are_taken(texts["blur"]), known_moves_are_right(), inner_nets_are_right(), progress_is_shown(), *side_by_side(lambda name: table_is_right(name, texts[name]), texts)]
    found += side_by_side(run_is_right, runs)
    found += [svg_is_right(name, slowdown, texts[name]) for name, slowdown in FOLDED]
    found += [picture_is_right("a long type", slowdown, LONG) for slowdown in (1, 64)]
    if not missing("iverilog"):
        found += side_by_side(bench_is_right, runs)
        found += side_by_side(bench_finds, spoiled)
    if not missing("verilator"):
        found += under_verilator([run for run in runs if run[:2] in VERILATED], spoiled[:1])
    raise SystemExit(told("kit", found))


main()
