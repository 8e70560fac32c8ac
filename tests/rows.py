#!/usr/bin/env python3
"""Programs with what the compiler has to say of them, worked out by hand: whole runs, and inputs that are too large for the
tests of the crates. A row is the slowdown, the program with its rows, some lines of the report, how many clocks are shown,
and the words of the clocks in which results stand."""
import re
import sys

from common import INCREMENT, TOP, aeth

INCREMENTED = INCREMENT + "%%\n1 2 3 255\n"
SQUARES = """fn f x:u8
q = mul x x
r = add q x
end r
fn main a:[2]u8
b = map f a
end b
%%
3 20
"""
BLUR = (TOP / "tests" / "hand" / "long_blur.aeth").read_text() + "%%\n"
SMALLER = """fn g p:(u8,u8)
x = fst p
y = snd p
c = lt x y
m = mux c x y
end m
fn main a:[3]u8 b:[3]u8
z = zip a b
r = map g z
end r
%%
5 2 9 3 7 9
"""
SIGNED = """aeth 2
fn f x:i8 y:i8
m = min x y
c = cast i16 m
end c
fn main a:[2]i8 b:[2]i8
r = map2 f a b
end r
%%
255 128 1 127
"""


def one_line(result, rows, version=1):
    """A program function of one node."""
    head = "aeth 2\n" * (version == 2)
    parameter, node = result
    return f"{head}fn main a:{parameter}\nb = {node}\nend b\n%%\n{rows}\n"


SUM = one_line(("[4]u8", "reduce add a"), "1 2 3 4")
SCAN = one_line(("[4]u8", "scan add a"), "1 2 3 4\n5 6 7 8", 2)
RUNS = [
    (4, INCREMENTED, ["latency 1", "load 5", "out TSeq 4 0 u8"], 5, "1: 2, 2: 3, 3: 4, 4: 0"),
    (3, INCREMENTED, ["latency 1", "load 9", "out TSeq 2 1 SSeq 2 u8"], 4, "1: 2 3, 2: 4 0"),
    (8, INCREMENTED, ["latency 1", "load 5", "out TSeq 4 0 TSeq 1 1 u8"], 9, "1: 2, 3: 3, 5: 4, 7: 0"),
    (1, SQUARES, ["latency 3", "muls 2", "load 15"], 4, "3: 12 164"),
    (2, SQUARES, ["latency 3", "muls 1", "load 8"], 5, "3: 12, 4: 164"),
    (3, one_line(("[6]u8", "shift 1 a"), "1 2 3 4 5 6\n7 8 9 10 11 12"), ["latency 0", "load 5"], 6,
     "0: 0 1, 1: 2 3, 2: 4 5, 3: 0 7, 4: 8 9, 5: 10 11"),
    (1, SUM, ["latency 2"], 3, "2: 10"),
    (4, SUM, ["latency 4", "load 11"], 8, "4: 10"),
    (6, one_line(("[2][3]u8", "reduce add a"), "1 2 3 10 20 30"), ["latency 4"], 10, "4: 11, 6: 22, 8: 33"),
    (6, one_line(("[12]u8", "partition 4 3 a"), "0 1 2 3 4 5 6 7 8 9 10 11"), ["latency 2"], 8,
     "2: 0 1 2, 3: 3 4 5, 4: 6 7 8, 5: 9 10 11"),
    (4, one_line(("[4]u8", "select 2 a"), "1 2 3 4"), ["latency 2"], 6, "2: 3"),
    (4, "fn main a:[4]u8\nb = shift 1 a\nc = select 3 b\nend c\n%%\n1 2 3 4\n", ["latency 2", "load 4"], 6, "2: 3"),
    (1, SMALLER, ["latency 1", "load 23"], 2, "1: 3 2 9"),
    (3, SMALLER, ["latency 1", "load 9"], 4, "1: 3, 2: 2, 3: 9"),
    (1, SIGNED, ["latency 1", "load 7"], 2, "1: 65535 65408"),
    (4, SCAN, ["latency 1", "load 7"], 9, "1: 1, 2: 3, 3: 6, 4: 10, 5: 5, 6: 11, 7: 18, 8: 26"),
    (2, SCAN, ["latency 2", "load 16"], 6, "2: 1 3, 3: 6 10, 4: 5 11, 5: 18 26"),
    (480, BLUR + " ".join(map(str, range(1920))), ["latency 2", "muls 0", "load 46", "out TSeq 480 0 SSeq 4 u16"], 482,
     "2: 0 0 1 2, " + ", ".join(f"{k // 4 + 2}: {k - 1} {k} {k + 1} {k + 2}" for k in range(4, 1920, 4))),
]
# Where FILL says what stands in the clocks without a result, the valid ones stay the same.
FILLS = (0, 255)


def valid_words(shown):
    """The clocks with a mark, and how many are shown."""
    lines = [line.split(" ", 2) for line in shown.split("%% clocks\n")[1].splitlines()]
    assert [int(line[0]) for line in lines] == list(range(len(lines)))
    assert all(line[1] in ("v", ".") for line in lines)
    return ", ".join(f"{line[0]}: {line[2]}" for line in lines if line[1] == "v"), len(lines)


def module_of(shown):
    return re.sub(r"//.*", "", shown.split("%% clocks\n")[0])


def weight(module):
    """What a written module weighs by the table of docs/VERILOG.md: names, constants, selects, operators, assignments."""
    names = len(re.findall(r"^  (?:input|output) |^  (?:wire|reg) ", module, re.M))
    assigned = len(re.findall(r"^  assign |^  wire .* = ", module, re.M))
    clocked = re.findall(r"^  always @\(posedge clk\) (.*)$", module, re.M)
    nested = sum(1 + line.count("if (") for line in clocked)
    values = re.sub(r"^  (?:input|output|reg) .*$|^  (?:wire|assign) (?:\[\d+:0\] )?\w+(?: =|;)", "", module, flags=re.M)
    values = re.sub(r"^  always @\(posedge clk\)|\w+ <= ", "", values, flags=re.M)
    constants = len(re.findall(r"\d+'[bodh]", values))
    parts = len(re.findall(r"\[\d+:\d+\]", values)) + 2 * len(re.findall(r"\[\d+\]", values))
    joined = sum(1 + inner.count(",") for inner in re.findall(r"\{([^{}]*)\}", values))
    shifts = 6 * len(re.findall(r"(?:<<|>>) (?!\d)", values)) + len(re.findall(r"(?:<<|>>) \d", values))
    others = len(re.findall(r" (?:\+|-|\*|&|\||\^|<|<=|>|>=|==|!=|&&|\|\||\?) |[~!](?!=)", values))
    return names + assigned + nested + values.count("if (") + constants + parts + joined + shifts + others


def nets(module):
    """The names beside the ports."""
    return len(re.findall(r"^  (?:wire|reg) ", module, re.M))


def runs():
    for slowdown, text, report, clocks, words in RUNS:
        for fill in FILLS:
            status, shown = aeth(["run", slowdown, fill], text)
            name = f"run {slowdown} {fill} of {text[-300:]}"
            yield status == 0, name
            if status == 0:
                yield all(f"// {line}\n" in shown for line in report), f"{name}: another report"
                yield valid_words(shown) == (words, clocks), f"{name}: other words"


def without_rows():
    for text in (INCREMENTED.split("%%")[0], INCREMENTED.split("1 2 3")[0]):
        status, shown = aeth(["run", 1, 0], text)
        yield status == 0 and shown.endswith("endmodule\n%% clocks\n"), "no clocks without rows"


def large():
    lines = ["fn sq x:u8", "y = mul x x", "end y", "fn main a0:[4096]u8"] + [f"a{k + 1} = map sq a{k}" for k in range(8)]
    status, module = aeth(["build", 1], "\n".join([*lines, "end a8", ""]))
    yield status == 0 and "// latency 16\n// muls 32768\n// load 98312\n" in module, "eight maps of 4,096 squares"
    yield module.count("*") == 32768, "one sign of a product for each multiplier"
    status, shown = aeth(["eval"], one_line(("[1]u8", "up 4096 a"), "\n".join(["7"] * 1023)))
    yield (status, shown) == (0, (" ".join(["7"] * 4096) + "\n") * 1023), "4,190,208 words"
    status, module = aeth(["build", 1024], INCREMENTED.replace("[4]", "[1024]"))
    text = module_of(module)
    yield status == 0 and "// load 5\n" in module, "1,024 bytes one by one"
    yield weight(text) <= 333, f"the module weighs {weight(text)}"
    yield nets(text) <= 82, f"the module has {nets(text)} nets"


def long():
    """As many lines as a text may have, and one more; and 1,300 functions, each of which calls the one above it."""
    for nodes in (4094, 4095):
        text = ["fn main a:u8", *(f"x{k} = not a" for k in range(nodes)), "end a", "", "# nothing", "%%", "no line"]
        types = ["1 fn main a:u8", *(f"{k + 2} x{k} u8" for k in range(nodes)), "4096 end u8", ""]
        wanted = (0, "\n".join(types)) if nodes == 4094 else (2, "refused bad line 4097\n")
        yield aeth(["check"], "\n".join(text)) == wanted, f"a text of {nodes} nodes"
    calls = "".join(f"fn f{k} a:u8\nn = call f{k - 1} a\nend n\n" for k in range(1, 1300))
    costs = "slowdown 4096\nlatency 0\nmuls 0\nload 1299\n"
    items = "".join(f"{line} 0 TSeq 1 4095 u8\n" for line in ("3897 a", "3898 n", "3899 end"))
    yield aeth(["plan", 4096], f"fn f0 a:u8\nend a\n{calls}") == (0, costs + items), "a chain of 1,300 functions"


def simulated():
    """The module of the blur under `sim`: each clock's words come a line later, as the first line is that of reset."""
    slowdown, text, _, _, words = RUNS[-1]
    module = aeth(["run", slowdown, 0], text)[1].split("%% clocks\n")[0]
    fed = ["1 0 0 0 0"] + [f"0 {k} {k + 1} {k + 2} {k + 3}" for k in range(0, 1920, 4)] + ["0 0 0 0 0"] * 2
    status, shown = aeth(["sim", 0], module + "%%\n" + "\n".join(fed) + "\n")
    lines = shown.splitlines()
    yield status == 0 and [line.split(" ", 1)[0] for line in lines] == [str(k) for k in range(483)], "483 lines"
    late = ", ".join(f"{k - 1}: {line.split(' ', 1)[1]}" for k, line in enumerate(lines) if k > 2)
    yield late == words, "other words under sim"


def heavy():
    """A module of a weight past its limit, and one with an item of 255 shifts less, within it."""
    for items, weighs, wanted in ((6528, 10_000_899, (7, "refused bad module large\n")), (6527, 9_999_367, (0, ""))):
        shifts = "".join(f"wire w{k}=a{'<<a' * 255};\n" for k in range(items))
        answer = aeth(["sim", 0], f"module m(input a,output b);assign b=a;\n{shifts}endmodule\n")
        yield answer == wanted, f"a module of weight {weighs}"


def deep():
    """Nothing that a text nests, or goes on with, takes the compiler further than the depth limit."""
    many = 10_000
    refused = (7, "refused bad module item 1\n")
    clocked = "always @(posedge c) "
    for body, wanted in (
        (f"assign b=a{'+a' * many};", refused),
        (f"assign b={'(' * many}a{')' * many};", refused),
        (f"assign b={'{' * many}a{'}' * many};", refused),
        (f"{clocked}{'if(a) ' * many}b<=a;", refused),
        (f"{clocked}{'begin ' * many}b<=a;{' end' * many}", refused),
        (f"/*{' ' * 10_000_000}*/{clocked}b<=a;", (0, "0 0\n1 1\n")),
    ):
        output = "reg b" if clocked in body else "b"
        answer = aeth(["sim", 0], f"module m(input c,input a,output {output});wire w=a;{body}endmodule\n%%\n1\n0\n")
        yield answer == wanted, f"a module with {body[:40]}"


def main():
    answers = [answer for part in (runs, without_rows, large, long, simulated, heavy, deep) for answer in part()]
    for right, name in answers:
        if not right:
            print(f"rows: {name}")
    failed = sum(not right for right, _ in answers)
    print(f"rows: {len(answers) - failed} passed, {failed} failed")
    return failed > 0


sys.exit(main())
