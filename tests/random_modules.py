"""Random modules of the Verilog profile (docs/VERILOG.md), rows for them, and a test bench that plays the same rows.

    random_modules.py SEED MODULES PARTS ROWS FOLDER

writes K.v, K.rows, K.fill and K.bench.v into the folder for each module K. A module has PARTS random parts side by side,
each with inputs, registers, a memory, wires and outputs of its own. The same seed gives the same modules.
"""
import random
import sys


class Part:
    """One part: names with their widths, and the declarations, items and ports that it adds."""

    def __init__(self, rng, number):
        self.rng = rng
        self.number = number
        self.readable = []
        self.memories = []
        self.ports = []
        self.inputs = []
        self.outputs = []
        self.states = []
        self.items = []

    def width(self):
        return self.rng.choice([1, 1, 2, 3, 4, 7, 8, 13, 16, 31, 32, 33, 63, 64])

    def range_of(self, width):
        return "" if width == 1 else "[%d:0] " % (width - 1)

    def constant(self, width):
        value = self.rng.choice([0, 1, (1 << width) - 1, self.rng.getrandbits(width)]) % (1 << width)
        base, digits = self.rng.choice([("d", "%d"), ("h", "%x"), ("o", "%o")])
        return "%d'%s%s" % (width, base, digits % value)

    def leaf(self):
        """An operand and its own width."""
        kind = self.rng.randrange(5)
        wide = [(n, w) for n, w in self.readable if w > 1]
        if kind == 0:
            width = self.width()
            return self.constant(width), width
        if kind == 1 and wide:
            name, width = self.rng.choice(wide)
            high = self.rng.randrange(width)
            low = self.rng.randrange(high + 1)
            return "%s[%d:%d]" % (name, high, low), high - low + 1
        if kind == 2 and wide:
            name, width = self.rng.choice(wide)
            return "%s[%d]" % (name, self.rng.randrange(width)), 1
        if kind == 3 and self.memories:
            name, width, address = self.rng.choice(self.memories)
            index = self.index(address)
            # Icarus 11 stops where a word at a constant index is shifted.
            if not index.isdigit():
                return "%s[%s]" % (name, index), width
        return self.rng.choice(self.readable)

    def index(self, bits):
        """An index of this width."""
        wide = [(n, w) for n, w in self.readable if w >= bits and w > 1]
        if wide and self.rng.random() < 0.7:
            name, width = self.rng.choice(wide)
            low = self.rng.randrange(width - bits + 1)
            return "%s[%d:%d]" % (name, low + bits - 1, low)
        return str(self.rng.randrange(1 << bits))

    def operand(self, depth):
        """What may stand behind a prefix or in a binary expression."""
        kind = self.rng.randrange(6)
        if depth == 0 or kind < 2:
            return self.leaf()
        if kind == 2:
            text, width = self.expression(depth - 1)
            more, also = self.expression(depth - 1)
            return ("{%s, %s}" % (text, more), width + also) if width + also <= 64 else ("{%s}" % text, width)
        text, width = self.expression(depth - 1)
        return "(%s)" % text, width

    def expression(self, depth):
        """An expression and its own width."""
        kind = self.rng.randrange(8)
        if depth == 0 or kind == 0:
            return self.leaf()
        left, width = self.operand(depth - 1)
        if kind == 1:
            sign = self.rng.choice("~!")
            return sign + left, 1 if sign == "!" else width
        right, also = self.operand(depth - 1)
        if kind == 2:
            test, _ = self.operand(depth - 1)
            return "%s ? %s : %s" % (test, left, right), max(width, also)
        sign = self.rng.choice("* + - & | ^ * + - & | ^ << >> << >> < <= > >= == != && ||".split())
        if sign in ("<<", ">>"):
            return "%s %s %s" % (left, sign, self.amount(depth - 1)), width
        return "%s %s %s" % (left, sign, right), max(width, also) if sign in "* + - & | ^".split() else 1

    def amount(self, depth):
        """A shift amount, often a small one."""
        return self.operand(depth)[0] if self.rng.random() < 0.5 else self.constant(self.rng.choice([3, 6, 7]))

    def value(self):
        return self.expression(4)[0]

    def statement(self, targets, depth):
        """A statement that may assign each of these targets."""
        if depth > 0 and self.rng.random() < 0.6:
            first = self.statement(targets, depth - 1)
            # `begin` and `end` settle which test an else belongs to.
            text = "if (%s) begin %s end" % (self.value(), first)
            return text + " else " + self.statement(targets, depth - 1) if self.rng.random() < 0.5 else text
        return "%s <= %s;" % (self.rng.choice(targets), self.value())

    def declare(self):
        name = lambda word, k: "p%d_%s%d" % (self.number, word, k)
        for k in range(self.rng.randrange(1, 4)):
            width = self.width()
            self.ports.append("input wire %s%s" % (self.range_of(width), name("a", k)))
            self.inputs.append((name("a", k), width))
        self.readable = list(self.inputs)
        registers = []
        for k in range(self.rng.randrange(3)):
            width = self.width()
            registers.append((name("r", k), width))
            self.items.append("reg %s%s;" % (self.range_of(width), name("r", k)))
        if self.rng.random() < 0.5:
            width = self.width()
            registers.append((name("q", 0), width))
            self.ports.append("output reg %s%s" % (self.range_of(width), name("q", 0)))
            self.outputs.append((name("q", 0), width))
        self.readable += registers
        self.states = [(n, w, 0) for n, w in registers]
        if self.rng.random() < 0.5:
            width, address = self.width(), self.rng.randrange(1, 5)
            self.items.append("reg %s%s [0:%d];" % (self.range_of(width), name("t", 0), (1 << address) - 1))
            self.memories.append((name("t", 0), width, address))
            self.states.append((name("t", 0), width, 1 << address))
        self.connect(name, registers)

    def connect(self, name, registers):
        for k in range(self.rng.randrange(1, 4)):
            width = self.width()
            self.items.append("wire %s%s = %s;" % (self.range_of(width), name("w", k), self.value()))
            self.readable.append((name("w", k), width))
        for k in range(self.rng.randrange(1, 3)):
            width = self.width()
            self.ports.append("output wire %s%s" % (self.range_of(width), name("o", k)))
            self.outputs.append((name("o", k), width))
            self.items.append("assign %s = %s;" % (name("o", k), self.value()))
        for register, _ in registers:
            texts = [self.statement([register], 2) for _ in range(self.rng.randrange(1, 3))]
            self.items.append("always @(posedge clk) begin %s <= %s; %s end" % (register, self.value(), " ".join(texts)))
        for memory, _, address in self.memories:
            write = "%s[%s] <= %s;" % (memory, self.index(address), self.value())
            self.items.append("always @(posedge clk) if (%s) %s" % (self.value(), write))


def bench_of(parts, rows, fill):
    """The test bench: the same first words and rows, and a line for each row."""
    inputs = [x for p in parts for x in p.inputs]
    outputs = [x for p in parts for x in p.outputs]
    lines = ["module bench;", "reg clk;", "integer k;"]
    lines += ["reg [%d:0] %s;" % (w - 1, n) for n, w in inputs]
    lines += ["wire [%d:0] %s;" % (w - 1, n) for n, w in outputs]
    lines.append("m dut (%s);" % ", ".join(".%s(%s)" % (n, n) for n in ["clk"] + [n for n, _ in inputs + outputs]))
    lines += ["initial begin", "clk = 0;"]
    for name, width, depth in (s for p in parts for s in p.states):
        first = "%d'd%d" % (width, fill % (1 << width))
        if depth:
            lines.append("for (k = 0; k < %d; k = k + 1) dut.%s[k] = %s;" % (depth, name, first))
        else:
            lines.append("dut.%s = %s;" % (name, first))
    for clock, row in enumerate(rows):
        lines += ["%s = %d'd%d;" % (n, w, v) for (n, w), v in zip(inputs, row)]
        lines.append("#1 $write(\"%d\");" % clock)
        lines += ["$write(\" %%0d\", %s);" % n for n, _ in outputs]
        lines += ["$write(\"\\n\");", "clk = 1; #1 clk = 0; #1;"]
    return lines + ["end", "endmodule"]


def write(rng, folder, number, count, clocks):
    parts = [Part(rng, k) for k in range(count)]
    for part in parts:
        part.declare()
    ports = ["input wire clk"] + [x for p in parts for x in p.ports]
    module = ["module m (", "  " + ",\n  ".join(ports), ");"]
    module += ["  " + x for p in parts for x in p.items] + ["endmodule"]
    # In the order of the ports.
    for part in parts:
        part.outputs.sort(key=lambda o: next(k for k, x in enumerate(ports) if x.endswith(" " + o[0])))
    inputs = [x for p in parts for x in p.inputs]
    rows = [[rng.choice([0, (1 << w) - 1, rng.getrandbits(w)]) for _, w in inputs] for _ in range(clocks)]
    fill = rng.choice([0, 1, 255, (1 << 64) - 1, rng.getrandbits(64)])
    files = {
        "v": module,
        "rows": [" ".join(map(str, row)) for row in rows],
        "fill": [str(fill)],
        "bench.v": bench_of(parts, rows, fill),
    }
    for ending, lines in files.items():
        with open("%s/%d.%s" % (folder, number, ending), "w") as file:
            file.write("\n".join(lines) + "\n")


def main():
    seed, modules, parts, clocks = map(int, sys.argv[1:5])
    rng = random.Random(seed)
    for number in range(modules):
        write(rng, sys.argv[5], number, parts, clocks)


main()
