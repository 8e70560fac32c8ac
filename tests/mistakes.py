#!/usr/bin/env python3
"""Typical mistakes: each is refused by its line and status, and standard error has one line that names a page which is there.
The words that name no job get the usage text."""
import re
import subprocess
import sys

from common import AETH, TOP, side_by_side, told

ADD = "fn add2 x:u8 y:u8\nz = add x y\nend z\n"
INC = "fn inc x:u8\none = const u8 1\ny = add x one\nend y\n"
MAIN = "fn main a:[4]u8\nb = map inc a\nend b\n"
ROWS = INC + MAIN + "%%\n"
VERILOG = "module m (input wire a, output wire b);\n"

# what it is, the words, the input, the answer, the status
PROGRAMS = [
    ("a typo in an argument", "fn main x:u8 y:u8\nz = add x yy\nend z\n", "bad line 2", 2),
    ("a typo in an operator", "fn main x:u8 y:u8\nz = ad x y\nend z\n", "bad line 2", 2),
    ("an unknown function", "fn main a:[4]u8\nb = map inc a\nend b\n", "bad line 2", 2),
    ("a function that is defined below", MAIN + INC, "bad line 2", 2),
    ("a function that calls itself", "fn f x:u8\ny = call f x\nend y\n", "bad line 2", 2),
    ("a missing end", INC + "fn main a:[4]u8\nb = map inc a\n", "bad line 7", 2),
    ("a missing end in the middle", "fn inc x:u8\none = const u8 1\ny = add x one\n" + MAIN, "bad line 4", 2),
    ("a name used twice", "fn main x:u8\ny = not x\ny = not y\nend y\n", "bad line 3", 2),
    ("a + b", "fn main a:u8 b:u8\nc = a + b\nend c\n", "bad line 2", 2),
    ("add(a, b)", "fn main a:u8 b:u8\nc = add(a, b)\nend c\n", "bad line 2", 2),
    ("an operator in place of a function", "fn main a:[4]u8\nb = map not a\nend b\n", "bad line 2", 2),
    ("no blank beside =", "fn main a:u8 b:u8\nc=add a b\nend c\n", "bad line 2", 2),
    ("a literal as argument", "fn main a:u8\nb = add a 1\nend b\n", "bad line 2", 2),
    ("const i16 -1", "aeth 2\nfn main a:i16\nm = const i16 -1\nend m\n", "bad line 3", 2),
    ("i8 in version 1", "fn main a:i8\nb = not a\nend b\n", "bad line 1", 2),
    ("scan in version 1", "fn main a:[4]u8\nb = scan add a\nend b\n", "bad line 2", 2),
    ("two results in version 1", "fn main a:u8\nb = not a\nend a b\n", "bad line 3", 2),
    ("a blank in a type", "fn main a:[4] u8\nend a\n", "bad line 1", 2),
    ("UTF-8", "fn main größe:u8\nend größe\n", "bad line 1", 2),
    ("a line of 5,000 fields", "fn main a:u8\nb = " + "a " * 5000 + "\nend b\n", "bad line 2", 2),
    ("an empty input", "", "bad line 1", 2),
    ("u8 with u16", "fn main x:u8 y:u16\nz = add x y\nend z\n", "bad type line 2", 3),
    ("const u8 256", "fn main x:u8\ny = const u8 256\nend y\n", "bad type line 2", 3),
    ("three words for four", "fn main x:u8\ny = const [4]u8 1 2 3\nend y\n", "bad type line 2", 3),
    ("map of a function of two parameters", ADD + "fn main a:[4]u8\nb = map add2 a\nend b\n", "bad type line 5", 3),
    ("lengths that differ", ADD + "fn main a:[4]u8 b:[5]u8\nc = map2 add2 a b\nend c\n", "bad type line 5", 3),
    ("[1]t for t", "fn main a:[4]u8 b:u8\ns = reduce add a\nt = add s b\nend t\n", "bad type line 3", 3),
    ("[480][640]u8", "fn main a:[480][640]u8\nend a\n", "too large line 1", 4),
]
JOBS = [
    ("[7]u8 in 4 clocks", "plan 4", "fn main a:[7]u8\nend a\n", "no schedule line 1", 5),
    ("the least latency of what computes", "least 4", INC + MAIN, "not moves line 6", 14),
    ("a row too short", "eval", ROWS + "1 2 3\n", "bad words row 1 column 4", 6),
    ("a row too long", "eval", ROWS + "1 2 3 4\n1 2 3 4 5\n", "bad words row 2 column 5", 6),
    ("a row with 256", "eval", ROWS + "1 256 3 4\n", "bad words row 1 column 2", 6),
    ("a row with -1", "eval", ROWS + "1 2 3 -1\n", "bad words row 1 column 4", 6),
    ("a row in hex", "eval", ROWS + "0x10 2 3 4\n", "bad words row 1 column 1", 6),
    ("3,000 blocks in 4,096 clocks each", "run 4096 0", "fn main a:u8\nend a\n%%\n" + "7\n" * 3000, "long run 24576000", 8),
    ("an initial", "sim 0", VERILOG + "assign b = a;\ninitial b = 0;\nendmodule\n%%\n", "bad module item 1", 7),
    ("a #(parameter)", "sim 0", "module m #(parameter W = 8) (input wire a);\nendmodule\n%%\n", "bad module token 9", 7),
    ("an unknown name", "sim 0", VERILOG + "assign b = c;\nendmodule\n%%\n", "bad module unknown item 1", 7),
    ("a register without a first word", "unwave", "$var reg 4 ! r $end $enddefinitions $end #0 bx !", "bad wave word 9", 13),
    ("no Verilog at all", "sim 0", ROWS + "1\n", "bad module header", 7),
]
CASES = [(what, "check", text, answer, status) for what, text, answer, status in PROGRAMS] + JOBS
CASES += [(f"the words '{words}'", words, "", "usage", 1) for words in (
    "build 0", "build 5000", "build", "run 4", "sim", "check a.aeth", "--help", "-h", "help", "", "chek", "demo 65", "build 04"
)]  # fmt: skip
PAGE = re.compile(r"aeth: .*(docs/[A-Z_]+\.md).*\n")


def fault(case):
    """What is not as it has to be; "" where nothing is."""
    what, words, text, answer, status = case
    done = subprocess.run([AETH, *words.split()], input=text.encode(), capture_output=True)
    said = done.stderr.decode()
    if (done.stdout.decode(), done.returncode) != (f"refused {answer}\n", status):
        return f"{what}: {done.stdout.decode()[:200]!r} and status {done.returncode}"
    if status == 1:
        return "" if said.startswith("usage: aeth JOB") else f"{what}: no usage text"
    page = PAGE.fullmatch(said)
    return "" if page and (TOP / page[1]).exists() else f"{what}: {said!r} on standard error"


def silent():
    """A program without a line %% is no mistake: it has no rows. What is not refused says nothing on standard error."""
    done = subprocess.run([AETH, "eval"], input=(INC + MAIN).encode(), capture_output=True)
    return "" if (done.returncode, done.stdout, done.stderr) == (0, b"", b"") else f"no line %%: {done}"


def main():
    found = [*side_by_side(fault, CASES), silent()]
    return told("mistakes", found)


if __name__ == "__main__":
    sys.exit(main())
