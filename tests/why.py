#!/usr/bin/env python3
"""Explanations of refusals, `aethkit why`: each of the typical mistakes of mistakes.py is marked at the field that a person would
mark, and told by its cause; and on inputs that somebody spoiled the explanation begins with the line that `aeth` answers, shows
the line that this names, and never fails.

why.py [COUNT [SEED]]: so many spoilt inputs (2,000 unless given), from a seed (1 unless given)."""
import random
import re
import sys

from common import aeth, examples, kit, side_by_side, told
from fuzz import MODULE_WORDS, PROGRAM_WORDS, spoilt
from mistakes import CASES
from programs import Maker

# What stands above the mark, and what the words behind it say; None where no line is there.
CAUSES = {
    "a typo in an argument": ("yy", "no parameter or node above .* nearest is y"),
    "a typo in an operator": ("ad", "no operator .* nearest is add"),
    "an unknown function": ("inc", "no function above has this name"),
    "a function that is defined below": ("inc", "only functions above"),
    "a function that calls itself": ("f", "cannot use itself"),
    "a missing end": (None, "function main is not at its end"),
    "a missing end in the middle": ("fn", "function inc is not at its end"),
    "a name used twice": ("y", "given above"),
    "a + b": ("+", "a word before its arguments"),
    "add(a, b)": ("add(a,", "blanks between them"),
    "an operator in place of a function": ("not", "an operator and no function"),
    "no blank beside =": ("c=add", "blanks stand on both sides"),
    "a literal as argument": ("1", "a constant has a line of its own"),
    "const i16 -1": ("-1", "write the code"),
    "i8 in version 1": ("a:i8", "`aeth 2`"),
    "scan in version 1": ("scan", "`aeth 2`"),
    "two results in version 1": ("b", "`aeth 2`"),
    "a blank in a type": ("a:[4]", "no blanks stand inside a type"),
    "UTF-8": ("?", "byte 195: .* ASCII"),
    "a line of 5,000 fields": ("a", "an item and no operator"),
    "an empty input": (None, "at least one"),
    "u8 with u16": ("add x y", "two words of one kind and width\nhere x is u8, y is u16"),
    "const u8 256": ("const u8 256", "below 2 to its width; the type has 1 words, the line 1"),
    "three words for four": ("const [4]u8 1 2 3", "the type has 4 words, the line 3"),
    "map of a function of two parameters": ("map add2 a", "one parameter .* add2 takes u8 u8"),
    "lengths that differ": ("map2 add2 a b", r"of one length.*\nhere a is \[4\]u8, b is \[5\]u8"),
    "[1]t for t": ("add s b", r"two words .*\nhere s is \[1\]u8, b is u8"),
    "[480][640]u8": ("a:[480][640]u8", r"16384 words.*\na is \[480\]\[640\]u8, which is more"),
    "[7]u8 in 4 clocks": ("a:[7]u8", r"a:\[7\]u8\n.* 1 below 7 above"),
    "the least latency of what computes": ("map inc a", "map calls a function"),
    "a row too short": (" ", r"ends too early: column 4 is word 3 of a:\[4\]u8"),
    "a row too long": ("5", "one too many: a row has 4 words"),
    "a row with 256": ("256", "too great: .* up to 255"),
    "a row with -1": ("-1", "no decimal number"),
    "a row in hex": ("0x10", "no decimal number"),
    "3,000 blocks in 4,096 clocks each": (None, "24576000 words.*\nthere are 3000 rows; give about 512"),
    "an initial": ("initial", "line 3, column 1:[^~]*item 2 reads initial b = 0 ;"),
    "a #(parameter)": ("#", "line 1, column 10:[^~]*parameters"),
    "an unknown name": ("c", "item 1 reads assign b = c ;\n.* declared below it or nowhere"),
    "a register without a first word": ("bx", "x and z are none"),
    "no Verilog at all": ("fn", "begins with module"),
    "the words 'build 0'": (None, "the slowdown S\nS is 1 to 4096"),
    "the words 'build 5000'": (None, "the slowdown S\nS is 1 to 4096"),
    "the words 'build'": (None, "one number behind it, the slowdown S"),
    "the words 'run 4'": (None, "two numbers behind it"),
    "the words 'sim'": (None, "one number behind it, FILL"),
    "the words 'check a.aeth'": (None, "the input is standard input"),
    "the words '--help'": (None, "no job has this word"),
    "the words '-h'": (None, "no job has this word"),
    "the words 'help'": (None, "no job has this word"),
    "the words ''": (None, "there is no word"),
    "the words 'chek'": (None, "the nearest is check"),
    "the words 'demo 65'": (None, "N from 1 to 64"),
    "the words 'build 04'": (None, "without leading zeros"),
}


def marked(shown):
    """What stands above the last mark; None without a mark."""
    lines = shown.splitlines()
    found = None
    for line, mark in zip(lines, lines[1:]):
        if re.fullmatch(" *\\^+", mark):
            found = line[mark.index("^") : len(mark)] or " "
    return found


def mistake(case):
    """What is not as it has to be in the explanation of a typical mistake; "" where nothing is."""
    what, words, text, answer, _ = case
    place, cause = CAUSES[what]
    status, shown = kit(["why", *words.split()], text)
    if status or not shown.startswith(f"refused {answer}\n"):
        return f"{what}: status {status}, {shown!r}"
    if marked(shown) != place or not re.search(cause, shown):
        return f"{what}: {marked(shown)!r} is marked in\n{shown}"
    return ""


def loads():
    """What is not as it has to be in what is said of a load: that of the lines above, by `plan` of these, and the heaviest of them."""
    head = "fn sq x:u8\ny = mul x x\nend y\nfn main a:[4096]u8\n"
    lines = [f"b{number} = map sq {'a' if number == 1 else f'b{number - 1}'}\n" for number in range(1, 20)]
    status, answer = aeth(["plan", 1], head + "".join(lines) + "end b19\n")
    number = int(answer.split()[-1]) - 4
    _, plan = aeth(["plan", 1], head + "".join(lines[: number - 1]) + f"end b{number - 1}\n")
    _, costs = aeth(["cost", 1], head + "".join(lines[: number - 1]) + f"end b{number - 1}\n")
    load, heavy = re.search(r"^load (\d+)$", plan, re.M)[1], costs.splitlines()[1].split(",")
    _, shown = kit(["why", "plan", 1], head + "".join(lines) + "end b19\n")
    wanted = f"the lines above it have the load {load}\nline {heavy[0]} {heavy[1]} has the load {heavy[4]}\n"
    return "" if status == 4 and wanted in shown else f"the load: {shown!r} and not {wanted!r}"


def late_results():
    """What is not as it has to be in what is said of an end line at which the load passes: seven sums behind one another, each of
    load 2, and beside them 16,384 words that wait for the last one, 7 clocks."""
    head = "aeth 2\nfn main a:[4][4096]u8 x:u8\ny1 = add x x\n"
    lines = "".join(f"y{number} = add y{number - 1} y{number - 1}\n" for number in range(2, 8))
    _, shown = kit(["why", "plan", 1], head + lines + "end a y7\n")
    wanted = f"""refused too large line 10
line 10: end a y7
         ^^^^^^^^
with this line the load at the slowdown 1 is {7 * 2 + 7 * 16384}; the limit is 100000: a greater slowdown mostly needs less
the lines above it have the load {7 * 2}
line 3 y1 has the load 2
line 4 y2 has the load 2
line 5 y3 has the load 2
"""
    return "" if shown == wanted else f"late results: {shown!r} and not {wanted!r}"


def moves():
    """What is not as it has to be in what is said of a program that only moves words: four results of one move each, whose four
    columns wait for 4,000 clocks and have two choices."""
    lines = "".join(f"b{number} = shift 4000 a\n" for number in range(4))
    _, shown = kit(["why", "stall", 4096], f"aeth 2\nfn main a:[4096]((u8,u8),(u8,u8))\n{lines}end b0 b1 b2 b3\n")
    wanted = f"at the slowdown 4096 it is {4 * (1 + 4 * 4000 + 4 * 2)}; the limit is 50000:"
    right = shown.startswith("refused too large line 7\n") and marked(shown) == "end b0 b1 b2 b3" and wanted in shown
    return "" if right else f"moves: {shown!r} and not {wanted!r}"


def too_long():
    """What is not as it has to be in what is said of an input past the limit of bytes."""
    said = kit(["why", "check"], b"#" * 16777217)
    return "" if said == (0, "refused too long\nan input has at most 16777216 bytes; give the rows in several parts\n") else f"{said}"


def compared(words, text):
    """What is not as it has to be in the explanation of any call; "" where nothing is."""
    refused, answer = aeth(words, text)
    status, shown = kit(["why", *words], text)
    head = answer if refused else "nothing to explain\n"
    if status or not shown.startswith(head) or not refused and shown != head or refused and shown == head:
        return f"{words} {text.decode(errors='replace')!r}: {status}, {shown!r} and not {head!r}"
    named = re.search(r"line (\d+)$", head.strip())
    if named and not shown.splitlines()[1].startswith(f"line {named[1]}"):
        return f"{words} {text.decode(errors='replace')!r}: not the line of {shown!r}"
    return ""


def main():
    count, seed = ([int(word) for word in sys.argv[1:]] + [2000, 1][len(sys.argv) - 1 :])[:2]
    programs = [text.encode() for _, text, _ in examples()]
    modules = [aeth(["build", slowdown], text)[1].encode() for text in programs[:6] for slowdown in (1, 16)]

    def task(number):
        source = random.Random(seed * 10_000_000 + number)
        if number % 4 == 0:
            text = spoilt(source, source.choice(modules), source.choice(modules), MODULE_WORDS)
            return compared(["sim", 0], text)
        base = source.choice(programs) if source.random() < 0.5 else Maker(source).program(2)[0].encode()
        text = spoilt(source, base, source.choice(programs), PROGRAM_WORDS)
        slowdown = source.choice((1, 2, 3, 4, 6, 8, 12, 16, 48, 4096))
        return compared(source.choice((["check"], ["eval"], ["plan", slowdown], ["stall", slowdown], ["least", slowdown])), text)

    found = [loads(), late_results(), moves(), too_long(), *side_by_side(mistake, CASES), *side_by_side(task, range(count))]
    if len(CAUSES) != len(CASES):
        found.append("not each typical mistake has a cause here")
    return told("why", found)


if __name__ == "__main__":
    sys.exit(main())
