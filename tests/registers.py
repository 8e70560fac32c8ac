#!/usr/bin/env python3
"""How many bits of registers the modules of small programs have, worked out by hand: no contract asks for the fewest, but a
stage that no longer shares a counter, or keeps a word twice, shows here without a synthesis tool. A row is the program in
tests/hand, the slowdown, and the bits. What waits long stands in memories, within a line and between lines, and what is held in one register: rows
with bounds show that more clocks take hardly more registers."""
import re
import sys

from common import TOP, aeth

ROWS = [
    ("increment", 1, 4 * 8),  # four sums
    ("increment", 4, 8),  # one sum
    ("sum", 1, 2 * 8 + 8),  # two sums, and theirs
    ("sum", 2, 8 + 8 + 1),  # the sum of a pair, the sum so far, and the clock that tells the pairs apart
    ("sum", 4, 8 + 2 + 1),  # the sum so far, a clock of four, and the mark of its first
    ("row_sum", 6, 3 * 8 + 3 + 1),  # a row, one clock of six for the fold and the move behind it, and the mark
    ("shift", 3, 8 + 2 + 1),  # the word that waits, a clock of three, and the mark of its first
    ("twice", 3, 8 + 2 + 1 + 2 * 8),  # what two lines ask for is there once: a word that waits, a clock, its mark; and two sums
    ("partition", 6, 3 * 8 + 8 + 2 * 3),  # three words that wait, a choice, and two clocks: the choice is made one early
    ("running_sum", 2, 2 * 8 + 2 * 8 + 1),  # the first word and the sum of a pair, two running sums, and the clock
]

BOUNDS = [
    ("signed_fir", 256, 1.5 * 329),  # at 32 it has 329 bits: what its taps wait for
    ("signed_fir", 1024, 1.5 * 329),
    ("gain", 1024, 100),  # the gain, two clocks of a product, a clock of 1,024 and a mark
    ("gaussian", 4096, 16 * 10 + 100),  # ten words of 16 bits, and counters
    ("integral", 4096, 150),  # two sums of 32 bits, a word out of the memory of a row, two clocks, of 64 and 4,096, and marks
    ("matrix_vector", 1024, 1500),  # the product of each row waits 784 clocks for the last one: 12,544 bits in registers
]


def register_bits(module):
    """The bits of all registers that a module declares."""
    declared = re.findall(r"^  reg (?:\[(\d+):0\] )?(?:l\d+_)?n\d+;$", module, re.MULTILINE)
    return sum(int(high) + 1 if high else 1 for high in declared)


def bits_of(name, slowdown):
    status, module = aeth(["build", slowdown], (TOP / "tests" / "hand" / f"{name}.aeth").read_text())
    assert status == 0, (name, slowdown, module)
    return register_bits(module)


def main():
    failed = 0
    for name, slowdown, bits in ROWS:
        found = bits_of(name, slowdown)
        if found != bits:
            print(f"registers: {name} at slowdown {slowdown} has {found} bits, and not {bits}")
            failed += 1
    for name, slowdown, most in BOUNDS:
        found = bits_of(name, slowdown)
        if found > most:
            print(f"registers: {name} at slowdown {slowdown} has {found} bits, more than {most:g}")
            failed += 1
    print(f"registers: {len(ROWS) + len(BOUNDS) - failed} passed, {failed} failed")
    return failed > 0


sys.exit(main())
