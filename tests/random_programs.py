#!/usr/bin/env python3
"""Random programs, each at a random slowdown at which it has a layout: `run` shows the results of `eval` in its valid slots;
Icarus, Verilator and Yosys take the module without a warning, but for Verilator's on comparisons that a constant decides;
and of every third one Icarus shows every word of every clock that `run` says. A tool that is missing is skipped with a line.

random_programs.py [COUNT [SEED]]: so many programs (100 unless given), from a seed (1 unless given)."""
import pathlib
import random
import shutil
import sys
import tempfile

from common import FILL, NO_LAYOUT, aeth, differs_under_icarus, lint, missing, results, side_by_side
from programs import Maker

BLOCKS = 3
LOAD_AT_MOST = 1500


def slowdowns(source, params):
    """Slowdowns to be tried: products of the lengths of parameters, and others."""
    lengths = [length for ty in params for length in ty.lengths()]
    product = 1
    for length in source.sample(lengths, source.randint(0, len(lengths))):
        product *= length
    near = [product * source.choice((1, 1, 2, 3)), source.randint(1, 30), source.randint(1, 30), source.choice(lengths or [1]), 1]
    return [slowdown for slowdown in near if slowdown <= 150]


def load(plan):
    return int(plan.splitlines()[3].split()[1])


def case(seed):
    """A program with rows at a slowdown, not too large."""
    source = random.Random(seed)
    while True:
        text, rows, params = Maker(source).program(BLOCKS)
        for slowdown in slowdowns(source, params):
            status, plan = aeth(["plan", slowdown], text)
            assert status in (0, NO_LAYOUT), (status, plan, text)
            if status == 0 and load(plan) <= LOAD_AT_MOST:
                return text, rows, slowdown


def try_case(folder, number, seed):
    """What is wrong with one program, and how much of it was tried: runs, linted modules, compared runs."""
    text, rows, slowdown = case(seed)
    status, wanted = aeth(["eval"], text)
    ran, shown = aeth(["run", slowdown, FILL], text)
    if status or ran:
        return [f"eval: {wanted}, run: {shown[-200:]}"], (0, 0, 0), text, slowdown
    wrong = [] if list(results(shown, slowdown, BLOCKS)) == wanted.splitlines() else ["run shows other results than eval"]
    passed, said = lint(folder / f"lint{number}", shown.split("%% clocks\n")[0])
    compared = 0
    if number % 3 == 0 and shutil.which("iverilog"):
        apart = differs_under_icarus(folder / f"run{number}", shown, slowdown, rows)
        said += [f"Icarus shows otherwise: {apart}"] * bool(apart)
        compared = 1
    return wrong + said, (1, passed, compared), text, slowdown


def main():
    count, seed = ([int(word) for word in sys.argv[1:]] + [100, 1][len(sys.argv) - 1 :])[:2]
    missing("iverilog")
    missing("verilator")
    missing("yosys")
    sums, failed = [0, 0, 0], 0
    with tempfile.TemporaryDirectory() as folder:
        task = lambda number: try_case(pathlib.Path(folder), number, seed * 1000000 + number)
        for wrong, counts, text, slowdown in side_by_side(task, range(count)):
            sums = [one + more for one, more in zip(sums, counts)]
            if wrong:
                failed += 1
                print("\n".join(wrong), f"\nat slowdown {slowdown}:\n{text}", flush=True)
    print("random programs: {} run as eval says, tools took modules {} times, Icarus shows {} runs the same".format(*sums))
    print(f"random programs: {count - failed} passed, {failed} failed")
    return failed > 0


sys.exit(main())
