#!/usr/bin/env python3
"""Modules with a stall input. Icarus runs that of every example at several slowdowns with clocks between in which `en` is 0,
any words stand on the inputs, and `rst` is anything: in the clocks with `en` 1, the reset first, the outputs show every word
that `run` says. Without Icarus it says so, and tries a row under `sim` alone."""
import pathlib
import random
import tempfile

from common import FILL, INCREMENT, aeth, clock_words, clocked_bench, first_apart, input_rows, lines_under_icarus, missing, ports
from common import runs_of_examples


def stopped_clock():
    """A clock with `en` 0 changes nothing: the sum of the clock before it stands there until the next one."""
    status, module = aeth(["stall", 1], INCREMENT)
    assert status == 0
    rows = ["1 1 0 0 0 0", "0 1 1 2 3 255", "0 0 9 9 9 9", "0 1 5 5 5 5"]
    status, shown = aeth(["sim", 0], module + "%%\n" + "\n".join(rows) + "\n")
    assert status == 0 and shown.splitlines()[3] == "3 2 3 4 0", shown


def with_stalls(rows, widths, luck):
    """The rows behind `rst` and an `en` of 1, and clocks with `en` 0 before each and behind all."""
    some = lambda: [luck.randrange(2**width) for width in widths]
    stopped = lambda: [([luck.randrange(2), 0, *some()], False) for _ in range(luck.choice((0, 0, 1, 3)))]
    reset = [1, 1] + [FILL % 2**width for width in widths]
    clocks = [*stopped(), (reset, False)]
    for row in rows:
        clocks += [*stopped(), ([0, 1, *row], True)]
    return clocks + stopped()


def differs(folder, shown, stalled, slowdown, rows):
    """What the enabled clocks show otherwise than the lines of `run`; "" where nothing."""
    module, wanted = clock_words(shown)
    ins = ports(stalled, "input")
    assert [name for name, _ in ins[:3]] == ["clk", "rst", "en"] and ins[3:] == ports(module, "input")[2:]
    clocks = with_stalls(input_rows(module, slowdown, rows, len(wanted)), [width for _, width in ins[3:]], random.Random(slowdown))
    return first_apart(wanted, lines_under_icarus(folder, stalled + clocked_bench(stalled, clocks)))


def main():
    stopped_clock()
    if missing("iverilog"):
        return
    runs = 0
    with tempfile.TemporaryDirectory() as folder:
        for name, slowdown, text, rows, shown in runs_of_examples():
            status, stalled = aeth(["stall", slowdown], text)
            assert status == 0, (name, slowdown, stalled)
            apart = differs(pathlib.Path(folder) / f"{name}{slowdown}", shown, stalled, slowdown, rows)
            assert not apart, (name, slowdown, apart)
            runs += 1
    print(f"stalled: {runs} runs with stalls between are the same in every enabled clock")


main()
