#!/usr/bin/env python3
"""`sim` shows, of the module that `run` wrote, what `run` showed of it, in every clock: all examples at several slowdowns.
The rows of `sim` are the clock of reset and then what `run` feeds."""
from common import FILL, NO_LAYOUT, aeth, examples, input_rows, ports


def played_again(text, slowdown, rows):
    """How many clocks are the same in both; none where the program has no layout."""
    status, shown = aeth(["run", slowdown, FILL], text)
    if status == NO_LAYOUT:
        return 0
    assert status == 0, shown
    module, lines = shown.split("%% clocks\n")
    wanted = [line.split(" ", 2)[2] for line in lines.splitlines()]
    reset = [1] + [FILL % 2**width for _, width in ports(module, "input")[2:]]
    fed = [reset] + [[0, *row] for row in input_rows(module, slowdown, rows, len(wanted))]
    status, again = aeth(["sim", FILL], module + "%%\n" + "".join(" ".join(map(str, row)) + "\n" for row in fed))
    assert status == 0, again
    found = [line.split(" ", 1) for line in again.splitlines()]
    assert [clock for clock, _ in found] == [str(clock) for clock in range(len(wanted) + 1)]
    assert [words for _, words in found[1:]] == wanted, (text, slowdown)
    return len(wanted)


def main():
    clocks = sum(played_again(text, slowdown, rows) for _, text, rows in examples() for slowdown in (1, 3, 8))
    print(f"played again: {clocks} clocks are the same under sim")


main()
