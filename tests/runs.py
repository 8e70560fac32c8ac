#!/usr/bin/env python3
"""The words that `run S` shows of every example, where its results stand, are those that `eval` gives, at every slowdown
that the example has a layout at, from 1 to 40."""
from common import FILL, NO_LAYOUT, aeth, examples, results, side_by_side


def shows(case):
    """Whether there is a run at this slowdown; it has to show the results."""
    name, text, wanted, slowdown = case
    status, shown = aeth(["run", slowdown, FILL], text)
    if status == NO_LAYOUT:
        return False
    assert status == 0, (name, slowdown, shown)
    assert list(results(shown, slowdown, len(wanted))) == wanted, (name, slowdown)
    return True


def cases():
    for name, text, _ in examples():
        status, rows = aeth(["eval"], text)
        assert status == 0, name
        for slowdown in range(1, 41):
            yield name, text, rows.splitlines(), slowdown


print(f"runs: {sum(side_by_side(shows, cases()))} runs show the results of eval")
