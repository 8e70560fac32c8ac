#!/usr/bin/env python3
"""Icarus shows, of the module of every example at several slowdowns, every word that `run` says, in every clock: the clocks
after reset, those of the rows, and those behind them. Without Icarus it says so and ends well."""
import pathlib
import tempfile

from common import differs_under_icarus, missing, runs_of_examples


def main():
    if missing("iverilog"):
        return
    runs = 0
    with tempfile.TemporaryDirectory() as folder:
        for name, slowdown, _, rows, shown in runs_of_examples():
            apart = differs_under_icarus(pathlib.Path(folder) / f"{name}{slowdown}", shown, slowdown, rows)
            assert not apart, (name, slowdown, apart)
            runs += 1
    print(f"icarus: {runs} runs are the same in every clock")


main()
