#!/usr/bin/env python3
"""The written module of every example, at several slowdowns, is taken by Icarus, Verilator and Yosys without a warning. A
tool that is missing is skipped with a line."""
import pathlib
import subprocess
import sys
import tempfile

from common import NO_LAYOUT, TOP, aeth, examples, lint, side_by_side


def main():
    subprocess.run(["bash", TOP / "tests" / "peers.sh"], check=True)
    modules, passed, failed = [], 0, 0
    for name, text, _ in examples():
        for slowdown in (1, 2, 8):
            status, module = aeth(["build", slowdown], text)
            if status == NO_LAYOUT:
                continue
            assert status == 0, (name, slowdown, module)
            modules.append((f"{name}{slowdown}", module))
    with tempfile.TemporaryDirectory() as folder:
        tried = side_by_side(lambda named: lint(pathlib.Path(folder) / named[0], named[1]), modules)
        for (name, _), (taken, said) in zip(modules, tried):
            passed += taken
            failed += len(said)
            for line in said:
                print(f"lint: {name}, {line}")
    print(f"lint: {passed} passed, {failed} failed")
    return failed > 0


sys.exit(main())
