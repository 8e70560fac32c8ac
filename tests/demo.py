#!/usr/bin/env python3
"""Each of the 64 demos is the module that `build` writes of its program, and has the summary that the meaning of the
program gives: the latency that the module's report tells, the clocks of so many blocks, and a word for each block, with
their sum."""
import re
import sys

from common import aeth

PROGRAM = """fn sum x:u16 y:u16
z = add x y
end z
fn main a:[%d]u16
b = shift 1 a
c = map2 sum a b
d = reduce add c
end d
"""


def written(words, text):
    """What the compiler writes, where it refuses nothing."""
    status, out = aeth(words, text)
    assert status == 0, (words, out[-200:])
    return out


def result(words):
    """The sum of the sums of neighbours, where 0 stands before the first word."""
    return sum(a + b for a, b in zip(words, [0] + words[:-1])) % 65536


def main(sizes):
    for size in sizes:
        built, _, summary = written(["demo", size], "").partition("%% summary\n")
        assert built == written(["build", 4 * size], PROGRAM % (16 * size)), size
        latency = int(re.search(r"^// latency (\d+)$", built, re.M)[1])
        length, blocks = 16 * size, 2 * size
        words = [(size + 37 * k) % 65536 for k in range(blocks * length)]
        results = [result(words[b * length : (b + 1) * length]) for b in range(blocks)]
        lines = summary.splitlines()
        assert lines[:-1] == [
            f"demo {size}",
            f"latency {latency}",
            f"clocks {latency + blocks * 4 * size}",
            f"valid {blocks}",
            f"sum {sum(results)}",
        ], (size, summary)
        assert re.fullmatch(r"all \d+", lines[-1]) and int(lines[-1][4:]) >= sum(results), (size, summary)
    print(f"demo: {len(sizes)} demos have the module and the sums of their programs")


if __name__ == "__main__":
    sys.exit(main([int(size) for size in sys.argv[1:]] or range(1, 65)))
