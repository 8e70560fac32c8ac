#!/usr/bin/env python3
"""Refused memory, and reads and writes that fail or move one byte, each call of a run in its turn, of the program that ./build
makes. Where an allocation fails the status is 0, or 12 and the output a first part of `refused memory` or of the text that
was due; where a read fails it is 9, where a write fails 10 and the output a first part of the text; where a call moves one
byte nothing changes. It wants a C compiler and the program of ./build.

refused.py [MOST]: at most so many calls of each run (100,000 unless given)."""
import collections
import os
import pathlib
import subprocess
import sys
import tempfile

from common import TOP, missing, side_by_side

AETH = pathlib.Path(os.environ.get("AETH", TOP / "crates/aeth/out/aeth"))
STATUS = {"read": 9, "write": 10}
KINDS = ("alloc", "read", "write", "short_read", "short_write")


def example(name):
    return (TOP / "examples" / f"{name}.aeth").read_bytes()


COUNTER = b"""module acc (input wire clk, input wire [3:0] a, output reg [3:0] t);
  reg [3:0] m [0:3];
  always @(posedge clk) if (a == 4'd3) t <= t + m[a[1:0]]; else begin t <= t + a; m[t[1:0]] <= a; end
endmodule
%%
1
3
15
"""
RUNS = [
    ("", b""),
    ("check", b"fn main a:u8 b\n"),
    ("check", example("sobel")),
    ("eval", example("signed_fir")),
    ("plan 12", example("sobel")),
    ("cost 1", example("blur")),
    ("least 4", example("rotate")),
    ("least 4", example("increment")),
    ("build 1", example("increment")),
    ("build 16", example("median_of_three")),
    ("stall 4", example("increment")),
    ("run 4 7", example("increment")),
    ("run 16 0", example("median_of_three")),
    ("run 6 0", (TOP / "tests/hand/row_sum.aeth").read_bytes() + b"%%\n1 2 3 4 5 6\n7 8 9 10 11 12\n"),
    ("run 1 0", example("extremes")),
    ("wave 4 7", example("increment")),
    ("unwave", b"$var wire 9 ! a $end $var wire 1 # b $end $enddefinitions $end #1 b101 ! 1# #7 0#\n"),
    ("unwave", b"$var wire 9 ! a $end $enddefinitions $end #1 b2 !\n"),
    ("sim 9", COUNTER),
    ("sim 0", COUNTER.replace(b"acc", b"1")),
    ("demo 1", b""),
]


def disturbed(library, words, text, kind, at):
    """Status and output of a run whose call with this number goes wrong, and whether there was one."""
    read, write = os.pipe()
    forced = {**os.environ, "LD_PRELOAD": str(library), "FAIL_KIND": kind, "FAIL_AT": str(at), "FAIL_TOLD": str(write)}
    done = subprocess.run([AETH, *words], input=text, stdout=subprocess.PIPE, stderr=subprocess.DEVNULL, env=forced, pass_fds=[write])
    os.close(write)
    struck = os.read(read, 1) == b"x"
    os.close(read)
    return done.returncode, done.stdout, struck


def is_right(kind, found, due):
    status, output = found
    if kind.startswith("short") or found == due:
        return found == due
    if kind == "alloc":
        return status == 12 and (b"refused memory\n".startswith(output) or due[1].startswith(output))
    return status == STATUS[kind] and (output == b"refused read fault\n" if kind == "read" else due[1].startswith(output))


def tried(library, words, text, kind, most):
    """How many calls went wrong one by one, the statuses, and what was answered wrongly."""
    due = disturbed(library, words, text, "none", 0)[:2]
    statuses, wrong = collections.Counter(), []
    for first in range(1, most + 1, 64):
        last = False
        numbers = range(first, first + 64)
        for at, (status, output, struck) in zip(numbers, side_by_side(lambda at: disturbed(library, words, text, kind, at), numbers)):
            if not struck:
                last = True
                break
            statuses[status] += 1
            if not is_right(kind, (status, output), due):
                wrong.append(f"{' '.join(words)}: {kind} {at}: status {status}, {output[-80:]!r}")
        if last:
            break
    return statuses, wrong


def main():
    most = int(sys.argv[1]) if len(sys.argv) > 1 else 100_000
    if missing("cc"):
        return False
    if not AETH.exists():
        print("refused: nothing is built (./build)")
        return False
    runs = failed = 0
    with tempfile.TemporaryDirectory() as folder:
        library = pathlib.Path(folder) / "refused.so"
        source = pathlib.Path(__file__).with_name("refused.c")
        subprocess.run(["cc", "-O1", "-shared", "-fPIC", "-o", library, source, "-ldl"], check=True)
        for words, text in RUNS:
            for kind in KINDS:
                statuses, wrong = tried(library, words.split(), text, kind, most)
                runs, failed = runs + sum(statuses.values()), failed + len(wrong)
                told = [f"{count} times status {status}" for status, count in sorted(statuses.items())]
                print(f"{words:9} {kind:12}", *told, *wrong[:5], sep="  ", flush=True)
    print(f"refused: {runs} runs, {failed} of them wrong")
    return failed > 0


sys.exit(main())
