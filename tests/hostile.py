#!/usr/bin/env python3
"""Inputs of someone who means ill, or of a program that has gone wrong: at each limit and one past it, cut anywhere, and as
large as an input may be. Each has its stated answer, and the largest one comes in time."""
import os
import pathlib
import resource
import subprocess
import sys
import tempfile

from common import AETH, INCREMENT, aeth, missing

SUMMED = """module acc (input wire clk, input wire [3:0] a, output reg [3:0] t);
  always @(posedge clk) t <= t + a;
endmodule
"""
SECONDS = 2


def with_lines(count):
    """The increment program with so many lines: its map stands again under new names."""
    lines = INCREMENT.splitlines(True)
    return "".join(lines[:6] + [f"b{k} = map inc a\n" for k in range(count - 7)] + lines[6:])


def chain(operators):
    return "module m(input a,output b);assign b=a" + "+a" * operators + ";endmodule"


def heavy():
    """A module of 6,528 wires, each with 255 shifts by a net: a little too heavy."""
    items = "".join(f"wire w{k}=a" + "<<a" * 255 + ";" for k in range(6528))
    return "module m(input a,output b);assign b=a;" + items + "endmodule"


def cases():
    """What it shows, words, input, status, and the whole output (None: any)."""
    sim, check = ["sim", 0], ["check"]
    yield "as many lines as a program may have", check, with_lines(4096), 0, None
    yield "one line more", check, with_lines(4097), 2, "refused bad line 4097\n"
    yield "a byte of value 0", check, "\0", 2, "refused bad line 1\n"
    yield "the largest value", check, "fn main a:[4096][4]u8\nend a\n", 0, "1 fn main a:[4096][4]u8\n2 end [4096][4]u8\n"
    for cut in range(len("module acc (input") + 1):
        yield f"a header cut behind {cut} bytes", sim, SUMMED[:cut], 7, "refused bad module header\n"
    yield "a module without its last byte", sim, SUMMED[: SUMMED.rindex("e")], 7, "refused bad module item 1\n"
    yield "the deepest expression", sim, chain(255), 0, ""
    yield "one operator more", sim, chain(256), 7, "refused bad module item 0\n"
    port = "module m (input wire a, output wire b); "
    yield "a width past 32 bits", sim, port + "wire [4294967296:0] w = a; assign b = a; endmodule", 7, "refused bad module width item 1\n"
    yield "a constant of 65 bits", sim, port + "assign b = 65'd0; endmodule", 7, "refused bad module width item 1\n"
    yield (
        "a loop through the address of a memory",
        sim,
        "module m (input wire clk, input wire d, output wire b); reg t [0:1]; wire a; assign a = t[a]; assign b = a; "
        "always @(posedge clk) t[a] <= d; endmodule",
        7,
        "refused bad module loop net 4\n",
    )
    short = "module m(input a,output b);"
    yield "two operators in one token", sim, short + "assign b=a^~a;endmodule", 7, "refused bad module item 0\n"
    yield "a name before its declaration", sim, short + "assign b=w;wire w=a;endmodule", 7, "refused bad module unknown item 1\n"
    yield "a bit of a net without a range", sim, short + "assign b=a[0];endmodule", 7, "refused bad module kind item 1\n"
    yield "a module that is too heavy", sim, heavy(), 7, "refused bad module large\n"
    unwave, variable = ["unwave"], "$var wire 1 ! a $end "
    yield "as many variables as a dump may have", unwave, variable * 300_000 + "$enddefinitions $end", 0, ""
    yield "one variable more", unwave, variable * 300_001 + "$enddefinitions $end", 13, "refused bad wave word 1800000\n"
    yield "a code of many bytes", unwave, f"$var wire 1 {'!' * 4_000_000} a $end $enddefinitions $end #1 1{'!' * 4_000_000}", 0, "1 1\n"
    yield "a comment without an end", unwave, "$comment " + "x " * 4_000_000, 13, "refused bad wave word 4000001\n"
    shifts = "".join(f"b{k} = shift 1 {f'b{k - 1}' if k else 'a'}\n" for k in range(4094))
    yield "as many moves as a program may have", ["least", 4], f"fn main a:[4]u8\n{shifts}end b4093\n", 0, "latency 0\n"
    # No words, or words that no shell would hand on: none of them names a job.
    no_text = "\udcff"  # the byte 255 alone, which is no UTF-8
    for words in (
        [],
        [""],
        [no_text],
        ["check", no_text],
        ["build", "1 "],
        ["build", "１"],
        ["run", 1, 2**64],
        ["check", "x" * 100_000],
        ["sim"] + ["0"] * 1000,
        ["0"] * 200_000,
    ):
        yield "words that name no job", words, "", 1, "refused usage\n"


def many_words():
    """What it shows, and the answer to more and longer words than a system hands on."""
    if missing("cc"):
        return
    with tempfile.TemporaryDirectory() as folder:
        library = pathlib.Path(folder) / "words.so"
        source = pathlib.Path(__file__).with_name("words.c")
        subprocess.run(["cc", "-O1", "-shared", "-fPIC", "-o", library, source, "-ldl"], check=True)
        for shows, count, size in (("a million words", 1_000_000, 1), ("a word of 100 MB", 1, 100_000_000)):
            given = {**os.environ, "LD_PRELOAD": str(library), "WORDS_COUNT": str(count), "WORDS_SIZE": str(size)}
            done = subprocess.run([AETH, "check"], input=b"", capture_output=True, env=given)
            yield shows, (done.returncode, done.stdout.decode())


def spent():
    """Seconds of a processor that all runs so far took: unlike those of a clock they do not tell what else the machine does."""
    used = resource.getrusage(resource.RUSAGE_CHILDREN)
    return used.ru_utime + used.ru_stime


def main():
    passed = failed = 0
    for shows, words, text, status, output in cases():
        begin = spent()
        answer = aeth(words, text)
        took = spent() - begin
        well = answer[0] == status and output in (None, answer[1]) and took < SECONDS
        passed, failed = passed + well, failed + (not well)
        if not well:
            print(f"hostile: {shows}: status {answer[0]}, {answer[1][:200]!r} after {took:.1f} s")
    for shows, answer in many_words():
        well = answer == (1, "refused usage\n")
        passed, failed = passed + well, failed + (not well)
        if not well:
            print(f"hostile: {shows}: {answer}")
    print(f"hostile: {passed} passed, {failed} failed")
    return failed > 0


sys.exit(main())
