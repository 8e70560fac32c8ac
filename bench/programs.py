#!/usr/bin/env python3
"""programs.py NAME: prints a large program that the scripts here time the compiler on."""
import pathlib
import sys

BLUR = pathlib.Path(__file__).parent.parent / "tests" / "hand" / "long_blur.aeth"


def squares():
    """32,768 multipliers side by side at slowdown 1: a load of 98,312."""
    maps = [f"a{k + 1} = map sq a{k}" for k in range(8)]
    return ["fn sq x:u8", "y = mul x x", "end y", "fn main a0:[4096]u8", *maps, "end a8"]


def shifts():
    """Forty moves of a row of 1,024 pixels."""
    moves = [f"b{k} = shift 7 {f'b{k - 1}' if k else 'a'}" for k in range(40)]
    return ["fn main a:[1024]u8", *moves, "end b39"]


def blur():
    """A blur over a row of 1,920 pixels, with 100 rows."""
    return [BLUR.read_text() + "%%"] + [" ".join(str((k * 7 + row) % 65536) for k in range(1920)) for row in range(100)]


def moves():
    """As many moves of 16,384 words as a program can have."""
    nodes = [f"b{k} = shift {k % 4097} {f'b{k - 1}' if k % 2 else 'a'}" for k in range(4094)]
    return ["fn main a:[4096][4]u8", *nodes, "end b4093"]


def chain():
    """A thousand functions, each of which calls the one before twice. They pass the limit of the load."""
    lines = ["fn f0 x:u8", "y = add x x", "end y"]
    for k in range(1, 1000):
        lines += [f"fn f{k} x:u8", f"y = call f{k - 1} x", f"z = call f{k - 1} y", "end z"]
    return lines


def long():
    """A text of about 16 MiB whose 4,096 lines say little."""
    nodes = [f"b{k} = shift 1 a" + " " * 4 + "#" + "x" * 4000 for k in range(4094)]
    return ["fn main a:[4]u8", *nodes, "end a"]


print("\n".join({made.__name__: made for made in (squares, shifts, blur, moves, chain, long)}[sys.argv[1]]()))
