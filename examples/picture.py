#!/usr/bin/env python3
"""Filters a picture, row by row: picture.py PROGRAM < IN.pgm > OUT.pgm. The program takes three rows of 66 pixels, as
gaussian_rows.aeth does, and result k of it lies round pixel k - 1. A picture of any size is cut into strips of 64 columns, each
with its neighbours, or with its own border where it ends."""
import pathlib
import sys

sys.path.insert(0, str(pathlib.Path(__file__).resolve().parent.parent / "tests"))
from common import aeth

STRIP = 64


def read_pgm(data):
    """The rows of a PGM file, binary (P5) or plain (P2), of at most 255 for white."""
    fields, at = [], 0
    while len(fields) < 4:
        end = at
        while end < len(data) and not data[end : end + 1].isspace():
            end += 1
        if data[at:end].startswith(b"#"):
            end = data.index(b"\n", at)
        elif end > at:
            fields.append(data[at:end])
        at = end + 1
    kind, width, height, white = fields[0], *map(int, fields[1:])
    assert kind in (b"P2", b"P5") and white < 256, "no PGM file of bytes"
    pixels = list(data[at:]) if kind == b"P5" else list(map(int, data[at:].split()))
    return [pixels[row * width : (row + 1) * width] for row in range(height)]


def write_pgm(picture):
    return b"P5\n%d %d\n255\n" % (len(picture[0]), len(picture)) + b"".join(map(bytes, picture))


def rows(picture):
    """The rows of words of each strip, one behind the other: three rows of pixels for each row of the picture."""
    height, width = len(picture), len(picture[0])
    inside = lambda at, size: min(max(at, 0), size - 1)
    for left in range(0, width, STRIP):
        columns = [inside(x, width) for x in range(left - 1, left + STRIP + 1)]
        for y in range(height):
            yield [picture[inside(line, height)][x] for line in (y - 1, y, y + 1) for x in columns]


def filtered(program, picture):
    """The picture as the program leaves it."""
    text = program.split("%%")[0] + "%%\n" + "".join(" ".join(map(str, row)) + "\n" for row in rows(picture))
    status, answer = aeth(["eval"], text)
    assert status == 0, answer
    made = [[int(word) for word in line.split()[2:]] for line in answer.splitlines()]
    height, width = len(picture), len(picture[0])
    strips = [made[at : at + height] for at in range(0, len(made), height)]
    return [[pixel for strip in strips for pixel in strip[y]][:width] for y in range(height)]


if __name__ == "__main__":
    seen = read_pgm(sys.stdin.buffer.read())
    sys.stdout.buffer.write(write_pgm(filtered(pathlib.Path(sys.argv[1]).read_text(), seen)))
