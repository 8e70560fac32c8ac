#!/usr/bin/env python3
"""Makes the pictures of the documents from what the compiler answers: SVG files beside this script. With --check it says
whether they are as they stand there; with --scene it draws examples/scene.pgm, which the first picture begins with."""
import base64
import pathlib
import struct
import sys
import zlib

HERE = pathlib.Path(__file__).resolve().parent
TOP = HERE.parent.parent
sys.path[:0] = [str(TOP / "tests"), str(TOP / "examples")]
from common import aeth, latency, out_layouts, slots
from picture import filtered, read_pgm, write_pgm

COLOURS = ["#4e79a7", "#f28e2b", "#59a14f", "#b07aa1", "#e15759", "#76b7b2", "#edc948", "#9c755f"]
INK, PALE = "#333333", "#dddddd"


class Drawing:
    """An SVG drawing, shape by shape."""

    def __init__(self, width, height):
        self.size = width, height
        self.shapes = [f'<rect width="{width}" height="{height}" fill="white"/>']

    def text(self, x, y, words, size=13, anchor="start", colour=INK):
        words = words.replace("&", "&amp;").replace("<", "&lt;")
        self.shapes.append(f'<text x="{x}" y="{y}" font-size="{size}" text-anchor="{anchor}" fill="{colour}">{words}</text>')

    def box(self, x, y, width, height, fill, words="", colour="white"):
        self.shapes.append(f'<rect x="{x}" y="{y}" width="{width}" height="{height}" fill="{fill}" stroke="{INK}"/>')
        if words:
            self.text(x + width / 2, y + height / 2 + 5, words, 13, "middle", colour)

    def line(self, points, colour=INK, width=1):
        places = " ".join(f"{x},{y}" for x, y in points)
        self.shapes.append(f'<polyline points="{places}" fill="none" stroke="{colour}" stroke-width="{width}"/>')

    def image(self, x, y, width, height, png):
        data = base64.b64encode(png).decode()
        place = f'x="{x}" y="{y}" width="{width}" height="{height}" style="image-rendering:pixelated"'
        self.shapes.append(f'<image {place} href="data:image/png;base64,{data}"/>')

    def svg(self):
        width, height = self.size
        head = f'<svg xmlns="http://www.w3.org/2000/svg" width="{width}" height="{height}" font-family="sans-serif">'
        return "\n".join([head, *self.shapes, "</svg>", ""])


def png(picture):
    """A grey picture as PNG, not compressed, so that it is the same everywhere."""

    def chunk(kind, data):
        return struct.pack(">I", len(data)) + kind + data + struct.pack(">I", zlib.crc32(kind + data))

    lines = b"".join(b"\0" + bytes(row) for row in picture)
    stored = b"\x78\x01" + b"\x01" + struct.pack("<HH", len(lines), 0xFFFF ^ len(lines)) + lines
    head = struct.pack(">IIBBBBB", len(picture[0]), len(picture), 8, 0, 0, 0, 0)
    body = chunk(b"IHDR", head) + chunk(b"IDAT", stored + struct.pack(">I", zlib.adler32(lines))) + chunk(b"IEND", b"")
    return b"\x89PNG\r\n\x1a\n" + body


def scene():
    """Sky, a sun, hills, a house and some grain, by whole numbers alone."""
    picture = [[200 - 2 * y for x in range(64)] for y in range(48)]
    for y in range(48):
        for x in range(64):
            if (x - 50) ** 2 + (y - 10) ** 2 <= 36:
                picture[y][x] = 245
            if y > 30 + (x - 20) ** 2 // 90:
                picture[y][x] = 90
            if y > 38 - (x - 50) ** 2 // 120:
                picture[y][x] = 60
            if 12 <= x < 26 and 24 <= y < 40:
                picture[y][x] = 170
            if y <= 24 and abs(x - 19) + 15 <= y:
                picture[y][x] = 30
            if 17 <= x < 21 and 31 <= y < 40:
                picture[y][x] = 20
            picture[y][x] += (x * 37 + y * 101 + x * y * 13) % 13 - 6
    return picture


def drawn_scene():
    """The scene, and what two examples make of it."""
    seen = read_pgm((TOP / "examples" / "scene.pgm").read_bytes())
    drawing = Drawing(3 * 264 + 8, 232)
    for place, words in enumerate(("scene.pgm", "gaussian_rows", "sobel_rows")):
        shown = filtered((TOP / "examples" / f"{words}.aeth").read_text(), seen) if place else seen
        drawing.image(8 + place * 264, 8, 256, 192, png(shown))
        drawing.text(8 + place * 264 + 128, 222, words, 14, "middle")
    return drawing


def drawn_layouts():
    """Where the elements of [4]u8 stand at five slowdowns."""
    text = (TOP / "examples" / "increment.aeth").read_text()
    drawing = Drawing(700, 560)
    top = 30
    for slowdown in (1, 2, 3, 4, 8):
        layout = out_layouts(aeth(["build", slowdown], text)[1])[0]
        places, time, lanes, _ = slots(layout)
        drawing.text(10, top, f"slowdown {slowdown}: {layout}", 14)
        for lane in range(lanes):
            drawing.text(10, top + 28 + 28 * lane, f"lane {lane}")
        for block in range(16 // time if time > 2 else 8):
            for clock in range(time):
                x = 70 + 36 * (block * time + clock)
                for lane in range(lanes):
                    y = top + 10 + 28 * lane
                    found = [k for k, place in enumerate(places) if place == (clock, lane)]
                    if found:
                        drawing.box(x, y, 34, 26, COLOURS[block % 8], f"e{found[0]}")
                    else:
                        drawing.box(x, y, 34, 26, "white", ".", INK)
        top += 28 * lanes + 50
    drawing.text(70, top - 12, "clocks from the left to the right; a colour is a block, a point a slot without an element", 12)
    return drawing


def blur_lines():
    """Name, arrival, operator and arguments of each line of the blur's program function at the slowdown 16."""
    text = (TOP / "examples" / "blur.aeth").read_text()
    lines = text.splitlines()
    for answer in aeth(["plan", 16], text)[1].splitlines()[4:]:
        number, name, arrival, _ = answer.split(" ", 3)
        fields = lines[int(number) - 1].split()
        if fields[0] == "fn":
            yield name, int(arrival), "parameter", []
        elif fields[0] == "end":
            yield " ".join(fields), int(arrival), "", fields[1:]
        else:
            yield name, int(arrival), " ".join(fields[2:4]), fields[3:]


def drawn_pipeline():
    """The lines of the blur, each at the clock in which it arrives."""
    drawing = Drawing(720, 290)
    for clock in range(3):
        x = 130 + 230 * clock
        drawing.line([(x, 40), (x, 270)], PALE)
        drawing.text(x, 28, f"clock {clock}", 13, "middle")
    found, used = {}, {}
    for name, clock, operator, arguments in blur_lines():
        used[clock] = used.get(clock, -1) + 1
        x, y = 60 + 230 * clock, 50 + 72 * used[clock]
        for from_x, from_y in (found[argument] for argument in arguments if argument in found):
            beside = x - 10 - 10 * used[clock]
            down = [(from_x, from_y + 22), (beside, from_y + 22), (beside, y + 22), (x, y + 22)]
            drawing.line([(from_x + 140, from_y + 22), (x, y + 22)] if from_x < x else down, "#888888", 2)
        drawing.box(x, y, 140, 44, COLOURS[2 * clock])
        drawing.text(x + 70, y + 19, name, 14, "middle", "white")
        drawing.text(x + 70, y + 36, operator, 12, "middle", "white")
        found.setdefault(name, (x, y))
    return drawing


def drawn_wave():
    """What the module of increment shows at the slowdown 4 of two blocks, the second behind the first."""
    program = (TOP / "examples" / "increment.aeth").read_text().split("%%")[0]
    blocks = [[1, 2, 3, 255], [10, 20, 30, 40]]
    text = aeth(["run", 4, 0], program + "%%\n" + "".join(" ".join(map(str, row)) + "\n" for row in blocks))[1]
    late = latency(text)
    shown = [line.split() for line in text.split("%% clocks\n")[1].splitlines()]
    clocks = len(shown) + 1
    step, left = 62, 80
    drawing = Drawing(left + step * clocks + 10, 230)
    for clock in range(clocks):
        drawing.text(left + step * (clock + 0.5), 22, "reset" if clock == 0 else str(clock - 1), 12, "middle")
    drawing.text(10, 22, "clock", 12)
    drawing.text(10, 55, "clk")
    points = [(left, 60)]  # each clock begins with a rising edge
    for clock in range(clocks):
        x = left + step * clock
        points += [(x, 42), (x + step / 2, 42), (x + step / 2, 60), (x + step, 60)]
    drawing.line(points)
    drawing.text(10, 90, "rst")
    drawing.line([(left, 76), (left + step, 76), (left + step, 94), (left + step * clocks, 94)])
    words = [word for row in blocks for word in row]
    results = [line[2] for line in shown if line[1] == "v"]
    for name, y, row, first in (("i0_0_0", 110, words, 1), ("o_0_0", 150, results, 1 + late)):
        drawing.text(10, y + 19, name)
        for clock in range(clocks):
            block = (clock - first) // 4
            x = left + step * clock
            if clock >= first and clock - first < len(row):
                drawing.box(x, y, step, 28, COLOURS[block], str(row[clock - first]))
            else:
                drawing.box(x, y, step, 28, "#eeeeee")
    drawing.text(left, 205, f"A colour is a block of 4 clocks. Grey: any word. The results begin {late} clock later: the latency.", 12)
    return drawing


MOVED = "fn main a:[4]u8\nb = shift 1 a\nc = select 3 b\nend c\n"


def drawn_move():
    """Two blocks of one move, at its least latency and one clock earlier, by the answers of `least` and `plan`."""
    told, shown = aeth(["least", 4], MOVED)[1].splitlines()
    late, (due, came) = int(told.split()[1]), map(int, shown.split()[3::4])
    time = slots(aeth(["plan", 4], MOVED)[1].splitlines()[4].split(" ", 3)[3])[1]
    step, left, clocks = 52, 160, 2 * time + late
    drawing = Drawing(left + step * clocks + 20, 250)
    drawing.text(10, 22, "clock")
    for clock in range(clocks):
        drawing.text(left + step * (clock + 0.5), 22, str(clock), 12, "middle")
    rows = (("a", 40, [1 + word for word in range(2 * time)], 0), (f"c, {late} clocks later", 110, [], late), (f"c, {late - 1} later", 160, [], late - 1))
    for name, y, words, first in rows:
        drawing.text(10, y + 19, name)
        for clock in range(clocks):
            x, block, at = left + step * clock, (clock - first) // time, (clock - first) % time
            if words and clock < len(words):
                drawing.box(x, y, step, 28, COLOURS[block], str(words[clock]))
            elif not words and at == due and block in (0, 1):
                colour, word = (COLOURS[block], str(1 + came + time * block)) if first == late else (COLOURS[4], "?")
                drawing.box(x, y, step, 28, colour, word)
            else:
                drawing.box(x, y, step, 28, "#eeeeee")
    for block in (0, 1):
        x = left + step * (came + time * block + 0.5)
        drawing.line([(x, 68), (x, 110)], INK, 2)
    lines = (
        f"Word {1 + came} comes in clock {came} of its block, and stands in clock {due} of the block of c: c is {late} clocks late,",
        "or its word would have to be known before it comes. Grey: nothing is asked.",
    )
    for number, words in enumerate(lines):
        drawing.text(10, 215 + 18 * number, words, 12)
    return drawing


PICTURES = {"scene": drawn_scene, "layouts": drawn_layouts, "pipeline": drawn_pipeline, "wave": drawn_wave, "move": drawn_move}


def main(words):
    if words == ["--scene"]:
        (TOP / "examples" / "scene.pgm").write_bytes(write_pgm(scene()))
        return 0
    passed = 0
    for name, draw in PICTURES.items():
        path, made = HERE / f"{name}.svg", draw().svg()
        if words == ["--check"]:
            passed += path.exists() and path.read_text() == made
        else:
            path.write_text(made)
    if words == ["--check"]:
        failed = len(PICTURES) - passed
        print(f"pictures: {passed} passed, {failed} failed" + ": docs/pictures/make.py makes them anew" * (failed > 0))
        return failed > 0
    return 0


if __name__ == "__main__":
    sys.exit(main(sys.argv[1:]))
