#!/usr/bin/env python3
"""What each program in examples/ computes, said once more in Python on whole pictures and samples; `check` takes the program,
and `eval` gives these results on its rows. Signed words stand in rows as their codes."""
import sys

from common import aeth, examples, side_by_side, told


def signed(words, width=16):
    return [word - 2**width if word >= 2 ** (width - 1) else word for word in words]


def codes(values, width=16):
    return [value % 2**width for value in values]


def cut(words, size):
    """The words as lists of this size."""
    return [words[at : at + size] for at in range(0, len(words), size)]


def joined(lists):
    return [word for part in lists for word in part]


def taps(samples, weights):
    """For each sample the sum of it and those before it, by their weights; 0 stands before the first."""
    before = lambda at: samples[at] if at >= 0 else 0
    return [sum(weight * before(k - late) for late, weight in enumerate(weights)) for k in range(len(samples))]


def convolved(picture, kernel):
    """The sums of the nine pixels that end at each place, by the kernel; 0 stands outside of the picture."""
    lines = [sum_rows(*(taps(rows, weights) for weights, rows in zip(reversed(kernel), window))) for window in windows(picture)]
    return lines


def windows(picture):
    """For each row the rows two before it, one before it, and itself, from the latest on."""
    none = [0] * len(picture[0])
    return [[picture[k - late] if k >= late else none for late in range(3)] for k in range(len(picture))]


def sum_rows(*rows):
    return [sum(column) for column in zip(*rows)]


GAUSSIAN = [[1, 2, 1], [2, 4, 2], [1, 2, 1]]
ACROSS = [[1, 0, -1], [2, 0, -2], [1, 0, -1]]  # from the right to the left, as `taps` takes its weights from the latest on
DOWN = [[-1, -2, -1], [0, 0, 0], [1, 2, 1]]


def gaussian_rows(row):
    return [x // 16 for x in convolved(cut(row, 66), GAUSSIAN)[2]]


def sobel_rows(row):
    picture = cut(row, 66)
    across, down = convolved(picture, ACROSS)[2], convolved(picture, DOWN)[2]
    return [min(255, abs(x) + abs(y)) for x, y in zip(across, down)]


def sobel(row):
    picture = cut(row, 8)
    return codes(joined(convolved(picture, ACROSS)) + joined(convolved(picture, DOWN)))


def max_pool(row):
    p = cut(row, 8)
    return [max(p[r][c], p[r][c + 1], p[r + 1][c], p[r + 1][c + 1]) for r in range(0, 8, 2) for c in range(0, 8, 2)]


def luma(row):
    return [(77 * r + 150 * g + 29 * b) // 256 for r, g, b in zip(*cut(row, 16))]


def integral_image(row):
    p = cut(row, 8)
    return codes(sum(p[y][x] for y in range(r + 1) for x in range(c + 1)) for r in range(8) for c in range(8))


def last(samples, count):
    """The last samples at each place, as many as `count`; 0 stands before the first."""
    return cut_windows([0] * (count - 1) + samples, count)


def cut_windows(samples, count):
    return [samples[at : at + count] for at in range(len(samples) - count + 1)]


def matrix_vector(row):
    vector = row[16:]
    return codes(sum(x * y for x, y in zip(line, vector)) for line in cut(row[:16], 4))


def demosaic(row):
    p = cut(row, 8)
    squares = [(r, c) for r in range(0, 8, 2) for c in range(0, 8, 2)]
    red = [p[r][c] for r, c in squares]
    green = [(p[r][c + 1] + p[r + 1][c]) // 2 for r, c in squares]
    return red + green + [p[r + 1][c + 1] for r, c in squares]


def bitonic_step(row):
    pairs = list(zip(row[:4], row[4:]))
    return [min(pair) for pair in pairs] + [max(pair) for pair in pairs]


def histogram(row):
    return [sum(64 * bin <= x < 64 * (bin + 1) for x in row) for bin in range(4)]


RESULTS = {
    "increment": lambda row: codes((x + 1 for x in row), 8),
    "blur": lambda row: [x // 4 for x in codes(taps(row, [1, 2, 1]))],
    "sharpen": lambda row: codes(taps(signed(row), [-1, 3, -1])),
    "moving_average": lambda row: [x // 4 for x in codes(taps(row, [1, 1, 1, 1]))],
    "fir": lambda row: [x // 8 for x in codes(taps(row, [1, 3, 3, 1]))],
    "threshold": lambda row: [255 if x >= 128 else 0 for x in row],
    "dot_product": lambda row: codes([sum(x * y for x, y in zip(row[:8], row[8:]))]),
    "column_sums": lambda row: codes(sum_rows(*cut(row, 4))),
    "running_sum": lambda row: codes(sum(row[: k + 1]) for k in range(8)),
    "extremes": lambda row: codes([min(signed(row, 8)), max(signed(row, 8))], 8),
    "gaussian_rows": gaussian_rows,
    "gaussian": lambda row: [x // 16 for x in joined(convolved(cut(row, 8), GAUSSIAN))],
    "sobel_rows": sobel_rows,
    "sobel": sobel,
    "max_pool": max_pool,
    "luma": luma,
    "integral_image": integral_image,
    "median_of_three": lambda row: [sorted(window)[1] for window in last(row, 3)],
    "matrix_vector": matrix_vector,
    "demosaic": demosaic,
    "signed_fir": lambda row: codes(x // 8 for x in taps(signed(row), [-1, 2, 6, 2, -1])),
    "bitonic_step": bitonic_step,
    "window_of_four": lambda row: [max(window) - min(window) for window in last(row, 4)],
    "rotate": lambda row: row[-3:] + row[:-3],
    "transpose": lambda row: joined(map(list, zip(*cut(row, 4)))),
    "histogram": histogram,
}


def fault(example):
    """What is wrong with an example; "" where nothing is."""
    name, text, rows = example
    if not rows or name not in RESULTS:
        return f"{name} has no rows, or what it computes is not said here"
    if aeth(["check"], text)[0] != 0:
        return f"{name} is refused"
    wanted = "".join(" ".join(map(str, RESULTS[name](row))) + "\n" for row in rows)
    status, found = aeth(["eval"], text)
    return "" if (status, found) == (0, wanted) else f"{name} has other results: status {status}\n{found}in place of\n{wanted}"


def main():
    found = list(side_by_side(fault, list(examples())))
    return told("gallery", found)


sys.exit(main())
