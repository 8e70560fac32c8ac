#!/usr/bin/env python3
"""Programs that only move words, at random, each at a random slowdown at which it has a layout. The program is run here on labels
in place of words, and a search over the labels, by the layouts of `plan` alone, says how late each item, each result and the
whole has to be, and what the one move of each result costs: `plan` says the same. The module of `build` has this latency, and
Icarus shows each result of three blocks in its clocks. Of twenty programs yosys searches for two inputs that are the same up to
the clock in which a result is due and want different words there: it finds them one clock below the latency, where no module at
all can be right, and none at it. A tool that is missing is skipped with a line.

fused.py [COUNT [SEED]]: so many programs (100 unless given), from a seed (1 unless given)."""
import math
import pathlib
import random
import shutil
import subprocess
import sys
import tempfile

from common import NO_LAYOUT, aeth, bench, input_rows, latency, lines_under_icarus, missing, side_by_side
from labels import Layout, Mover, lead

BLOCKS, SEARCHED, LOAD_AT_MOST = 3, 20, 1500


def cost(sources, out, ins, late):
    """1, the latency of the move, the longest use of each column that is used, and the runs of the choices of each column."""
    kept, chosen = {}, {}
    for number, found in enumerate(sources):
        choice = None
        if found:
            given = ins[found[0]]
            column, age = (found[0], given.column(found[1])), out.clock(number) + late - given.clock(found[1])
            kept[column], choice = max(kept.get(column, 0), age), (column, age)
        chosen.setdefault(out.column(number), []).append((out.clock(number), choice))
    runs = 0
    for choices in chosen.values():
        in_order = [choice for _, choice in sorted(choices, key=lambda pair: pair[0])]
        runs += 1 + sum(one != next_one for one, next_one in zip(in_order, in_order[1:]))
    return 1 + late + sum(kept.values()) + runs


def wanted_plan(mover, layouts):
    """Arrivals of items, the latency and the load, by the layouts of the items."""
    ins = layouts[: len(mover.params)]
    arrivals = [lead(mover.sources(item), layout, ins) for item, layout in enumerate(layouts)]
    late = max(arrivals[item] for item in mover.results)
    load = 0
    for item in mover.results:
        load += cost(mover.sources(item), layouts[item], ins, arrivals[item]) + (late - arrivals[item]) * layouts[item].columns
    return arrivals, late, load


def told_plan(mover, text):
    """Latency, load, and the arrivals and layouts of items, as `plan` tells them; what it tells of results must agree."""
    lines = text.splitlines()
    said = dict(line.split(" ") for line in lines[:4])
    rows = [line.split(" ", 3) for line in lines[4:]]
    items, ends = rows[: len(mover.items)], rows[len(mover.items) :]
    assert [row[2:] for row in ends] == [items[item][2:] for item in mover.results] and said["muls"] == "0", text
    return int(said["latency"]), int(said["load"]), [int(row[2]) for row in items], [Layout(row[3]) for row in items]


def case(seed):
    """A program at a slowdown, not too large, and its plan."""
    source = random.Random(seed)
    while True:
        mover = Mover(source)
        whole = [math.prod(ty.lengths()) for ty in mover.params]
        near = [max(whole) * source.choice((1, 1, 2)), max(whole) // source.choice((1, 2, 3, 4)), source.randint(1, 24)]
        for slowdown in filter(None, source.sample(near, 3)):
            status, plan = aeth(["plan", slowdown], mover.text)
            assert status in (0, NO_LAYOUT), (status, plan, mover.text)
            if status == 0 and told_plan(mover, plan)[1] <= LOAD_AT_MOST:
                return source, mover, slowdown, plan


def wrong_words(folder, chance, mover, slowdown, module, late, layouts):
    """The first result that Icarus shows otherwise; "" where none."""
    widths = [width for ty in mover.params for width in ty.widths]
    rows = [[chance.randrange(2**width) for width in widths] for _ in range(BLOCKS)]
    clocked = input_rows(module, slowdown, rows, late + BLOCKS * slowdown)
    shown = [line.split() for line in lines_under_icarus(folder, module + bench(module, clocked))]
    for block, row in enumerate(rows):
        given = iter(row)
        params = [[next(given) for _ in ty.widths] for ty in mover.params]
        first = 0
        for item in mover.results:
            layout = layouts[item]
            for number, source in enumerate(mover.sources(item)):
                wanted = params[source[0]][source[1]] if source else 0
                found = shown[late + block * slowdown + layout.clock(number)][first + layout.column(number)]
                if found != str(wanted):
                    return f"block {block}, word {number} of {mover.items[item][0]}: {found}, not {wanted}"
            first += layout.columns
    return ""


def search(mover, layouts, late):
    """A circuit that tells of two blocks of inputs whether some result has to differ, at this latency, in a clock up to which all
    inputs are the same: no module, whatever is in it, can be right for both."""
    ins = layouts[: len(mover.params)]
    words = [(i, n, width) for i, ty in enumerate(mover.params) for n, width in enumerate(ty.widths)]
    ports = ", ".join(f"input [{width - 1}:0] a_{i}_{n}, input [{width - 1}:0] b_{i}_{n}" for i, n, width in words)
    differ = []
    for item in mover.results:
        for number, source in enumerate(mover.sources(item)):
            if source:
                due = late + layouts[item].clock(number)
                same = [f"a_{i}_{n} == b_{i}_{n}" for i, n, _ in words if ins[i].clock(n) <= due]
                apart = "a_{0}_{1} != b_{0}_{1}".format(*source)
                differ.append(" && ".join(f"({part})" for part in [apart, *same]))
    return f"module two ({ports}, output wrong);\n  assign wrong = {' || '.join(differ)};\nendmodule\n"


def prove(folder, name, text, flag):
    """Whether yosys proves that there are no such inputs (-verify), or finds some (-falsify)."""
    path = folder / f"{name}.v"
    path.write_text(text)
    script = f"read_verilog {path}; hierarchy -top two; proc; opt; sat -prove wrong 0 {flag} two"
    return subprocess.run(["yosys", "-q", "-p", script], capture_output=True).returncode == 0


def try_case(folder, number, seed):
    """What is wrong with one program."""
    source, mover, slowdown, plan = case(seed)
    late, load, arrivals, layouts = told_plan(mover, plan)
    wanted = wanted_plan(mover, layouts)
    wrong = [] if (arrivals, late, load) == wanted else [f"plan tells {(arrivals, late, load)}, and not {wanted}"]
    status, module = aeth(["build", slowdown], mover.text)
    if status or latency(module) != wanted[1]:
        return wrong + [f"build: status {status}, {module[:100]}"], mover.text, slowdown, 0
    if shutil.which("iverilog"):
        apart = wrong_words(folder / f"run{number}", source, mover, slowdown, module, late, layouts)
        wrong += [f"Icarus shows {apart}"] * bool(apart)
    return wrong, mover.text, slowdown, (mover, layouts, late)


def main():
    count, seed = ([int(word) for word in sys.argv[1:]] + [100, 1][len(sys.argv) - 1 :])[:2]
    missing("iverilog")
    failed, late_ones = 0, []
    with tempfile.TemporaryDirectory() as name:
        folder = pathlib.Path(name)
        for wrong, text, slowdown, found in side_by_side(lambda k: try_case(folder, k, seed * 1000000 + k), range(count)):
            if wrong:
                failed += 1
                print("\n".join(wrong), f"\nat slowdown {slowdown}:\n{text}", flush=True)
            elif found[2] > 0:
                late_ones.append(found)
        if not missing("yosys"):
            for number, (mover, layouts, late) in enumerate(late_ones[:SEARCHED]):
                faster = prove(folder, f"faster{number}", search(mover, layouts, late - 1), "-falsify")
                least = prove(folder, f"least{number}", search(mover, layouts, late), "-verify")
                if not (faster and least):
                    failed += 1
                    print(f"yosys: a module of latency {late - 1} may be right, or none of {late}:\n{mover.text}")
    print(f"fused: {count} programs, {len(late_ones)} of them with a latency above 0, {min(SEARCHED, len(late_ones))} searched")
    print(f"fused: {count - min(failed, count)} passed, {failed} failed")
    return failed > 0


if __name__ == "__main__":
    sys.exit(main())
