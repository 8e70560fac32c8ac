#!/usr/bin/env python3
"""What `least` answers to random programs that only move words, at random slowdowns: the latency and the word that a search over
labels finds first, by the layouts that `plan` tells, with its port and clock and those of its source; where a line has no layout,
what `plan` answers. Random programs of the whole language are refused at the first line of the program function that computes.

least.py [COUNT [SEED]]: so many programs of each kind (500 unless given), from a seed (1 unless given)."""
import random
import sys

from common import NO_LAYOUT, aeth, side_by_side, told
from labels import Layout, Mover, lead
from programs import Maker

NOT_MOVES = 14
MOVES = {"shift", "up", "select", "partition", "unpartition", "zip", "pair", "fst", "snd"}


def port(kind, layout, number):
    """The port of a word of a parameter or a result."""
    return f"{kind}_{layout.places[number // layout.words][1]}_{number % layout.words}"


def wanted(mover, plan):
    """What a search over the labels says, by the layouts of a plan."""
    layouts = [Layout(line.split(" ", 3)[3]) for line in plan.splitlines()[4:]]
    ins, outs = layouts[: len(mover.params)], layouts[len(mover.items) :]
    late = max(lead(mover.sources(item), out, ins) for item, out in zip(mover.results, outs))
    if not late:
        return "latency 0\n"
    for result, (item, out) in enumerate(zip(mover.results, outs)):
        for number, source in enumerate(mover.sources(item)):
            if source and ins[source[0]].clock(source[1]) - out.clock(number) == late:
                given = ins[source[0]]
                shown = port("o" if len(outs) == 1 else f"o{result}", out, number), out.clock(number)
                return "latency {}\nword {} clock {} from {} clock {}\n".format(late, *shown, port(f"i{source[0]}", given, source[1]), given.clock(source[1]))


def of_moves(seed):
    """What is wrong with the answer to a program that only moves words; "" where nothing."""
    source = random.Random(seed)
    mover = Mover(source)
    slowdown = source.choice((1, 2, 3, 4, 6, 8, 12, 16, 24, 48, source.randint(1, 60)))
    plan, found = aeth(["plan", slowdown], mover.text), aeth(["least", slowdown], mover.text)
    right = plan if plan[0] == NO_LAYOUT else (0, wanted(mover, plan[1]))
    return "" if found == right else f"at slowdown {slowdown} {found}, not {right}, for\n{mover.text}"


def of_all(seed):
    """The same of a program of the whole language."""
    source = random.Random(seed)
    text = Maker(source).program(1)[0]
    lines = text.split("%%")[0].splitlines()
    main = max(number for number, line in enumerate(lines) if line.startswith("fn "))
    others = [number + 1 for number, line in enumerate(lines) if number > main and " = " in line and line.split()[2] not in MOVES]
    slowdown = source.choice((1, 2, 3, 4, 6, 8, 12, 16, 4096))
    found = aeth(["least", slowdown], text)
    right = found == (NOT_MOVES, f"refused not moves line {others[0]}\n") if others else found[0] in (0, NO_LAYOUT)
    return "" if right else f"at slowdown {slowdown} {found} for\n{text}"


def main():
    count, seed = ([int(word) for word in sys.argv[1:]] + [500, 1][len(sys.argv) - 1 :])[:2]
    seeds = [seed * 1_000_000 + number for number in range(count)]
    return told("least", [*side_by_side(of_moves, seeds), *side_by_side(of_all, seeds)])


sys.exit(main())
