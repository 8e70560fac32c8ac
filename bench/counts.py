#!/usr/bin/env python3
"""Counts what makes a repository of proofs long, over the crates as they stand: what is said twice, what is wide, and what
hides a case that is new. To be looked at before and after a change; nothing is compared.

    counts.py             the table
    counts.py twice       each statement of a lemma that stands in two places or more, and where
    counts.py arms        each arm `_` of a definition"""
import collections
import pathlib
import re
import sys

TOP = pathlib.Path(__file__).resolve().parent.parent
CRATES = TOP / "crates"


def files(pattern):
    return [it for it in sorted(CRATES.glob(pattern)) if "out" not in it.relative_to(CRATES).parts]


def code():
    return files("*/src/**/*.rt")


def specs():
    return files("*/specs/**/*.antt")


def proofs():
    return files("*/proofs/**/*.antt")


def clauses():
    """The clauses of all contracts, without the blanks around them."""
    clause = re.compile(r"^\s*((?:requires|ensures)\b.*\})\s*$", re.M)
    return [it for path in code() for it in clause.findall(path.read_text())]


def statements():
    """Where each statement of a lemma stands: its type, without its name and with its blanks made one."""
    begun = re.compile(r"^(?:pub )?(?:abbrev |unfoldable )?([^\s(:]+) : (.*(?:\n[ \t]+.*)*)", re.M)
    found = collections.defaultdict(list)
    for path in proofs():
        if path.name in ("Answers.antt", "Invariants.antt", "Lib.antt"):
            continue
        for name, said in begun.findall(path.read_text()):
            found[" ".join(said.split())].append(f"{path.relative_to(CRATES)} {name}")
    return {said: places for said, places in found.items() if len(said) > 20}


def arms():
    """Arms of definitions that take whatever is left of an argument."""
    arm = re.compile(r"^\S.*\s_(?=[\s)]).* = ", re.M)
    return [f"{path.relative_to(CRATES)}: {it}" for path in specs() for it in arm.findall(path.read_text())]


def wide(paths, most):
    """How many lines are longer, imports aside."""
    lines = (line for path in paths for line in path.read_text().splitlines())
    return sum(len(line) > most and not re.match(r"\s*(pub )?use ", line) for line in lines)


def table():
    said = collections.Counter(clauses())
    stated = statements()
    twice = {it: places for it, places in stated.items() if len(places) > 1}
    answers = [it for it in proofs() if it.name in ("Answers.antt", "Invariants.antt")]
    derived = [it for path in code() for it in re.findall(r"#\[derive\(([^)]*)\)\]", path.read_text())]
    yield "crates", len(files("*/src")), ""
    yield "clauses of contracts", sum(said.values()), f"{sum(n for n in said.values() if n > 1)} of them stand more than once"
    yield "statements of lemmas", sum(map(len, stated.values())), f"{len(twice)} stand more than once, in {sum(map(len, twice.values()))} places"
    yield "files of answers to goals", len(answers), ""
    yield "must-fail edits", len(files("*/must-fail/*.edit")), f"in {len({it.parent for it in files('*/must-fail/*.edit')})} crates"
    yield "planted bugs that the gate does not try", len(files("*/planted/*.edit")), f"in {len({it.parent for it in files('*/planted/*.edit')})} crates"
    yield "derived impls", sum(len([it for it in line.split(",") if it.strip() in ("Debug", "PartialEq", "Hash", "Error")]) for line in derived), "Debug, PartialEq, Hash and Error: each is proved"
    yield "arms `_` of definitions", len(arms()), ""
    yield "faults turned into faults by hand", sum(len(re.findall(r"Err\(_\) => (?:return )?Err\(", path.read_text())) for path in code()), "arms that keep nothing of the fault"
    yield "lines of definitions over 120", wide(specs(), 120), f"of {sum(len(it.read_text().splitlines()) for it in specs())}"
    yield "lines of proofs over 160", wide(proofs(), 160), f"of {sum(len(it.read_text().splitlines()) for it in proofs())}"
    yield "files over 600 lines", sum(len(it.read_text().splitlines()) > 600 for it in [*code(), *specs(), *proofs()]), ""


def main():
    if sys.argv[1:] == ["twice"]:
        for said, places in sorted(statements().items(), key=lambda it: -len(it[1])):
            if len(places) > 1:
                print(f"{said[:150]}\n    " + "\n    ".join(places))
        return
    if sys.argv[1:] == ["arms"]:
        print("\n".join(arms()))
        return
    for name, count, more in table():
        print(f"{name:<36}{count:>7}  {more}".rstrip())


if __name__ == "__main__":
    main()
