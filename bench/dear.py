"""Tells which functions of a crate are dear to prove, after a check that proved it (`rt check` in the crate's folder).

    bench/dear.py [CRATE..]

A check writes one file for each part that it has proved, so the time between two files is what the later part took: seconds
by the clock of a check at one job, which say something only where the machine had nothing else to do. Of each crate it prints
the sum by kind, and of all together the dearest functions: ten for each name, and forty without one.

    Lts     the code as steps, which grows with its ways out times the values that are alive there
    Proof   goals that no answer in proofs/ names, and that were searched: an answer makes such a goal cheap
    Tie     how both belong together
    laws    definitions and lemmas, the answers among them
"""
import collections
import pathlib
import re
import sys

TOP = pathlib.Path(__file__).resolve().parent.parent
PART = re.compile(r"Rattle-\w+-proofs\.(.+)\.(Lts|Proof|Tie)\.oantt$")
KINDS = ["Lts", "Proof", "Tie", "laws"]


def parts(crate):
    """Function, kind and seconds of each part of the crate that its last checks proved."""
    files = sorted((file.stat().st_mtime, file.name) for file in (crate / "out/incremental").glob("*/*.oantt"))
    for (before, _), (after, name) in zip(files, files[1:]):
        found = PART.match(name)
        # what lies between two checks is no proof
        if after - before < 300:
            yield (found[1], found[2], after - before) if found else ("", "laws", after - before)


def line(name, by_kind):
    return f"{name:44}{sum(by_kind.values()):8.1f}  " + " ".join(f"{kind} {by_kind[kind]:.1f}" for kind in KINDS)


def main(names):
    dearest, sums = [], []
    for crate in sorted(TOP.glob("crates/*")):
        if names and crate.name not in names:
            continue
        by_function, by_kind = collections.defaultdict(collections.Counter), collections.Counter()
        for function, kind, seconds in parts(crate):
            by_kind[kind] += seconds
            if function:
                by_function[function][kind] += seconds
        if by_kind:
            sums.append((sum(by_kind.values()), crate.name, by_kind))
        dearest += [(sum(cost.values()), f"{crate.name} {function}", cost) for function, cost in by_function.items()]
    for _, name, by_kind in sorted(sums, reverse=True):
        print(line(name, by_kind))
    print()
    most = 10 * len(names) or 40
    for _, name, cost in sorted(dearest, key=lambda it: -it[0])[:most]:
        print(line(name, cost))


if __name__ == "__main__":
    main(sys.argv[1:])
