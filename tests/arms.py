#!/usr/bin/env python3
"""No table of operators, cells, ports, nets or layouts has a row for all others: each names each variant, in the code and in
the definitions, so that the check asks for a new variant in each table. `if let` and `let .. else`, which look for one variant
alone, are no tables.

    arms.py       compares; prints each row that stands for several variants without naming them"""
import pathlib
import re
import sys

TOP = pathlib.Path(__file__).resolve().parent.parent
CRATES = TOP / "crates"
# The types of the code, and the trees that stand for some of them in definitions.
ENUMS = "WordOp Cell Port Handshake Op StOp MoveOp Case StType BinOp UnOp NetKind".split()
TREES = {"OpTree": "ae_seq/specs/ProgramTree.antt", "StOpTree": "ae_rewrite/specs/StProgramTree.antt", "StTree": "ae_sttype/specs/StTree.antt"}
VARIANT = re.compile(r"^\s*(?:\| )?(?:Some\()?&?(?:" + "|".join(ENUMS) + r")::")
ARGUMENT = re.compile(r"\([^()]*(?:\([^()]*\)[^()]*)*\)|\S+")


def files(pattern):
    return [it for it in sorted(CRATES.glob(pattern)) if "out" not in it.relative_to(CRATES).parts]


def in_code(path):
    """The arms `_` of matches that name a variant of these types elsewhere, and each `matches!` on them."""
    lines = path.read_text().split("\n")
    for number, line in enumerate(lines):
        if re.search(r"matches!\(", line) and re.search(r"\b(?:" + "|".join(ENUMS) + r")::", " ".join(lines[number : number + 3])):
            yield number + 1, line.strip()
        found = re.match(r"(\s*)_ (?:if .*)?=>", line)
        if not found:
            continue
        depth = len(found[1])
        for above in reversed(lines[:number]):
            if above.strip() and len(above) - len(above.lstrip()) < depth:
                break
            if len(above) - len(above.lstrip()) == depth and VARIANT.match(above):
                yield number + 1, line.strip()
                break


def constructors(tree):
    text = (CRATES / TREES[tree]).read_text()
    block = re.search(rf"^(?:pub )?data {tree} .*\n((?:\s+.*\n|--.*\n)*)", text, re.M)[1]
    return set(re.findall(r"^\s+(\w+) :", block, re.M))


TREE_CONSTRUCTORS = {tree: constructors(tree) for tree in TREES}


def known(text):
    """The names by which a file of definitions calls the variants of these types."""
    names = set()
    for module, group in re.findall(r"^use Rattle\.\w+\.specs\.([\w.]+)\.\{([^}]*)\}", text, re.M):
        kind = module.split(".")[-2] if module.endswith(".TheVariants") else None
        for name in (it.strip() for it in group.split(",")):
            first, _, last = name.partition(" as ")
            if kind in ENUMS or any(module == pathlib.Path(TREES[it]).stem and first in TREE_CONSTRUCTORS[it] for it in TREES):
                names.add(last or first)
    for tree, path in TREES.items():
        if f"data {tree} " in text:
            names |= TREE_CONSTRUCTORS[tree]
    return names


def in_definitions(path):
    """The rows that have `_` or a variable where other rows of the same definition have variants of these types."""
    text = path.read_text()
    names, rows = known(text), {}
    for line in text.split("\n"):
        if not re.match(r"[^\s-]\S* .*(?: = |=$)", line) or line.startswith(("use ", "pub ", "abbrev ", "unfoldable ", "record ", "data ")):
            continue
        head = ARGUMENT.findall(re.split(r" =(?: |$)", line)[0])
        rows.setdefault(head[0], []).append((head[1:], line))
    for of_one in rows.values():
        for place in range(min(len(head) for head, _ in of_one)):
            told = {re.sub(r"^\(+", "", head[place]).split()[0].rstrip(")") for head, _ in of_one} & names
            for head, line in of_one if told else []:
                # a row behind one that has named the variant takes what is left of other arguments
                if re.fullmatch(r"_|[a-z][\w']*", head[place]) and head[place] not in names:
                    yield line


def main():
    failed = 0
    for path in files("*/src/**/*.rt"):
        for number, line in in_code(path):
            print(f"arms: {path.relative_to(TOP)}:{number}: {line}")
            failed += 1
    for path in files("*/specs/**/*.antt"):
        for line in in_definitions(path):
            print(f"arms: {path.relative_to(TOP)}: {line}")
            failed += 1
    print(f"arms: {int(not failed)} passed, {failed} failed")
    return failed > 0


if __name__ == "__main__":
    sys.exit(main())
