#!/usr/bin/env python3
"""What nothing uses, in proofs, definitions and contracts.

    unused.py             tells each name that a file brings in and does not use, or from a place where no file is; each lemma
                          that no answer, law, definition or contract leads to; and each definition that stands for itself alone
    unused.py --write     takes the names out of the lines that bring them in

Worked examples (`Examples.antt`, and the texts of `ae_vread`) are used by being proved."""
import collections
import functools
import pathlib
import re
import sys

TOP = pathlib.Path(__file__).resolve().parent.parent
EXAMPLES = {"Examples", "Texts"}
ROOTS = {"Answers", "Invariants"}
IMPORT = {
    ".antt": re.compile(r"^use [^\s{]+\.\{([^}]*)\}\n", re.M),
    ".rt": re.compile(r"^ *ghost use [^\s{]+\.\{([^}]*)\};\n", re.M),
}
COMMENT = {".antt": re.compile(r"--[^\n]*"), ".rt": re.compile(r"//[^\n]*")}
WORD = re.compile(r"[^\s(){}\[\],;.:]+")
PLAIN = re.compile(r"[\w+'-]+")
NAMED = re.compile(r"([^\s{},]+) as ([^\s{},]+)")
HEAD = re.compile(r"(?:pub )?(?:(?:abbrev|unfoldable|record|data|ruleset) )?(?:pub )?([^\s:(){}]+) ")
PLACE = re.compile(r"use Rattle\.(\w+)\.((?:specs|proofs)\.[^\s{;]+?)(?:\.\{| as |;?$)", re.M)
MADE = {"declared", "contracts", "Goals", "Given"}
SELF = {"infixl", "infixr", "infix", "mutual"}


@functools.cache
def rest_of(path):
    """The text of a file without the lines that bring names in and without comments, and its words."""
    rest = COMMENT[path.suffix].sub("", IMPORT[path.suffix].sub("", path.read_text()))
    return rest, {*WORD.findall(rest), *PLAIN.findall(rest)}


@functools.cache
def other_names(path):
    """What a file brings in under another name: each name with the new one."""
    lines = (it for it in path.read_text().splitlines() if " as " in it and "use " in it)
    return [it for line in lines for it in NAMED.findall(line)]


def is_used(name, text, words):
    """Whether a name that is brought in stands in a text of these words: an operator by each of its signs."""
    name = name.rpartition(" as ")[2].strip()
    if "◌" in name or name == "[]":
        return all(sign in text for sign in name.split("◌"))
    return name in words


def imports(path, write):
    """The names that a file brings in and does not use, which may be taken out."""
    text = path.read_text()
    rest, words = rest_of(path)
    gone = []

    def kept(line):
        names = [it.strip() for it in line[1].split(",")]
        used = [it for it in names if is_used(it, rest, words)]
        gone.extend(it for it in names if it not in used)
        return line[0].replace(line[1], ", ".join(used)) if used else ""

    new = IMPORT[path.suffix].sub(kept, text)
    if write and new != text:
        path.write_text(new)
    return gone


def places(path):
    """The places that a file brings names in from and where no file is: a module of a file begins with the file's own place."""
    for crate, place in PLACE.findall(path.read_text()):
        parts = place.split(".")
        if not (TOP / "crates" / crate).is_dir() or MADE & set(parts):
            continue
        if not any((TOP / "crates" / crate / "/".join(parts[:end])).with_suffix(".antt").exists() for end in range(2, len(parts) + 1)):
            yield f"{crate}.{place}"


def blocks(path):
    """The definitions and lemmas of a file: the name of each, and the words that it is written with."""
    found = []
    for line in path.read_text().splitlines():
        if not line.strip() or line.startswith(("--", "use ", "pub use ")):
            continue
        if line[0] not in " \t})]" and not line.startswith("unfolding "):
            head = HEAD.match(line + " ")
            name = head[1] if head else line
            if not found or found[-1][0] != name:
                found.append((name, set()))
        if found:
            found[-1][1].update(WORD.findall(line))
    return found


def lemmas():
    """The lemmas that nothing leads to, with their files."""
    named, all_blocks, work = collections.defaultdict(set), collections.defaultdict(list), []
    outside = set()
    for path in TOP.glob("crates/*/*/**/*.antt"):
        for old, new in other_names(path):
            named[new].add(old)
        if path.parts[len(TOP.parts) + 2] == "specs":
            outside.update(rest_of(path)[1])
        elif path.parts[len(TOP.parts) + 2] == "proofs" and path.stem != "Lib":
            for name, words in blocks(path):
                block = [path, name, words, path.stem in ROOTS | EXAMPLES]
                all_blocks[name].append(block)
                if block[3]:
                    work.append(block)
    for path in TOP.glob("crates/*/src/**/*.rt"):
        outside.update(rest_of(path)[1])
    work.append([None, None, outside, True])
    while work:
        for word in work.pop()[2]:
            for name in {word} | named[word]:
                for block in all_blocks.get(name, ()):
                    if not block[3]:
                        block[3] = True
                        work.append(block)
    return [(path, name) for found in all_blocks.values() for path, name, _, is_reached in found if not is_reached]


def definitions():
    """The definitions that neither another definition nor a proof nor a contract names, with their files."""
    found, inside, outside = [], collections.Counter(), set()
    for path in TOP.glob("crates/*/specs/**/*.antt"):
        for name, words in blocks(path):
            found.append((path, name))
            inside.update(words)
    for path in [*TOP.glob("crates/*/src/**/*.rt"), *TOP.glob("crates/*/proofs/**/*.antt")]:
        outside.update(rest_of(path)[1])
        outside.update(old for old, _ in other_names(path))
    for path in TOP.glob("crates/*/specs/**/*.antt"):
        outside.update(old for old, _ in other_names(path))
    own = collections.Counter(name for _, name in found)
    outside |= SELF
    return [it for it in found if it[1] not in outside and inside[it[1]] <= own[it[1]] and WORD.fullmatch(it[1])]


def main():
    files = sorted([*TOP.glob("crates/*/src/**/*.rt"), *TOP.glob("crates/*/specs/**/*.antt"), *TOP.glob("crates/*/proofs/**/*.antt")])
    bad = 0
    for path in files:
        gone = imports(path, "--write" in sys.argv[1:])
        if gone:
            bad += 1
            print(f"{path.relative_to(TOP)}: brings in and does not use {', '.join(gone)}")
        for place in places(path):
            bad += 1
            print(f"{path.relative_to(TOP)}: no file is at {place}")
    for what, found in (("lemma", lemmas()), ("definition", definitions())):
        for path, name in sorted(found):
            bad += 1
            print(f"{path.relative_to(TOP)}: nothing uses the {what} {name}")
    print(f"unused: {len(files) - bad} passed, {bad} failed")
    return 1 if bad else 0


if __name__ == "__main__":
    sys.exit(main())
