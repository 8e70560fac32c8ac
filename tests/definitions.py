#!/usr/bin/env python3
"""The definitions that a reader of a contract has to believe: all that its clauses cite, and what these cite in turn, over the
`use` lines of specs/ and the types of the code that clauses name.

    definitions.py             compares docs/DEFINITIONS.md, and the numbers in README.md, with what is there; the definitions
                               of the headline are 750 lines at most, and a list is indexed in one way, by slice_get
    definitions.py --write     writes docs/DEFINITIONS.md anew
    definitions.py RECORD      counts for one definition, as ae_compile.Building.IsListing: files, definitions and bare lines

Lines are counted bare: without comments, blank lines and imports."""
import pathlib
import re
import sys

TOP = pathlib.Path(__file__).resolve().parent.parent
CRATES = TOP / "crates"
WORD = re.compile(r"[^\W\d](?:[\w'-])*|[^\s\w(){}\[\],;.\"]+")
USE = re.compile(r"^\s*(?:ghost )?use Rattle\.(\w+)\.specs\.([\w.]+?)(?:\.\{([^}]*)\}| as (\w+))?;?\s*$", re.M)
HEAD = re.compile(r"^(?:pub )?(?:abbrev |unfoldable )?(?:pub )?(?:record |data )?([^\s:]+)(?: [({:]| :|\s*$)")


class File:
    """A file of specs/: its definitions with their bare lines, and what its imports name."""

    def __init__(self, path):
        self.path, self.definitions, self.names, self.aliases = path, {}, {}, {}
        text = path.read_text()
        for crate, module, names, alias in USE.findall(text):
            if alias:
                self.aliases[alias] = crate, module
            for name in filter(None, (it.strip() for it in names.split(","))):
                first, _, last = name.partition(" as ")
                self.names[(last or first).strip("◌")] = crate, module, first
        current = None
        for line in text.split("\n"):
            if not line.strip() or line.lstrip().startswith(("--", "use ")):
                continue
            if not line[0].isspace():
                current = self.head(line, current)
            if current:
                self.definitions[current].append(line)

    def head(self, line, current):
        """The definition that a line at the margin belongs to: one that it begins, or that before it."""
        begins = re.match(r"(pub |abbrev |unfoldable |record |data )", line) or re.match(r"[^\s(]+ :", line)
        found = HEAD.match(line)
        if begins and found:
            self.definitions.setdefault(found[1], [])
            return found[1]
        return current


FILES = {}


def home_of(crate, module):
    """The crate that a module stands in, where this one only passes it on."""
    lib = CRATES / crate / "specs" / "Lib.antt"
    passed = re.search(rf"^pub use Rattle\.(\w+)\.specs\.{re.escape(module)}$", lib.read_text(), re.M) if lib.is_file() else None
    return home_of(passed[1], module) if passed else crate


def file_of(crate, module):
    path = CRATES / home_of(crate, module) / "specs" / (module.replace(".", "/") + ".antt")
    if path not in FILES:
        FILES[path] = File(path) if path.is_file() else None
    return FILES[path]


def type_lines(crate, name):
    """The lines of a type of the code, and the file that they stand in."""
    for path in sorted((CRATES / crate / "src").rglob("*.rt")):
        text = path.read_text()
        found = re.search(rf"^pub (?:struct|enum) {name}\b.*?(?:^}}|;$)", text, re.M | re.S)
        if found:
            return path, [it for it in found[0].split("\n") if it.strip() and not it.lstrip().startswith("//")]
    return None, []


def cited(file, text):
    """What a text in a file names: (crate, module, name) of each definition, or (crate, None, name) of a type of the code."""
    found = set()
    for crate, module, name in re.findall(r"\b(\w+)\.()(\w+)", text):
        if crate in file.aliases:
            found.add((*file.aliases[crate], name))
    for word in WORD.findall(text):
        if word in file.names:
            found.add(file.names[word])
    return found


def closure(roots):
    """All definitions that the roots lead to: name to bare lines, by path."""
    seen, waiting, counted = set(), list(roots), {}
    while waiting:
        crate, module, name = waiting.pop()
        if (crate, module, name) in seen or crate == "std":
            continue
        seen.add((crate, module, name))
        if module.startswith("declared"):
            kind = re.sub(r"\.TheVariants$", "", module).rpartition(".")[2]
            path, lines = type_lines(crate, kind)
            if path:
                counted.setdefault(path, {})[kind] = lines
            continue
        file = file_of(crate, module)
        if not file or name.strip("◌") not in {it.strip("◌") for it in file.definitions}:
            continue
        own = next(it for it in file.definitions if it.strip("◌") == name.strip("◌"))
        lines = file.definitions[own]
        counted.setdefault(file.path, {})[own] = lines
        text = "\n".join(lines)
        waiting += cited(file, text)
        waiting += [(crate, module, it) for it in file.definitions if it != own and it.strip("◌") in set(WORD.findall(text))]
    return counted


def clauses(path, function):
    """What the clauses of a function of the code name."""
    text = path.read_text()
    head = re.search(rf"fn {function}\b.*?\n\{{\n", text, re.S)[0]
    file = File.__new__(File)
    file.definitions, file.names, file.aliases = {}, {}, {}
    for crate, module, names, _ in USE.findall(text):
        for name in filter(None, (it.strip() for it in names.split(","))):
            first, _, last = name.partition(" as ")
            file.names[(last or first).strip("◌")] = crate, module, first
    return cited(file, head)


def sums(counted):
    return len(counted), sum(len(it) for it in counted.values()), sum(len(lines) for it in counted.values() for lines in it.values())


def table(counted):
    """A row for each file, from the highest crate down."""
    order = [line.split(":")[0] for line in (TOP / "crates.txt").read_text().split("\n") if ":" in line and not line.startswith("#")]
    rows = ["| File under `crates/` | Lines | Definitions |", "|---|---|---|"]
    for path in sorted(counted, key=lambda it: (-order.index(it.relative_to(CRATES).parts[0]), str(it))):
        own = counted[path]
        inside = list(FILES[path].definitions) if path in FILES else sorted(own)
        total = sum(1 for line in path.read_text().split("\n") if line.strip())
        rows.append(f"| `{path.relative_to(CRATES)}` | {sum(len(it) for it in own.values())} of {total} | {', '.join(f'`{it}`' for it in inside if it in own)} |")
    return "\n".join(rows) + "\n"


HEADLINE = ("ae_headline", "Headline", "IsProgramListing")
HEADLINE_LIMIT = 750


def headline():
    """What the record of the headline cites: all of it, and how many lines are definitions and how many types of the code."""
    counted = closure([HEADLINE])
    code = {path: own for path, own in counted.items() if path.suffix == ".rt"}
    types = sums(code)[2]
    return counted, sums(counted)[2] - types, types


def contract():
    """What the clauses of `aeth` cite."""
    return closure(clauses(CRATES / "ae_tool" / "src" / "call.rt", "aeth"))


def silent(counted):
    """Where a definition indexes a list by get_or, whose default stands for an element without a word."""
    return [f"{path.relative_to(TOP)}: {name}" for path, own in counted.items() for name, lines in own.items() if "get_or" in WORD.findall(" ".join(lines))]


def page():
    counted = contract()
    files, names, lines = sums(counted)
    short, own, types = headline()
    return lines, f"""# What the contract of `aeth` cites

Made by `tests/definitions.py --write`, and compared by the gate. The clauses of `aeth` (`crates/ae_tool/src/call.rt`) mean what
these definitions say: {names} definitions and types of the code in {files} files, {lines:,} lines without comments, blank
lines and imports. What the headline alone cites stands at the end. From the top call down:

{table(counted)}
## What the headline cites

The record `{HEADLINE[2]}` (`crates/{HEADLINE[0]}/specs/{HEADLINE[1]}.antt`), which docs/PROMISES.md begins with, means what these
say: {own} lines of definitions, and {types} lines of types of the code that they name, in {len(short)} files.

{table(short)}"""


def main(*words):
    if words and words[0] != "--write":
        crate, module, name = words[0].split(".")
        counted = closure([(crate, module, name)])
        print("files {}, definitions {}, bare lines {}".format(*sums(counted)))
        return 0
    lines, text = page()
    _, own, types = headline()
    told = f"{own} lines of definitions and {types} lines of types"
    at = TOP / "docs" / "DEFINITIONS.md"
    if words:
        at.write_text(text)
        print(f"definitions: {lines} lines")
        return 0
    failed = 0
    if not at.is_file() or at.read_text() != text:
        print("definitions: docs/DEFINITIONS.md is not what tests/definitions.py --write makes")
        failed += 1
    if f"{lines:,} lines" not in (TOP / "README.md").read_text():
        print(f"definitions: README.md does not tell {lines:,} lines")
        failed += 1
    if told not in (TOP / "README.md").read_text():
        print(f"definitions: README.md does not tell {told}")
        failed += 1
    if own > HEADLINE_LIMIT:
        print(f"definitions: the headline cites {own} lines of definitions, more than {HEADLINE_LIMIT}")
        failed += 1
    for place in silent(contract()):
        print(f"definitions: {place} indexes a list by get_or, not by slice_get")
        failed += 1
    print(f"definitions: {max(5 - failed, 0)} passed, {failed} failed")
    return failed > 0


if __name__ == "__main__":
    sys.exit(main(*sys.argv[1:]))
