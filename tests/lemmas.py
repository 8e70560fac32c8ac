#!/usr/bin/env python3
"""The index of lemmas: each file of proofs/ that states some, crate by crate from the lowest, with what its first comment says.

    lemmas.py             compares docs/LEMMAS.md with what is there
    lemmas.py --write     writes it anew

Answers to the goals of one function stand in folders of that function's name, and are no lemmas."""
import pathlib
import re
import sys

TOP = pathlib.Path(__file__).resolve().parent.parent
PAGE = TOP / "docs" / "LEMMAS.md"
HEAD = """# The lemmas, by crate

Made by `tests/lemmas.py --write` from the first comment of each file, and compared by the gate. Before you state a lemma, look
here, and ask `rt lemma WORD..` in the crate's folder: {files} files state {lemmas:,} that others may cite. A crate may cite those
of the crates that it stands on (`crates.txt`), which come before it here.
"""


def crates():
    """The crates in the order of crates.txt, the lowest first."""
    lines = (it.partition("#")[0] for it in (TOP / "crates.txt").read_text().splitlines())
    return [it.partition(":")[0].strip() for it in lines if ":" in it]


def first_comment(text):
    """The comment that a file begins with, in one line."""
    lines = []
    for line in text.splitlines():
        if not line.startswith("--"):
            break
        lines.append(line.removeprefix("--").strip())
    return " ".join(lines)


def stated(text):
    """How many lemmas of a file others may cite."""
    return len(re.findall(r"^pub (?!use |mod )(?:abbrev |unfoldable )?[^\s(]+ :", text, re.M))


def page():
    """The text of the page, and the files that begin with no comment."""
    files, lemmas, parts, bare = 0, 0, [], []
    for crate in crates():
        rows = []
        for path in sorted((TOP / "crates" / crate / "proofs").glob("*.antt")):
            text = path.read_text()
            count = stated(text)
            if path.stem == "Lib" or not count:
                continue
            comment = first_comment(text)
            if not comment:
                bare.append(str(path.relative_to(TOP)))
            files, lemmas = files + 1, lemmas + count
            rows.append(f"| `{path.stem}` | {count} | {comment.replace('|', chr(92) + '|')} |")
        if rows:
            parts.append("\n".join([f"\n## `{crate}`\n", "| File in `proofs/` | Lemmas | Of what |", "|---|---|---|", *rows, ""]))
    return HEAD.format(files=files, lemmas=lemmas) + "".join(parts), bare


def main():
    text, bare = page()
    if sys.argv[1:] == ["--write"]:
        PAGE.write_text(text)
        return 0
    faults = [f"{it} begins with no comment" for it in bare]
    if not PAGE.is_file() or PAGE.read_text() != text:
        faults.append("docs/LEMMAS.md is not what is there: tests/lemmas.py --write writes it anew")
    for fault in faults:
        print(fault)
    print(f"lemmas: {2 - len(faults) if len(faults) < 2 else 0} passed, {len(faults)} failed")
    return 1 if faults else 0


if __name__ == "__main__":
    sys.exit(main())
