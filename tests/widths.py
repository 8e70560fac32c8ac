#!/usr/bin/env python3
"""Lines of proofs have at most 160 characters, and lines of definitions 120; left alone are imports, text constants, and the
files whose definitions the headline cites (these are counted by lines: tests/definitions.py).

    widths.py                     compares
    widths.py --write [CRATE..]   breaks what is longer, where a blank stands in the fewest brackets, before an arrow if there is
                                  one; `rt fmt` then indents it"""
import pathlib
import re
import sys

TOP = pathlib.Path(__file__).resolve().parent.parent
MOST = {"specs": 120, "proofs": 160}
OPERATORS = set("≡ ≢ ≤ < + - * / % ^ ++ ∷ ∙ → × ↔ ⊎ = : ↦ && || | == >>=".split())
BEGINNERS = set("→ × ⊎ ++ ∷".split())
HEADS = set("in let λ rw elim case if then else record omega grind search simp abbrev pub unfoldable data".split())
LEFT = re.compile(r"\s*(pub )?use |.*--|\s*\"[^\"]*\"$")


def blanks(text):
    """Where the blanks outside of text constants are, with the number of brackets around each."""
    depth, quoted, found = 0, False, []
    for at, sign in enumerate(text):
        if sign == '"' and text[at - 1 : at] != "\\":
            quoted = not quoted
        elif quoted:
            continue
        elif sign in "([{":
            depth += 1
        elif sign in ")]}":
            depth -= 1
        elif sign == " ":
            found.append((depth, at))
    return found


def joint(text, at):
    """How well a line may end at a blank: 0 where a part of a statement or of a list ends, 1 before a term in brackets, 2
    elsewhere; None where it may not, which is beside an operator that stays with what is behind it."""
    before, after = text[:at].rsplit(" ", 1)[-1], text[at + 1 :].split(" ", 1)[0]
    if before in HEADS and before != "in" or before in OPERATORS and before != "∙":
        return None
    if after in OPERATORS - BEGINNERS or after in ("in", "then", "else", "(", "[", "{", ""):
        return None
    if after in BEGINNERS or before.endswith((",", ";")) or before in ("∙", "in"):
        return 0
    return 1 if after[0] in "([λ" else 2


def folded(text, indent, most, is_body):
    """A term in lines of at most so many characters, all but the first of them indented by four blanks more; what a body goes
    on with stands below its beginning."""
    lines, own = [], indent
    is_body = is_body or text.split(" ", 1)[0] in BEGINNERS
    while len(own) + len(text) > most:
        room = most - len(own)
        fits = [(depth, joint(text, at), at) for depth, at in blanks(text) if at < room]
        fits = [it for it in fits if it[1] is not None]
        fits = [it for it in fits if it[2] > room // 3] or fits
        if not fits:
            break
        least = min(fits)[:2]
        at = max(at for depth, kind, at in fits if (depth, kind) == least)
        lines.append(own + text[:at])
        text = text[at + 1 :]
        goes_on = is_body and least[0] == 0 and text.split(" ", 1)[0] in BEGINNERS
        own = indent if goes_on else indent + "    "
    return [*lines, own + text]


def broken(line, most):
    if len(line) <= most or LEFT.match(line):
        return [line]
    indent = line[: len(line) - len(line.lstrip())]
    if indent:
        return folded(line.lstrip(), indent, most, False)
    body = re.match(r"([^=]*? =) (.*)$", line)
    if body and " : " not in body[1] and not body[1].startswith(("abbrev", "pub abbrev", "unfoldable", "pub unfoldable")):
        return [body[1], *folded(body[2], "    ", most, True)]
    return folded(line, "", most, False)


def of_headline():
    """The files with definitions that the headline cites, as docs/DEFINITIONS.md lists them at its end."""
    text = (TOP / "docs" / "DEFINITIONS.md").read_text()
    return set(re.findall(r"^\| `(\S+\.antt)`", text[text.index("## ") :], re.M)) if "## " in text else set()


def main():
    write, names = sys.argv[1:2] == ["--write"], sys.argv[2:]
    headline, wide = of_headline(), []
    for part, most in MOST.items():
        for path in sorted((TOP / "crates").glob(f"*/{part}/**/*.antt")):
            name = str(path.relative_to(TOP / "crates"))
            if name in headline or names and name.split("/")[0] not in names:
                continue
            lines = path.read_text().split("\n")
            made = [it for line in lines for it in broken(line, most)] if write else lines
            if made != lines:
                path.write_text("\n".join(made))
            wide += [f"crates/{name}:{k}: {len(it)} characters" for k, it in enumerate(made, 1) if len(it) > most and not LEFT.match(it)]
    print("\n".join([*wide[:20], f"widths: {0 if wide else 1} passed, {len(wide)} failed"]))
    return 1 if wide and not write else 0


if __name__ == "__main__":
    sys.exit(main())
