#!/usr/bin/env python3
"""What the compiler answers to texts, case by case: tests/answers/ says what comes in and what has to come out, and none of
it was taken from the compiler. A file has cases with a line `====` between two. A case is made of these lines:

    # WHAT IT SHOWS         any number of lines, first
    words: run 1 0          the words, quoted as in a shell; several such lines are tried one by one on the same input
    status: 0               the status
    input:                  lines as they are, up to the next line that begins a part
    input-text: "a\\r"       or a text with JSON's escapes, and no line end of its own
    input-repeat: 3 "{}\\n"  or a text so many times, with the number from 0 for `{}`
    output:                 the same three forms for the whole output

In place of `output:` may stand `output-begins:`, `output-has:` or `output-ends:` (lines that stand there one behind the
other), `output-behind: build 1` (the answer to these words on the same input, and then these lines), or `output-marked:`
(these lines alone have the mark `v` behind their first word)."""
import json
import re
import shlex
import sys

from common import TOP, aeth, side_by_side

PART = re.compile(r"(words|status|input|output)(-\w+)?:(?: (.*))?")
PIECES = (None, "-text", "-repeat")


class Case:
    def __init__(self, text):
        self.text = text
        self.words, self.status, self.pieces = [], None, {"input": [], "output": []}
        self.how, self.before = "whole", None
        part = None
        for line in text.split("\n")[:-1]:
            found = PART.fullmatch(line)
            if found:
                part = found[1]
                self.begin(*found.groups())
            elif part in self.pieces:
                self.pieces[part].append(line + "\n")
            else:
                assert line.startswith("# ") and part is None, f"{line} is no line of a case"
        assert self.words and self.status is not None, text

    def begin(self, part, form, rest):
        """The line that begins a part, with what stands behind its colon."""
        if part == "words":
            self.words.append(shlex.split(rest or ""))
        elif part == "status":
            self.status = int(rest)
        elif form == "-text":
            self.pieces[part].append(json.loads(rest))
        elif form == "-repeat":
            times, text = rest.split(" ", 1)
            text = json.loads(text)
            self.pieces[part].append("".join(text.replace("{}", str(k)) for k in range(int(times))))
        elif form:
            assert part == "output" and form in ("-begins", "-has", "-ends", "-behind", "-marked"), form
            self.how = form[1:]
            self.before = shlex.split(rest) if rest else None

    def is_wanted(self, output):
        wanted = "".join(self.pieces["output"])
        if self.how == "begins":
            return output.startswith(wanted)
        if self.how == "has":
            return "\n" + wanted in "\n" + output
        if self.how == "ends":
            return ("\n" + output).endswith("\n" + wanted)
        if self.how == "marked":
            marked = [line for line in output.splitlines(True) if line.split(" ")[1:2] == ["v"]]
            return "".join(marked) == wanted
        if self.how == "behind":
            status, before = aeth(self.before, "".join(self.pieces["input"]))
            return status == 0 and output == before + wanted
        return output == wanted

    def faults(self):
        """What is not as it has to be."""
        for words in self.words:
            status, output = aeth(words, "".join(self.pieces["input"]))
            if status != self.status or not self.is_wanted(output):
                yield f"{words} answers status {status} and\n{output[:2000]}to the case\n{self.text[:2000]}"


def cases(names):
    for path in sorted((TOP / "tests" / "answers").glob("*.case")):
        if not names or path.stem in names:
            yield from map(Case, re.split("^====\n", path.read_text(), flags=re.M))


def main(names):
    tried = list(cases(names))
    runs = sum(len(case.words) for case in tried)
    wrong = [fault for found in side_by_side(lambda case: list(case.faults()), tried) for fault in found]
    for fault in wrong:
        print(f"answers: {fault}")
    print(f"answers: {runs - len(wrong)} passed, {len(wrong)} failed")
    return len(wrong) > 0


if __name__ == "__main__":
    sys.exit(main(sys.argv[1:]))
