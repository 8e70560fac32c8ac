#!/usr/bin/env python3
"""The commands on the pages of docs/ print what stands there. A block of a page that begins with ```console has commands, each
behind `$ `, and below each what it prints, standard error too. They run at the top of a stand-in for the repository, which is
the page's own and forgotten afterwards. A command whose tool is missing is skipped. With --write the pages are written anew;
names behind it, as FPGA, choose pages."""
import os
import pathlib
import re
import shutil
import subprocess
import sys
import tempfile

from common import AETH, KIT, TOP, side_by_side

BLOCK = re.compile(r"^```console\n(.*?)^```$", re.M | re.S)
TOOLS = {"iverilog", "vvp", "verilator", "yosys", "nextpnr-ice40", "icepack", "icetime"}


def stand_in(folder):
    """The repository's files by links, with the programs that are to be tried."""
    for path in TOP.iterdir():
        if path.name not in ("aeth", "aethkit", ".git"):
            (folder / path.name).symlink_to(path)
    (folder / "aeth").symlink_to(AETH)
    (folder / "aethkit").symlink_to(KIT)


def commands(block):
    """The commands of a block, each with what stands below it."""
    found = []
    for line in block.splitlines(keepends=True):
        if line.startswith("$ "):
            found.append([line, ""])
        elif line.startswith("> ") and not found[-1][1]:
            found[-1][0] += line
        else:
            found[-1][1] += line
    return found


def printed(command, folder):
    """What a command prints."""
    words = "".join(line[2:] for line in command.splitlines(keepends=True))
    how = {"stdin": subprocess.DEVNULL, "stdout": subprocess.PIPE, "stderr": subprocess.STDOUT}
    how["env"] = os.environ | {"PYTHONDONTWRITEBYTECODE": "1"}
    text = subprocess.run(["bash", "-c", words], cwd=folder, **how).stdout.decode()
    return text + "\n" * (text != "" and not text.endswith("\n"))


def run(path):
    """The page with what its commands print now, how many there are, those that print something else, and missing tools."""
    tried, wrong, absent = 0, [], set()
    with tempfile.TemporaryDirectory() as folder:
        stand_in(pathlib.Path(folder))

        def anew(block):
            nonlocal tried
            made = ""
            for command, wanted in commands(block[1]):
                needed = {tool for tool in TOOLS if re.search(rf"\b{tool} ", command) and not shutil.which(tool)}
                absent.update(needed)
                found = wanted if needed else printed(command, folder)
                tried += not needed
                if found != wanted:
                    wrong.append(f"{path.name}: {command}prints\n{found}in place of\n{wanted}")
                made += command + found
            return f"```console\n{made}```"

        return BLOCK.sub(anew, path.read_text()), tried, wrong, absent


def main(words):
    names = words[1:] if words[:1] == ["--write"] else words
    pages = [path for path in sorted((TOP / "docs").glob("*.md")) if not names or path.stem in names]
    passed, failed = 0, 0
    for path, (text, tried, wrong, absent) in zip(pages, side_by_side(run, pages)):
        if words[:1] == ["--write"]:
            path.write_text(text)
            continue
        passed += tried - len(wrong)
        failed += len(wrong)
        for line in wrong:
            print(f"pages: {line}")
        if absent:
            print(f"pages: {path.name}: {' and '.join(sorted(absent))} not to be had here; what needs it is skipped")
    print(f"pages: {passed} passed, {failed} failed")
    return failed > 0


sys.exit(main(sys.argv[1:]))
