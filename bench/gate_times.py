"""Runs a command and tells, for each crate, the processor minutes that the prover and the compilers below it took for its
proof, its tests, its edits and its builds. Each process is looked at four times a second until it ends, so what it does in
its last quarter of a second is left out.

    gate_times.py FILE COMMAND..     the table goes to FILE
    gate_times.py FILE --pid N       the same of a process that runs already, until it ends"""
import collections
import os
import re
import subprocess
import sys
import time

TICKS = os.sysconf("SC_CLK_TCK")
KINDS = ["proof", "tests", "edits", "build"]


def read(path):
    try:
        with open(path, "rb") as file:
            return file.read().decode(errors="replace")
    except OSError:
        return ""


def below(top):
    """The numbers of all processes below one, and its own."""
    children = collections.defaultdict(list)
    for entry in os.listdir("/proc"):
        if entry.isdigit():
            after = read(f"/proc/{entry}/stat").rpartition(")")[2].split()
            if after:
                children[int(after[1])].append(int(entry))
    found = [top]
    for process in found:
        found += children[process]
    return found


def purpose(process):
    """Crate and kind of the work of a process of the toolchain; None for any other."""
    words = read(f"/proc/{process}/cmdline").split("\0")
    if os.path.basename(words[0]) != "rattle" or "--crate-name" not in words:
        return None
    crate = words[words.index("--crate-name") + 1]
    try:
        folder = os.readlink(f"/proc/{process}/cwd")
    except OSError:
        return None
    if re.match(r"rt-edit-|planted-", os.path.basename(folder)):
        return crate, "edits"
    if "--test" in words:
        return crate, "tests"
    return crate, "build" if "--crate-checked" in words else "proof"


def watch(top, is_over):
    """Processor seconds by crate and kind, and those of all processes by their numbers, until the command is over."""
    purposes, spent = {}, {}
    while not is_over():
        for process in below(top):
            after = read(f"/proc/{process}/stat").rpartition(")")[2].split()
            if len(after) < 20:
                continue
            key = process, after[19]
            if key not in purposes or purposes[key] is None:
                purposes[key] = purpose(process)
            spent[key] = (int(after[11]) + int(after[12])) / TICKS
        time.sleep(0.25)
    total, other = collections.Counter(), 0
    for key, seconds in spent.items():
        if purposes[key]:
            total[purposes[key]] += seconds
        else:
            other += seconds
    return total, other


def table(total, other, wall):
    """The lines of the table, in minutes."""
    row = lambda name, cells: f"{name:16}" + "".join(f"{cell:>9}" for cell in cells)
    minutes = lambda seconds: f"{seconds / 60:.1f}"
    lines = [row("crate", [*KINDS, "sum"])]
    for crate in sorted({crate for crate, _ in total}):
        parts = [total[crate, kind] for kind in KINDS]
        lines.append(row(crate, [minutes(part) for part in [*parts, sum(parts)]]))
    sums = [sum(total[it] for it in total if it[1] == kind) for kind in KINDS]
    lines.append(row("all", [minutes(part) for part in [*sums, sum(sums)]]))
    lines.append(f"other processes {minutes(other)}, wall time {minutes(wall)}")
    return lines


def main(file, *words):
    begin = time.time()
    if words[0] == "--pid":
        started, top = None, int(words[1])
        is_over = lambda: not os.path.exists(f"/proc/{top}")
    else:
        started = subprocess.Popen(words)
        top = started.pid
        is_over = lambda: started.poll() is not None
    total, other = watch(top, is_over)
    with open(file, "w") as out:
        out.write("\n".join(table(total, other, time.time() - begin)) + "\n")
    return started.returncode if started else 0


if __name__ == "__main__":
    sys.exit(main(*sys.argv[1:]))
