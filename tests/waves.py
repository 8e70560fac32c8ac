#!/usr/bin/env python3
"""`wave` writes of all examples, at several slowdowns, the module and the words of `run`: `unwave` of it shows in each clock
what is fed and what `run` shows. `unwave` reads the dumps that Icarus makes of these modules, one that Verilator makes, and
what GTKWave's vcd2fst and fst2vcd make of one. A tool that is missing is skipped with a line."""
import bisect
import pathlib
import re
import subprocess
import tempfile

from common import FILL, aeth, bench, clock_words, input_rows, missing, ports, runs_of_examples

VARIABLE = re.compile(r"\$var\s+\w+\s+\d+\s+\S+\s+(\S+)")


def unwaved(dump):
    """The names of a dump's variables, and its words by time."""
    status, lines = aeth(["unwave"], dump)
    assert status == 0, (lines, dump[:1000])
    header = re.sub(r"\$comment.*?\$end", "", dump.split("$enddefinitions")[0], flags=re.S)
    rows = [line.split() for line in lines.splitlines()]
    return VARIABLE.findall(header), {int(row[0]): row[1:] for row in rows}


def wanted_words(shown, slowdown, rows):
    """The names of the ports but the clock, and their words in each clock of a run."""
    module, words = clock_words(shown)
    fed = input_rows(module, slowdown, rows, len(words))
    names = [name for kind in ("input", "output") for name, _ in ports(module, kind)][1:]
    return module, names, [["0", *map(str, row), *line.split()] for row, line in zip(fed, words)]


def own_dump(text, slowdown, shown, rows):
    """The dump of a run, whose words are compared with those of the run; how many clocks it has."""
    module, names, wanted = wanted_words(shown, slowdown, rows)
    status, dump = aeth(["wave", slowdown, FILL], text)
    assert status == 0 and dump.startswith(f"$comment\n{module}$end\n$timescale"), dump[:1000]
    found_names, found = unwaved(dump)
    assert found_names == names
    assert found == dict(enumerate(wanted)), (text, slowdown)
    return dump, len(wanted)


def dumped(module, fed, outs):
    """A test bench that dumps the ports from the end of the reset on: clock c stands at the time 2 * c + 2."""
    text = bench(module, fed)
    named = ", ".join(name for name, _ in [*ports(module, "input")[1:], *outs])
    begin = f'    $dumpfile("run.vcd"); $dumpvars(1, {named});\n'
    return text.replace("#1; clk = 0;\n", "#1; clk = 0;\n" + begin, 1)


def words_at(found, time):
    """The words at a time: those of the last one that is told up to there."""
    times = list(found)
    return found[times[bisect.bisect(times, time) - 1]]


def same_in_dump(dump, names, wanted):
    """Whether a dump of a test bench has the words of each clock."""
    found_names, found = unwaved(dump)
    places = [found_names.index(name) for name in names]
    return all([words_at(found, 2 * clock + 2)[place] for place in places] == words for clock, words in enumerate(wanted))


def other_dump(folder, commands, shown, slowdown, rows):
    """The dump that another tool makes of a run's module, which is compared with the run."""
    module, names, wanted = wanted_words(shown, slowdown, rows)
    fed = input_rows(module, slowdown, rows, len(wanted))
    folder.mkdir()
    (folder / "bench.v").write_text(module + dumped(module, fed, ports(module, "output")))
    for command in commands:
        subprocess.run(command, cwd=folder, check=True, capture_output=True)
    dump = (folder / "run.vcd").read_text()
    assert same_in_dump(dump, names, wanted), (commands[0][0], dump[:1000])


ICARUS = [["iverilog", "-s", "bench", "-o", "bench", "bench.v"], ["vvp", "bench"]]
VERILATOR = [["verilator", "--binary", "--trace", "-Wno-fatal", "--top-module", "bench", "bench.v"], ["obj_dir/Vbench"]]


def through_gtkwave(folder, dump):
    """What GTKWave's two programs make of a dump is the same wave."""
    (folder / "own.vcd").write_text(dump)
    subprocess.run(["vcd2fst", "-v", "own.vcd", "-f", "own.fst"], cwd=folder, check=True, capture_output=True)
    done = subprocess.run(["fst2vcd", "-f", "own.fst"], cwd=folder, check=True, capture_output=True)
    names, found = unwaved(done.stdout.decode())
    own_names, own = unwaved(dump)
    for time, words in own.items():
        assert dict(zip(own_names, words)) == dict(zip(names, words_at(found, time))), time


def main():
    icarus, verilator, gtkwave = not missing("iverilog"), not missing("verilator", "c++"), not missing("vcd2fst", "fst2vcd")
    clocks = tried = 0
    with tempfile.TemporaryDirectory() as name:
        folder = pathlib.Path(name)
        for name, slowdown, text, rows, shown in runs_of_examples():
            dump, count = own_dump(text, slowdown, shown, rows)
            clocks += count
            if icarus and count:
                other_dump(folder / f"{name}{slowdown}", ICARUS, shown, slowdown, rows)
                tried += 1
            if (name, slowdown) == ("increment", 3):
                if verilator:
                    other_dump(folder / "verilator", VERILATOR, shown, slowdown, rows)
                    tried += 1
                if gtkwave:
                    through_gtkwave(folder, dump)
                    tried += 1
    print(f"waves: {clocks} clocks are those of run, and {tried} dumps of other tools are read as such")


main()
