#!/usr/bin/env python3
"""Programs and modules that somebody spoiled: bytes, tokens and lines of the examples, of random programs and of random modules
are changed. Each job gives a stated answer, and the jobs agree: what `check` refuses every job refuses in the same line; `run`
shows the results of `eval`; `least` tells no greater latency than `plan`; `sim` takes the module of `build`, and `unwave` the
dump of `wave`; Icarus takes each module that `sim` takes, and shows the same words where ports and registers are as they were.

fuzz.py [COUNT [SEED]]: so many inputs (2,000 unless given), from a seed (1 unless given)."""
import pathlib
import random
import re
import shutil
import subprocess
import sys
import tempfile

from common import FILL, aeth, examples, missing, results, side_by_side
from programs import Maker

MODULE_CAUSES = r"token \d+|header|(unknown |twice |kind |width )?item \d+|(undriven|loop) net \d+|large"
STATED = {
    2: r"refused bad line (\d+)",
    3: r"refused bad type line (\d+)",
    4: r"refused too large line (\d+)",
    5: r"refused no schedule line (\d+)",
    6: r"refused bad words row \d+ column \d+",
    7: rf"refused bad module ({MODULE_CAUSES})",
    8: r"refused long run \d+",
    13: r"refused bad wave word \d+",
    14: r"refused not moves line (\d+)",
}
EDGES = "0 1 2 3 7 8 63 64 65 255 256 4095 4096 4097 16384 16385 65535 65536 4294967295 4294967296 18446744073709551615 18446744073709551616".split()
PROGRAM_WORDS = "fn end const call map map2 reduce scan shift select up partition unpartition zip pair fst snd add sub mul min max lt eq mux not shl shr cast aeth 2 u1 u8 u64 i8 i64 u65 [2]u8 [1]u1 [4096][4]u8 (u8,u8) %% # = :".split()
MODULE_WORDS = "module endmodule input output wire reg assign always @ posedge clk if else begin end <= = == != < > >= << >> + - * & | ^ ~ ! && || ? : ; , . ( ) [ ] { } 1'd1 64'hffffffffffffffff 4'b0101 signed initial // /* */ #".split()
TEXT_LONGEST = 100_000


# ---- spoiling

def spoil_bytes(source, text):
    at, to = sorted(source.randrange(len(text) + 1) for _ in range(2))
    near = min(to, at + source.randrange(6))
    some = bytes(source.choice((source.randrange(256), source.randrange(32, 127))) for _ in range(source.randrange(4)))
    return source.choice((text[:at] + some + text[near:], text[:at] + some + text[at:], text[:at], text[:to] + text[at:], text[:at] + text[to:]))


def sort_of(token):
    """What a token may be replaced by and still make sense: a number, a name, or a sign."""
    return "number" if token.isdigit() else "name" if re.fullmatch(rb"\w+", token) else "sign"


def spoil_tokens(source, text, words):
    parts = re.split(rb"(\w+|[^\w\s])", text)
    places = range(1, len(parts), 2)
    if not places:
        return text
    at, other = source.choice(places), source.choice(places)
    alike = [k for k in places if sort_of(parts[k]) == sort_of(parts[at])]
    kind = source.randrange(8)
    if kind == 0:
        parts[at] = source.choice(EDGES).encode()
    elif kind == 1:
        parts[at] = source.choice(words).encode()
    elif kind == 2:
        parts[at], parts[other] = parts[other], parts[at]
    elif kind == 3:
        parts[at] = b"" if source.random() < 0.5 else parts[at] + b" " + parts[at]
    elif kind == 4:
        parts[at] = parts[other]
    else:
        parts[at] = parts[source.choice(alike)]
    return b"".join(parts)


def spoil_lines(source, text, other):
    lines, more = text.split(b"\n"), other.split(b"\n")
    at, to = (source.randrange(len(lines)) for _ in range(2))
    kind = source.randrange(5)
    if kind == 0:
        del lines[at]
    elif kind == 1:
        lines.insert(to, lines[at])
    elif kind == 2:
        lines[at], lines[to] = lines[to], lines[at]
    elif kind == 3:
        lines.insert(at, source.choice(more))
    else:
        lines[at:to] = more[source.randrange(len(more)) :][: source.randrange(4)]
    return b"\n".join(lines)


def spoilt(source, text, other, words):
    """The text with one to three changes."""
    for _ in range(source.choice((1, 1, 1, 2, 3))):
        kind = source.randrange(4)
        if kind == 0:
            text = spoil_bytes(source, text)
        elif kind == 1:
            text = spoil_lines(source, text, other)
        else:
            text = spoil_tokens(source, text, words)
    return text


# ---- programs

def answer(words, text):
    """A job's status and output, with what is wrong with the two alone."""
    status, output = aeth(words, text)
    form = STATED.get(status)
    found = form and re.fullmatch(form + "\n", output)
    well = status == 0 or bool(found)
    if found and status in (2, 3, 4, 5, 14):
        well = 1 <= int(found[1]) <= text.count(b"\n") + 2
    return (status, output), [] if well else [f"{words}: status {status}, {output[:200]!r}"]


def try_program(source, text):
    """What is wrong with the answers to a text as a program, and whether one of its jobs was done."""
    slowdown = source.choice((1, 1, 2, 3, 4, 6, 8, 12, 16, 48, 4096))
    jobs = [["check"], ["eval"], ["plan", slowdown], ["cost", slowdown], ["least", slowdown], ["build", slowdown], ["stall", slowdown], ["run", slowdown, FILL], ["wave", slowdown, FILL]]
    answers, wrong = {}, []
    for job in jobs:
        answers[job[0]], said = answer(job, text)
        wrong += said
    check, evaluated, plan, run = (answers[job] for job in ("check", "eval", "plan", "run"))
    if check[0]:
        if any(other != check for other in answers.values()):
            wrong.append(f"check refuses otherwise than another job: {answers}")
        return wrong, False
    refused = plan[0] != 0
    if refused and any(answers[job] != plan for job in ("cost", "build", "run", "wave")):
        wrong.append(f"plan refuses otherwise than cost, build, run or wave: {answers}")
    if not refused and (answers["cost"][0] or answers["build"][0]):
        wrong.append(f"cost or build refuses what plan takes: {answers}")
    if plan[0] == 5 and answers["stall"] != plan or answers["stall"][0] not in (0, 4, 5):
        wrong.append(f"stall: {answers['stall']}")
    least, told = answers["least"]
    if least not in (0, 5, 14) or least == 5 and answers["least"] != plan or least == 0 and plan[0] == 5:
        wrong.append(f"least: {answers['least']}, and plan: {plan}")
    if least == plan[0] == 0 and int(told.split()[1]) > int(plan[1].split()[3]):
        wrong.append(f"least tells a greater latency than plan: {told}")
    if not refused and (run[0] == 6) != (evaluated[0] == 6):
        wrong.append(f"run and eval read the rows otherwise: {run}, {evaluated}")
    if run[0] == 0 and evaluated[0] == 0:
        wanted = evaluated[1].splitlines()
        try:
            shown = list(results(run[1], slowdown, len(wanted)))
        except AssertionError:
            shown = None
        if shown != wanted:
            wrong.append(f"run {slowdown} shows other results than eval")
    status, dump = answers["wave"]
    if status != run[0] and status != 8 or status == 0 and len(dump) < TEXT_LONGEST and aeth(["unwave"], dump)[0] != 0:
        wrong.append(f"wave {slowdown}: {status}, {dump[:200]}")
    for job in ("build", "stall"):
        status, module = answers[job]
        if status == 0 and len(module) < TEXT_LONGEST and aeth(["sim", 0], module) != (0, ""):
            wrong.append(f"sim does not take the module of {job} {slowdown}")
    return wrong, True


# ---- modules

def icarus(folder, files):
    """Whether Icarus takes the files; where it fails within itself, that is not known."""
    done = subprocess.run(["iverilog", "-g2001", "-o", folder / "play", *files], capture_output=True, text=True)
    return done.returncode == 0, done.stderr


def try_module(folder, source, original, text, is_body):
    """What is wrong with the answers to a text as a module, and whether Icarus took it, too; `original` has its rows, first words
    and test bench."""
    rows, fill, bench = original
    (status, shown), wrong = answer(["sim", fill], text + b"\n%%\n" + rows)
    if status in (2, 3, 4, 5):
        wrong.append(f"sim refuses as a program: {shown}")
    if status not in (0, 6) or b"%%" in text or not shutil.which("iverilog"):
        return wrong, False
    folder.mkdir()
    (folder / "module.v").write_bytes(text)
    (folder / "bench.v").write_bytes(bench)
    takes, said = icarus(folder, [folder / "module.v", folder / "bench.v"][: 1 + is_body])
    if not takes and "assert" not in said.lower() and "sorry" not in said.lower():
        wrong.append(f"Icarus does not take what sim takes: {said[:300]}")
    if takes and is_body and status == 0:
        done = subprocess.run(["vvp", "-n", folder / "play"], capture_output=True, text=True)
        if done.returncode == 0 and done.stdout != shown:
            wrong.append(f"Icarus shows other words:\n{done.stdout[:300]}\nnot\n{shown[:300]}")
    shutil.rmtree(folder)
    return wrong, takes


def modules(folder, seed, count):
    """Random modules with their rows, first words and test benches."""
    subprocess.run([sys.executable, "-B", pathlib.Path(__file__).parent / "random_modules.py", str(seed), str(count), "1", "6", folder], check=True)
    for number in range(count):
        parts = [(folder / f"{number}.{ending}").read_bytes() for ending in ("v", "rows", "bench.v")]
        yield parts[0], (parts[1], int((folder / f"{number}.fill").read_text()), parts[2])


def spoil_body(source, text):
    """The module with other tokens in its wires, assignments and statements; its ports and registers stay."""
    lines = text.split(b"\n")
    places = [k for k, line in enumerate(lines) if re.match(rb"\s+(wire|assign|always)\b.*;", line) or b"always" in line]
    for _ in range(source.choice((1, 1, 2))):
        at = source.choice(places)
        lines[at] = spoil_tokens(source, lines[at], MODULE_WORDS)
    return b"\n".join(lines)


def main():
    count, seed = ([int(word) for word in sys.argv[1:]] + [2000, 1][len(sys.argv) - 1 :])[:2]
    missing("iverilog")
    programs = [text.encode() for _, text, _ in examples()]
    failed, taken = 0, [0, 0]
    with tempfile.TemporaryDirectory() as name:
        folder = pathlib.Path(name)
        known = list(modules(folder, seed, 60))

        def task(number):
            source = random.Random(seed * 10_000_000 + number)
            if number % 2:
                base = source.choice(programs) if source.random() < 0.5 else Maker(source).program(2)[0].encode()
                text = spoilt(source, base, source.choice(programs), PROGRAM_WORDS)
                return try_program(source, text), text
            base, original = source.choice(known)
            is_body = source.random() < 0.8
            text = spoil_body(source, base) if is_body else spoilt(source, base, source.choice(known)[0], MODULE_WORDS)
            return try_module(folder / f"m{number}", source, original, text, is_body), text

        for number, ((wrong, is_taken), text) in enumerate(side_by_side(task, range(count))):
            taken[number % 2] += is_taken
            if wrong:
                failed += 1
                print(f"fuzz: input {number} of seed {seed}:", *wrong, text.decode(errors="replace")[:1500], sep="\n", flush=True)
    print(f"fuzz: {taken[1]} programs had types, and {taken[0]} modules were taken by Icarus, too")
    print(f"fuzz: {count - failed} passed, {failed} failed")
    return failed > 0


if __name__ == "__main__":
    sys.exit(main())
