#!/usr/bin/env python3
"""Processor time and peak memory of each job on the largest and strangest inputs of at most 16 MiB: how long, how much, and how
much for each byte of input and output together, and at the end the slowest shape of each job. Those with a stated bound are
marked where they pass it: `check` at most 8 times its input, `sim` at most 64 bytes for each unit of the module's weight beside
its text, `run` at most its input and output and 8 bytes for each word of the rows.

memory.py [SHAPE..]: these shapes alone. AETH names the program that is measured; without it, the one of ./build."""
import os
import pathlib
import subprocess
import sys
import tempfile

TOP = pathlib.Path(__file__).resolve().parent.parent
AETH = os.environ.get("AETH", TOP / "crates/aeth/out/aeth")
MOST = 16 * 2**20
START = 4 * 2**20  # what a program has that does nothing


def filled(begin, piece, end, longest=MOST):
    """As many pieces between begin and end as there is room for; `%d` is the number of the piece."""
    pieces, size = [begin], len(begin) + len(end)
    number = 0
    while True:
        next_one = piece % number if "%d" in piece else piece
        size += len(next_one)
        if size > longest:
            return "".join(pieces) + end
        pieces.append(next_one)
        number += 1


def many(begin, piece, count, end):
    return begin + "".join(piece.replace("%d", str(k)) for k in range(count)) + end


def balanced(leaves):
    """A sum of so many words, a power of two, in parentheses: few are in one another."""
    text = "a"
    while leaves > 1:
        text, leaves = f"({text}+{text})", leaves // 2
    return text


def program(name):
    """One of the programs of programs.py."""
    return subprocess.run([sys.executable, "-B", TOP / "bench/programs.py", name], capture_output=True, check=True, text=True).stdout


def budgets():
    """A chain of 1,300 functions that is mapped over all lengths that divide 2,520: each function under 48 budgets."""
    text = ["fn f0 x:u8", "y = add x x", "end y"]
    for k in range(1, 1300):
        text += [f"fn f{k} x:u8", f"y = call f{k - 1} x", "end y"]
    text += ["fn main a:[2520]u8", "c = select 0 a"]
    for n in (n for n in range(1, 2521) if 2520 % n == 0):
        text += [f"p{n} = up {n} c", f"m{n} = map f1299 p{n}"]
    return "\n".join([*text, "end m2520", ""])


ECHO = "fn main a:u8\nend a\n"
PORTS = "module m(input a,output b);"
CLOCKED = "module m(input clk,input a,output b);reg r;assign b=r;always @(posedge clk) "

SQUARES = "fn sq x:u8\ny = mul x x\nend y\nfn main a:[4096]u8\nb = map sq a\nc = map sq b\nend c\n"

# Shape: words, text, weight of the module where there is one.
LETTERS = "abcdefghijklmnopqrstuvwxyzABCDEFGHIJKLMNOPQRSTUVWXYZ0123456789_"


def chosen(number):
    """A name of 48 letters, and one hash for all of them, where a table hashes each name by itself with std's own hash: behind its
    first 16 that has these very 8 letters as its state, and multiplies by their difference, 0, whatever the 8 behind them are."""
    free = "".join(LETTERS[number // 63**k % 63] for k in range(8))
    return "q6ddy9kyA8foNlyp" + "V_ly5C5G" + free + "_" * 16


SHAPES = {
    "nested_types": lambda: (["check"], filled("fn main a:", "(", "\n"), None),
    "one_line": lambda: (["check"], filled("", "x", ""), None),
    "one_line_of_fields": lambda: (["check"], filled("fn main", " a", "\n"), None),
    "name_of_16_mib": lambda: (["check"], "fn main " + "a" * (MOST - 20) + ":u8\n", None),
    "functions": lambda: (["check"], many("", "fn f%d x:u8\nend x\n", 2047, "fn main x:u8\nend x\n"), None),
    "ten_thousand_fields": lambda: (["check"], ECHO.replace("a:u8", "a:u8" + " b:u8" * 10_000), None),
    "comments": lambda: (["check"], filled("# ", "x", "\n" + ECHO, MOST), None),
    "blank_lines": lambda: (["check"], filled("", "\n", ECHO), None),
    "long_lines": lambda: (["check"], program("long"), None),
    "deep_chain": lambda: (["check"], program("chain"), None),
    "plan_of_moves": lambda: (["plan", 4096], program("moves"), None),
    "plan_of_a_chain": lambda: (["plan", 1], program("chain"), None),
    "plan_of_budgets": lambda: (["plan", 2520], budgets(), None),
    "plan_of_long_lines": lambda: (["plan", 4], program("long"), None),
    "cost_of_squares": lambda: (["cost", 1], program("squares"), None),
    "cost_of_moves": lambda: (["cost", 4096], program("moves"), None),
    "cost_of_budgets": lambda: (["cost", 2520], budgets(), None),
    "least_of_moves": lambda: (["least", 4096], program("moves"), None),
    "rows_of_one_word": lambda: (["eval"], filled(ECHO + "%%\n", "7\n", ""), None),
    "wide_rows": lambda: (["eval"], filled("fn main a:[4096][4]u1\nend a\n%%\n", "1 " * 16383 + "1\n", "", 8_300_000), None),
    "run_of_many_rows": lambda: (["run", 1, 0], many(ECHO + "%%\n", "7\n", 1_000_000, ""), None),
    "run_at_4096": lambda: (["run", 4096, 0], many("fn main a:[4096]u8\nb = shift 1 a\nend b\n%%\n", "7 " * 4095 + "7\n", 300, ""), None),
    "build_of_squares": lambda: (["build", 1], program("squares"), None),
    "build_of_shifts": lambda: (["build", 1024], program("shifts"), None),
    "build_of_budgets": lambda: (["build", 2520], budgets(), None),
    "build_of_moves": lambda: (["build", 4096], program("moves"), None),
    "stall_of_squares": lambda: (["stall", 1], SQUARES, None),
    "demo_64": lambda: (["demo", 64], "", None),
    "wave_of_squares": lambda: (["wave", 1, 0], SQUARES + "%%\n" + ("7 " * 4096 + "\n") * 400, None),
    "wave_of_many_rows": lambda: (["wave", 1, 0], many(ECHO + "%%\n", "7\n", 1_000_000, ""), None),
    "dump_of_many_times": lambda: (["unwave"], many("$var wire 1 ! a $end $enddefinitions $end\n", "#%d\n", 1_500_000, ""), None),
    "nested_parentheses": lambda: (["sim", 0], filled(PORTS + "assign b=", "(", ";endmodule"), None),
    "nested_ifs": lambda: (["sim", 0], filled(CLOCKED, "if(a) ", "r<=a;endmodule"), None),
    "items": lambda: (["sim", 0], many(PORTS + "assign b=a;", "wire w%d=a;", 1_000_000, "endmodule"), 2_000_005),
    "short_names": lambda: (["sim", 0], many(PORTS + "assign b=a;wire w=a", ",w%d=a", 1_500_000, ";endmodule"), 3_000_005),
    "ports": lambda: (["sim", 0], many("module m(input a", ",a%d", 1_800_000, ");endmodule"), 1_800_001),
    "concatenation": lambda: (["sim", 0], filled(PORTS + "assign b={a", ",a", "};endmodule"), None),
    "balanced_sums": lambda: (["sim", 0], PORTS + "wire c=" + balanced(2**20) + ";wire d=" + balanced(2**20) + ";assign b=c;endmodule", 2 * 2**20),
    "unended_comment": lambda: (["sim", 0], filled(PORTS + "/*", "*", ""), None),
    "digits": lambda: (["sim", 0], filled(PORTS + "assign b=64'd", "9", ";endmodule"), None),
    "operators": lambda: (["sim", 0], filled(PORTS + "assign b=a", "+a", ";endmodule"), None),
    "long_name": lambda: (["sim", 0], "module " + "m" * (MOST - 40) + "(input a);endmodule", None),
    "heavy_module": lambda: (["sim", 0], PORTS + "assign b=a;" + "".join(f"wire w{k}=a" + "<<a" * 254 + ";" for k in range(6500)) + "endmodule", 6500 * 255 * 6),
    "long_sums": lambda: (["sim", 0], PORTS + "assign b=a;" + "".join(f"wire w{k}=a" + "+a" * 254 + ";" for k in range(32_000)) + "endmodule", 32_000 * 256),
    "nested_braces": lambda: (["sim", 0], PORTS + "assign b=a;" + "".join(f"wire w{k}=" + "{" * 254 + "a" + "}" * 254 + ";" for k in range(32_000)) + "endmodule", 32_000 * 256),
    "chosen_names": lambda: (["sim", 0], PORTS + "assign b=a;" + "".join(f"wire {chosen(k)}=a;" for k in range(20_000)) + "endmodule", 40_005),
    "sim_of_many_rows": lambda: (["sim", 0], PORTS + "assign b=a;endmodule\n%%\n" + "1\n" * 1_390_000, None),
}


def measured(words, text):
    """Processor seconds, peak bytes, status and length of the output."""
    with tempfile.NamedTemporaryFile() as given, tempfile.NamedTemporaryFile() as shown:
        given.write(text.encode())
        given.flush()
        form = ["/usr/bin/time", "-f", "%U %S %M", AETH, *map(str, words)]
        with open(given.name, "rb") as source:
            done = subprocess.run(form, stdin=source, stdout=shown, stderr=subprocess.PIPE, text=True)
        own, system, peak = done.stderr.splitlines()[-1].split()
        length = os.path.getsize(shown.name)
        first = open(shown.name, "rb").read(40).split(b"\n")[0].decode(errors="replace")
    return float(own) + float(system), int(peak) * 1024, done.returncode, length, first


def bound(words, text, weight, output):
    """The most bytes that are stated for this job, if there are any."""
    if words[0] == "check":
        return 8 * len(text)
    if words[0] == "sim" and weight:
        return 64 * weight + len(text)
    rows = text.partition("%%")[2]
    return len(text) + output + 8 * len(rows.split()) if words[0] == "run" else None


def main():
    wanted = sys.argv[1:] or SHAPES
    slowest = {}
    print(f"{'shape':20} {'job':11} {'input':>9} {'output':>9} {'seconds':>8} {'peak MB':>8} {'a byte':>7}  answer")
    for name in wanted:
        words, text, weight = SHAPES[name]()
        seconds, peak, status, length, first = measured(words, text)
        most = bound(words, text, weight, length)
        past = "" if most is None or peak <= most + START else f"  PAST {most / 1e6:.0f} MB"
        job, each = " ".join(map(str, words)), peak / max(1, len(text) + length)
        answer = first if status else "ok"
        slowest[words[0]] = max(slowest.get(words[0], (0.0, "")), (seconds, name))
        print(f"{name:20} {job:11} {len(text):9} {length:9} {seconds:8.2f} {peak / 1e6:8.1f} {each:7.2f}  {answer}{past}", flush=True)
    print("slowest:", *(f"{job}: {name} {seconds:.2f} s" for job, (seconds, name) in slowest.items()), sep="\n  ")


main()
