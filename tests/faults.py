#!/usr/bin/env python3
"""What the compiler answers where reading or writing fails, at once and in mid-stream, and that it reads nothing where its
words name no job or a demo. A file that may not grow past some bytes is a sink that fails behind them, and a socket whose
other end goes away is a source that does. Then devices: a full one, an endless one, closed ends of pipes, and a terminal."""
import fcntl
import os
import pty
import resource
import signal
import socket
import subprocess
import sys
import tempfile
import termios
import time
import tty

from common import AETH, TOP

INCREMENT = (TOP / "examples" / "increment.aeth").read_bytes()
PROGRAM = INCREMENT.split(b"%%")[0]
FOLDER = os.open("/", os.O_RDONLY)  # a folder is a source that fails at once
MOST = 16_777_216
SMALL = b"fn main a:u8\nend a\n"
SECONDS = 20


def answer(words, source, room=None):
    """Status and output of the compiler on a source, where the output may have so many bytes."""

    def limit():
        signal.signal(signal.SIGXFSZ, signal.SIG_IGN)
        resource.setrlimit(resource.RLIMIT_FSIZE, (room, room))

    with tempfile.TemporaryFile() as sink:
        before = None if room is None else limit
        done = subprocess.run([AETH, *words], stdin=source, stdout=sink, stderr=subprocess.DEVNULL, preexec_fn=before)
        sink.seek(0)
        return done.returncode, sink.read()


def held(text):
    """A file with a text, to be read from its beginning."""
    found = tempfile.TemporaryFile()
    found.write(text)
    found.seek(0)
    return found


def breaking(text):
    """A socket that gives a text and then fails."""
    near, far = socket.socketpair()
    near.sendall(b"unread")  # the far end is lost with these bytes unread
    far.sendall(text)
    far.close()
    return near


def cases():
    fault, nothing = b"refused read fault\n", b""
    for job in (["build", "1"], ["check"], ["eval"]):
        yield job, FOLDER, None, (9, fault)
        for text in (b"fn", PROGRAM, b"\n" * 140_000):
            yield job, breaking(text), None, (9, fault)
    yield ["build", "1"], held(PROGRAM), 4, (10, b"// a")
    yield ["eval"], held(INCREMENT), 4, (10, b"2 3 ")
    for text in (PROGRAM, b"", b"fn main a:[4]u8\nb = shift 5 a\nend b\n", b"\n" * (MOST + 1)):
        yield ["check"], held(text), 0, (10, nothing)
    yield ["check"], held(b"\n" * (MOST + 1)), None, (11, b"refused too long\n")


OTHER_WORDS = ["", "build", "build 0", "build 04", "build 1 1"]
OTHER_WORDS += ["run 1", "run 4097 0", "run 1 18446744073709551616", "run 1 00"]
OTHER_WORDS += ["demo", "demo 0", "demo 01", "demo 65", "demo +1", "demo 1 0"]


def untouched():
    """Words that name no job, and a demo."""
    for job in map(str.split, OTHER_WORDS):
        source = held(PROGRAM)
        yield answer(job, source) == (1, b"refused usage\n") and os.lseek(source.fileno(), 0, os.SEEK_CUR) == 0, job
        yield answer(job, FOLDER) == (1, b"refused usage\n"), job
    source = held(PROGRAM)
    status, text = answer(["demo", "1"], source)
    yield status == 0 and text.startswith(b"// aeth 1\n// slowdown 4\n"), "demo"
    yield os.lseek(source.fileno(), 0, os.SEEK_CUR) == 0, "demo"
    yield answer(["demo", "1"], FOLDER) == (status, text), "demo"


def piecewise():
    """A source that gives a byte at a time."""
    whole = answer(["run", "1", "0"], held(INCREMENT))
    with subprocess.Popen([AETH, "run", "1", "0"], stdin=subprocess.PIPE, stdout=subprocess.PIPE, bufsize=0) as running:
        for byte in INCREMENT:
            running.stdin.write(bytes([byte]))
        running.stdin.close()
        yield (0, running.stdout.read()) == whole, "pieces"
    yield whole[1].endswith(b"%% clocks\n0 . 1 1 1 1\n1 v 2 3 4 0\n"), "run"


def checked(**ends):
    """The same of `check` on a small program, where its input, output or closed streams are given."""
    done = subprocess.run([AETH, "check"], stderr=subprocess.DEVNULL, timeout=SECONDS, **ends)
    return done.returncode, done.stdout or b""


def hung_up():
    """A terminal that hangs up behind a program."""
    near, far = pty.openpty()
    tty.setraw(far)
    os.write(near, SMALL)
    with subprocess.Popen([AETH, "check"], stdin=far, stdout=subprocess.PIPE, stderr=subprocess.DEVNULL) as running:
        # Behind the program it waits for more.
        while int.from_bytes(fcntl.ioctl(far, termios.FIONREAD, b"\0" * 4), sys.byteorder):
            time.sleep(0.01)
        time.sleep(0.3)
        os.close(near)
        os.close(far)
        return running.wait(SECONDS), running.stdout.read()


def growing():
    """A program, and empty lines that somebody writes behind it while it is read: whether one of its beginnings is answered."""
    with tempfile.NamedTemporaryFile() as file:
        file.write(SMALL)
        file.flush()
        ends = {"stdout": subprocess.PIPE, "stderr": subprocess.DEVNULL}
        with open(file.name, "rb") as source, subprocess.Popen([AETH, "check"], stdin=source, **ends) as running:
            while running.poll() is None and file.tell() < 4 * MOST:
                file.write(b"\n" * 65536)
                file.flush()
            found = running.wait(SECONDS), running.stdout.read()
    return found in ((0, b"1 fn main a:u8\n2 end u8\n"), (11, b"refused too long\n")) or found


def huge():
    """A file of 2 GiB."""
    with tempfile.TemporaryFile() as file:
        file.truncate(2**31)
        return checked(stdin=file, stdout=subprocess.PIPE)


def stopped():
    """A run that is stopped and goes on while it waits for its input."""
    with subprocess.Popen([AETH, "check"], stdin=subprocess.PIPE, stdout=subprocess.PIPE, bufsize=0) as running:
        running.stdin.write(SMALL[:5])
        for held_up in (signal.SIGSTOP, signal.SIGCONT) * 3:
            time.sleep(0.05)
            running.send_signal(held_up)
        running.stdin.write(SMALL[5:])
        running.stdin.close()
        return running.wait(SECONDS), running.stdout.read()


def devices():
    """What each device is, what is answered with it, and what should be."""
    fault, unwritten = (9, b"refused read fault\n"), (10, b"")
    with open("/dev/full", "wb") as full, open("/dev/zero", "rb") as endless:
        yield "a full device", checked(input=SMALL, stdout=full), unwritten
        yield "an input without end", checked(stdin=endless, stdout=subprocess.PIPE), (11, b"refused too long\n")
    read, write = os.pipe()
    os.close(read)
    yield "a pipe that nobody reads", checked(input=SMALL, stdout=write), unwritten
    os.close(write)
    yield "no output", checked(input=SMALL, preexec_fn=lambda: os.close(1)), unwritten
    yield "no input", checked(stdout=subprocess.PIPE, preexec_fn=lambda: os.close(0)), fault
    yield "2 GiB", huge(), (11, b"refused too long\n")
    yield "a file that grows", growing(), True
    yield "a terminal that hangs up", hung_up(), fault
    yield "a run that is stopped", stopped(), (0, b"1 fn main a:u8\n2 end u8\n")


def main():
    answers = [*untouched(), *piecewise()]
    answers += [(found == wanted, f"{name}: {found}, not {wanted}") for name, found, wanted in devices()]
    for words, source, room, wanted in cases():
        found = answer(words, source, room)
        answers.append((found == wanted, f"{words} answers {found[0]} {found[1][:60]}, not {wanted}"))
    for right, name in answers:
        if not right:
            print(f"faults: {name}")
    failed = sum(not right for right, _ in answers)
    print(f"faults: {len(answers) - failed} passed, {failed} failed")
    return failed > 0


sys.exit(main())
