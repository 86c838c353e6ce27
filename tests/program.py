#!/usr/bin/env python3
"""program.py PROGRAM

Runs PROGRAM on its input as a file, in pieces through a pipe and longer than what it reads, and
with an output that is read slowly, and compares each report byte for byte with the recalculation.
Then with an input or an output that is closed or fails: it has to say so on standard error, and
to write no report where a read failed. Prints the runs that are wrong, and how many there were.
Exits with 1 where any is wrong. A program that takes a minute is ended, and wrong.
"""
import array
import fcntl
import os
import random
import resource
import signal
import socket
import subprocess
import sys
import tempfile
import termios
import threading
import time
from contextlib import contextmanager
from functools import cache

import months
import recalculation

TOP = os.path.join(os.path.dirname(os.path.abspath(__file__)), "..")
PIECE = 65_536              # as much as one read asks for, and as a pipe holds
PROGRAM = os.path.abspath(sys.argv[1])
verdicts = []               # of each run, whether it was right


def stored(*path):
    with open(os.path.join(TOP, *path), "rb") as file:
        return file.read()


def of_size(size):
    """A valid month of just so many bytes, its days as long as they may be or nearly so."""
    rng = random.Random(f"{size}")
    days = [months.full_day(rng, number, 32, 16, 256) for number in range(1, size // PIECE + 1)]
    month = months.Month(32, 16, [i % 5 for i in range(32)], days)
    rest = size - len(months.joined(month.lines())) + sum(map(months.acct_bytes, days))
    for left in range(len(days), 0, -1):
        months.sized(rng, days[-left], rest // left)
        rest -= rest // left
    text = months.joined(month.lines())
    assert len(text) == size
    return text


def too_long():
    """31 full days, one more that is refused after all its lines are read, and others after it."""
    rng = random.Random("too long")
    day = months.sized(rng, months.full_day(rng, 1, 32, 16, 256), months.DAY_BYTES)
    days = [months.Day(number, day.accounts) for number in [*range(1, 32), 31, 31, 31]]
    text = months.joined(months.Month(32, 16, [0] * 32, days).lines())
    assert len(text) > months.LONGEST
    return text


@contextmanager
def started(stdin, stdout, **more):
    """A run of the program, which is ended after a minute."""
    with subprocess.Popen([PROGRAM], stdin=stdin, stdout=stdout, stderr=subprocess.PIPE,
                          bufsize=0, **more) as process:
        late = threading.Timer(60, process.kill)
        late.start()
        try:
            yield process
        finally:
            late.cancel()
            process.kill()


def ended(name, process, as_due, word):
    """Judges a run: what it wrote is as due, and it said what failed, or nothing."""
    said, status = process.stderr.read(), process.wait()
    right = as_due() and status >= 0 and (word in said if word else not said)
    verdicts.append(right)
    if not right:
        print(f"wrong: {name} (status {status}, said {said!r})")


@contextmanager
def file_of(text):
    with tempfile.TemporaryFile() as file:
        file.write(text)
        file.seek(0)
        yield file


def held(out):
    """All that stands in an open file."""
    return os.pread(out.fileno(), 1 << 24, 0)


@cache
def due(text):
    return recalculation.report(text)


def unread(fd):
    """How many bytes of a pipe are written and not read."""
    count = array.array("i", [0])
    fcntl.ioctl(fd, termios.FIONREAD, count)
    return count[0]


# Reports

def from_file(name, text):
    with file_of(text) as month, tempfile.TemporaryFile() as out, started(month, out) as process:
        ended(name + ", a file", process, lambda: held(out) == due(text), b"")


def from_pipe(name, text, size, wait=0):
    """Pieces of so many bytes, each once the one before it is read; the end after a wait."""
    with tempfile.TemporaryFile() as out, started(subprocess.PIPE, out) as process:
        pipe, early = process.stdin, False
        try:
            for at in range(0, len(text), size):
                pipe.write(text[at:at + size])
                while unread(pipe) and process.poll() is None:
                    time.sleep(0)
            time.sleep(wait)
            early = wait and process.poll() is not None
            pipe.close()
        except BrokenPipeError:             # it reads no more; its report is judged
            pass
        ended(f"{name}, a pipe by {size}", process,
              lambda: held(out) == due(text) and not early, b"")


def to_slow_reader(name, text, size):
    with file_of(text) as month, started(month, subprocess.PIPE) as process:
        time.sleep(0.2)
        report = b""
        while part := process.stdout.read(size):
            report += part
            time.sleep(0.001)
        ended(f"{name}, read by {size}", process, lambda: report == due(text), b"")


def to_stopped_pipe(name, text):
    """A write that is stopped while the pipe is full ends short, and the rest has to follow."""
    with file_of(text) as month, started(month, subprocess.PIPE) as process:
        while unread(process.stdout) < PIECE and process.poll() is None:
            time.sleep(0.01)
        for which in (signal.SIGSTOP, signal.SIGCONT):
            process.send_signal(which)
            time.sleep(0.1)
        report = b""
        while part := process.stdout.read(PIECE):
            report += part
        ended(name + ", a short write", process, lambda: report == due(text), b"")


# Failures

def input_fails(name, stdin, **more):
    with tempfile.TemporaryFile() as out, started(stdin, out, **more) as process:
        ended("input " + name, process, lambda: held(out) == b"", b"standard input")


def input_breaks(name, text):
    """The text comes, and then the connection is reset: its other end had not read all."""
    ours, theirs = socket.socketpair()
    theirs.send(b"x")
    with tempfile.TemporaryFile() as out, started(theirs, out) as process:
        theirs.close()
        try:
            ours.sendall(text)
        except BrokenPipeError:             # it reads no more, and has to have said why
            pass
        ours.close()
        ended("input breaks after " + name, process, lambda: held(out) == b"", b"standard input")


def output_fails(name, text, stdout, part=lambda: True, **more):
    """SIGPIPE and SIGXFSZ stay ignored, as Python has them, so that the write itself fails."""
    with file_of(text) as month, \
            started(month, stdout, restore_signals=False, **more) as process:
        ended("output " + name, process, part, b"standard output")


def output_cut(text, size):
    """A file that takes so many bytes and no more."""
    with tempfile.TemporaryFile() as out:
        output_fails(f"ends after {size}", text, out, lambda: held(out) == due(text)[:size],
                     preexec_fn=lambda: resource.setrlimit(resource.RLIMIT_FSIZE, (size, size)))


def main():
    printed, small = stored("examples", "printed.month"), stored("examples", "small.month")
    refused, full = stored("examples", "refused.month"), stored("crates", "sizing", "stdin")
    long = too_long()

    texts = [("nothing", b""), ("printed", printed), ("small", small), ("refused", refused),
             ("full", full), ("too long", long),
             ("small and LFs", small.ljust(months.LONGEST + 1, b"\n"))]
    texts += [(f"{size} bytes", of_size(size))
              for size in (PIECE, PIECE + 1, 2 * PIECE, 2 * PIECE + 1)]
    for name, text in texts:
        from_file(name, text)
        from_pipe(name, text, PIECE)
    for name, text, sizes in (("printed", printed, (1,)), ("small", small, (1,)),
                              ("refused", refused, (1, 97)),
                              ("full", full, (4_093, PIECE - 1, PIECE + 1, 1_000_003)),
                              ("too long", long, (4_093, PIECE - 1, PIECE + 1, 1_000_003))):
        for size in sizes:
            from_pipe(name, text, size)
    from_pipe("small, a late end", small, len(small), 0.3)
    from_pipe("full, a late end", full, PIECE, 0.3)
    to_slow_reader("small", small, 1)
    to_slow_reader("full", full, 997)
    to_stopped_pipe("full", full)

    input_fails("closed", None, preexec_fn=lambda: os.close(0))
    folder = os.open(TOP, os.O_RDONLY)
    input_fails("a folder", folder)
    os.close(folder)
    with open(os.devnull, "wb") as null:
        input_fails("open for writing only", null)
    for name, text in (("nothing", b""), ("a part", small[:3_000]), ("a whole month", small),
                       ("a piece", full[:PIECE]), ("some pieces", full[:500_000]),
                       ("a full month", full)):
        input_breaks(name, text)

    output_fails("closed", full, None, preexec_fn=lambda: os.close(1))
    with open("/dev/full", "wb") as disk:
        output_fails("to a full disk", small, disk)
    gone, pipe = os.pipe()
    os.close(gone)
    output_fails("to a reader that is gone", small, pipe)
    os.close(pipe)
    output_cut(small, 1_000)
    output_cut(full, PIECE)

    print(f"{len(verdicts)} runs, {verdicts.count(False)} wrong")
    sys.exit(0 if all(verdicts) else 1)


if __name__ == "__main__":
    main()
