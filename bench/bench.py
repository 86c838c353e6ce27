#!/usr/bin/env python3
"""bench.py [PROGRAM] [--rounds N] [--seed S]

Times PROGRAM (target/bin/sizing by default) against sizing_plain.rs, which it builds first, on
months made from a seed: one of full size, and others with fewer accounts, scenarios or days.
Both must print the same. They run in turn, as whole processes from start to end; the printed
month, which is short, shows how much of a time that is by itself. Where valgrind is installed,
the instructions of each are counted too, which hardly vary (a byte that `rep stosb` clears counts
as one). Prints a Markdown table; a ratio is PROGRAM's figure by that of the plain program.
"""
import argparse
import os
import random
import re
import shutil
import statistics
import subprocess
import sys
import tempfile
import time

HERE = os.path.dirname(os.path.abspath(__file__))
TOP = os.path.dirname(HERE)
sys.path.append(os.path.join(TOP, "tests"))
import months  # noqa: E402

RUSTC = "rustc --edition 2021 -C opt-level=3 -C panic=abort -C codegen-units=1".split()
MEMBERS, SCENARIOS, ACCOUNTS, DAYS = 32, 16, 256, 31


def month(seed, accounts=ACCOUNTS, scenarios=SCENARIOS, days=DAYS):
    """Every kind, groups, and amounts up to the limit; a day's lines as long as they may be."""
    rng = random.Random(f"{seed} {accounts} {scenarios} {days}")
    made = []
    for number in range(1, days + 1):
        day = months.full_day(rng, number, MEMBERS, scenarios, accounts)
        if months.acct_bytes(day) > months.DAY_BYTES:
            months.sized(rng, day, months.DAY_BYTES)
        made.append(day)
    groups = [rng.randint(0, 8) for _ in range(MEMBERS)]
    return months.joined(months.Month(MEMBERS, scenarios, groups, made).lines())


def texts(seed):
    """Name and text of each month."""
    with open(os.path.join(TOP, "examples", "printed.month"), "rb") as printed:
        yield "the printed month", printed.read()
    yield (f"full size: {ACCOUNTS} accounts a day, {SCENARIOS} scenarios, {DAYS} days",
           month(seed))
    for accounts in (32, 64, 128):
        yield f"{accounts} accounts a day", month(seed, accounts=accounts)
    for scenarios in (1, 2, 4, 8):
        yield f"{scenarios} scenario" + "s" * (scenarios > 1), month(seed, scenarios=scenarios)
    for days in (1, 4, 8, 16):
        yield f"{days} day" + "s" * (days > 1), month(seed, days=days)


def report(program, path):
    with open(path, "rb") as text:
        return subprocess.run([program], stdin=text, stdout=subprocess.PIPE).stdout


def milliseconds(program, path):
    """The time of one whole process."""
    files = [(os.POSIX_SPAWN_OPEN, 0, path, os.O_RDONLY, 0),
             (os.POSIX_SPAWN_OPEN, 1, os.devnull, os.O_WRONLY, 0)]
    start = time.perf_counter()
    os.waitpid(os.posix_spawn(program, [program], os.environ, file_actions=files), 0)
    return 1000 * (time.perf_counter() - start)


def times(programs, path, rounds):
    """Each program's times, after one run unmeasured; who goes first changes every round."""
    taken = {program: [] for program in programs}
    for program in programs:
        milliseconds(program, path)
    for i in range(rounds):
        for program in programs[::-1 if i % 2 else 1]:
            taken[program].append(milliseconds(program, path))
    return [taken[program] for program in programs]


def instructions(program, path):
    with open(path, "rb") as text:
        done = subprocess.run(
            ["valgrind", "--tool=callgrind", f"--callgrind-out-file={os.devnull}", program],
            stdin=text, stdout=subprocess.DEVNULL, stderr=subprocess.PIPE, check=True)
    return int(re.search(rb"Collected : (\d+)", done.stderr)[1])


def row(cells):
    print("| " + " | ".join(cells) + " |", flush=True)


def main():
    parser = argparse.ArgumentParser(description=__doc__.split("\n\n")[1])
    parser.add_argument("program", nargs="?", default=os.path.join(TOP, "target/bin/sizing"))
    parser.add_argument("--rounds", type=int, default=500)
    parser.add_argument("--seed", type=int, default=1)
    given = parser.parse_args()
    if not os.access(given.program, os.X_OK):
        parser.error(f"{given.program} is no program")
    counting = shutil.which("valgrind")

    with tempfile.TemporaryDirectory() as work:
        plain, path = os.path.join(work, "plain"), os.path.join(work, "month")
        subprocess.run(RUSTC + ["-o", plain, os.path.join(HERE, "sizing_plain.rs")], check=True)
        programs = [os.path.abspath(given.program), plain]

        head = ["month", "bytes", "ms, least / median", "plain", "ratio"]
        if counting:
            head += ["million instructions", "plain", "ratio"]
        row(head)
        row(["---"] + ["---:"] * (len(head) - 1))
        for name, text in texts(given.seed):
            with open(path, "wb") as file:
                file.write(text)
            if report(programs[0], path) != report(programs[1], path):
                sys.exit(f"{name}: the two reports differ")
            least, median = zip(*((min(taken), statistics.median(taken))
                                  for taken in times(programs, path, given.rounds)))
            cells = [name, f"{len(text):,}"]
            cells += [f"{a:.2f} / {b:.2f}" for a, b in zip(least, median)]
            cells.append(f"{least[0] / least[1]:.2f} / {median[0] / median[1]:.2f}")
            if counting:
                counts = [instructions(program, path) for program in programs]
                cells += [f"{count / 1e6:.2f}" for count in counts]
                cells.append(f"{counts[0] / counts[1]:.2f}")
            row(cells)


if __name__ == "__main__":
    main()
