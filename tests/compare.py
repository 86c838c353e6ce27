#!/usr/bin/env python3
"""compare.py PROGRAM [--months N] [--seed S] [--vectors DIR] [--stop] [--save PLACE]

Runs PROGRAM on N generated months, and on all of a directory of vectors, and compares what it
prints byte for byte with the recalculation. Prints how many months there were, how many differ,
the first that does (saved to a file), how many have several accepted days, how many have days
without losses, by their place among the accepted days, and how the reports end. Exits with 1 where
any differ.
A program that is ended by a signal, or takes a minute, differs too.
"""
import argparse
import glob
import gzip
import multiprocessing
import os
import subprocess
import sys
import tempfile
from collections import Counter
from itertools import zip_longest

import months
import recalculation

PLACES = ["first", "between", "last", "in a row", "all"]
ENDS = ["fund", "fund 0"] + [f"refused {row}" for row in (1, 3, 4, 5, 6, 9, 10)]


def ran(program, text):
    """What the program prints, and what else went wrong with it, if anything."""
    try:
        done = subprocess.run([program], input=text, stdout=subprocess.PIPE,
                              stderr=subprocess.DEVNULL, timeout=60)
    except subprocess.TimeoutExpired as late:
        return late.stdout or b"", "took a minute"
    return done.stdout, f"ended by signal {-done.returncode}" if done.returncode < 0 else None


def end_of(report):
    """How a report ends: in a refusal, in a fund, or in that of a month in which no day counts."""
    fields = report.rstrip(b"\n").rsplit(b"\n", 1)[-1].split(b"\t")
    if fields[0] == b"refused":
        return "refused " + fields[1].decode()
    return "fund 0" if b"\nfund\t0\t" in b"\n" + report else "fund"


def days_of(report):
    """Of each accepted day of a report whether it is one without losses."""
    return [line.split(b"\t")[2] == b"0" for line in report.split(b"\n") if line.startswith(b"day\t")]


def places_of(days):
    """Where days without losses stand among the accepted days."""
    return [place for place, holds in zip(PLACES, (
        days and days[0], any(days[1:-1]), len(days) > 1 and days[-1],
        any(one and other for one, other in zip(days, days[1:])), days and all(days))) if holds]


def one(task):
    """Compares one month: its index, its accepted days, how its report should end, and whether it is the same."""
    program, seed, index = task
    text = months.month(seed, index)
    due = recalculation.report(text)
    printed, wrong = ran(program, text)
    return index, days_of(due), end_of(due), printed == due and not wrong


def vectors_of(directory):
    """Name, month and report of each vector."""
    for path in sorted(glob.glob(os.path.join(directory, "*.month*"))):
        name = path[:path.rindex(".month")]
        with (gzip.open if path.endswith(".gz") else open)(path, "rb") as month, \
                open(name + ".report", "rb") as report:
            yield os.path.basename(name), month.read(), report.read()


def save(what, program, text, place):
    """Saves a month that differs, what is due and what the program prints."""
    due = recalculation.report(text)
    printed, wrong = ran(program, text)
    for end, held in ((".month", text), (".due", due), (".printed", printed)):
        with open(place + end, "wb") as file:
            file.write(held)
    print(f"first to differ: {what}, saved as {place}.month, .due and .printed")
    if wrong:
        print(f"the program {wrong}")
    for number, (left, right) in enumerate(
            zip_longest(due.split(b"\n"), printed.split(b"\n"), fillvalue=b""), 1):
        if left != right:
            print(f"line {number} of the report\n  due      {left.decode()}"
                  f"\n  printed  {right.decode(errors='replace')}")
            break


def main():
    parser = argparse.ArgumentParser(description=__doc__.split("\n\n")[1])
    parser.add_argument("program")
    parser.add_argument("--months", type=int, default=20_000)
    parser.add_argument("--seed", type=int, default=1)
    parser.add_argument("--vectors", metavar="DIR", help="months with their reports")
    parser.add_argument("--stop", action="store_true", help="stop at the first that differs")
    parser.add_argument("--save", default=os.path.join(tempfile.gettempdir(), "differs"))
    given = parser.parse_args()
    program = os.path.abspath(given.program)
    if not os.access(program, os.X_OK):
        parser.error(f"{given.program} is no program")
    differ, first = 0, None

    if given.vectors:
        vectors = list(vectors_of(given.vectors))
        for name, text, report in vectors:
            if recalculation.report(text) != report:
                print(f"the recalculation itself differs from vector {name}")
                differ += 1
            if ran(program, text) != (report, None):
                differ += 1
                first = first or (name, text)
        print(f"{len(vectors)} vectors, {differ} different")

    in_vectors, count, several, without, places, ends = differ, 0, 0, 0, Counter(), Counter()
    tasks = ((program, given.seed, index) for index in range(given.months))
    with multiprocessing.Pool(2) as pool:
        for index, days, end, same in pool.imap(one, tasks, chunksize=20):
            count += 1
            several += len(days) > 1
            without += any(days)
            places.update(places_of(days))
            ends[end] += 1
            if not same:
                differ += 1
                first = first or (f"month {index} of seed {given.seed}",
                                  months.month(given.seed, index))
                if given.stop:
                    break
    print(f"{count} months, {several} of them with several accepted days, {differ - in_vectors} different")
    print(f"{without} of them have days without losses: " + ", ".join(f"{place} {places[place]}" for place in PLACES))
    for end in ENDS:
        print(f"  {end:10}{ends[end]:7}{100 * ends[end] / max(1, count):7.1f}%")
    if first:
        save(first[0], program, first[1], given.save)
    sys.exit(1 if differ else 0)


if __name__ == "__main__":
    main()
