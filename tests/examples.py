#!/usr/bin/env python3
"""examples.py PROGRAM

Runs PROGRAM on every month of examples/ and holds what it prints, and the recalculation, to the
report beside it; and small.svg to what share_chart.py draws. Exits with 1 where any differ.
"""
import os
import subprocess
import sys

import recalculation
from compare import ran, vectors_of

PLACE = os.path.join(os.path.dirname(os.path.abspath(__file__)), "..", "examples")
program = os.path.abspath(sys.argv[1])
differ, months = [], list(vectors_of(PLACE))

for name, text, report in months:
    if ran(program, text) != (report, None) or recalculation.report(text) != report:
        differ.append(name + ".report")

with open(os.path.join(PLACE, "small.report")) as report, \
        open(os.path.join(PLACE, "small.svg"), "rb") as stored:
    drawn = subprocess.run([sys.executable, os.path.join(PLACE, "share_chart.py"), "2"],
                           stdin=report, stdout=subprocess.PIPE).stdout
    if drawn != stored.read():
        differ.append("small.svg")

print(f"{len(months)} examples and a chart: {'different ' + str(differ) if differ else 'all as stored'}")
sys.exit(1 if differ else 0)
