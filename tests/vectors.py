#!/usr/bin/env python3
"""vectors.py PROGRAM

Runs PROGRAM on each text of tests/texts.py by itself, those of `vectors` and the worked ones, and compares its report byte for byte
with the recalculation. Prints those that differ, by their line there, and how many texts there were. Exits with 1 where any differ.
"""
import os
import sys

import recalculation
import texts
from compare import ran


def main():
    program = os.path.abspath(sys.argv[1])
    names = {text.encode("latin-1"): name for name, text in texts.VECTORS + texts.WORKED}
    differ = [name for text, name in names.items() if ran(program, text) != (recalculation.report(text), None)]
    for name in differ:
        print("different:", name)
    print(f"{len(names)} texts, {len(differ)} different")
    sys.exit(1 if differ else 0)


if __name__ == "__main__":
    main()
