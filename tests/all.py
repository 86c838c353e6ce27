#!/usr/bin/env python3
"""all.py [--definitions]

Runs every check beside the gate, one after another, and prints the last line of each, all of it where it fails, and how many passed.
Exits with 1 where one failed. target/bin/sizing has to be there; nothing is built but, for step.py, its crate. With --definitions the
wrong definitions are tried too, which takes some half hour.
"""
import argparse
import os
import subprocess
import sys
import time

HERE = os.path.dirname(os.path.abspath(__file__))
PROGRAM = os.path.join(HERE, "..", "target", "bin", "sizing")
CHECKS = [["figures.py"], ["tables.py", "--check"], ["periods.py"], ["step.py"], ["examples.py", PROGRAM], ["vectors.py", PROGRAM],
          ["program.py", PROGRAM], ["command.py", PROGRAM], ["compare.py", PROGRAM, "--months", "20000"]]


def passed(script, *words):
    began = time.monotonic()
    done = subprocess.run([sys.executable, os.path.join(HERE, script), *words], stdout=subprocess.PIPE, stderr=subprocess.STDOUT)
    said = done.stdout.decode(errors="replace").rstrip("\n")
    verdict = f"passed ({time.monotonic() - began:.0f} s)" if done.returncode == 0 else "FAILED"
    last = [line for line in said.split("\n") if not line.startswith(" ")][-1:]     # compare.py has a table under its last line
    print(f"{script} {verdict}: {last[0] if done.returncode == 0 and last else chr(10) + said}", flush=True)
    return done.returncode == 0


def main():
    parser = argparse.ArgumentParser(description=__doc__, formatter_class=argparse.RawDescriptionHelpFormatter)
    parser.add_argument("--definitions", action="store_true", help="the wrong definitions too")
    given = parser.parse_args()
    if not os.access(PROGRAM, os.X_OK):
        sys.exit("target/bin/sizing is not there: ./sizing builds it")
    checks = CHECKS + [["wrong_definitions.py"]] * given.definitions
    verdicts = [passed(*check) for check in checks]
    print(f"{verdicts.count(True)} passed, {verdicts.count(False)} failed")
    sys.exit(0 if all(verdicts) else 1)


if __name__ == "__main__":
    main()
