#!/usr/bin/env python3
"""tables.py [--check]

Writes the tables anew that hold texts with their reports: the input and output of `vectors` and the worked texts, from tests/texts.py;
and the reports of the examples and of the programs that run one month. The recalculation gives every report, never the
program. Of WorkedTexts.antt only what stands between its two marks is written. Prints what has changed. With --check it writes
nothing, and exits with 1 where a file is not as it would be written.
"""
import argparse
import os
import sys

import recalculation
import texts

TOP = os.path.join(os.path.dirname(os.path.abspath(__file__)), "..")
WORKED = "crates/methodology/proofs/WorkedTexts.antt"
MARKS = "-- What stands from here on is written by tests/tables.py, from tests/texts.py.\n", "-- Up to here it is written.\n"
ROOM = 524_288              # as much as `vectors` reads


def held(path):
    """What stands in a file of the repository; None where it is not there."""
    try:
        with open(os.path.join(TOP, path), "rb") as file:
            return file.read()
    except FileNotFoundError:
        return None


# The input and output of `vectors`

def joined(word, parts):
    """Each part after a line with the word, its number and how many bytes it has."""
    return b"".join(b"%s\t%d\t%d\n" % (word, number, len(part)) + part for number, part in enumerate(parts))


def vectors():
    months = [text.encode("latin-1") for _, text in texts.VECTORS]
    stdin, stdout = joined(b"month", months), joined(b"report", map(recalculation.report, months))
    assert len(stdin) <= ROOM, "more than vectors reads"
    return {"crates/vectors/stdin": stdin, "crates/vectors/stdout": stdout}


# The worked texts

ESCAPES = {"\t": "\\t", "\n": "\\n", "\r": "\\r", '"': '\\"', "\\": "\\\\"}


def literal(text):
    """A string that has each byte as a character."""
    return '"%s"' % "".join(ESCAPES.get(one) or (one if one.isprintable() else "\\u{%x}" % ord(one)) for one in text)


def worked():
    rows = []
    for name, text in texts.WORKED:
        report = recalculation.report(text.encode("latin-1")).decode("ascii")
        rows.append(f"    -- {name}\n    {'∷ ' if rows else ''}({literal(text)} gives {literal(report)})\n")
    return "pub texts : List Worked\ntexts =\n" + "".join(rows) + "    ∷ []\n\n"


def worked_texts():
    start, end = MARKS
    file = held(WORKED).decode("utf8")
    assert file.count(start) == file.count(end) == 1, f"{WORKED} has not its two marks"
    before, rest = file.split(start)
    return {WORKED: (before + start + worked() + end + rest.split(end)[1]).encode("utf8")}


# Reports that are stored with their months

def reports():
    """Of the examples, the first of which is the texts' own, and of the programs that run one month."""
    made = {"examples/printed.month": texts.example().encode("ascii"), "crates/several_days/stdin": held("examples/small.month")}
    pairs = [(f"crates/{crate}/stdin", f"crates/{crate}/stdout") for crate in ("several_days", "sizing")]
    pairs += [(f"examples/{name}", f"examples/{name[:-len('month')]}report")
              for name in sorted(os.listdir(os.path.join(TOP, "examples"))) if name.endswith(".month")]
    for month, report in pairs:
        made[report] = recalculation.report(made.get(month) or held(month))
    return made


def main():
    parser = argparse.ArgumentParser(description=__doc__, formatter_class=argparse.RawDescriptionHelpFormatter)
    parser.add_argument("--check", action="store_true", help="write nothing")
    given = parser.parse_args()
    made = {**vectors(), **worked_texts(), **reports()}
    changed = sorted(path for path in made if made[path] != held(path))
    for path in changed:
        print(path, "is not as it would be written" if given.check else "written")
        if not given.check:
            with open(os.path.join(TOP, path), "wb") as file:
                file.write(made[path])
    print(f"{len(made)} files, {len(texts.WORKED)} worked texts, {len(texts.VECTORS)} vectors: {len(changed)} changed")
    sys.exit(1 if given.check and changed else 0)


if __name__ == "__main__":
    main()
