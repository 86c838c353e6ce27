#!/usr/bin/env python3
"""design_counts.py [REPOSITORY]

Counts the places of docs/DESIGN-PASS.md in the code (crates/*/src), point by point, and lists each
with its file and line. It finds forms, not faults: a place that it lists may be right as it is.
"""
import glob
import os
import re
import sys

ROOT = sys.argv[1] if len(sys.argv) > 1 else os.path.join(os.path.dirname(os.path.abspath(__file__)), "..")
KEYWORDS = set("fn pub mut let if else for in while loop match return true false as use mod struct enum impl const self Self Some None Ok Err".split())


def functions(text):
    """Each function: its first line, name, parameters, clauses, body."""
    for match in re.finditer(r"^( *)(?:pub )?fn (\w+)[^\n(]*\(", text, re.M):
        end = text.index("\n" + match.group(1) + "}", match.start()) if "\n" + match.group(1) + "}" in text[match.start():] else len(text)
        whole = text[match.start():end]
        opening = re.search(r"^%s\{|\) (?:-> [^{\n]+ )?\{$" % match.group(1), whole, re.M)
        head, body = (whole[:opening.end()], whole[opening.end():]) if opening else (whole, "")
        inner = re.sub(r"[^(]*\(", "", head.split("\n    requires")[0].split("\n    ensures")[0], count=1)
        yield text.count("\n", 0, match.start()) + 1, match.group(2), re.findall(r"(\w+): ([^,\n)]+)", inner), head, body


def shape(body):
    tokens = re.findall(r"\w+|[^\s\w]", re.sub(r"//[^\n]*", "", body))
    return tuple(t if t in KEYWORDS or not re.match(r"\w", t) else "N" if t[0].isdigit() else "X" for t in tokens)


def main():
    files = sorted(glob.glob(os.path.join(ROOT, "crates/*/src/**/*.rt"), recursive=True))
    found = {}

    def add(point, path, line, what):
        found.setdefault(point, []).append("%s:%d: %s" % (os.path.relpath(path, ROOT), line, what.strip()))

    everything = []
    for path in files:
        with open(path, encoding="utf8") as file:
            text = file.read()
        for number, line in enumerate(text.split("\n"), 1):
            if line.lstrip().startswith("//"):
                continue
            if re.match(r"\s*(pub )?enum ", line):
                add("1 own enums", path, number, line)
            if re.match(r"\s*(pub )?\w+: bool,", line):
                add("1 flags with a value beside", path, number, line)
            if re.search(r"\breturn 0;|== 0 \{|if next <= at|< count \{", line) and not re.search(r"% ", line):
                add("1 numbers that may say none", path, number, line)
            if re.search(r"Refusal::Row|Outcome::Refused|\bKIND_[HRAU]\b|(put_refused|refused)\([a-z_.]+, [^)]*\b[0-9]\b", line) and "use " not in line:
                add("1 numbers for kinds and refusals", path, number, line)
            if re.match(r"\s*while ", line):
                add("3 loops by hand", path, number, line)
            if re.search(r"\breturn (true|false);", line):
                add("4 tests written as ladders", path, number, line)
            if re.match(r"\s*(pub )?fn \w*(greater|lesser|same|is_open|is_refused|gain|half_up|decrease|padded|find|field_into)\b", line):
                add("4 library methods written by hand", path, number, line)
        for number, name, parameters, head, body in functions(text):
            everything.append((path, number, name, parameters, head, body))
            names = [n for n, _ in parameters]
            if re.search(r"\b(text|s): &\[u8\]", head) and re.search(r"\b(p|q): usize", head):
                add("6 a text with an index", path, number, name)
            if any(re.match(r"\[", kind) for _, kind in parameters) and set(names) & {"n", "count"}:
                add("6 an array with a length", path, number, name)
            if "columns" in names:
                add("6 parallel columns in one array", path, number, name)
            if any(kind.strip() == "bool" for _, kind in parameters) or re.search(r"if j == 0 \{", body):
                add("7 a switch on which step", path, number, name)
    groups = {}
    for path, number, name, parameters, head, body in everything:
        if len(shape(body)) >= 25:
            groups.setdefault(shape(body), []).append((path, number, name))
    for group in groups.values():
        if len(group) > 1:
            for path, number, name in group:
                add("2 bodies of one shape", path, number, "%s, with %s" % (name, ", ".join(n for _, _, n in group if n != name)))
    facts = {}
    for path, number, name, parameters, head, body in everything:
        for clause in re.findall(r"requires (?:\w+ )?\{ (.*) \}$", head, re.M):
            for fact in clause.split(" × "):
                facts.setdefault(fact.strip(" ()"), []).append((path, number, name))
    for fact, places in sorted(facts.items()):
        if len({p for p in places}) >= 3:
            for path, number, name in places:
                add("5 a fact asked by three functions", path, number, "%s: %s" % (name, fact))
    together = {}
    for path, number, name, parameters, head, body in everything:
        names = [n for n, _ in parameters if n not in ("rt",)]
        for i in range(len(names)):
            for j in range(i + 3, len(names) + 1):
                together.setdefault(tuple(names[i:j]), []).append((path, number, name))
    kept = {g: p for g, p in together.items() if len(p) >= 3}
    longest = {}
    for group, places in kept.items():
        for place in places:
            if len(group) > len(longest.get(place, ())):
                longest[place] = group
    for (path, number, name), group in sorted(longest.items()):
        add("5 parameters that travel together", path, number, "%s: %s" % (name, ", ".join(group)))
    proofs = glob.glob(os.path.join(ROOT, "crates/*/proofs/**/*.antt"), recursive=True)
    answers = 0
    lines = 0
    for path in proofs:
        with open(path, encoding="utf8") as file:
            text = file.read()
        lines += text.count("\n")
        answers += len(re.findall(r"^(?:abbrev )?pub [\w-]+ : goal\.", text, re.M))
    for point in sorted(found):
        print("%s: %d" % (point, len(found[point])))
        for place in found[point]:
            print("    " + place)
    print("8 answers: %d, in %d lines of proofs" % (answers, lines))


main()
