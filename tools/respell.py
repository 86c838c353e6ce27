#!/usr/bin/env python3
"""respell.py: run once at the top of the repository, after the toolchain's own scripts for an older repository. It gives the definitions and
lemmas of specs/ and proofs/ the spelling of today's Rattle: words in snake case, types and modules in camel case. What the library or the
check names keeps its name, and so do functions, inputs and outputs. It stops where two names of one file would fall together."""
import collections
import glob
import os
import re
import sys

STRING = r'"(?:\\.|[^"\\])*"'
TOKEN = r"[^\s(){}\[\];,.λ→↦|=:\"`]+"
PART = re.compile(rf"({STRING})|({TOKEN})")
DECLARED = re.compile(r"^(\s*)((?:abbrev |unfoldable |pub |record |data )*)([^\s:(){}∷,]+)((?:\s+[({].*)?)\s*:(?:\s|$)(.*)")
IMPORT = re.compile(r"^use ([^\s{]+)\.\{(.*)\}\s*$")
# What a script before this one took for a function's lemma, and lemmas that it gave the name that a definition gets here.
MENDED = {"rows_of_lem": "rows_of"}
MENDED.update((n, n + "_lem") for n in ("line_read", "held_by", "taken_in", "end_line", "row_next"))


def respelled(name):
    def word(w):
        if not re.search(r"[A-Za-z]", w) or re.fullmatch(r"[A-Z][A-Za-z0-9]*'*", w):
            return w
        w = re.sub(r"(?<=[A-Za-z0-9'])-(?=[A-Za-z0-9])", "_", w)
        if not re.search(r"[a-z]_|_[a-z0-9]|[a-z][A-Z]", w):
            return w
        w = re.sub(r"([a-z0-9])([A-Z])", r"\1_\2", w)
        w = re.sub(r"([A-Z])([A-Z][a-z])", r"\1_\2", w)
        return w.lower() if w.isascii() else re.sub(r"[A-Z]", lambda m: m.group().lower(), w)
    return "◌".join(word(w) for w in name.split("◌"))


def read(path):
    with open(path, encoding="utf8") as f:
        return f.read()


def own(module):
    return module.startswith("Rattle.") and module.split(".")[1] not in ("std", "core")


def imports(text):
    for line in text.split("\n"):
        m = IMPORT.match(line)
        if m:
            yield m.group(1), [n.strip().split(" as ")[-1] for n in m.group(2).split(",")]


def declared(text, walk):
    """The names that a file declares. A walk's parts are named by the check: there only what is no part of it."""
    inside = False
    for line in text.split("\n"):
        if line.lstrip().startswith("--"):
            continue
        m = DECLARED.match(line)
        if not m or m.group(3) in ("use", "module", "infixr", "infixl", "infix", "unfolding"):
            continue
        name, kind = m.group(3), m.group(5)
        if walk and (kind.lstrip().startswith(("tie.", "{M : Type 1}")) or name.startswith(("invariant-", "decreases-")) or name.endswith("-spec")):
            if not m.group(1):
                continue
        yield name


def main():
    files = sorted(glob.glob("crates/*/specs/**/*.antt", recursive=True) + glob.glob("crates/*/proofs/**/*.antt", recursive=True))
    texts = {p: read(p) for p in files}
    walk = lambda p: p.endswith("/Proof.antt")
    names = {}
    for p, t in texts.items():
        for n in declared(t, walk(p)):
            if not walk(p) and respelled(n) != n:
                names[n] = respelled(n)
    whole = set(n for p, t in texts.items() if not walk(p) for n in declared(t, False))
    # a lemma that would have its function's name gets _lem
    others = collections.Counter(names.values()) + collections.Counter(n for n in whole if n not in names and n not in MENDED)
    for n in names:
        if others[names[n]] > 1 and ("-" in n) and n != "M-is-the-same":
            names[n] += "_lem"
    heads = {}  # the parts of operators, as they stand where one is used
    for n, m in names.items():
        if "◌" in n:
            heads.update({a: b for a, b in zip(n.split("◌"), m.split("◌")) if a != b})
    clash = [(n, m) for n, m in names.items() if m in whole and names.get(m, m) == m]
    back = collections.defaultdict(set)
    for n, m in names.items():
        back[m].add(n)
    together = {m: ns for m, ns in back.items() if len(ns) > 1}

    def table(p, t):
        here = dict(MENDED)
        outside = set(n for mod, ns in imports(t) if not own(mod) for n in ns)
        if walk(p):
            taken = set(n for mod, ns in imports(t) if own(mod) for n in ns)
            here.update({n: names[n] for n in taken if n in names})
            for n in declared(t, True):
                if respelled(n) != n:
                    here[n] = names.get(n, respelled(n))
            for n in list(taken):
                if "◌" in n and n in names:
                    here.update({a: b for a, b in zip(n.split("◌"), names[n].split("◌")) if a != b})
        else:
            here.update(names)
            here.update(heads)
        return {a: b for a, b in here.items() if a not in outside}

    def turn(text, here, clause=None):
        out = []
        for line in text.split("\n"):
            code, mark, said = line, "", ""
            at = None
            for m in re.finditer(rf"{STRING}|(--|//)", line):
                if m.group(1) and (m.start() == 0 or line[m.start() - 1] in " \t") and (m.group(1) == "//") == (clause == "rt"):
                    at = m.start()
                    break
            if at is not None:
                code, said = line[:at], line[at:]
            code = PART.sub(lambda m: m.group(1) or here.get(m.group(2), m.group(2)), code)
            said = re.sub(r"`([^`]+)`", lambda m: "`" + PART.sub(lambda k: k.group(1) or here.get(k.group(2), k.group(2)), m.group(1)) + "`", said)
            out.append(code + said)
        return "\n".join(out)

    fallen = []
    for p, t in texts.items():
        here = table(p, t)
        new = turn(t, here)
        seen = collections.Counter(n for n in declared(new, walk(p)) if not n.startswith("_"))
        before = collections.Counter(declared(t, walk(p)))
        for n, c in seen.items():
            if c > max([before.get(n, 0)] + [before.get(o, 0) for o in before if here.get(o) == n]):
                fallen.append((p, n))
        brought = collections.Counter(n for mod, ns in imports(new) for n in ns)
        for n, c in brought.items():
            if c > 1:
                fallen.append((p, n))
            if n in seen and n not in before:
                fallen.append((p, n))
        texts[p] = new
    for p, n in fallen:
        print(f"falls together: {p}: {n}")
    for n, m in clash:
        print(f"stood already: {n} -> {m}")
    for m, ns in together.items():
        print(f"two names: {sorted(ns)} -> {m}")
    if "--look" in sys.argv:
        return
    for p, t in texts.items():
        with open(p, "w", encoding="utf8") as f:
            f.write(t)
    both = dict(MENDED)
    both.update(names)
    both.update(heads)
    for p in sorted(glob.glob("crates/*/src/**/*.rt", recursive=True)):
        t = read(p)
        with open(p, "w", encoding="utf8") as f:
            f.write(turn(t, both, "rt"))
    for p in sorted(glob.glob("crates/*/must-fail/*.edit")):
        t = read(p)
        head, nl, rest = t.partition("\n")
        with open(p, "w", encoding="utf8") as f:
            f.write(turn(head, both) + nl + turn(rest, both, "edit"))
    made = set(names.values()) | whole
    for p in sorted(glob.glob("*.md") + glob.glob("docs/**/*.md", recursive=True)):
        t = read(p)
        def said(m):
            return "`" + PART.sub(lambda k: k.group(1) or (respelled(k.group(2)) if respelled(k.group(2)) in made else k.group(2)), m.group(1)) + "`"
        with open(p, "w", encoding="utf8") as f:
            f.write(re.sub(r"`([^`\n]+)`", said, t))


main()
