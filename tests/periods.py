#!/usr/bin/env python3
"""periods.py [REPOSITORY]

Demand 3 is about periods that `fresh` made and that the calls handed back. This lists every public
function and constant of all crates whose type names a period, or a type that holds one. Exits with
1 where crate `period` has one beside those of the claim, another crate one beside those that pass a
period on, or a field of `Period` is public. Which functions are claimed is read from the claim.
"""
import glob
import os
import re
import sys

CLAIM = "crates/demand3/proofs/Demand3.antt"
# They hand the period that they are given to functions of the claim, or back as it is. A period's
# fields being private, another crate can do no more with one.
PASSING_ON = {"day::Progress::take_day", "month::days::days"}

TOKEN = re.compile(r"""//[^\n]*|/\*.*?\*/|b?"(?:\\.|[^"\\])*"|b'(?:\\.|[^\\'])+'|\w+|\S""", re.S)
BRACKETS = {"(": 1, "[": 1, "{": 1, ")": -1, "]": -1, "}": -1}


def tokens_of(path):
    with open(path, encoding="utf8") as file:
        return [token for token in TOKEN.findall(file.read()) if token[:2] not in ("//", "/*")]


def past(tokens, at):
    """The index after what stands at `at`: a token, or a bracket with all that is in it."""
    depth = 0
    while True:
        depth += BRACKETS.get(tokens[at], 0)
        at += 1
        if depth <= 0:
            return at


def until(tokens, at, ends):
    """The index of the first of `ends` from `at` on that stands in no bracket."""
    while tokens[at] not in ends:
        at = past(tokens, at)
    return at


def items(tokens, path, of=()):
    """Of each item its kind, its path, whether it is public, and the tokens of its type. `of` is
    the head of the impl block that the items stand in; what it has of a trait is public. A derive
    is a function by the trait's name, but for `Clone` and `Copy`, which give the same value, and
    `Drop`, which gives none."""
    at, public, derived = 0, "for" in of, []
    while at < len(tokens):
        word, first, at = tokens[at], at + 1, past(tokens, at)
        if word == "pub":
            public = True
            at = past(tokens, at) if tokens[at] == "(" else at
            continue
        if word == "fn":
            end = until(tokens, first, {"{", "requires", "ensures"})
            named = tokens[first + 1:end]
            if {"self", "Self"} & set(named):
                named += of
            yield word, path + [tokens[first]], public, named
            while tokens[end] != "{":  # a clause is text in braces
                end = past(tokens, until(tokens, end, {"{"}))
            at = past(tokens, end)
        elif word in ("struct", "enum"):
            end = until(tokens, first, {"{", "(", ";"})
            at = past(tokens, end)
            yield word, path + [tokens[first]], public, tokens[end:at]
            yield from (("fn", path + [tokens[first], trait], True, [tokens[first]])
                        for trait in derived if trait[0].isupper() and trait not in ("Clone", "Copy", "Drop"))
        elif word in ("type", "use") or word in ("const", "static") and tokens[first] != "fn":
            end = until(tokens, first, {";"} if word in ("type", "use") else {"=", ";"})
            at = past(tokens, until(tokens, end, {";"}))
            yield word, path + [tokens[first]], public, tokens[first:end]
        elif word in ("mod", "impl"):
            end = until(tokens, first, {"{", ";"})
            at = past(tokens, end)
            head, inside = tokens[first:end], tokens[end + 1:at - 1]
            name = [token for token in head if word == "mod" or token[0].isupper()][-1]
            yield from items(inside, path + [name], head if word == "impl" else ())
        else:  # an attribute, or a word such as `extern`, before an item
            if word == "[" and tokens[first] == "derive":
                derived += tokens[first:at]
            continue
        public, derived = "for" in of, []


def all_items(root):
    crates = os.path.join(root, "crates")
    for place in sorted(glob.glob(os.path.join(crates, "*/src/**/*.rt"), recursive=True)):
        crate, _, *folders, file = os.path.relpath(place, crates).split(os.sep)
        module = [] if file in ("lib.rt", "main.rt", "mod.rt") else [file[:-len(".rt")]]
        yield from items(tokens_of(place), [crate] + folders + module)


def holders(found):
    """The types that are a period or hold one, under every name that they have."""
    names, before = {"Period"}, 0
    while before < len(names):
        before = len(names)
        for kind, path, _, named in found:
            if kind in ("struct", "enum", "type") and names & set(named):
                names.add(path[-1])
            elif kind == "use":
                names |= {new for old, word, new in zip(named, named[1:], named[2:])
                          if word == "as" and old in names}
    return names


def claimed(root):
    """The functions that the claim is about: the one that every list starts from, and the calls.
    `FromFresh` and `Called` have calls of what `CallOf` names, whose definition has the modules."""
    with open(os.path.join(root, CLAIM), encoding="utf8") as file:
        text = file.read()
    uses = re.findall(r"^use Rattle\.(\w+)\.specs\.contracts\.(\S+) as (\S+)$", text, re.M)
    modules = {name: f"{crate}.{module}" for crate, module, name in uses}
    records = [re.search(rf"pub record {head}\b.*?\n\n", text, re.S)[0]
               for head in ("FromFresh", "Called")]
    called = [name for part in records for name in re.findall(r"CallOf \(?(\w+)", part)]
    defined = [re.search(rf"pub {name} : .*?\n\n", text, re.S)[0] for name in called]
    return {modules[name].replace(".", "::")
            for part in defined for name in re.findall(r"ended = (\S+)\.ended;", part)}


def main():
    here = os.path.dirname(os.path.abspath(__file__))
    root = sys.argv[1] if sys.argv[1:] else os.path.join(here, "..")
    found = list(all_items(root))
    names, due = holders(found), claimed(root) | PASSING_ON
    listed = {"::".join(path) for kind, path, public, named in found
              if public and kind in ("fn", "const", "static") and names & set(named)}
    wrong = [f"{name} has a period in its type and is neither claimed nor known to pass it on"
             for name in sorted(listed - due)]
    wrong += [f"{name} is no public function with a period in its type"
              for name in sorted(due - listed)]
    fields = [named for kind, path, _, named in found
              if (kind, path) == ("struct", ["period", "Period"])]
    if len(fields) != 1 or "pub" in fields[0]:
        wrong.append("period::Period is not one struct with private fields")

    print("\n".join(sorted(listed)))
    print(f"{len(listed)} with {', '.join(sorted(names))} in their type, {len(wrong)} wrong")
    for line in wrong:
        print(line)
    sys.exit(1 if wrong else 0)


if __name__ == "__main__":
    main()
