#!/usr/bin/env python3
"""step.py [REPOSITORY]

The step from one member's accounts to its EUL keeps no buffer and has one loop over the accounts. This builds the crate that has the step
and reads its functions, and those of the library that they call, as the compiler has them. Exits with 1 where the step, or a function
that it calls,

- has a local that holds or refers to an array or to anything else than numbers, truth values and structs of them, lies in memory, or is
  a reference by which something can be written; or has locals for more than 48 numbers, where a member may have 256 accounts;
- writes through a reference, has another loop than is known, calls itself in the end, or does what is not known here;

where a day's losses or its EULs under scenarios are not worked out by it; and where one of the crate's other functions keeps another array
than is known. Needs rt on the path.
"""
import json
import os
import subprocess
import sys

CRATE, STEP, ROW = "exposure", "exposure::accounts::Accounts::eul", "exposure::accounts::Accounts::row"
MOST = 48
STATEMENTS = set("Seq Skip Assign Call If Switch Block Loop Exit Return Unreachable".split())
# The step goes over a member's accounts and, for the own EUL, over the stresses of each.
LOOPS = {STEP: 1, "exposure::account::largest_decrease": 1}
# Who has to call whom: EULs under scenarios are worked out row by row, losses from own EULs.
CALLS = {"exposure::day::own_max_eul": ROW, ROW: STEP, "exposure::day::member_losses": STEP}
# A member's EULs by scenario, the group rows, and what there is of each member: its group, its loss.
EULS, GROUP_ROWS, MEMBERS = "[int64; 16]", "[[int64; 16]; 32]", "[int64; 32]"
ARRAYS = {
    ROW: {EULS}, "exposure::rows::added": {EULS}, "exposure::rows::row_greatest": {EULS},
    "exposure::rows::add_row": {EULS, GROUP_ROWS}, "exposure::rows::rows_greatest": {EULS, GROUP_ROWS},
    "exposure::day::own_max_eul": {EULS, GROUP_ROWS, MEMBERS},
    "exposure::day::member_losses": {MEMBERS}, "exposure::day::day_figures": {MEMBERS},
}


def functions(place):
    with open(os.path.join(place, "toolchain", "mir.json"), encoding="utf8") as file:
        return dict(json.load(file))


def under(function, word):
    """What stands under each statement of this name; a body is a list of statements, and what is inside one comes after it."""
    return [statement[word] for statement in function["body"] if isinstance(statement, dict) and word in statement]


def calls(function):
    """The functions that it calls; None where one is not called by its name."""
    return [callee.get("Fn", [None])[0] for callee, *_ in under(function, "Call")]


def reached(code, name, above=()):
    """The function and all that it calls, each once."""
    if name in above:
        sys.exit(f"{name} calls itself in the end")
    if name not in code:
        sys.exit(f"{above[-1] if above else 'nothing'} calls {name or 'a function by another way than its name'}, whose code is not known")
    found = {name: code[name]}
    for called in calls(code[name]):
        found.update(reached(code, called, above + (name,)))
    return found


def word_of(type_):
    return type_ if isinstance(type_, str) else next(iter(type_))


def fields(type_, declared):
    """The types that a value of this type has side by side; those that it was given as arguments stand where its fields name them."""
    if word_of(type_) == "Named":
        named, arguments = type_["Named"]
        (shape, inside), = declared[named["name"]]["shape"].items()
        return (inside if shape == "Fields" else sum(inside, [])) + arguments
    return type_["Struct"][1] if word_of(type_) == "Struct" else []


def parts(type_, declared):
    """The type and all that it is made of, what its references refer to with it."""
    yield type_
    word = word_of(type_)
    for part in [type_["Ref"][2]] if word == "Ref" else [type_["Array"][0]] if word == "Array" else fields(type_, declared):
        yield from parts(part, declared)


def size(type_, declared):
    """For how many numbers of 64 bits a value has room."""
    if word_of(type_) == "Int":
        return -(-type_["Int"] // 64)
    return sum(size(part, declared) for part in fields(type_, declared)) or 1


def spelled(type_):
    if word_of(type_) == "Array":
        element, length = type_["Array"]
        return f"[{spelled(element)}; {' '.join(map(str, length.values()))}]"
    return f"int{type_['Int']}" if word_of(type_) == "Int" else json.dumps(type_)


def read_only(type_, declared, whole):
    """A type that a local of the step may be made of. A pointer by itself is the place of an element that is read."""
    word = word_of(type_)
    if word == "Named":
        return not declared[type_["Named"][0]["name"]]["is_cell"]
    return word in ("Int", "Bool", "Unit", "Struct", "Param") or word == "Ref" and type_["Ref"][1] == "Imm" or word == "Ptr" and whole


def faults(name, function):
    """What of a function of the step could be a buffer, or fill one."""
    declared = {type_["name"]: type_ for type_ in function["types"]}
    for number, local in enumerate(function["locals"]):
        for part in parts(local["ty"], declared):
            if not read_only(part, declared, part is local["ty"]):
                yield f"local {number} is made of {spelled(part)}"
        if local["home"] != "ValueLocal":
            yield f"local {number} lies in memory"
    if sum(size(local["ty"], declared) for local in function["locals"]) > MOST or function["generics"]["types"]:
        yield f"has locals for more than {MOST} numbers, or of types that its caller names"
    unknown = {word_of(statement) for statement in function["body"]} - STATEMENTS
    if unknown:
        yield f"does what is not known here: {' '.join(unknown)}"
    written = [place for place, _ in under(function, "Assign")] + [place for *_, place in under(function, "Call")]
    if any("Deref" in step for place in written for step in place["steps"]):
        yield "writes through a reference"
    if function["body"].count("Loop") != LOOPS.get(name, 0):
        yield "has another loop than is known"


def main():
    top = sys.argv[1] if sys.argv[1:] else os.path.join(os.path.dirname(os.path.abspath(__file__)), "..")
    crate = os.path.join(top, "crates", CRATE)
    build = subprocess.run(["rt", "lib"], cwd=crate, stdout=subprocess.PIPE, stderr=subprocess.STDOUT, text=True)
    if build.returncode != 0:
        sys.exit(f"{build.stdout}crate {CRATE} does not build")
    # rt doc prints the path of a page that lies beside the library
    kit = os.path.dirname(subprocess.run(["rt", "doc"], check=True, stdout=subprocess.PIPE, text=True).stdout)
    own = functions(os.path.join(crate, "out", "rlib", CRATE + ".rlib"))
    step = reached({**functions(os.path.join(kit, "rlibs", "core.rlib")), **own}, STEP)
    wrong = [f"{name} {fault}" for name, function in step.items() for fault in faults(name, function)]
    wrong += [f"{name} does not call {called}" for name, called in CALLS.items() if name not in own or called not in calls(own[name])]
    for name, function in own.items():
        declared = {type_["name"]: type_ for type_ in function["types"]}
        kept = {spelled(part) for local in function["locals"] for part in parts(local["ty"], declared) if word_of(part) == "Array"}
        if kept != ARRAYS.get(name, set()):
            wrong.append(f"{name} keeps other arrays than are known: {', '.join(sorted(kept)) or 'none'}")
    print("\n".join(sorted(step)))
    print("\n".join(wrong + [f"{len(step)} functions in the step, {len(wrong)} wrong"]))
    sys.exit(1 if wrong else 0)


if __name__ == "__main__":
    main()
