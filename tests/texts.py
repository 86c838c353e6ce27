"""The worked texts and the months of `vectors`, each with a line that says what it is for.

A further field of a line gets its default in the function of that line, and stands in all of them. `tests/tables.py` then writes the
tables anew. A character is a byte.
"""
import itertools
import os

STORED = os.path.join(os.path.dirname(os.path.abspath(__file__)), "stored")
END = "end"


# Lines. A field may be a number or a string, so that one field alone can be wrong.

def line(word, *fields):
    return "\t".join([word, *map(str, fields)])


def period(n, k):
    return line("period", n, k)


def member(number, group=0, first=1, last=31):
    return line("member", number, group, first, last)


def day(number, count):
    return line("day", number, count)


def acct(member, account, kind, base, margin, extra, *stresses):
    return line("acct", member, account, kind, base, margin, extra, *stresses)


def house(member, base):
    """A house account that has this NPV, and 0 under the only scenario."""
    return acct(member, 0, "H", base, 0, 0, 0)


def falls(member, *amounts, margin=0):
    """A house account that falls from 0 by so much under each scenario."""
    return acct(member, 0, "H", 0, margin, 0, *(-amount for amount in amounts))


def from_limit_to_limit(member, account, kind):
    """An account that falls by twice the limit of an amount under the only scenario."""
    return acct(member, account, kind, 10**12, 0, 0, -10**12)


def more(line, field=0):
    return f"{line}\t{field}"


def fewer(line):
    return line.rpartition("\t")[0]


def worded(word, line):
    return word + line[line.index("\t"):]


def of_length(size):
    """An acct line of so many bytes, its kind as long as it has to be."""
    return acct(1, 0, "H" * (size - len(acct(1, 0, "", 1, 0, 0, 0))), 1, 0, 0, 0)


# Texts

def text(*lines):
    return "".join(line + "\n" for line in lines)


def between(first, last, group=0):
    """A member that is present from a first to a last day."""
    return group, first, last


def joins(first, group=0):
    return between(first, 31, group)


def leaves(last, group=0):
    """A member whose last day is this."""
    return between(1, last, group)


def month(k, members, *days):
    """A month in good order; a member is its group alone, or with its first and last day; a day is its number and its acct lines."""
    lines = [period(len(members), k)]
    lines += [member(i, *(one if isinstance(one, tuple) else [one])) for i, one in enumerate(members, 1)]
    for number, *accounts in days:
        lines += [day(number, len(accounts)), *accounts]
    return text(*lines, END)


EXAMPLE = [period(2, 1), member(1), member(2), day(3, 2), house(1, 390000000), house(2, 10000000), END]


def example(*changes):
    """The printed month, in place of a line of it, counted from 1, other lines or none: (at, line, ...)."""
    lines = [[line] for line in EXAMPLE]
    for at, *instead in changes:
        lines[at - 1] = instead
    return text(*sum(lines, []))


def one_house(account):
    return month(1, [0], (3, account))


def client(kind):
    """A member with a client of this kind."""
    return month(1, [0], (3, house(1, 10), acct(1, 1, kind, 10, 0, 0, 0)))


def after_a_day(*lines):
    """A month of one member whose first day is accepted, and these lines after it."""
    return text(period(1, 1), member(1), day(1, 1), house(1, 10), *lines, END)


def clients(kinds, *amounts):
    """Member 1's clients of these kinds, each of which falls from 0 by so much."""
    return [acct(1, i, kind, 0, 0, 0, -amount) for i, (kind, amount) in enumerate(zip(kinds, amounts), 1)]


def in_every_order(k, *accounts):
    """A month of one member that has the same clients on each day, in another order each, in all that there are. A client is its kind,
    margin, extra and how far it falls from 0 under each scenario; its number is that of its place."""
    days = []
    for number, order in enumerate(sorted(set(itertools.permutations(accounts))), 1):
        lines = [acct(1, i, kind, 0, margin, extra, *(-amount for amount in amounts)) for i, (kind, margin, extra, *amounts) in enumerate(order, 1)]
        days.append((number, falls(1, *[2] * k), *lines))
    return month(k, [0], *days)


def second(*bases):
    """Each member's house account, which falls to 0 under the second of three scenarios alone."""
    return [acct(i, 0, "H", base, 0, 0, base, 0, base) for i, base in enumerate(bases, 1)]


def hedged(amount):
    """Member 1's accounts, whose worst scenarios differ: its loss is so much, and its EUL is 0 under both."""
    return [acct(1, 0, "H", 0, amount, 0, -amount, 0), acct(1, 1, "R", 0, 0, 0, 0, -amount)]


def stored(name):
    """A month that no rule makes, as it was stored; lines that were whole get the fields that have come since."""
    with open(os.path.join(STORED, name + ".month"), encoding="latin-1", newline="") as file:
        return "\n".join(map(formed, file.read().split("\n")))


# Each word's function, and how many fields its line was stored with, at least and at most; a line stored since with all its fields has more.
FORMS = {"period": (period, 2, 2), "member": (member, 2, 2), "day": (day, 2, 2), "acct": (acct, 7, 22)}


def formed(line):
    word, *fields = line.split("\t")
    form, least, most = FORMS.get(word, (None, 1, 0))
    return form(*fields) if least <= len(fields) <= most else line


# The texts, each after its line: those of both tables, those worked out by the definitions alone, those run by `vectors` alone.

BOTH = [
    ("the printed month", example()),
    ("empty input", ""),
    ("one lf", "\n"),
    ("cut after period", text(*EXAMPLE[:1])),
    ("cut after member 1", text(*EXAMPLE[:2])),
    ("cut after members", text(*EXAMPLE[:3])),
    ("cut after day", text(*EXAMPLE[:4])),
    ("cut after acct 1", text(*EXAMPLE[:5])),
    ("no end", text(*EXAMPLE[:6])),
    ("member line missing", example((3,))),
    ("acct line missing", example((5,))),
    ("end where an acct is due", example((6,))),
    ("end without lf", example()[:-1]),
    ("cut in a line", text(*EXAMPLE[:4]) + "acct\t1\t0"),
    ("lf after end", example() + "\n"),
    ("byte after end", example() + "x"),
    ("second end", example((7, END, END))),
    ("lf after end, and no day", month(1, [0]) + "\n"),
    ("byte after end, and no day", month(1, [0]) + "x"),
    ("end without lf, and no day", month(1, [0])[:-1]),
    ("no day", month(1, [0])),
    ("one day, of Max EUL 0", month(2, [0], (3, acct(1, 0, "H", 100, 110, 0, 0, 100), acct(1, 1, "U", 20, 0, 0, 20, 0)))),
    ("second period", example((7, period(2, 1)))),
    ("empty line", example((4, "", day(3, 2)))),
    ("end with a field", example((7, more(END, "")))),
    ("word in capitals", example((7, "END"))),
    ("word with more", example((4, worded("days", day(3, 2))))),
    ("n 0", example((1, period(0, 1)))),
    ("n 33", example((1, period(33, 1)))),
    ("n 33 and nothing under it", text(period(33, 1))),
    ("k 0 before a bad member line", example((1, period(2, 0)), (2, "x"))),
    ("k 17", example((1, period(2, 17)))),
    ("n of 13 digits", example((1, period(9999999999999, 1)))),
    ("n 33 in a bad line", example((1, period(33, "x")))),
    ("n 33 in a line too long", example((1, more(period(33, 1), 1)))),
    ("n -1", example((1, period(-1, 1)))),
    ("group 33 at the period line", example((3, member(2, 33)))),
    ("9 before group 33", example((2, member(1, 33)), (3, member(2, "x")))),
    ("group of 13 digits", example((3, member(2, 9999999999999)))),
    ("group 33 before a bad day line", example((3, member(2, 33)), (4, "x"))),
    ("group 32", example((3, member(2, 32)))),
    ("member number wrong", example((3, member(3)))),
    ("member number twice", example((3, member(1)))),
    ("day 0", example((4, day(0, 2)))),
    ("day 32", example((4, day(32, 2)))),
    ("day of 13 digits", example((4, day(9999999999999, 2)))),
    ("9 before 3", example((4, day(0, 2)), (6, "acct\t2"))),
    ("missing line before 3", example((4, day(0, 2)), (6,), (7,))),
    ("3 before 5", example((4, day(0, 2)), (5, house(2, 10000000)))),
    ("day again", example((7, *EXAMPLE[3:]))),
    ("count 0", example((4, day(3, 0)))),
    ("count 257", example((4, day(3, 257)))),
    ("count 0 before day 0", example((4, day(0, 0)))),
    ("count 257 before 9", example((4, day(3, 257)), (5, "x"))),
    ("count 257 at the end of input", text(*EXAMPLE[:3], day(3, 257))),
    ("count of 13 digits", example((4, day(3, 9999999999999)))),
    ("count of 14 digits", example((4, day(3, 10000000000000)))),
    ("count 257 in a bad line", example((4, more(day(3, 257))))),
    ("5 at the account's line", example((6, house(3, 1)))),
    ("member of 13 digits", example((6, house(9999999999999, 1)))),
    ("member 2^32 + 2", example((6, house(2**32 + 2, 1)))),
    ("number 65536", example((6, acct(1, 65536, "U", 1, 0, 0, 0)))),
    ("number of 13 digits", example((6, acct(1, 9999999999999, "U", 1, 0, 0, 0)))),
    ("member 0", example((5, house(0, 1)))),
    ("last member missing", example((4, day(3, 1)), (6,))),
    ("last member missing and no line after it", example((4, day(3, 1)), (6,), (7,))),
    ("last member missing and a bad line after it", example((4, day(3, 1)), (6, "x"))),
    ("surplus acct line", example((7, acct(2, 1, "U", 1, 0, 0, 0), END))),
    ("surplus member line", example((3, member(2), member(3)))),
    ("group 33 before a surplus member line", example((3, member(2, 33), member(3)))),
    ("5 before a surplus acct line", example((5, house(1, 390000000), house(1, 390000000)))),
    ("5 before 6", example((5, house(1, 1000000000001)), (6, house(3, 1)))),
    ("base outside its limit", example((6, house(2, 1000000000001)))),
    ("greatest number for a base", example((6, house(2, 9999999999999)))),
    ("least number for a stress", example((6, acct(2, 0, "H", 0, 0, 0, -9999999999999)))),
    ("base and stress at their limits", example((6, acct(2, 0, "H", 1000000000000, 0, 0, -1000000000000)))),
    ("margin outside its limit", example((5, acct(1, 0, "H", 0, 1000000000001, 0, 0)))),
    ("6 for the first account, not the first slice", example((5, acct(1, 0, "H", 0, 1000000000001, 0, 0)), (6, house(2, 1000000000001)))),
    ("extra above margin", example((6, acct(2, 0, "H", 1, 5, 6, 0)))),
    ("9 before 6", example((5, acct(1, 0, "H", 0, 0, 1, 0)), (6, acct(2, 0, "H", 0, -1, 0, 0)))),
    ("a day without losses, alone", example((5, house(1, 0)), (6, house(2, 0)))),
    ("x for a number", example((5, house(1, "x")))),
    ("-0", example((5, house(1, "-0")))),
    ("-01", example((5, house(1, "-01")))),
    ("00", example((5, house(1, "00")))),
    ("+1", example((5, house(1, "+1")))),
    ("14 digits", example((5, house(1, 10000000000000)))),
    ("minus and 14 digits", example((5, house(1, -10000000000000)))),
    ("minus in margin", example((5, acct(1, 0, "H", 1, -1, 0, 0)))),
    ("minus in extra", example((5, acct(1, 0, "H", 1, 1, -1, 0)))),
    ("empty field", example((5, house(1, "")))),
    ("a stress too few", example((5, acct(1, 0, "H", 1, 0, 0)))),
    ("a stress too many", example((5, acct(1, 0, "H", 1, 0, 0, 0, 0)))),
    ("last tab", example((5, more(EXAMPLE[4], "")))),
    ("cr after end", example((7, "end\r"))),
    ("cr after a number", example((5, EXAMPLE[4] + "\r"))),
    ("not ascii", example((5, acct(1, 0, "\xc8", 1, 0, 0, 0)))),
    ("first of two bad lines", example((5, house(1, "x")), (6, house(1, "x")))),
    ("512 bytes", example((5, of_length(512)))),
    ("513 bytes", example((5, of_length(513)))),
]

WORKED_ONLY = [
    ("a kind that is no letter of a kind", client("X")),
    ("a kind of byte 127", client("\x7f")),
    ("a kind of byte 128", client("\x80")),
    ("n and k at their limits, cut", text(period(32, 16))),
    ("count at its limit, cut", text(period(1, 1), member(1), day(3, 256))),
    ("a first word that goes on", one_house(worded("acctx", house(1, 10)))),
    ("M on the first of three days", month(1, [0, 0], (1, house(1, 400000000), house(2, 200000000)),
                                           (2, house(1, 100000000), house(2, 300000000)), (3, house(1, 70000000), house(2, 30000000)))),
    ("M on the second of three days", month(1, [0, 0], (1, house(1, 100000000), house(2, 300000000)),
                                            (2, house(1, 400000000), house(2, 200000000)), (3, house(1, 70000000), house(2, 30000000)))),
    ("M on the last of three days", month(1, [0, 0], (1, house(1, 70000000), house(2, 30000000)),
                                          (2, house(1, 100000000), house(2, 300000000)), (3, house(1, 400000000), house(2, 200000000)))),
    ("Max EULs of its own that fall and rise again, one of them 0", month(
        2, [0, 0], (2, *hedged(0), falls(2, 50, 30)), (3, *hedged(0), falls(2, 80, 20)), (4, *hedged(7), falls(2, 0, 0)),
        (7, *hedged(0), falls(2, 10, 60)), (9, *hedged(5), falls(2, 3, 2)), (30, *hedged(0), falls(2, 90, 0)), (31, *hedged(0), falls(2, 1, 2)))),
    ("a house account of kind h", one_house(acct(1, 0, "h", 10, 0, 0, 0))),
    ("a house account of kind empty", one_house(acct(1, 0, "", 10, 0, 0, 0))),
    ("a house account of kind HH", one_house(acct(1, 0, "HH", 10, 0, 0, 0))),
    ("a house account of kind H and CR", one_house(acct(1, 0, "H\r", 10, 0, 0, 0))),
    ("a house account of kind 0", one_house(acct(1, 0, "0", 10, 0, 0, 0))),
    ("a house account of kind a blank and H", one_house(acct(1, 0, " H", 10, 0, 0, 0))),
    ("a house account of kind 9", one_house(acct(1, 0, "9", 10, 0, 0, 0))),
    ("a client of kind r", client("r")),
    ("a client of kind a", client("a")),
    ("a client of kind u", client("u")),
    ("a client of kind empty", client("")),
    ("a client of kind RR", client("RR")),
    ("a client of kind 1", client("1")),
    ("a client of kind 2", client("2")),
    ("a client of kind 3", client("3")),
    ("a client of kind 9", client("9")),
    ("a client of kind R and CR", client("R\r")),
    ("every kind", month(1, [0], (3, acct(1, 0, "H", 0, 40, 0, 0), acct(1, 1, "R", 60, 0, 0, 0), acct(1, 2, "R", 50, 0, 0, 0),
                                  acct(1, 3, "R", 30, 0, 0, 0), acct(1, 4, "A", 7, 0, 0, 0), acct(1, 5, "U", 20, 0, 0, 0)))),
    ("colon for a digit", one_house(house(1, ":"))),
    ("slash for a digit", one_house(house(1, "/"))),
    ("1 and colon for a digit", one_house(house(1, "1:"))),
    ("1 and slash for a digit", one_house(house(1, "1/"))),
    ("1x0 for a number", one_house(house(1, "1x0"))),
    ("10x for a number", one_house(house(1, "10x"))),
    ("100000000000x for a number", one_house(house(1, "100000000000x"))),
    ("scenario 16 alone, group 32, day 31", month(16, [32, 32], (31, acct(1, 0, "H", 5, 0, 0, *[5] * 15, 2),
                                                                 acct(2, 0, "H", 9, 0, 0, *[9] * 15, 5)))),
    ("32 members, each with a loss of its own", month(1, [0] * 30 + [32, 32], (31, *(house(i, i * i) for i in range(1, 33))))),
    ("31 days, each with a loss of its own, the first of a dollar", month(1, [0], *((i, house(1, i * i)) for i in range(1, 32)))),
    ("two days of one Max EUL and unlike T", month(1, [0, 0], (1, house(1, 10), house(2, 0)), (2, house(1, 10), house(2, 5)))),
    ("sums of 17 digits", month(1, [0, 0], (3, house(1, 1), *(acct(1, i, "U", 10**12 - 7 * i, 0, 0, 3 * i - 10**12) for i in range(1, 41)),
                                            house(2, 10**12 - 1)))),
    ("5 at account 255", month(1, [0], (1, house(1, 1), *(acct(1, i, "U", 1, 0, 0, 0) for i in [*range(1, 255), 65536])))),
    ("a period line of a field too few", example((1, fewer(period(2, 1))))),
    ("a period line of its word alone", example((1, "period"))),
    ("a period line of a field too many", example((1, more(period(2, 1))))),
    ("a member line of a field too few", example((2, fewer(member(1))))),
    ("a member line of its word alone", example((2, "member"))),
    ("a member line of a field too many", example((2, more(member(1))))),
    ("a day line of a field too few", example((4, fewer(day(3, 2))))),
    ("a day line of its word alone", example((4, "day"))),
    ("a day line of a field too many", example((4, more(day(3, 2))))),
    ("perioD for a word", example((1, worded("perioD", EXAMPLE[0])))),
    ("perio for a word", example((1, worded("perio", EXAMPLE[0])))),
    ("membex for a word", example((2, worded("membex", EXAMPLE[1])))),
    ("membe for a word", example((2, worded("membe", EXAMPLE[1])))),
    ("dax for a word", example((4, worded("dax", EXAMPLE[3])))),
    ("da for a word", example((4, worded("da", EXAMPLE[3])))),
    ("accx for a word", example((5, worded("accx", EXAMPLE[4])))),
    ("acc for a word", example((5, worded("acc", EXAMPLE[4])))),
    ("enx for a word", example((7, "enx"))),
    ("en for a word", example((7, "en"))),
    ("k 17 before a bad member line", text(period(2, 17), "x")),
    ("n 33 before a bad member line", text(period(33, 1), "x")),
    ("k 17 and a group 33", month(17, [33])),
    ("count 0 at line 3", month(1, [0], (3,))),
    ("count 257 on a second day", after_a_day(day(2, 257))),
    ("3 on a second day", after_a_day(day(1, 1), house(1, 10))),
    ("5 on a second day", after_a_day(day(2, 2), house(1, 10), house(1, 10))),
    ("5 past a second day", month(1, [0, 0], (1, house(1, 10), house(2, 20)), (2, house(1, 10)))),
    ("6 on a second day", after_a_day(day(2, 2), house(1, 10), acct(1, 1, "U", 10, 1, 2, 0))),
    ("a day without losses after one that counts", after_a_day(day(2, 1), house(1, 0))),
    ("9 on a second day", after_a_day(day(2, 2), house(1, 10), acct(1, "x", "U", 10, 0, 0, 0))),
    ("days that leave numbers out", month(1, [0], (1, house(1, 10)), (9, house(1, 30)), (31, house(1, 20)))),
    ("groups of three and of two", month(3, [17, 1, 17, 0, 1, 17, 0], (1, *second(10, 8, 10, 25, 8, 10, 1)),
                                         (2, *second(10, 20, 10, 25, 20, 10, 1)))),
    ("groups of three and of two, one member of three covered", month(
        3, [17, 1, 17, 0, 1, 17, 0], (3, *second(20, 10, 20, 25, 10), acct(6, 0, "H", 0, 15, 0, 0, 0, 0),
                                      acct(6, 1, "R", 5, 0, 0, 5, 0, 5), acct(7, 0, "H", 1, 0, 0, 1, 0, 1)))),
    ("a stress -0", example((5, acct(1, 0, "H", 390000000, 0, 0, "-0")))),
    ("a stress 01", example((5, acct(1, 0, "H", 390000000, 0, 0, "01")))),
    ("a stress empty", example((5, acct(1, 0, "H", 390000000, 0, 0, "")))),
    ("a stress 10000000000000", example((5, acct(1, 0, "H", 390000000, 0, 0, 10000000000000)))),
    ("a stress +1", example((5, acct(1, 0, "H", 390000000, 0, 0, "+1")))),
    ("a minus in k", example((1, period(2, -1)))),
    ("a minus in a member line's number", example((2, member(-1)))),
    ("a minus in a group", example((2, member(1, -1)))),
    ("a minus in a day's number", example((4, day(-3, 2)))),
    ("a minus in a count", example((4, day(3, -2)))),
    ("a minus in an account's member", example((5, house(-1, 1)))),
    ("a minus in an account's number", example((5, acct(1, -1, "H", 1, 0, 0, 0)))),
    ("a leading zero in n", example((1, period("02", 1)))),
    ("a leading zero in a group", example((2, member(1, "00")))),
    ("a leading zero in a day's number", example((4, day("03", 2)))),
    ("a leading zero in a count", example((4, day(3, "02")))),
    ("a leading zero in an account's member", example((5, house("01", 1)))),
    ("a leading zero in an account's number", example((5, acct(1, "00", "H", 1, 0, 0, 0)))),
    ("a leading zero in a margin", example((5, acct(1, 0, "H", 1, "01", 0, 0)))),
    ("a leading zero in an extra", example((5, acct(1, 0, "H", 1, 1, "01", 0)))),
    ("nothing for n", example((1, period("", 1)))),
    ("nothing for a group", example((2, member(1, "")))),
    ("nothing for a day's number", example((4, day("", 2)))),
    ("nothing for a margin", example((5, acct(1, 0, "H", 1, "", 0, 0)))),
    ("nothing for an extra", example((5, acct(1, 0, "H", 1, 0, "", 0)))),
    ("nothing for an account's number", example((5, acct(1, "", "H", 1, 0, 0, 0)))),
    ("a client of kind AA", client("AA")),
    ("a client of kind UU", client("UU")),
    ("a client of kind RX", client("RX")),
    ("a client of kind XU", client("XU")),
    ("a client of kind AX", client("AX")),
    ("a client of kind A and CR", client("A\r")),
    ("a client of kind U and CR", client("U\r")),
    ("a kind of byte 255", client("\xff")),
]

# Months drawn at random, mostly with groups, clients and large amounts.
VALID = [
    ("a group of all four members, clients of every kind", stored("valid-00")),
    ("three groups of one member each, clients of every kind", stored("valid-01")),
    ("one member, eight scenarios", stored("valid-02")),
    ("two members that lose a dollar each, their shares rounded up", stored("valid-03")),
    ("amounts at their limits, one member of a group of four loses", stored("valid-04")),
    ("four days, with losses from thousands to millions of millions", stored("valid-05")),
    ("amounts at their limits, a group of two among four members", stored("valid-06")),
    ("a day of small amounts and one of large, twelve clients of one member", stored("valid-07")),
]

VECTORS_ONLY = [
    ("two members in one group, one of which gains", stored("valid-08")),
    ("twelve days of 2 to 80 accounts, eight scenarios", stored("valid-09")),
    ("losses a dollar above and below twice the limit of an amount", stored("valid-10")),
    ("four groups of one member each; a day on which one dollar is lost", stored("valid-11")),
    ("twelve days of one member, with 1 to 80 accounts", stored("valid-12")),
    ("accounts that are worst under different scenarios, so that Max EUL is below T", stored("valid-13")),
    ("6 on a third day: extra one above margin", stored("extra-above-margin")),
    ("33 members and a group of 13 digits", month(1, [9999999999999] + [0] * 32, (1, *(falls(i, 5) for i in range(1, 34))))),
    ("3 for a day's number again", month(1, [0, 0], (8, falls(1, 260570296), falls(2, 7)), (8, falls(1, 958837475), falls(2, 7)),
                                         (12, falls(1, 908089808), falls(2, 7)))),
    ("shares and cents of a large and of a tiny day", month(1, [0, 0, 0], (1, falls(1, 71), falls(2, 114), falls(3, 15)),
                                                            (2, falls(1, 0), falls(2, 2), falls(3, 2)))),
    ("part b by the two largest, with a house EUL above and below 0",
     month(1, [0], (1, falls(1, 1), *clients("RRRAU", 0, 3, 1, 1, 1)), (2, falls(1, 2, margin=6), *clients("RRRRAU", 3, 0, 3, 0, 1, 1)),
           (3, falls(1, 2, margin=4), *clients("RRU", 3, 2, 0)))),
    ("three days without losses, with a margin, with one at its limit and without", month(
        1, [0], (1, falls(1, 0, margin=1)), (2, falls(1, 0, margin=10**12)), (3, falls(1, 0)))),
    ("6 for a stress outside its limit", month(2, [0], (1, falls(1, 2500000000000, 0, margin=10**12),
                                                        acct(1, 1, "U", 0, 250000000000, 0, 0, -200000000000)))),
    ("all members in one group, seven days at the limit of an amount",
     month(1, [1] * 5, *((number, *(falls(i, 10**12) for i in range(1, 6))) for number in range(1, 8)))),
    ("a raw charge that rounds up to the minimum", month(1, [0, 0], (1, falls(1, 45454545), falls(2, 0)))),
    ("32 members, three days of 256 accounts", stored("32-members-256-accounts")),
    ("a worst scenario for each member, a group of one, EULs below 0", month(
        3, [0, 32, 0], (1, falls(1, 100, 100, 100), falls(2, 0, 0, 150), falls(3, 0, 80, 100, margin=200)),
        (2, falls(1, 100, 100, 100), falls(2, 80, 80, 0, margin=110), falls(3, 80, 100, 0, margin=30)))),
    ("5 for a house account of number 65535", stored("house-65535")),
    ("3 for day 32 after an accepted one", month(1, [0, 0], (9, falls(1, 184582221), falls(2, 7)), (32, falls(1, 59106101), falls(2, 7)),
                                                 (21, falls(1, 647391105), falls(2, 7)))),
    ("9 for a second end, and no day", month(1, [0, 0, 0]) + text(END)),
    ("5 for a house account of kind R and a blank", stored("kind-r-and-blank")),
    ("9 for a group of a minus and a leading zero", stored("group-minus-01")),
    ("5 on a fourth day: the last member is missing", stored("last-member-missing")),
    ("9 for a leading zero in a member line's number", stored("member-01")),
    ("9 on a second day: an acct line is missing", stored("account-missing")),
    ("5 for member 33 among the accounts of member 1", stored("member-33")),
    ("9 for a member line without its group", stored("no-group")),
    ("6 for an extra of a digit more", stored("digit-more")),
    ("9 for a CR after a group; no LF at the end", stored("cr-after-group")),
    ("9 for a CR after the last member's group", stored("cr-after-last-member")),
    ("9 for an end where an acct is due", stored("end-for-account")),
    ("9 for a letter in place of a count", stored("letter-for-count")),
    ("9 on a second day: a word with a letter more", stored("letter-in-word")),
    ("9 on a fourth day: the last of 80 acct lines is missing", stored("account-missing-late")),
    ("9 for a tab after the stresses, before a member line among accounts", stored("tab-after-stresses")),
    ("9 on a sixth day: a CR after a stress", stored("cr-after-stress")),
    ("9 on a second day: a letter in a stress", stored("letter-in-stress")),
]

# Months drawn at random, with their totals: rounded shares and cents, days alike and unlike, refusals after a total.
TOTALS = [
    ("shares a trillionth above the whole; 3 for a day's number that falls", stored("totals-00")),
    ("five members that lose a few dollars: cents rounded up and down on four days", stored("totals-01")),
    ("one member, clients of kinds R and U: a total equal to the one daily line", stored("totals-02")),
    ("Max EUL below T: a house account and a client that fall under different scenarios", stored("totals-03")),
    ("six equal losses: shares above the whole, values and estimates below, reserves above", stored("totals-04")),
    ("one member, charged two dollars above the minimum", stored("totals-05")),
    ("members whose margins cover their losses, and a group, on two days", stored("totals-06")),
    ("three days with their totals; 5 on a fourth, where a member is skipped", stored("totals-07")),
    ("a loss of 7 beside a large one on three days", stored("totals-08")),
    ("totals of 1 and of 7; 5 on a third day for an empty kind", stored("totals-09")),
    ("a day with its total; 5 on a second for member 0", stored("totals-10")),
    ("a day with its total; 3 for a number that is not above it", stored("totals-11")),
    ("two days of one T and unlike cents", stored("totals-12")),
    ("one member, clients of every kind, on three days of a few dollars", stored("totals-13")),
    ("a day of own Max EUL 0 between two of 13", stored("totals-14")),
    ("four members of one group that lose a dollar each on six days", stored("totals-15")),
    ("a loss of a dollar on the second of three days, and a charge a dollar below the minimum", stored("totals-16")),
    ("values and estimates a cent above, reserves a cent below; then half cents in the reserves", stored("totals-17")),
    ("one member with thirteen clients", stored("totals-18")),
    ("two days with their totals; 5 on a third for kind HH", stored("totals-19")),
    ("a total of three times the limit of an amount, less a dollar; 9 for a line after it", stored("totals-20")),
    ("two days with their totals; 5 on a third for an account's number that falls", stored("totals-21")),
    ("two members of one group, days of one to three dollars", stored("totals-22")),
    ("a loss of 7 beside a large one, once more", stored("totals-23")),
    ("one member, four days from one dollar to a million millions", stored("totals-24")),
    ("two members of one group, totals from millions to millions of millions", stored("totals-25")),
    ("two groups of two members each, totals of 86 and of millions of millions", stored("totals-26")),
    ("one member with thirteen clients on three of four days", stored("totals-27")),
    ("four groups of one member each, of which two lose", stored("totals-28")),
    ("one member with thirteen clients, three scenarios", stored("totals-29")),
    ("two members of one group, and a day of one dollar", stored("totals-30")),
    ("two groups of one member each, a day at the limit of an amount", stored("totals-31")),
    ("two members of one group, one day, three scenarios", stored("totals-32")),
    ("four groups of one member each, one of which loses two dollars", stored("totals-33")),
    ("a day with its total; 9 for a line cut short", stored("totals-34")),
    ("a day with its total; 9 for a digit after the end's word", stored("totals-35")),
    ("two days with their totals; 9 for an acct line where a day line is due", stored("totals-36")),
    ("four days with their totals; 9 for a number where the end is due", stored("totals-37")),
    ("three days with their totals; 9 for an acct line whose word is a number", stored("totals-38")),
    ("two members, fourteen accounts with amounts at their limits or a little below", stored("totals-39")),
    ("four days with their totals; 9 for a day line after the end, before the closing", stored("totals-40")),
    ("a day with its total; 9 for a CR after the end's word", stored("totals-41")),
    ("two clients whose extra is their whole margin", stored("totals-42")),
    ("two days with their totals; 9 on a third for a tab too many before a stress", stored("totals-43")),
]

# Months that have not begun (document 02, Change 2), by their groups.
NOT_BEGUN = [
    ("no day, four members, two of them in one group", month(3, [32, 1, 32, 0])),
    ("no day, n and k at their limits, all members in group 32", month(16, [32] * 32)),
    ("no day, three members", month(1, [0, 0, 0])),
    ("no day, a member in group 32", month(1, [32])),
    ("no day, the last of three members in group 32", month(1, [0, 0, 32])),
    ("no day, two members", month(1, [0, 0])),
    ("no day, the first of two members in a group", month(3, [1, 0])),
    ("no day, the first of four members in group 32", month(3, [32, 0, 0, 0])),
    ("no day, two scenarios", month(2, [0])),
    ("no day, the second and the last of four members in one group", month(3, [0, 1, 0, 1])),
    ("no day, two groups of one member each", month(1, [1, 32])),
    ("no day, a member in group 19", month(1, [19])),
    ("no day, a member in group 23", month(1, [23])),
    ("no day, four groups of one member each", month(3, [28, 4, 5, 19])),
]

# Months drawn at random whose days report a Max EUL above their own (document 02, Change 3).
SO_FAR = [
    ("four members of one group: a day of 11 dollars, the highest, one below it; 6 on a fourth", stored("so-far-00")),
    ("a day of 8,000 dollars and one of 16, which reports the Max EUL of the first, far above its T", stored("so-far-01")),
    ("two days of one T, the second with the lower Max EUL; groups of three and of one", stored("so-far-02")),
    ("two days, the second below the first; 3 for a third day's number", stored("so-far-03")),
    ("one member, clients of kinds R and U: Max EULs of 8, 3 and 7", stored("so-far-04")),
    ("groups of two and of one member, the second day below the first", stored("so-far-05")),
    ("three groups of one member each, millions of millions, the highest on the third day; 5 on a fourth", stored("so-far-06")),
    ("two members of one group: a day of 55 dollars after one of a million millions; 5 on a fourth", stored("so-far-07")),
    ("four days, of which the second and the third report the first one's and the fourth its own", stored("so-far-08")),
    ("one member, clients of every kind: Max EULs of 9, 8 and 3", stored("so-far-09")),
    ("one member: two equal days and one of three dollars less", stored("so-far-10")),
    ("a day at the limit of an amount, one below it, a higher one, and one of 31 dollars", stored("so-far-11")),
    ("one member: the highest on the second of three days", stored("so-far-12")),
    ("own Max EULs of 0, 3 and 1, two scenarios", stored("so-far-13")),
    ("a loss of 7 beside a large one that falls from day to day", stored("so-far-14")),
    ("four members of one group, days of 2 dollars, of millions and of 1; 5 on a fourth", stored("so-far-15")),
    ("one member: Max EULs of 1, 4 and 2", stored("so-far-16")),
    ("four members of one group: a high second day, and a higher fourth", stored("so-far-17")),
    ("a day of one dollar after one of millions of millions; 6 on a third", stored("so-far-18")),
    ("four members, the highest on the first of three days", stored("so-far-19")),
    ("a group of one member, two scenarios, the second day below the first", stored("so-far-20")),
    ("a loss of 7 beside a large one; 3 for a third day's number", stored("so-far-21")),
    ("four members of one group, of which one loses: the highest on the third of four days", stored("so-far-22")),
    ("a loss of 7 beside a large one: a fall, and a rise above the first day", stored("so-far-23")),
    ("one member with thirteen clients: a fall to one dollar, and a rise above the first day", stored("so-far-24")),
    ("four groups of one member each: the highest on the second of four days, then falling", stored("so-far-25")),
    ("two members of one group, two scenarios: a fall, and a rise above the first day", stored("so-far-26")),
    ("four members, the highest on the first of four days, then 1 dollar, and a rise below it", stored("so-far-27")),
    ("four members of one group, the highest on the third of four days", stored("so-far-28")),
    ("two members, three scenarios: two days of a dollar or two between high ones", stored("so-far-29")),
    ("three groups: a day of 1 dollar, the highest, and one below it", stored("so-far-30")),
    ("four members, the highest on the second of four days, then falling to 1 dollar", stored("so-far-31")),
    ("the highest on the third of four days, after two at their own; a fourth of 49 dollars", stored("so-far-32")),
    ("four members of one group, three scenarios: the highest on the first of four days", stored("so-far-33")),
    ("three days with their totals; 9 after them", stored("so-far-34")),
    ("two days with their totals; 9 on a third", stored("so-far-35")),
    ("three days with their totals; 5 on a fourth", stored("so-far-36")),
    ("the highest on the fourth day; 9 after it", stored("so-far-37")),
    ("a day of a dollar and one of 7 after a high one; 9 after them", stored("so-far-38")),
    ("one member: the highest on the third of four days, three scenarios", stored("so-far-39")),
    ("three days, the third between the others; 9 after them", stored("so-far-40")),
    ("one member with a group of its own, four days that fall", stored("so-far-41")),
    ("the highest on the first of four days, of which the last two rise; 9 after them", stored("so-far-42")),
    ("a day of own Max EUL 0 after one near three times the limit; 9 after them", stored("so-far-43")),
]

# Days without losses (document 02, Change 4), among days that count and alone.
WITHOUT_LOSSES = [
    ("days without losses before, between and after two that count", month(
        1, [0, 0], (2, falls(1, 0), falls(2, 0)), (3, falls(1, 400000000), falls(2, 200000000)), (4, falls(1, 0), falls(2, 0)),
        (5, falls(1, 0), falls(2, 0)), (6, falls(1, 100000000), falls(2, 300000000)), (31, falls(1, 0), falls(2, 0)))),
    ("only days without losses", month(
        1, [0, 0], (1, falls(1, 0), falls(2, 0)), (2, falls(1, 0), falls(2, 0)), (31, falls(1, 0), falls(2, 0)))),
    ("two days without losses of one number: 3", month(1, [0], (5, house(1, 0)), (5, house(1, 0)))),
    ("the number of a day without losses again, and a bad account: 3", month(
        1, [0], (1, house(1, 10)), (5, house(1, 0)), (5, house(2, 10)))),
    ("3 for a number below that of a day without losses, and above that of the day that counts", month(
        1, [0], (1, house(1, 10)), (5, house(1, 0)), (3, house(1, 10)))),
    ("margins that just cover; then by a dollar one does not", month(
        2, [0, 7], (1, falls(1, 9, 4, margin=9), falls(2, 0, 10**12, margin=10**12)),
        (2, falls(1, 9, 4, margin=9), falls(2, 0, 10**12, margin=10**12 - 1)), (3, falls(1, 9, 4, margin=9), falls(2, 0, 8, margin=8)))),
    ("an extra that is not counted: without it there would be no loss", month(
        1, [0], (1, acct(1, 0, "H", 0, 9, 0, -9)), (2, acct(1, 0, "H", 0, 9, 1, -9)))),
    ("a day without losses on which clients lose what the house account covers, to the dollar", month(
        1, [0], (1, house(1, 10)), (2, falls(1, 2, margin=7), *clients("RRU", 3, 1, 1)), (3, falls(1, 2, margin=6), *clients("RRU", 3, 1, 1)))),
    ("a day without losses between one of T above 0 and Max EUL 0 and one with both above 0", month(
        2, [0], (1, *hedged(7)), (2, *hedged(0)), (3, *hedged(5), acct(1, 2, "U", 0, 0, 0, -1, 0)))),
    ("6 on a day without losses", month(1, [0], (1, house(1, 10)), (2, falls(1, 0, margin=10**12 + 1)))),
    ("5 on a day without losses", month(1, [0], (1, house(1, 0)), (2, house(1, 0), acct(1, 0, "R", 0, 0, 0, 0)))),
    ("9 after a day without losses", month(1, [0], (1, house(1, 0))) + text(END)),
]

# Months drawn at random that have a day without losses; a line that names a day by its place alone speaks of it.
QUIET = [
    ("one member: two days without losses, clients covered to the dollar on the second, and one of 7", stored("quiet-00")),
    ("two members: three days without losses, a margin that just covers on the first", stored("quiet-01")),
    ("two days without losses, then one of 1,000,000,000 for each of two members", stored("quiet-02")),
    ("two groups of one member each: the last of four days, one of them a dollar below the limit of an amount", stored("quiet-03")),
    ("two members: three days without losses, margins at the limit of an amount", stored("quiet-04")),
    ("one member with thirteen clients: a day without losses between days of thousands and of thousands of millions", stored("quiet-05")),
    ("one member: three days without losses, clients covered to the dollar on the second", stored("quiet-06")),
    ("three members: a day without losses between days of 6 dollars and of 1,000,000,000 each", stored("quiet-07")),
    ("three members, two of one group: the third day; 5 on a fourth, where the last member is missing", stored("quiet-08")),
    ("four members: three days without losses", stored("quiet-09")),
    ("one member: the last of three days, its house account covers its clients with a dollar to spare", stored("quiet-10")),
    ("one member: two days without losses, one by a margin at the limit of an amount, then one of 1,000,000,000", stored("quiet-11")),
    ("a first day without losses; 5 on a second for kind 9", stored("quiet-12")),
    ("three scenarios: a first day without losses, one of T 1 and own Max EUL 0, and two with both above 0", stored("quiet-13")),
    ("one member: three days without losses, a margin at the limit of an amount on the first", stored("quiet-14")),
    ("one member: two days without losses between one of a million millions and one of a million", stored("quiet-15")),
    ("one member: the second of three days", stored("quiet-16")),
    ("four members: the first and the last of three days, one member of four loses on the second", stored("quiet-17")),
    ("two days without losses, each with a margin at the limit of an amount, then one of 1,000,000,000 each", stored("quiet-18")),
    ("three members: a day of one dollar, then two without losses, two margins that just cover on the first of them", stored("quiet-19")),
    ("a first day without losses; 5 on a second for a member above n", stored("quiet-20")),
    ("three scenarios: the last of two days, covered with a dollar to spare", stored("quiet-21")),
    ("four members: a day without losses after one on which three lose, and before one of 1,000,000,000 each", stored("quiet-22")),
    ("three scenarios: a day without losses after one of one dollar; 5 on a fourth for a member above n", stored("quiet-23")),
    ("two members of one group: the first of two days, whose second has losses of 1 and of thousands", stored("quiet-24")),
    ("one member: a day without losses alone, both stresses above the base", stored("quiet-25")),
    ("one member: the second of four days, before one of one dollar", stored("quiet-26")),
    ("two members of one group, three scenarios: a day without losses, then one of one dollar", stored("quiet-27")),
    ("two groups of one member each: a day without losses alone", stored("quiet-28")),
    ("two groups of one member each: a day without losses, then one of one dollar", stored("quiet-29")),
    ("one member: the first and the third of four days", stored("quiet-30")),
    ("two members: the first of three days, then T above the Max EUL of its own, and day 31", stored("quiet-31")),
    ("three scenarios: the last of four days, on day 31", stored("quiet-32")),
    ("one member with thirteen clients, whose losses its house account covers: a day without losses alone, two scenarios", stored("quiet-33")),
    ("the first and the third day; 9 on a fourth for a minus in place of a tab", stored("quiet-34")),
    ("three scenarios: the last of two days, one account", stored("quiet-35")),
    ("a first day without losses; 9 for an acct line where a day line is due", stored("quiet-36")),
    ("four members of one group: a first day without losses; 9 on a third for a blank after a number", stored("quiet-37")),
    ("a first day without losses, one account covered to the dollar; 9 on a third for a line cut short", stored("quiet-38")),
    ("a day without losses after one of T 1 and own Max EUL 0; 5 on a third for a number that falls", stored("quiet-39")),
    ("a day without losses after one of one dollar; 9 on a fourth for a stress too many", stored("quiet-40")),
    ("three scenarios: a first day without losses; 9 on a second for a stress too many", stored("quiet-41")),
    ("two groups of one member each: a first day without losses; 5 on a fourth for a number above 65,535", stored("quiet-42")),
    ("a first day without losses; 9 on a second for a minus in a margin", stored("quiet-43")),
    ("3 for a number below that of a day without losses", stored("quiet-44")),
]

# A member's clients in every order (document 02, Change 5): all days of a month are alike.
ANY_ORDER = [
    ("the two largest of kind R in every order, with a tie of their own EULs",
     in_every_order(2, ("R", 2, 1, 6, 2), ("R", 0, 0, 3, 5), ("U", 4, 4, 1, 1))),
    ("two equal accounts of kind R, the largest, in every order", in_every_order(1, ("R", 1, 0, 4), ("R", 1, 0, 4), ("R", 0, 0, 2), ("A", 0, 0, 1))),
    ("half the clients' sum, with a half dollar, in every order", in_every_order(1, ("R", 0, 0, 1), ("A", 0, 0, 3), ("U", 1, 1, 1))),
]

# Finer shares (document 02, Change 6): a loss beside one that is far greater, and losses that a coarser fraction does not tell apart.
FINER = [
    ("one dollar beside twice the limit of an amount", month(1, [0, 0], (1, from_limit_to_limit(1, 0, "H"), house(2, 1)))),
    ("one, two and three dollars beside twice the limit of an amount for each of two members", month(
        1, [0] * 5, (1, *(from_limit_to_limit(i, 0, "H") for i in (1, 2)), house(3, 1), house(4, 2), house(5, 3)))),
    ("one dollar beside the most that another member can lose", month(
        1, [0, 0], (1, *(from_limit_to_limit(1, i, "U" if i else "H") for i in range(255)), house(2, 1)))),
    ("thirds on each of 31 days", month(1, [0] * 3, *((number, *(house(i, 10**12) for i in (1, 2, 3))) for number in range(1, 32)))),
]

# Months drawn at random; a part is one of 10^15.
PARTS = [
    ("four members, two scenarios: shares of one dollar and of 131,124 beside millions of millions, M on the last of four days", stored("finer-00")),
    ("one member: the whole loss, of 5 dollars", stored("finer-01")),
    ("two members: 7 dollars beside 69, 470 and 90 millions, on either side", stored("finer-02")),
    ("four members: T 8, 8,000 and 8, each share without a remainder", stored("finer-03")),
    ("one member with clients: three days of 5 and 6 dollars", stored("finer-04")),
    ("one member: T 13 and Max EUL 3, then a day of one dollar", stored("finer-05")),
    ("one member: the whole loss on four equal days", stored("finer-06")),
    ("two members: one dollar beside 45,454,543, charged three dollars below the minimum", stored("finer-07")),
    ("four members of one group, of whom one and then two lose", stored("finer-08")),
    ("one member: a day without losses and two of millions of millions; 5 on a fourth, which has no house account", stored("finer-09")),
    ("two members: 7 dollars beside 524,299,860; 3 on a second day", stored("finer-10")),
    ("two groups of one member each: the whole loss is one's; 5 on a second day for a house account of number 1", stored("finer-11")),
    ("one member: 6 dollars, then 11 millions, then 3 dollars, then none", stored("finer-12")),
    ("two members of one group: one dollar beside ten thousand millions; 5 on a third day, where the last member is missing", stored("finer-13")),
    ("32 members, 16 scenarios: equal losses, each share without a remainder", stored("finer-14")),
    ("two members: 7 dollars beside hundreds of millions on two days; 3 on a third", stored("finer-15")),
    ("three members: five days, each share without a remainder", stored("finer-16")),
    ("one member: three days of 13, 7 and 6 dollars", stored("finer-17")),
    ("four members: halves on one day and quarters on another, a day without losses between them", stored("finer-18")),
    ("five members: equal losses on five days, charged below the minimum", stored("finer-19")),
    ("five members, four of one group: thirds, then sevenths", stored("finer-20")),
    ("two members: 7 dollars beside 395,085,172; 3 on a second day", stored("finer-21")),
    ("three members: shares of 481 and of 489 parts; 5 on a third day, where a member is skipped", stored("finer-22")),
    ("two members, three scenarios: the whole loss is one's, then parts, then the other's", stored("finer-23")),
    ("one member: the whole loss, then a day without losses", stored("finer-24")),
    ("one member: a day of one dollar and one of 16, days without losses before them", stored("finer-25")),
    ("one member, three scenarios: T above its Max EUL", stored("finer-26")),
    ("four members: 10 dollars of 82,669 after a day of millions of millions; a day without losses last", stored("finer-27")),
    ("four members: one dollar, 3 dollars, millions of millions, and thirds of 12 dollars", stored("finer-28")),
    ("one member: days without losses after one of millions of millions and after one of one dollar", stored("finer-29")),
    ("two members of one group, of whom one has the whole loss", stored("finer-30")),
    ("two members of one group: a share of 334 parts, of one dollar in three millions of millions", stored("finer-31")),
    ("four groups of one member each: a share of 2,000 parts, of 2 dollars in a million millions", stored("finer-32")),
    ("four members: shares with remainders; 5 on a second day, where a member is skipped", stored("finer-33")),
    ("four members of one group: one dollar beside 716,641,601,020; 9 on a second day for a field too few", stored("finer-34")),
    ("four members: the whole loss is one's; 5 on a second day for a number that falls", stored("finer-35")),
    ("two members: a day of parts, then one dollar; 9 for an acct line where a day line is due", stored("finer-36")),
    ("two members of one group, of whom one has the whole loss; 9 on a second day for a blank after a number", stored("finer-37")),
    ("one member: the whole loss; 9 for a day line of a field too many", stored("finer-38")),
    ("one member: thirteen clients, T above its Max EUL", stored("finer-39")),
    ("four members, three scenarios: one dollar each", stored("finer-40")),
    ("four members, two of one group: a share of 577 parts, of one dollar; T below the Max EUL on the last two days", stored("finer-41")),
    ("one member: eleven clients, T above its Max EUL; 9 for a surplus acct line", stored("finer-42")),
]

# Members who join or leave (document 02, Change 7).
PRESENCE = [
    ("joins on the tenth: no account on the ninth, one on the tenth and on the eleventh", month(
        1, [0, joins(10)], (9, house(1, 30)), (10, house(1, 10), house(2, 20)), (11, house(1, 10), house(2, 30)))),
    ("joins on the tenth: an account on the ninth", month(1, [0, joins(10)], (9, house(1, 30), house(2, 20)))),
    ("joins on the tenth: no account on the tenth", month(1, [0, joins(10)], (10, house(1, 30)))),
    ("leaves on the tenth: an account on the ninth and on the tenth, none on the eleventh", month(
        1, [leaves(10), 0], (9, house(1, 30), house(2, 10)), (10, house(1, 20), house(2, 10)), (11, house(2, 30)))),
    ("leaves on the tenth: no account on the tenth", month(1, [leaves(10), 0], (10, house(2, 30)))),
    ("leaves on the tenth: an account on the eleventh", month(1, [leaves(10), 0], (11, house(1, 20), house(2, 30)))),
    ("present on the tenth alone", month(1, [0, between(10, 10)], (9, house(1, 30)), (10, house(1, 10), house(2, 20)), (11, house(1, 20)))),
    ("one member leaves on day 1 and the other joins on day 31", month(1, [leaves(1), joins(31)], (1, house(1, 40)), (31, house(2, 20)))),
    ("5 for a day between them, on which nobody is present", month(1, [leaves(1), joins(31)], (1, house(1, 40)), (30, house(2, 20)))),
    ("5 for the account of the only member, which is absent", month(1, [between(5, 6)], (4, house(1, 1)))),
    ("the first member is absent", month(1, [between(5, 6), 0], (4, house(2, 1)))),
    ("the second of three members is absent", month(1, [0, joins(10), 0], (9, house(1, 10), house(3, 20)))),
    ("two members in a row are absent, and the last; one of them has left, two are to come", month(
        1, [0, joins(10), leaves(8), 0, joins(31)], (9, house(1, 10), house(4, 20)))),
    ("an Affiliate joins two others: the highest is their sum, then the sum of all three", month(
        1, [1, joins(10, 1), 1, 0], (9, house(1, 100), house(3, 30), house(4, 120)),
        (10, house(1, 100), house(2, 80), house(3, 30), house(4, 120)))),
    ("5 for an absent member's account, the first of all", month(1, [between(5, 6), 0], (4, house(1, 390000000), house(2, 10000000)))),
    ("5 for an absent member's account between those of two that are present", month(1, [0, joins(10), 0], (9, house(1, 1), house(2, 2), house(3, 3)))),
    ("5 for an absent member's account, the first, in place of the next member's", month(1, [joins(10), 0, 0], (9, house(1, 1), house(3, 3)))),
    ("5 for an absent member's account in place of that of the member before it", month(1, [0, joins(10), 0], (9, house(2, 2), house(3, 3)))),
    ("5 for an absent member's account, the last, in place of the next member's", month(1, [0, joins(10), 0], (9, house(1, 1), house(2, 2)))),
    ("5 for an absent member's account, the last, in place of that of the member before it", month(
        1, [0, 0, joins(10)], (9, house(1, 1), house(3, 3)))),
    ("5 for an absent member's account, not 6 for a base before it", month(1, [0, joins(10)], (9, house(1, 10**12 + 1), house(2, 2)))),
    ("5 past the accounts: the last present member is missing, an absent one comes after it", month(1, [0, 0, between(5, 5)], (4, house(1, 1)))),
    ("5 past the accounts: the last member is missing, an absent one comes before it", month(1, [0, joins(10), 0], (9, house(1, 1)))),
    ("5 for a first account that passes over a present member, and over an absent one", month(1, [between(5, 6), 0, 0], (4, house(3, 1)))),
    ("5 for an account that passes over an absent member, then over a present one", month(1, [0, joins(10), 0, 0], (9, house(1, 1), house(4, 4)))),
    ("5 for an account that passes over a present member, then over an absent one", month(1, [0, 0, joins(10), 0], (9, house(1, 1), house(4, 4)))),
    ("a mean over two days, on one of which a member is absent: it is charged half of what its own day would make", month(
        1, [0, joins(10)], (9, house(1, 100000000)), (10, house(1, 100000000), house(2, 300000000)))),
    ("absent on the one day that counts, present on one without losses: no charge", month(
        1, [0, joins(10)], (9, house(1, 100000000)), (10, house(1, 0), house(2, 0)))),
    ("absent on a day without losses, present on the one that counts", month(
        1, [leaves(9), joins(10)], (9, house(1, 0)), (10, house(2, 100000000)))),
    ("10 for a first day 0", month(1, [between(0, 31)])),
    ("10 for a first day 32, which is the last day too", month(1, [between(32, 32)])),
    ("10 for a last day 0, which is the first day too", month(1, [between(0, 0)])),
    ("10 for a last day 32", month(1, [between(1, 32)])),
    ("10 for a first day one above the last", month(1, [between(6, 5)])),
    ("10 for a first day 2^32 + 2", month(1, [between(2**32 + 2, 31)])),
    ("10 for a last day 2^32 + 2", month(1, [between(1, 2**32 + 2)])),
    ("10 for a first and a last day that have changed places", month(1, [between(31, 1)])),
    ("10 at the second of four members, for its last day; the third one's first day is 0, the fourth one's is above its last", month(
        1, [0, between(1, 32), between(0, 31), between(6, 5)])),
    ("10 at the second of three members, for its first day; the third one's last day is 32", month(1, [0, between(0, 31), between(1, 32)])),
    ("10 at the third of four members, for a first day above its last; the fourth one's last day is 32", month(
        1, [0, joins(31), between(9, 8), leaves(32)])),
    ("1 for the second member's group, not 10 at the first", month(1, [between(6, 5), 33])),
    ("9 for the second member's line, not 10 at the first", text(period(2, 1), member(1, 0, 6, 5), member(2, 0, 1, "x"), END)),
    ("10 at the member, not 9 for a bad line after the members", text(period(1, 1), member(1, 0, 6, 5), "x")),
    ("9 for a member line without its first and last day", example((3, fewer(fewer(member(2)))))),
    ("9 for nothing for a first day", month(1, [between("", 31)])),
    ("9 for a minus in a last day", month(1, [between(1, -1)])),
    ("10 for a first day of 13 digits", month(1, [between(9999999999999, 31)])),
    ("10 for a last day of 13 digits", month(1, [between(1, 9999999999999)])),
    ("9 for a first day 01", month(1, [between("01", 31)])),
    ("9 for a minus in a first day", month(1, [between(-1, 31)])),
    ("9 for a first day of 14 digits", month(1, [between(10000000000000, 31)])),
    ("9 for nothing for a last day", month(1, [between(1, "")])),
    ("9 for a last day 031", month(1, [between(1, "031")])),
    ("9 for a last day of 14 digits", month(1, [between(1, 10000000000000)])),
]

PRESENCE_ONLY = [
    ("no day, one member joins and one leaves", month(1, [joins(10), leaves(20)])),
    ("joins on the tenth: no account on the eleventh", month(1, [0, joins(10)], (11, house(1, 30)))),
    ("leaves on the tenth: no account on the ninth", month(1, [leaves(10), 0], (9, house(2, 30)))),
    ("4 for no account, and nobody is present", month(1, [between(5, 6)], (4,))),
    ("one member alone is present, before and after it one is absent", month(1, [joins(10), 0, leaves(8)], (9, house(2, 7)))),
    ("present on the tenth alone: no account on it", month(1, [0, between(10, 10)], (10, house(1, 30)))),
    ("present on the tenth alone: an account on the ninth", month(1, [0, between(10, 10)], (9, house(1, 30), house(2, 20)))),
    ("present on the tenth alone: an account on the eleventh", month(1, [0, between(10, 10)], (11, house(1, 30), house(2, 20)))),
    ("everybody absent: 5 for the first of two accounts", month(1, [leaves(8), joins(10)], (9, house(1, 1), house(2, 2)))),
    ("everybody absent: 3 for day 32", month(1, [between(5, 6)], (32, house(1, 1)))),
    ("a member takes the place of another from day to day", month(
        1, [leaves(3), between(4, 4), joins(5)], (3, house(1, 10)), (4, house(2, 20)), (5, house(3, 30)), (31, house(3, 40)))),
    ("the group of an absent Affiliate, of one that is present and of one that leaves", month(
        2, [joins(4, 5), leaves(4, 5), 5, 0], (3, falls(2, 60, 10), falls(3, 50, 20), falls(4, 100, 0)),
        (4, falls(1, 40, 90), falls(2, 60, 10), falls(3, 50, 20), falls(4, 100, 0)), (5, falls(1, 40, 90), falls(3, 50, 20), falls(4, 100, 0)))),
    ("32 members, of whom the even ones are absent on day 9, the odd ones on day 10", month(
        1, [leaves(9) if i % 2 else joins(10) for i in range(1, 33)], (9, *(house(i, i * i) for i in range(1, 33, 2))),
        (10, *(house(i, i * i) for i in range(2, 33, 2))))),
    ("32 members, of whom the last alone is present", month(1, [joins(10)] * 31 + [0], (9, house(32, 7)))),
    ("32 members, of whom the first alone is present; 5 on day 10, where the others are missing", month(
        1, [0] + [joins(10)] * 31, (9, house(1, 7)), (10, house(1, 7)))),
    ("member k joins on day k: 31 members, 31 days", month(
        1, [joins(i) for i in range(1, 32)], *((number, *(house(i, i * number) for i in range(1, number + 1))) for number in range(1, 32)))),
    ("5 for an absent member's client", month(1, [0, joins(10)], (9, house(1, 1), acct(2, 1, "R", 1, 0, 0, 0)))),
    ("5 for a present member's client after an absent one, its house account is missing", month(
        1, [joins(10), 0], (9, acct(2, 1, "R", 1, 0, 0, 0)))),
    ("5 for an unknown kind before an absent member's account", month(1, [0, joins(10)], (9, acct(1, 0, "X", 1, 0, 0, 0), house(2, 1)))),
    ("5 for an absent member's account before an unknown kind", month(1, [joins(10), 0], (9, house(1, 1), acct(2, 0, "X", 1, 0, 0, 0)))),
    ("5 for an absent member's account that is out of order as well", month(1, [joins(10), 0], (9, house(2, 1), house(1, 1)))),
    ("6 on a day on which a member is absent", month(1, [joins(10), 0, joins(10)], (9, house(2, 10**12 + 1)))),
    ("10 for a first day 32 above the last", month(1, [between(32, 31)])),
    ("10 for a last day 0 below the first", month(1, [between(1, 0)])),
    ("10 for a first day 2^8 + 1", month(1, [between(2**8 + 1, 31)])),
    ("10 for a last day 2^8 + 1", month(1, [between(1, 2**8 + 1)])),
    ("10 for a first and a last day 2^8 + 1", month(1, [between(2**8 + 1, 2**8 + 1)])),
    ("10 for a first day 2^16 + 1", month(1, [between(2**16 + 1, 31)])),
    ("10 for a last day 2^16 + 1", month(1, [between(1, 2**16 + 1)])),
    ("10 at the last of 32 members", month(16, [0] * 31 + [between(31, 30)])),
    ("10 at the first of two members with the same fault", month(1, [between(6, 5), between(6, 5)])),
    ("1 for the first member's group, not 10 at the second", month(1, [33, between(6, 5)])),
    ("1 for the group of a member whose first day is above its last", month(1, [between(6, 5, 33)])),
    ("1 for k, not 10", month(17, [between(6, 5)])),
    ("10 at the member, not 4 for the first day's count", text(period(1, 1), member(1, 0, 6, 5), day(3, 0), END)),
    ("10 at the member, not 9 for a surplus member line", text(period(1, 1), member(1, 0, 6, 5), member(2), END)),
    ("10 at the member, and no line after it", text(period(1, 1), member(1, 0, 6, 5))),
    ("9 for a member line missing, not 10 at the first", text(period(2, 1), member(1, 0, 6, 5))),
    ("9 for a wrong number in a member line, not 10", text(period(1, 1), member(2, 0, 6, 5), END)),
    ("9 for a member line of a field too many, not 10", text(period(1, 1), more(member(1, 0, 6, 5)), END)),
    ("9 for a member line without its last day, not 10", text(period(1, 1), fewer(member(1, 0, 32)), END)),
    ("9 for a plus in a first day", month(1, [between("+1", 31)])),
    ("9 for x for a first day", month(1, [between("x", 31)])),
    ("9 for a plus in a last day", month(1, [between(1, "+31")])),
    ("9 for a last day 31x", month(1, [between(1, "31x")])),
    ("9 for a CR after a last day", month(1, [between(1, "31\r")])),
]

# Months drawn at random, of which some have members who join or leave.
JOINS = [
    ("one member: seven clients that its house account and margin do not cover, then two small days", stored("joins-00")),
    ("one member, who joins on day 31; 5 for its account on day 1", stored("joins-01")),
    ("two members of one group, one of whom has left before the only day", stored("joins-02")),
    ("1 for group 33 of the only member", month(1, [33], (1, falls(1, 5)))),
    ("one member: two equal days of T above 0 and Max EUL 0", stored("joins-03")),
    ("10 for a last day 0", stored("joins-04")),
    ("two members who leave on day 11, one of whom joins on day 10; 5 on day 8 for a number of 13 digits", stored("joins-05")),
    ("one member: a day of 2 dollars, then one of millions with its house account alone", stored("joins-06")),
    ("two members: T 800, 400 and 200, each share without a remainder", month(
        1, [0, 0], (1, falls(1, 766), falls(2, 34)), (2, falls(1, 60), falls(2, 340)), (3, falls(1, 178), falls(2, 22)))),
    ("one member: a raw charge that rounds up to the minimum", month(1, [0], (1, falls(1, 45454544)), (2, falls(1, 45454545)))),
    ("10 for the second member's last day 32", stored("joins-07")),
    ("two members: 7 dollars beside 915, 18 and 301 millions", month(
        1, [0, 0], (2, falls(1, 915848264), falls(2, 7)), (21, falls(1, 18109428), falls(2, 7)), (26, falls(1, 301376274), falls(2, 7)))),
    ("two members, one of whom has left and one is there; 9 for an extra of 14 digits", stored("joins-08")),
    ("two members of one group, one of whom is there on the second and the third of four days; the last is one without losses", stored("joins-09")),
    ("four members: halves of two, halves of one of them and another, and quarters", stored("joins-10")),
    ("four members, two of one group: a worst scenario for each", month(
        3, [1, 32, 0, 1], (1, falls(1, 100, 100, 100), falls(2, 0, 100, 100, margin=30), falls(3, 100, 80, 150, margin=110),
                           falls(4, 0, 80, 0, margin=200)),
        (2, falls(1, 100, 100, 100), falls(2, 0, 0, 80, margin=30), falls(3, 0, 100, 80, margin=200), falls(4, 150, 0, 0)))),
    ("10 at the last of four members, for a last day 0; the first one is absent", stored("joins-11")),
    ("one member, present from day 12 to day 20; 5 for kind X", stored("joins-12")),
    ("9 for a last day -01", stored("joins-13")),
    ("two members: 7 dollars beside 643, 438 and 742 millions", month(
        1, [0, 0], (6, falls(1, 643401151), falls(2, 7)), (7, falls(1, 438354014), falls(2, 7)), (31, falls(1, 742432785), falls(2, 7)))),
    ("two members of one group: two equal days", month(
        1, [1, 1], *((number, falls(1, 200000000), falls(2, 200000000)) for number in (1, 2)))),
    ("four groups of one member each, of whom the third joins on day 20 and the first alone loses on day 5", stored("joins-14")),
    ("two members; 5 on a second day, where the last one is missing", stored("joins-15")),
    ("four members, one of whom left the day before, and one joined on day 20 and loses nothing", stored("joins-16")),
    ("four members of one group, one of whom has the whole loss on two days and leaves before the other two", stored("joins-17")),
    ("two members, one of whom is absent on all four days, two of them without losses", stored("joins-18")),
    ("one member, three scenarios: a day without losses, and three from millions to millions of millions", stored("joins-19")),
    ("one member, present on all days: one dollar", stored("joins-20")),
    ("two members of one group, one of whom has twelve clients and the whole loss", stored("joins-21")),
    ("one member, present from day 16 to day 26", stored("joins-22")),
    ("one member: a day without losses alone", stored("joins-23")),
    ("one member, three scenarios: a day without losses, then three that count", stored("joins-24")),
    ("two members of one group, of whom one comes the day after the other has left", stored("joins-25")),
    ("four members, of whom two are absent on day 1; 9 for a day line and an acct line in one", stored("joins-26")),
    ("four members; 9 for a line cut short", stored("joins-27")),
    ("two members of one group, one of whom left on day 7, on day 8", stored("joins-28")),
    ("9 for a member line of a field too few", stored("joins-29")),
    ("9 for a day line cut in two", stored("joins-30")),
    ("one member: two days without losses; 9 on a third for a letter in a stress", stored("joins-31")),
    ("one member, who leaves on day 26; 5 for kind R and a minus", stored("joins-32")),
    ("one member: T 1 and Max EUL 0; 9 on a second day for a letter in a base", stored("joins-33")),
    ("two members, who leave on days 22 and 20; 9 for a letter in a base", stored("joins-34")),
    ("two members, one of whom joins on day 18, on day 17; 9 for a field too many", stored("joins-35")),
]

# Of the months of VALID the longest is run by `vectors` alone, of those of TOTALS all but these: cents rounded both ways, a group, two days
# of one T, a day of own Max EUL 0, equal days; of those of NOT_BEGUN and of FINER the first two are worked out, of those of SO_FAR, QUIET
# and PARTS six short ones each, of those of JOINS four.
WORKED = (BOTH + WORKED_ONLY + VALID[:5] + VALID[6:] + [TOTALS[i] for i in (1, 6, 12, 14, 15)] + NOT_BEGUN[:2]
          + [SO_FAR[i] for i in (2, 8, 13, 18, 29, 43)] + WITHOUT_LOSSES + [QUIET[i] for i in (0, 6, 17, 19, 29, 44)] + ANY_ORDER
          + FINER[:2] + [PARTS[i] for i in (2, 7, 18, 20, 31, 32)] + PRESENCE + [JOINS[i] for i in (1, 16, 21, 23)])
VECTORS = BOTH + VALID + VECTORS_ONLY + TOTALS + NOT_BEGUN + SO_FAR + WITHOUT_LOSSES + QUIET + ANY_ORDER + FINER + PARTS + PRESENCE + PRESENCE_ONLY + JOINS
