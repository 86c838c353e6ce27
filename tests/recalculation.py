#!/usr/bin/env python3
"""Document 01, with Changes 1 to 7 of document 02, recalculated in its own order, with exact fractions.

Reads a month's text on standard input and writes the report on standard output.
"""
import re
import sys
from collections import namedtuple
from fractions import Fraction
from math import ceil, floor

AMOUNT = 10**12             # the limit of every amount
SHARE = 10**15              # a share is printed in parts of this (document 02, Change 6)
MINIMUM = 50_000_000        # the least funded contribution
H, R, A, U = 0, 1, 2, 3     # kinds; any other letter or word is 9
KINDS = {b"H": H, b"R": R, b"A": A, b"U": U}

Account = namedtuple("Account", "member number kind base margin extra stress")


# From an account to a member

def decrease(account, j):
    """Base minus stress j, or 0 where that is negative."""
    return max(account.base - account.stress[j], 0)


def eul(account, j):
    """The decrease under j, less margin, plus extra. It may be negative."""
    return decrease(account, j) - account.margin + account.extra


def own_eul(account):
    """The same with the account's largest decrease, its Position Account STV."""
    stv = max(decrease(account, j) for j in range(len(account.stress)))
    return stv - account.margin + account.extra


def member_eul(euls):
    """From (kind, EUL) of each of a member's accounts to the member's EUL."""
    house = sum(e for kind, e in euls if kind == H)
    positive = [(kind, e) for kind, e in euls if kind != H and e > 0]
    half = ceil(Fraction(sum(e for _, e in positive), 2))       # a half dollar goes up
    two = sum(sorted(e for kind, e in positive if kind == R)[-2:])
    part_b = max(half, two)
    part_c = sum(e for kind, e in positive if kind in (A, U))
    return house + part_b + part_c


# From members to the day

def day_figures(n, k, groups, accounts):
    """T, the day's own Max EUL and each member's loss. An absent member has no accounts: its EULs are 0 (document 02, Change 7)."""
    of_member = [[a for a in accounts if a.member == m] for m in range(1, n + 1)]
    e = [max(member_eul([(a.kind, own_eul(a)) for a in own]), 0) for own in of_member]
    greatest = 0
    for j in range(k):
        sums = {}
        for m, own in enumerate(of_member):
            under_j = member_eul([(a.kind, eul(a, j)) for a in own])
            group = groups[m] or ("none", m)        # with group 0 it is its own group
            sums[group] = sums.get(group, 0) + under_j
            greatest = max(greatest, under_j)
        greatest = max(greatest, *sums.values())
    return sum(e), greatest, e


def five(e, t, max_eul):
    """A member's loss, share, and value, reserve and estimate in cents, by the Max EUL that the day reports; all 0 on a day without losses
    (document 02, Change 4)."""
    if t == 0:
        return [0] * 5
    share = ceil(Fraction(e * SHARE, t))
    cents = [nearest(Fraction(percent * e * max_eul, t)) for percent in (100, 110, 220)]
    return [e, share] + cents


def nearest(fraction):
    """To the nearest, a half up."""
    return floor(fraction + Fraction(1, 2))


# From days to the contribution

def three(m, d, shares):
    """A member's raw charge, funded and unfunded contribution, from its share of each of the d days that count."""
    raw = ceil(Fraction(11 * m * sum(shares), 10 * d * SHARE)) if d > 0 else 0
    funded = max(raw, MINIMUM)
    return [raw, funded, 2 * funded]


# Calls on a period. A month's text cannot meet row 2, nor the lengths of rows 1 and 4.

class Refusal(Exception):
    """number: the row. index: of the first bad account, in rows 5 and 6; in row 10 the member's number."""
    def __init__(self, number, index=None):
        self.number, self.index = number, index


class Period:
    def __init__(self, n, k, groups, firsts, lasts):
        """The opening call. In order: 1, 10."""
        if not limits_hold(n, k) or any(g > 32 for g in groups):
            raise Refusal(1)
        for m, (first, last) in enumerate(zip(firsts, lasts), 1):
            if first > last or not 1 <= first <= 31 or not 1 <= last <= 31:
                raise Refusal(10, m)                # the first such member's number (document 02, Change 7)
        self.n, self.k, self.groups, self.firsts, self.lasts = n, k, groups, firsts, lasts
        self.last = 0
        self.own = []                               # of each accepted day its own Max EUL
        self.counted = 0                            # the days with T above 0: D (document 02, Change 4)
        self.shares = [[] for _ in range(n)]

    def day(self, number, accounts):
        """The day call: T, Max EUL and five numbers a member. In order: 4, 3, 5, 6."""
        if not 1 <= len(accounts) <= 256:
            raise Refusal(4)
        if not 1 <= number <= 31 or number <= self.last:
            raise Refusal(3)
        bad = self.bad_heading(number, accounts)
        if bad is not None:
            raise Refusal(5, bad)
        for i, account in enumerate(accounts):
            if bad_amount(account):
                raise Refusal(6, i)
        t, own, losses = day_figures(self.n, self.k, self.groups, accounts)
        self.last = number
        self.own.append(own)
        reported = max(self.own)                    # the highest so far (document 02, Change 3)
        fives = [five(e, t, reported) for e in losses]
        if t > 0:
            self.counted += 1
            for shares, figures in zip(self.shares, fives):
                shares.append(figures[1])           # 0 of an absent member (document 02, Change 7)
        return t, reported, fives

    def present(self, m, number):
        """Whether member m has accounts on the day of this number (document 02, Change 7)."""
        return self.firsts[m - 1] <= number <= self.lasts[m - 1]

    def bad_heading(self, number, accounts):
        """The index of the first account of the day of this number that is bad by row 5, or None."""
        due = [m for m in range(1, self.n + 1) if self.present(m, number)]
        before = (0, 0)             # member and account number
        for i, a in enumerate(accounts):
            this = (a.member, a.number)
            first = a.member != before[0]
            if (not 1 <= a.member <= self.n
                    or a.member not in due                  # of an absent member
                    or i > 0 and this <= before             # not strictly rising
                    or a.number > 65_535
                    or a.kind not in (H, R, A, U)
                    or (a.number == 0) != (a.kind == H)
                    or first and a.number != 0              # a member's first is not 0
                    or any(before[0] < m < a.member for m in due)):     # a present member skipped
                return i
            before = this
        return len(accounts) if any(m > before[0] for m in due) else None   # the last present ones are missing

    def closing(self):
        """The closing call: D, M, the total funded and three numbers a member."""
        d, m = self.counted, max(self.own, default=0)
        threes = [three(m, d, shares) for shares in self.shares]
        return d, m, sum(figures[1] for figures in threes), threes


def limits_hold(n, k):
    return 1 <= n <= 32 and 1 <= k <= 16


def bad_amount(a):
    """Row 6: an amount outside its limit, or extra above margin."""
    return (any(not -AMOUNT <= npv <= AMOUNT for npv in [a.base] + a.stress)
            or not 0 <= a.margin <= AMOUNT or not 0 <= a.extra <= a.margin)


# The month's text

class Refused(Exception):
    """A refusal with its line, as printed."""
    def __init__(self, number, line):
        self.number, self.line = number, line


def number(field):
    """1 to 13 digits, no leading zero."""
    if not re.fullmatch(rb"0|[1-9][0-9]{0,12}", field):
        raise Refusal(9)
    return int(field)


def npv(field):
    """A number, or one with a minus, never -0."""
    if not re.fullmatch(rb"0|-?[1-9][0-9]{0,12}", field):
        raise Refusal(9)
    return int(field)


def kind(field):
    return KINDS.get(field, 9)


class Lines:
    """Hands out the text line by line; at is the number of the line handed out last."""
    def __init__(self, text):
        self.text, self.start, self.at = text, 0, 0

    def next(self):
        """The fields of the next line, and its bytes with the LF; Refusal 9 if it is none."""
        self.at += 1
        end = self.text.find(b"\n", self.start)
        if end < 0 or end - self.start > 512:
            raise Refusal(9)
        line, length = self.text[self.start:end], end + 1 - self.start
        if not line.isascii():
            raise Refusal(9)
        self.start = end + 1
        return line.split(b"\t"), length

    def of(self, word, forms):
        """The values of a line that has to begin with word, and its bytes with the LF."""
        fields, length = self.next()
        return values(fields, word, forms), length

    def end(self):
        return self.start == len(self.text)


def values(fields, word, forms):
    """A line's form: its first word, how many fields, and the form of each."""
    if fields[0] != word or len(fields) != 1 + len(forms):
        raise Refusal(9)
    return [form(field) for form, field in zip(forms, fields[1:])]


def month(text, say):
    """Reads the text and makes the calls; say takes the fields of each line of the report."""
    lines = Lines(text)
    try:
        (n, k), _ = lines.of(b"period", [number, number])
        if not limits_hold(n, k):
            raise Refused(1, lines.at)          # before the lines under it are read
        groups, firsts, lasts = [], [], []
        for i in range(1, n + 1):
            (member, group, first, last), _ = lines.of(b"member", [number, number, number, number])
            if member != i:
                raise Refusal(9)
            groups.append(group)
            firsts.append(first)
            lasts.append(last)
        period = call(lambda: Period(n, k, groups, firsts, lasts), {1: 1}, 1)   # 10 stands at the member's line
        while True:
            fields, _ = lines.next()
            if fields[0] == b"end":
                break
            one_day(lines, values(fields, b"day", [number, number]), k, period, say)
        values(fields, b"end", [])
        if not lines.end():
            raise Refused(9, lines.at + 1)      # nothing follows end
        d, m, total, threes = period.closing()  # which meets no row
    except Refusal as refusal:                  # of the text
        raise Refused(refusal.number, lines.at)
    say("fund", d, m, total)
    for i, figures in enumerate(threes, 1):
        say("contribution", i, *figures)


def one_day(lines, day_line, k, period, say):
    """The acct lines under a day line, and the day call."""
    (day, count), at = day_line, lines.at
    if not 1 <= count <= 256:
        raise Refused(4, at)                    # before the lines under it are read
    accounts, held = [], 0
    for _ in range(count):
        (member, account, letter, base, margin, extra, *stress), length = lines.of(
            b"acct", [number, number, kind, npv, number, number] + [npv] * k)
        held += length
        if held > 65_536:                       # the line that passes this is bad
            raise Refusal(9)
        accounts.append(Account(member, account, letter, base, margin, extra, stress))
    t, max_eul, fives = call(lambda: period.day(day, accounts), {3: at, 4: at}, at + 1)
    say("day", day, t, max_eul)
    for i, figures in enumerate(fives, 1):
        say("daily", i, *figures)
    say("total", *map(sum, zip(*fives)))        # document 02, Change 1


def call(made, line_of, first=None):
    """Makes a call; its refusal stands at the row's line, or at first plus the index."""
    try:
        return made()
    except Refusal as refusal:
        if refusal.index is not None:
            raise Refused(refusal.number, first + refusal.index)
        raise Refused(refusal.number, line_of[refusal.number])


def report(text: bytes) -> bytes:
    printed = []

    def say(*fields):
        printed.append("\t".join(map(str, fields)) + "\n")

    try:
        month(text, say)
    except Refused as refused:
        say("refused", refused.number, refused.line)
    return "".join(printed).encode("ascii")


if __name__ == "__main__":
    sys.stdout.buffer.write(report(sys.stdin.buffer.read()))
