#!/usr/bin/env python3
"""Seeded months for the comparison: valid ones, in most of which members join or leave, ones with days without losses, edge, damaged and large
ones.

month(seed, index) gives the text of one; the same two give the same text.
months.py SEED INDEX writes it on standard output.
"""
import random
import sys

LIMIT = 10**12
LONGEST = 2_162_688         # a text longer than this holds bytes no answer depends on
DAY_BYTES = 65_536
LINE_BYTES = 512


class Day:
    """accounts: rows of member, number, kind, base, margin, extra, stress 1 to k."""
    def __init__(self, number, accounts):
        self.number, self.accounts, self.count = number, accounts, len(accounts)


class Month:
    """Every field may be a whole number or the bytes to be written. presence: each member's first and last day, as it was
    drawn; by default all are present on all days."""
    def __init__(self, n, k, groups, days, presence=None):
        self.n, self.k, self.days = n, k, days
        self.period = [n, k]
        self.presence = presence or [(1, 31)] * n
        self.members = [[i, group, first, last] for i, (group, (first, last)) in enumerate(zip(groups, self.presence), 1)]

    def present(self, number):
        """The members that have accounts on a day of this number."""
        return present(self.presence, number)

    def lines(self):
        """The month's lines, each a list of its fields."""
        out = [[b"period"] + self.period]
        out += [[b"member"] + member for member in self.members]
        for day in self.days:
            out.append([b"day", day.number, day.count])
            out += [[b"acct"] + account for account in day.accounts]
        out.append([b"end"])
        return [[field if isinstance(field, bytes) else b"%d" % field for field in line]
                for line in out]


def present(presence, number):
    return [i for i, (first, last) in enumerate(presence, 1) if first <= number <= last]


def joined(lines):
    return b"".join(b"\t".join(line) + b"\n" for line in lines)


# Valid months

def some(rng, *choices):
    """One of (weight, value) pairs."""
    return rng.choices([value for _, value in choices], [weight for weight, _ in choices])[0]


def amount(rng, style):
    """0 to the limit."""
    if style == "tiny":
        return rng.randint(0, 4)
    if style == "small":
        return rng.randint(0, 100)
    if style == "minimum":                  # 110% of it is near the least contribution
        return rng.choice((45_454_545, 50_000_000)) + rng.randint(-2, 2)
    if style == "millions":
        return rng.randint(0, 600) * 10**6
    if style == "limit":
        return rng.choice((0, 1, LIMIT - 1, LIMIT))
    if style == "large":
        return rng.randint(10**11, LIMIT)
    return rng.randint(0, 10**rng.randint(1, 12))


STYLES = ("tiny", "tiny", "small", "minimum", "millions", "limit", "large", "any", "any")


def within(value):
    return max(-LIMIT, min(LIMIT, value))


def amounts(rng, k, style, pool, safe):
    """Base, margin, extra and stresses of one account; pool holds losses that come again,
    safe is how often margin about covers the loss."""
    losses = []
    for _ in range(k):
        loss = rng.choice(pool) if rng.random() < 0.4 else amount(rng, style)
        losses.append(some(rng, (6, loss), (1, -loss), (1, 0)))
    if rng.random() < 0.2:                  # a loss under one scenario only
        only = rng.randrange(k)
        losses = [loss if j == only else 0 for j, loss in enumerate(losses)]
    base = some(rng, (3, 0), (2, amount(rng, style)), (2, -amount(rng, style)),
                (1, LIMIT), (1, -LIMIT))
    if style in ("limit", "large") and rng.random() < 0.5:
        base = LIMIT
    stress = [within(base - loss) for loss in losses]
    loss = max(0, *(base - s for s in stress))
    margin = some(rng, (5, 0), (2, amount(rng, style)), (1, within(loss)),
                  (safe, max(0, within(loss + rng.randint(-1, 1)))))
    extra = some(rng, (4, 0), (1, margin), (2, rng.randint(0, margin)))
    return [base, margin, extra] + stress


def accounts_of(rng, members, k, most, kinds, style, safe, sure):
    """The accounts of a day's members in good order, at most so many clients a member. Where it is sure,
    a house falls that has no margin, and T is not 0."""
    pool = [amount(rng, style) for _ in range(2)]
    rows, houses = [], []
    for member in members:
        houses.append(len(rows))
        numbers = set()
        for _ in range(rng.randint(0, most)):
            numbers.add(some(rng, (3, len(numbers) + 1), (3, rng.randint(1, 65_535)),
                             (1, 65_535), (1, 65_534), (1, 256)))
        for number in [0] + sorted(numbers):
            kind = rng.choice(kinds) if number else b"H"
            rows.append([member, number, kind] + amounts(rng, k, style, pool, safe))
    if sure:
        row = rows[rng.choice(houses)]
        row[3] = max(row[3], 0)
        row[4:7] = [0, 0, row[3] - max(1, amount(rng, style))]
    return rows


def groups_of(rng, n):
    choices = some(rng, (4, [0]), (4, [0, 1, 2]), (2, [rng.randint(1, 32)]), (2, [31, 32]),
                   (1, list(range(33))), (2, [0, 32]))
    return [rng.choice(choices) for _ in range(n)]


def numbers_of(rng, count):
    """Rising day numbers, often with 1 or 31."""
    numbers = sorted(rng.sample(range(1, 32), count))
    if rng.random() < 0.2:
        numbers[-1] = 31
    if rng.random() < 0.2 and count > 1:
        numbers[0] = 1
    return numbers


def presence_of(rng, n, numbers):
    """A first and a last day for each member, often at the number of a day or beside it; somebody is present on each day. In a third of the
    months all are present from 1 to 31."""
    presence = [[1, 31] for _ in range(n)]
    if rng.random() < 0.3:
        return presence
    beside = [day for number in numbers for day in (number - 1, number, number, number + 1) if 1 <= day <= 31]
    for one in presence:
        way = some(rng, (4, (0,)), (4, (1,)), (4, (0, 1)), (1, ()), (1, None))
        if way is None:                     # one day alone
            one[:] = [rng.choice(beside)] * 2
            continue
        for which in way:
            one[which] = rng.choice(beside) if rng.random() < 0.8 else rng.randint(1, 31)
        one.sort()
    for number in numbers:
        if not present(presence, number):
            one = rng.choice(presence)
            one[:] = min(one[0], number), max(one[1], number)
    return presence


def valid(rng, n=None, k=None, days=None):
    n = n or some(rng, (4, 1), (6, 2), (5, 3), (3, 4), (2, rng.randint(5, 12)), (0.4, 32))
    k = k or some(rng, (5, 1), (5, 2), (4, 3), (2, rng.randint(4, 8)), (0.7, 16))
    days = days or some(rng, (9, 1), (6, 2), (4, 3), (1, rng.randint(4, 8)), (0.3, 31))
    most = rng.choice((0, 1, 3, 6))
    kinds = some(rng, (6, [b"R", b"A", b"U"]), (3, [b"R"]), (1, [b"A"]), (1, [b"U"]),
                 (2, [b"R", b"R", b"R", b"U"]))
    style, safe = rng.choice(STYLES), rng.choice((0, 0, 2, 6))
    numbers, made = numbers_of(rng, days), []
    presence = presence_of(rng, n, numbers)
    for number in numbers:
        if rng.random() < 0.3:
            style = rng.choice(STYLES)
        sure = rng.random() < 0.7
        made.append(Day(number, accounts_of(rng, present(presence, number), k, most, kinds, style, safe, sure)))
    return Month(n, k, groups_of(rng, n), made, presence)


def again(month, day, number):
    """A day of this number with that day's accounts, but for those of members who are absent on it; one who was absent then gets a house account,
    with the amounts of that day's first account. Where nobody is present the accounts stay as they are."""
    members = month.present(number) if isinstance(number, int) else []
    absent = set(range(1, month.n + 1)) - set(members)
    rows = [list(row) for row in day.accounts if not members or row[0] not in absent]
    for member in members:
        if all(row[0] != member for row in rows):
            at = next((i for i, row in enumerate(rows) if isinstance(row[0], int) and row[0] > member), len(rows))
            rows.insert(at, [member, 0, b"H"] + day.accounts[0][3:])
    return Day(number, rows)


# Months with days without losses

def covered(rng, month, day):
    """T is 0: accounts that do not fall, or not below their margin; clients that do, and a house that covers them, often just so."""
    style = rng.choice(STYLES)
    house, clients = None, []
    for row in day.accounts + [None]:
        if row is None or row[1] == 0:
            if clients:                     # no client's loss counts twice, and one client's as much as its kind says
                loss = 2 * sum(lost for _, lost in clients)
                if len(clients) == 1:
                    (kind, lost), = clients
                    loss = lost if kind == b"R" else lost + (lost + 1) // 2
                house[3:] = [0, loss + rng.choice((0, 0, 1, 5)), 0] + [0] * month.k
            house, clients = row, []
        if row is None:
            break
        way = rng.randrange(5)
        loss = amount(rng, style)
        stress = [-rng.choice((loss, loss // 2, 0)) for _ in range(month.k)]
        if way == 0:                        # nothing falls
            row[3:] = [0, 0, 0] + [0] * month.k
        elif way == 1:                      # it gains
            row[3:] = [0, rng.choice((0, 1, LIMIT)), 0] + [-value for value in stress]
        elif way == 2:                      # the margin covers its largest fall, often just so
            margin = within(-min(stress) + rng.choice((0, 0, 0, 1)))
            row[3:] = [0, margin, 0] + stress
        elif way == 3:                      # it does with the extra off, just so
            row[3:] = [0, LIMIT, LIMIT + min(stress)] + stress
        elif row[1] and row[2] in (b"R", b"A", b"U") and len(clients) < 2:
            lost = rng.randint(1, 9)
            row[3:] = [0, 0, 0] + [-lost] + [0] * (month.k - 1)
            clients.append((row[2], lost))
        else:
            row[3:] = [7, 0, 0] + [7] * month.k


def quiet(rng):
    """A valid month whose first days are without losses, or its last, some between or all; at times a day follows whose number is not above
    the last one's, or there is an edge elsewhere."""
    days = rng.choice((1, 2, 3, 3, 4, 5))
    month = valid(rng, days=days)
    some_days = rng.randint(1, days)
    for day in rng.choice((month.days[:some_days], month.days[-some_days:], month.days[1:-1] or month.days, month.days,
                           rng.sample(month.days, some_days))):
        covered(rng, month, day)
    if rng.random() < 0.25:
        last = month.days[-1]
        number = rng.choice((last.number, last.number - 1, month.days[0].number, last.number + 1))
        month.days.append(again(month, rng.choice(month.days), number))
        if rng.random() < 0.5:
            covered(rng, month, month.days[-1])
    if rng.random() < 0.2:
        rng.choice(MONTH_EDGES)(rng, month, rng.choice(month.days))
    return joined(month.lines())


# Edges of a month's numbers; each changes the month, most of them in the day it is given

def wide(rng, value):
    """A number of good form that a narrow type takes for value, or one too large for its field."""
    if rng.random() < 0.6:
        return value + 2 ** rng.choice((8, 16, 32, 32, 40))
    return rng.choice((9_999_999_999_999, 10**12, 10**12 + 1, 2**32, 2**31, b"1" * 13))


def bad_form(rng, value):
    """No number, or one of bad form."""
    text = b"%d" % value
    return rng.choice((
        b"0" + text, b"00", b"0" * 13, b"-0", b"-0", b"-00", b"-01", b"-" + text, b"+" + text,
        b"--1", b"-", b"", b" " + text, text + b" ", text + b"\r", text + b"\0", b"\0", b"x",
        b"1e3", b"0x1", text + b".0", b"1-", b"\xb2", b"\xef\xbc\x91", text + b"\x80",
        text + b"\xff", text + b"/", text + b":", b"1" * 14, b"-" + b"9" * 13, b"-" + b"9" * 14,
        10**13, 10**13 + value, 10**14, value + 2**63, value + 2**64))


def troubled(rng, value):
    value = value if isinstance(value, int) else 1
    return rng.choice((wide, bad_form))(rng, value)


def and_more(rng, value):
    """A number outside its limit, and a field after it that makes the line bad."""
    return b"%d\t" % value + rng.choice((b"", b"0", b"1"))


def edge_form(rng, month, day):
    """Any number of the month in bad form."""
    row = rng.choice((month.period, rng.choice(month.members), rng.choice(day.accounts)))
    at = rng.choice([i for i, field in enumerate(row) if isinstance(field, int)] or [0])
    row[at] = bad_form(rng, row[at] if isinstance(row[at], int) else 1)


def edge_period(rng, month, day):
    for which in rng.choice(((0,), (1,), (0, 1))):
        most, held = ((32, month.n), (16, month.k))[which]
        month.period[which] = some(rng, (2, 0), (2, most + 1), (1, most), (1, held - 1),
                                   (1, held + 1), (4, troubled(rng, held)),
                                   (1, and_more(rng, most + 1)))


def edge_group(rng, month, day):
    for _ in range(rng.choice((1, 1, 2))):
        member = rng.choice(month.members)
        member[1] = some(rng, (3, 33), (2, 32), (1, 34), (1, 0), (3, troubled(rng, 0)),
                         (1, and_more(rng, 33)))


def edge_presence(rng, month, day):
    """A first or a last day at a limit, beside the other, or no such number; or the two exchanged."""
    for _ in range(rng.choice((1, 1, 2, 3))):
        member = rng.choice(month.members)
        first, last = (value if isinstance(value, int) else 1 for value in member[2:])
        which = rng.choice((2, 2, 3))
        member[which] = some(rng, (2, 0), (2, 32), (1, 1), (1, 31), (2, last), (2, last + 1), (1, first), (1, first - 1),
                             (3, troubled(rng, member[which])), (1, and_more(rng, rng.choice((0, 32)))))
        if rng.random() < 0.2:
            member[2:] = some(rng, (2, [last, first]), (1, [0, 0]), (1, [32, 32]), (1, [31, 31]), (1, [1, 1]), (1, [31, 1]))


def edge_presence_by_one(rng, month, day):
    """A first or a last day that lets the member in, or leaves it out, on the day, on the one before or on the one after."""
    for _ in range(rng.choice((1, 1, 2))):
        member, number = rng.choice(month.members), day.number if isinstance(day.number, int) else 1
        member[rng.choice((2, 3))] = number + rng.choice((-1, 0, 0, 1))


def edge_several_members(rng, month, day):
    """Two faults in the member lines or more: first and last days, groups, now and then a bad form."""
    for _ in range(rng.choice((2, 2, 3))):
        member = rng.choice(month.members)
        at, values = some(rng, (4, (2, (0, 32, 33))), (4, (3, (0, 32, 99))), (3, (1, (33, 34))), (1, (rng.randrange(4), (b"x", b"-1", b"01", b""))))
        member[at] = rng.choice(values)


def edge_absent(rng, month, day):
    """Accounts of a member that is absent, a house account or a client; at times in place of one that is present."""
    here = month.present(day.number) if isinstance(day.number, int) else []
    absent = [i for i in range(1, month.n + 1) if i not in here]
    if not absent:
        return edge_absent_now(rng, month, day)
    member = rng.choice(absent)
    if rng.random() < 0.4:
        one = min(here or [0], key=lambda other: (abs(other - member), rng.random()))
        day.accounts = [row for row in day.accounts if row[0] != one] or day.accounts
    at = next((i for i, row in enumerate(day.accounts) if isinstance(row[0], int) and row[0] > member), len(day.accounts))
    number = some(rng, (4, 0), (1, 1))
    day.accounts.insert(at, [member, number, b"R" if number else b"H"] + day.accounts[0][3:])
    day.count = len(day.accounts)


def edge_absent_now(rng, month, day):
    """A member that has accounts on the day comes later or left before it, at times all members."""
    number = day.number if isinstance(day.number, int) else 1
    for member in [rng.choice(month.members)] if rng.random() < 0.6 else month.members:
        at, value = rng.choice(((2, number + 1), (3, number - 1)))
        if 1 <= value <= 31:
            member[2:] = [1, 31]
            member[at] = value
    if rng.random() < 0.2:
        day.accounts = day.accounts[:1]
        day.count = rng.choice((0, 1))


def edge_member_line(rng, month, day):
    member = rng.choice(month.members)
    number = member[0] if isinstance(member[0], int) else 1
    member[0] = some(rng, (1, number + 1), (1, number - 1), (1, 0), (3, troubled(rng, number)))


def edge_day_number(rng, month, day):
    at = month.days.index(day)
    last = month.days[at - 1].number if at else 0
    if not isinstance(last, int):
        last = 0
    day.number = some(rng, (3, 0), (3, 32), (1, 31), (1, 1), (4, last), (3, last - 1),
                      (1, last + 1), (3, troubled(rng, last + 1)))
    if rng.random() < 0.1:
        day.count = rng.choice((0, 257, b"", b"x"))


def edge_count(rng, month, day):
    count = len(day.accounts)
    day.count = some(rng, (2, 0), (3, 257), (1, 256), (2, count + 1), (2, count - 1),
                     (3, troubled(rng, count)), (2, and_more(rng, rng.choice((0, 257)))))
    if rng.random() < 0.1:
        day.number = rng.choice((0, 32, b"", b"x"))


def edge_member(rng, month, day):
    row = rng.choice(day.accounts)
    row[0] = some(rng, (1, 0), (1, month.n + 1), (1, month.n), (1, rng.randint(1, month.n)),
                  (4, troubled(rng, row[0])))


def edge_account(rng, month, day):
    """An account number; that of the last account, if it is high, leaves the order good."""
    row = rng.choice((rng.choice(day.accounts), day.accounts[-1]))
    row[1] = some(rng, (2, 0), (3, 65_536), (2, 65_535), (1, 65_537), (1, 1),
                  (4, troubled(rng, row[1])))


def edge_kind(rng, month, day):
    row = rng.choice(day.accounts)
    kind = row[2]
    row[2] = some(
        rng, (3, rng.choice((b"H", b"R", b"A", b"U"))), (3, kind.lower()), (1, kind + kind),
        (1, b" " + kind), (1, kind + b" "), (1, kind + b"\r"), (1, kind + b"\0"),
        (1, kind + b"\xc3"), (1, b""), (1, bytes([rng.randrange(9)])),
        (2, rng.choice((b"X", b"0", b"1", b"9"))), (2, rng.choice((b"\x1f", b"\x7f"))),
        (2, rng.choice((b"\x80", b"\xff"))), (1, b"Z" * 400), (1, kind[:1] * 257))


def edge_house(rng, month, day):
    """A client account of kind H, or a house account of another."""
    clients = [row for row in day.accounts if row[1] != 0]
    if clients and rng.random() < 0.7:
        rng.choice(clients)[2] = b"H"
    else:
        rng.choice(day.accounts)[2] = rng.choice((b"R", b"A", b"U"))


def edge_line_bytes(rng, month, day):
    """A kind so long that its line has 511 to 514 bytes."""
    row = rng.choice(day.accounts)
    pad(row, LINE_BYTES + rng.choice((-1, 0, 0, 1, 1, 2)), rng)


def pad(row, size, rng):
    """Gives the account's line size bytes before its LF by way of its kind."""
    row[2] = b""
    held = len(joined(Month(1, 1, [], [Day(1, [row])]).lines()[2:3])) - 1
    row[2] = rng.choice((b"K", b"H", b"R", b"U", b"\0", b"\x7f")) * max(0, size - held)


def edge_amount(rng, month, day):
    for _ in range(rng.choice((1, 1, 2))):
        row = rng.choice(day.accounts)
        which = rng.choice((3, 4, 4, 5, 6, len(row) - 1, rng.randrange(3, len(row))))
        row[which] = some(
            rng, (3, LIMIT), (3, LIMIT + 1), (2, -LIMIT), (2, -LIMIT - 1), (1, 10**13 - 1),
            (1, 1 - 10**13), (1, 0), (1, -1), (3, troubled(rng, row[which])))


def edge_extra(rng, month, day):
    row = rng.choice(day.accounts)
    if isinstance(row[4], int):
        row[5] = row[4] + rng.choice((-1, 0, 1, 1))
    if rng.random() < 0.3:
        row[4], row[5] = rng.choice(((LIMIT, LIMIT), (LIMIT, LIMIT + 1), (LIMIT + 1, 0),
                                     (LIMIT + 1, LIMIT), (0, 1), (LIMIT + 1, LIMIT + 2)))


def edge_without_losses(rng, month, day):
    """T is 0: nothing falls, or margin covers it all, or by one dollar it does not."""
    for row in day.accounts:
        row[3:] = [0, 0, 0] + [0] * month.k
    way = rng.randrange(3)
    if way == 0:
        return
    row = rng.choice(day.accounts)
    row[3] = loss = rng.randint(1, LIMIT)
    row[4] = loss if way == 1 else loss - 1


def edge_most(rng, month, day):
    """The greatest losses there can be."""
    kind = rng.choice((b"R", b"A", b"U"))
    for row in day.accounts:
        row[2] = kind if row[1] else b"H"
        row[3:] = [LIMIT, LIMIT, LIMIT] + [-LIMIT] * month.k


def edge_no_max(rng, month, day):
    """T above 0 and Max EUL 0: houses lose under 1, their clients under k and less than margin."""
    for row in day.accounts:
        loss, only = (rng.randint(1, 9), month.k - 1) if row[1] else (100, 0)
        row[3:] = [loss, 0, 0] + [0 if j == only else loss for j in range(month.k)]
        if row[1] == 0:
            row[4] = loss + rng.choice((0, 0, 0, 1, -1))


def edge_missing(rng, month, day):
    """The last members, one in the middle or a house account is missing."""
    def member(row):
        return row[0] if isinstance(row[0], int) else 0

    last = max(map(member, day.accounts))
    one = member(rng.choice(day.accounts))
    gone = rng.choice((lambda row: member(row) == last,
                       lambda row: member(row) > one,
                       lambda row: member(row) == one,
                       lambda row: member(row) == one and row[1] == 0))
    day.accounts = [row for row in day.accounts if not gone(row)] or day.accounts
    day.count = len(day.accounts)


def edge_member_more(rng, month, day):
    """Accounts of member n + 1, first its house, after all the others."""
    row = list(day.accounts[-1])
    row[:3] = [month.n + 1, 0, b"H"]
    day.accounts.append(row)
    if rng.random() < 0.5:
        day.accounts.append([month.n + 1, 1, b"R"] + row[3:])
    day.count = len(day.accounts)


def edge_order(rng, month, day):
    """Two accounts exchanged, one given twice, or one member's accounts after another's."""
    rows = day.accounts
    i, j = rng.randrange(len(rows)), rng.randrange(len(rows))
    way = rng.randrange(3)
    if way == 0:
        rows[i], rows[j] = rows[j], rows[i]
    elif way == 1 and len(rows) < 256:
        rows.insert(i, list(rows[i]))
        if rng.random() < 0.5 and isinstance(rows[i][1], int):
            rows[i][1] += 1
    else:
        one = rows[i][0]
        rows.sort(key=lambda row: row[0] == one)
    day.count = len(rows)


def edge_days(rng, month, day):
    """A day more at the end, with the same number, 32 or one that has passed."""
    last = month.days[-1]
    number = last.number if isinstance(last.number, int) else 1
    month.days.append(again(month, last, rng.choice((number, 32, 1, 31, number + 1))))


def edge_several(rng, month, day):
    """Two or three refusals that could each be given for the same day, at times one without losses."""
    rows = rng.sample((3, 4, 5, 6, 9), rng.choice((2, 2, 3)))
    if rng.random() < 0.4:
        for row in day.accounts:
            row[3:] = [0] * len(row[3:])
    if 3 in rows:
        day.number = rng.choice((0, 32, month.days[month.days.index(day) - 1].number))
    if 4 in rows:
        day.count = rng.choice((0, 257))
    if 5 in rows:
        row = rng.choice(day.accounts)
        at, value = rng.choice(((0, month.n + 1), (1, 65_536), (2, b"X"), (2, b"")))
        row[at] = value
    if 6 in rows:
        row = rng.choice(day.accounts)
        row[rng.choice((3, 4, 5, 6, len(row) - 1))] = LIMIT + rng.randint(1, 2)
    if 9 in rows:
        row = rng.choice(day.accounts)
        row[rng.choice((0, 1, 3, 4, 5, 6, len(row) - 1))] = rng.choice((b"x", b"-0", b"01"))


MONTH_EDGES = (
    edge_form, edge_form, edge_period, edge_period, edge_group, edge_group, edge_member_line,
    edge_presence, edge_presence, edge_presence, edge_presence_by_one, edge_presence_by_one,
    edge_several_members, edge_several_members, edge_absent, edge_absent, edge_absent, edge_absent_now,
    edge_day_number, edge_day_number, edge_day_number, edge_count, edge_count, edge_member,
    edge_member, edge_account, edge_account, edge_kind, edge_kind, edge_kind, edge_house,
    edge_line_bytes, edge_line_bytes, edge_amount, edge_amount, edge_amount, edge_amount,
    edge_extra, edge_without_losses, edge_without_losses, edge_most, edge_no_max, edge_missing, edge_missing,
    edge_member_more, edge_order, edge_days, edge_several, edge_several, edge_several)


# Edges of lines

def line_word(rng, lines):
    word = rng.choice(sorted({line[0] for line in lines}))
    line = rng.choice([line for line in lines if line[0] == word])
    line[0] = some(
        rng, (1, word.upper()), (1, word.capitalize()), (2, word[:-1]), (1, b""), (1, b" " + word),
        (2, word + rng.choice((b"s", b" ", b"\0", b"\r"))), (1, word[:-1] + b"\xff"),
        (2, rng.choice((b"period", b"member", b"day", b"acct", b"end"))))


def line_tab(rng, lines):
    """Two fields not parted by one tab."""
    line = rng.choice(lines)
    if len(line) > 1:
        at = rng.randrange(1, len(line))
        line[at - 1:at + 1] = [rng.choice((b" ", b" ", b"\t\t", b"")).join(line[at - 1:at + 1])]


def line_turn(rng, lines):
    """The first line after the member lines, or the like, is another."""
    turns = [i for i in range(1, len(lines)) if lines[i][0] != lines[i - 1][0]] or [0]
    at = rng.choice(turns)
    lines[at] = rng.choice(([b""], [b"end"], [b"x", b"1", b"1"], list(lines[at - 1])))


def line_fields(rng, lines):
    """A field too many or too few."""
    line = rng.choice(lines)
    if rng.random() < 0.3:
        line = lines[-1]
    way = rng.choice((0, 0, 1, 2, 3))
    if way == 0:
        line.append(rng.choice((b"", b"", b"0", b"1", b"\r", line[-1])))
    elif way == 1 and len(line) > 1:
        line.pop()
    elif way == 2:
        line.insert(0, b"")
    elif len(line) > 1:
        line[rng.randrange(1, len(line))] = b""


def line_more(rng, lines):
    """A line too many: empty, of another kind or one that has been."""
    line = rng.choice(([b""], [b"\r"], [b"end"], [b"end", b""], list(rng.choice(lines)),
                       list(lines[0]), list(lines[1 % len(lines)]), [b"member", b"1", b"0", b"1", b"31"],
                       [b"day", b"31", b"1"], [b"acct"], [b"period", b"1", b"1"], [b"\xff"]))
    lines.insert(some(rng, (2, rng.randint(0, len(lines))), (1, len(lines)), (1, len(lines) - 1)),
                 line)


def line_less(rng, lines):
    lines.pop(some(rng, (3, rng.randrange(len(lines))), (1, len(lines) - 1)))


def line_cut(rng, lines):
    """The text ends after some line, where a line is still due."""
    del lines[rng.randint(0, len(lines) - 1):]
    if rng.random() < 0.3:
        lines.append([b"end"])


def line_no_days(rng, lines):
    """A month that has not begun."""
    lines[:] = [line for line in lines if line[0] not in (b"day", b"acct")]


LINE_EDGES = (line_word, line_word, line_word, line_tab, line_turn, line_turn, line_fields,
              line_fields, line_more, line_less, line_cut, line_no_days, line_no_days)


# Edges of the text

def text_after_end(rng, text):
    return text + rng.choice((b"\n", b"\0", b" ", b"\r\n", b"end\n", b"x", b"\xff", b"end", b"\t",
                              b"day\t31\t1\n", b"period\t1\t1\n", text))


def text_last_lf(rng, text):
    return text[:-1]


def text_cr(rng, text):
    if rng.random() < 0.5:
        return text.replace(b"\n", b"\r\n")
    return text.replace(b"\n", b"\r\n", 1) if rng.random() < 0.5 else text[:-1] + b"\r\n"


def text_before(rng, text):
    return rng.choice((b"\n", b"\xef\xbb\xbf", b" ", b"\0", b"\t")) + text


TEXT_EDGES = (text_after_end, text_after_end, text_last_lf, text_cr, text_before)
EDGES = {"month": MONTH_EDGES, "line": LINE_EDGES, "text": TEXT_EDGES}


def edge(rng):
    """A valid month with one to three edges, those of its days all in one day."""
    month = valid(rng)
    day = rng.choice(month.days)
    steps = {"month": [], "line": [], "text": []}
    for _ in range(rng.choice((1, 1, 1, 2, 2, 3))):
        level = some(rng, (10, "month"), (5, "line"), (2, "text"))
        steps[level].append(rng.choice(EDGES[level]))
    for step in steps["month"]:
        step(rng, month, day)
    lines = month.lines()
    for step in steps["line"]:
        if lines:
            step(rng, lines)
    text = joined(lines)
    for step in steps["text"]:
        text = step(rng, text)
    return text


# Damaged months

BYTES = b"\t\t\n\n-0019HRAU \r\0\x7f\x80\xff"


def any_byte(rng):
    return bytes([rng.choice(BYTES)]) if rng.random() < 0.7 else bytes([rng.randrange(256)])


def byte_changed(rng, text):
    at = rng.randrange(len(text))
    return text[:at] + any_byte(rng) + text[at + 1:]


def byte_deleted(rng, text):
    at = rng.randrange(len(text))
    return text[:at] + text[at + 1:]


def byte_inserted(rng, text):
    at = rng.randint(0, len(text))
    return text[:at] + any_byte(rng) + text[at:]


def cut(rng, text):
    return text[:rng.randint(0, len(text))]


def digits_changed(rng, text):
    """One to four digits become others, never a leading zero."""
    text = bytearray(text)
    places = [i for i, byte in enumerate(text) if byte in b"0123456789"]
    for at in rng.sample(places, min(len(places), rng.choice((1, 1, 2, 4)))):
        text[at] = rng.choice(b"123456789")
    return bytes(text)


def deleted(rng, parts):
    parts.pop(rng.randrange(len(parts)))


def doubled(rng, parts):
    at = rng.randrange(len(parts))
    parts.insert(at, parts[at])


def exchanged(rng, parts):
    i, j = rng.randrange(len(parts)), rng.randrange(len(parts))
    parts[i], parts[j] = parts[j], parts[i]


def of_lines(change):
    """A damage to the lines; the last part is what follows the last LF, mostly nothing."""
    def damage(rng, text):
        lines = text.split(b"\n")
        change(rng, lines)
        return b"\n".join(lines)
    return damage


def of_fields(change):
    """A damage to the fields of one line."""
    def one_line(rng, lines):
        at = rng.randrange(len(lines))
        fields = lines[at].split(b"\t")
        change(rng, fields)
        lines[at] = b"\t".join(fields)
    return of_lines(one_line)


DAMAGES = (byte_changed, byte_changed, byte_deleted, byte_inserted, cut, digits_changed,
           digits_changed, digits_changed, of_lines(deleted), of_lines(doubled),
           of_lines(exchanged), of_fields(deleted), of_fields(doubled), of_fields(exchanged),
           of_fields(exchanged))


def damaged(rng):
    text = some(rng, (7, lambda rng: joined(valid(rng).lines())), (1, quiet), (2, edge))(rng)
    for _ in range(rng.choice((1, 1, 1, 2, 3))):
        if text:
            text = rng.choice(DAMAGES)(rng, text)
    return text


# Large months

def acct_bytes(day):
    return len(joined(Month(1, 1, [], [day]).lines()[2:-1]))


def full_day(rng, number, n, k, count, members=None):
    """A day of count accounts in good order, their numbers long; of these members, by default of all n."""
    members = members or range(1, n + 1)
    clients = dict.fromkeys(members, 0)
    for _ in range(count - len(members)):
        clients[rng.choice(members)] += 1
    rows = []
    for member in members:
        for account in [0] + sorted(rng.sample(range(1, 65_536), clients[member])):
            kind = rng.choice((b"R", b"A", b"U")) if account else b"H"
            margin = rng.randint(10**11, LIMIT)
            npvs = [rng.randint(-LIMIT, LIMIT) for _ in range(k + 1)]
            rows.append([member, account, kind, npvs[0], margin, rng.randint(10**10, margin)]
                        + npvs[1:])
    return Day(number, rows)


def sized(rng, day, size):
    """The day's acct lines brought to size bytes by longer or shorter stresses, if it can be."""
    over = acct_bytes(day) - size
    places = [(row, at) for row in day.accounts for at in range(6, len(row))]
    rng.shuffle(places)
    for row, at in places:
        if over == 0:
            break
        held = len(b"%d" % row[at])
        width = min(14, max(1, held - over))
        row[at] = (-10 ** (width - 2) - rng.randrange(9 * 10 ** (width - 2) if width < 14 else 1)
                   if width > 1 else rng.randint(0, 9))
        over -= held - width
    return day


def day_bytes(rng):
    """One to three days with acct lines of about 65,536 bytes, all in good order."""
    n, k, days = rng.randint(1, 32), rng.choice((14, 15, 16)), rng.choice((1, 1, 2, 3))
    numbers, made = numbers_of(rng, days), []
    presence = presence_of(rng, n, numbers)
    for number in numbers:
        day = full_day(rng, number, n, k, rng.randint(240, 256), present(presence, number))
        size = DAY_BYTES + rng.choice((-30_000, -1, 0, 0, 0, 0, 1, 1, 2, 200))
        made.append(sized(rng, day, size))
    month = Month(n, k, groups_of(rng, n), made, presence)
    if rng.random() < 0.3:
        rng.choice(MONTH_EDGES)(rng, month, rng.choice(month.days))
    return joined(month.lines())


def day_bytes_by_kind(rng):
    """Fewer accounts, their lines made long by a kind that is none."""
    month = valid(rng, n=rng.randint(1, 3), k=rng.randint(1, 3), days=rng.choice((1, 2)))
    day = rng.choice(month.days)
    held = acct_bytes(day)
    row = list(day.accounts[-1])
    size = DAY_BYTES + rng.choice((-1, 0, 0, 1, 1, 100))
    while held < size and len(day.accounts) < 256:
        new = list(row)
        new[1] = len(day.accounts)
        pad(new, min(LINE_BYTES, size - held - 1), rng)
        day.accounts.append(new)
        held = acct_bytes(day)
    day.count = len(day.accounts) + rng.choice((0, 0, 1))
    return joined(month.lines())


def many_accounts(rng):
    """256 or 257 short accounts."""
    n, k = rng.randint(1, 32), rng.randint(1, 2)
    count = rng.choice((256, 256, 257, 255))
    number, = numbers_of(rng, 1)
    presence = presence_of(rng, n, [number])
    month = Month(n, k, groups_of(rng, n), [full_day(rng, number, n, k, count, present(presence, number))], presence)
    if rng.random() < 0.4:
        rng.choice(MONTH_EDGES + (edge_most,) * 20)(rng, month, month.days[0])
    return joined(month.lines())


def many_days(rng):
    """31 days, and now and then one more."""
    month = valid(rng, n=rng.randint(1, 3), days=31)
    if rng.random() < 0.5:
        edge_days(rng, month, month.days[0])
    elif rng.random() < 0.5:
        rng.choice(MONTH_EDGES)(rng, month, rng.choice(month.days))
    return joined(month.lines())


def full(rng):
    """31 days of the full size, at times with a 32nd and more after it. On one of them some members join, and others have left before it."""
    n, k = rng.choice((1, 31, 32)), 16
    turn = rng.randint(2, 31)
    presence = [(1, 31)] + [some(rng, (3, (1, 31)), (1, (turn, 31)), (1, (1, turn - 1))) for _ in range(n - 1)]
    made = [[sized(rng, full_day(rng, number, n, k, 256, present(presence, number)), DAY_BYTES) for _ in range(2)] for number in (1, turn)]
    days = [Day(number, made[number >= turn][number % 2].accounts) for number in range(1, 32)]
    more = rng.choice((0, 0, 1, 1, 2, 3))
    days += [Day(rng.choice((31, 32, 1, 0)), days[-1].accounts) for _ in range(more)]
    text = joined(Month(n, k, groups_of(rng, n), days, presence).lines())
    if rng.random() < 0.3:
        text = rng.choice(DAMAGES)(rng, text)
    return text


def long_text(rng):
    """A text longer than 2,162,688 bytes, or just as long."""
    text = joined(valid(rng).lines()) if rng.random() < 0.6 else edge(rng)
    size = LONGEST + rng.choice((-1, 0, 1, 2, 65_536, 1_000_000))
    fill = rng.choice((b"\n", b"0", b"\0", b"\xff", b"end\n", text or b"\n"))
    at = rng.choice((len(text), len(text), rng.randint(0, len(text)), 0))
    return text[:at] + (fill * (size // len(fill) + 1))[:max(0, size - len(text))] + text[at:]


LARGE = ((8, day_bytes), (6, day_bytes_by_kind), (8, many_accounts), (8, many_days), (1, full),
         (1, long_text))


def month(seed, index):
    rng = random.Random(f"{seed} {index}")
    make = some(rng, (29, lambda rng: joined(valid(rng).lines())), (8, quiet), (39, edge), (21, damaged),
                (3, some(rng, *LARGE)))
    return make(rng)


if __name__ == "__main__":
    sys.stdout.buffer.write(month(int(sys.argv[1]), int(sys.argv[2])))
