#!/usr/bin/env python3
"""Holds the recalculation to document 01's figures 1 to 10, with the shares of Change 6. Exits with 1 where one is wrong."""
import sys

from recalculation import A, H, R, U, Account, Period, day_figures, five, member_eul


def house(member, losses, margin=0):
    """A house account that falls by losses[j] under scenario j."""
    return Account(member, 0, H, 0, margin, 0, [-loss for loss in losses])


def own_max_eul(groups, *losses, margins=(0, 0, 0)):
    """The own Max EUL of a day of house accounts."""
    accounts = [house(i, under, margins[i - 1]) for i, under in enumerate(losses, 1)]
    return day_figures(len(losses), len(losses[0]), groups, accounts)[1]


def closing(*days):
    """The contributions after days of house accounts, one scenario, no groups."""
    n = len(days[0])
    period = Period(n, 1, [0] * n, [1] * n, [31] * n)
    for number, losses in enumerate(days, 1):
        period.day(number, [house(i, [loss]) for i, loss in enumerate(losses, 1)])
    return period.closing()[3]


def column(which, losses, greatest):
    return [five(e, sum(losses), greatest)[which] for e in losses]


ONE = [450, 200, 250, 500, 200, 200]
TWO = [300] + ONE[1:]
M = 10**6
CASES = [
    (1, sum(ONE), 1800),
    (1, column(1, ONE, 500), [250000000000000, 111111111111112, 138888888888889, 277777777777778,
                              111111111111112, 111111111111112]),
    (1, column(2, ONE, 500), [12500, 5556, 6944, 13889, 5556, 5556]),
    (1, column(3, ONE, 500), [13750, 6111, 7639, 15278, 6111, 6111]),
    (2, (sum(TWO), column(2, TWO, 500)[0], column(3, TWO, 500)[0]), (1650, 9091, 10000)),
    (3, member_eul([(H, -40), (R, 60), (R, 50), (R, 30), (R, -25), (U, 20), (A, 10)]), 100),
    (4, member_eul([(H, 0), (R, 10), (R, 10), (U, 100)]), 160),
    (5, member_eul([(H, 0)] + 5 * [(R, 3)]), 8),
    (6, own_max_eul([1, 1], [100], [0], margins=(0, 30)), 100),
    (7, own_max_eul([1, 1, 0], [100], [80], [150]), 180),
    (8, own_max_eul([1, 1], [100, 0], [0, 80]), 100),
    (9, [raw for raw, _, _ in closing([200 * M] * 3)], [73_333_334] * 3),
    (10, [funded for _, funded, _ in closing([100 * M, 100 * M], [0, 600 * M])],
     [165 * M, 495 * M]),
]

wrong = [case for case, got, due in CASES if got != due]
print(f"figures 1 to 10: {'wrong in ' + str(wrong) if wrong else 'all right'}")
sys.exit(1 if wrong else 0)
