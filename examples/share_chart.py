#!/usr/bin/env python3
"""share_chart.py MEMBER < report > chart.svg

Draws a member's share of each accepted day's loss. A day without losses has no shares: it gets a dash, and
the average is without it. Exits with 1 where there is no accepted day.
"""
import sys
from math import ceil

WIDTH, HEIGHT = 1000, 440
LEFT, RIGHT, TOP, ZERO = 64, 976, 104, 384      # the plot; its foot is the zero line
WHOLE = 10**15                                  # the share of a member that has the whole loss
DARK, GREY, GRID, BLUE, RED = "#1f2933", "#5b6770", "#e1e5ea", "#2f6690", "#c4452d"


def read(report, member):
    """The member's (day, share) pairs, the share of a day without losses being None; and the refusal that ends
    the report, if one does."""
    day, total, bars, refusal = None, 0, [], None
    for at, line in enumerate(report, 1):
        word, *fields = line.rstrip("\n").split("\t")
        try:
            if word == "day":
                day, total = int(fields[0]), int(fields[1])
            elif word == "daily" and fields[0] == member:
                share = int(fields[2])
                if not 0 <= share <= WHOLE:             # the chart has no place for it
                    raise ValueError
                bars.append((day, share if total > 0 else None))
            elif word == "refused":
                refusal = int(fields[0]), int(fields[1])
        except (IndexError, ValueError):
            sys.exit(f"share_chart: line {at} is no line of a report")
    if not bars:
        sys.exit(f"share_chart: the report has no {'member ' + member if day else 'accepted day'}")
    return bars, refusal


def label(percent):
    """Short, so that 31 stand side by side. A 0 is exact."""
    if percent is None:
        return "&#8211;"
    if percent == 0 or percent >= 99.95:
        return f"{percent:.0f}"
    return f"{percent:.1f}" if percent >= 0.05 else "&gt;0"


def text(x, y, size, words, anchor="middle", fill=DARK):
    place = f'x="{x:.1f}" y="{y:.1f}" text-anchor="{anchor}"'
    return f'<text {place} font-size="{size}" fill="{fill}">{words}</text>'


def chart(member, bars, refusal):
    percents = [share if share is None else 100 * share / WHOLE for _, share in bars]
    held = [percent for percent in percents if percent is not None]
    most, without = max(held, default=0), len(percents) - len(held)
    step = next(step for step in (1, 2, 5, 10, 20) if most <= 5 * step)
    steps = max(1, ceil(most / step))
    unit, slot = (ZERO - TOP) / (step * steps), (RIGHT - LEFT) / len(bars)
    width, size = min(0.7 * slot, 64), int(min(0.4 * slot, 13))
    title = f"Member {member}: share of the expected loss, day by day"
    note = "Per cent of the day's total loss T"
    note += f"; on average {sum(held) / len(held):.1f}%." if held else "."
    if without:
        note += " A dash is a day without losses" + (", left out." if held else ".")
    if refusal:
        note += " After these days the month is refused: row {}, line {}.".format(*refusal)
    yield (f'<svg xmlns="http://www.w3.org/2000/svg" width="{WIDTH}" height="{HEIGHT}" '
           f'viewBox="0 0 {WIDTH} {HEIGHT}" font-family="Helvetica, Arial, sans-serif">')
    yield f'<title>{title}</title><rect width="{WIDTH}" height="{HEIGHT}" fill="white"/>'
    yield "<style>text { stroke: white; stroke-width: 4; paint-order: stroke }</style>"
    yield text(LEFT, 38, 20, f'<tspan font-weight="bold">{title}</tspan>', "start")
    yield text(LEFT, 62, 13, note, "start", GREY)
    for tick in range(0, step * (steps + 1), step):
        yield f'<path d="M{LEFT} {ZERO - tick * unit:.1f}H{RIGHT}" stroke="{GRID}"/>'
        yield text(LEFT - 10, ZERO - tick * unit + 4, 12, f"{tick}%", "end", GREY)
    for i, ((day, _), percent) in enumerate(zip(bars, percents)):
        x, top = LEFT + (i + 0.5) * slot, ZERO - (percent or 0) * unit
        if percent is not None:
            yield f'<path d="M{x:.1f} {ZERO}V{top:.1f}" stroke="{BLUE}" stroke-width="{width:.1f}"/>'
        yield text(x, top - 7, size, label(percent), fill=GREY if percent is None else DARK if percent else RED)
        yield text(x, ZERO + 20, 12, day)
    yield f'<path d="M{LEFT} {ZERO}H{RIGHT}" stroke="{DARK}" stroke-width="2"/>'
    yield text((LEFT + RIGHT) / 2, ZERO + 44, 12, "day of the month", fill=GREY) + "</svg>"


if __name__ == "__main__":
    if len(sys.argv) != 2:
        sys.exit("usage: share_chart.py MEMBER < report > chart.svg")
    member, report = sys.argv[1], open(0, encoding="ascii", errors="replace")
    print("\n".join(chart(member, *read(report, member))))
