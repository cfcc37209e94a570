#!/usr/bin/env python3
"""Draws the path of a position, from what `lifetime` prints with an account to follow.

usage: tools/path_picture.py TITLE < OUTPUT > PICTURE.svg

Above, a lane for each class: while the account holds lots in it, a bar with their months. Below, the account's cash and
its margins from day to day, in cents.
"""
import datetime
import sys

ORDER = ["Y02", "Y01", "Q04", "Q03", "Q02", "Q01", "M03", "M02", "M01", "D01", "D02",
         "T05", "T04", "T03", "T02", "T01", "DEL"]
LEFT, RIGHT, TOP, LANE, PANEL, GAP = 90, 20, 40, 22, 200, 30
WIDTH = 1100
COLOURS = ["#4878a8", "#6aa36a", "#c07840", "#8868a8", "#a85858", "#508890", "#887040"]


def day(text):
    return datetime.date.fromisoformat(text).toordinal()


def read(lines):
    """The account's rows, and by class and months the first and the last day."""
    account, bars = [], {}
    for line in lines:
        fields = line.rstrip("\n").split(",")
        if fields[0] == "account" and len(fields) == 5:
            account.append((day(fields[1]), int(fields[3]), int(fields[4] or 0)))
        elif fields[0] == "position":
            key = (fields[2], fields[3], fields[4])
            first, _ = bars.get(key, (day(fields[1]), None))
            bars[key] = (first, day(fields[1]))
    return account, bars


def steps(points, x, y):
    """A line that keeps its height from day to day."""
    path = []
    for i, (when, value) in enumerate(points):
        if i:
            path.append(f"H{x(when):.1f}")
            path.append(f"V{y(value):.1f}")
        else:
            path.append(f"M{x(when):.1f} {y(value):.1f}")
    return " ".join(path)


def picture(title, account, bars):
    lanes = [name for name in ORDER if any(key[0] == name for key in bars)]
    start, end = account[0][0], account[-1][0]
    below = TOP + LANE * len(lanes) + GAP
    height = below + PANEL + 50

    def x(when):
        return LEFT + (WIDTH - LEFT - RIGHT) * (when - start) / max(1, end - start)

    low = min(min(a[1], a[2]) for a in account + [(start, 0, 0)])
    high = max(max(a[1], a[2]) for a in account + [(start, 0, 0)])

    def y(cents):
        return below + PANEL * (high - cents) / max(1, high - low)

    out = [f'<svg xmlns="http://www.w3.org/2000/svg" width="{WIDTH}" height="{height}" '
           f'viewBox="0 0 {WIDTH} {height}" font-family="sans-serif" font-size="11">',
           f'<rect width="{WIDTH}" height="{height}" fill="white"/>',
           f'<text x="{LEFT}" y="20" font-size="14">{title}</text>']
    for year in range(datetime.date.fromordinal(start).year, datetime.date.fromordinal(end).year + 1):
        for month in (1, 4, 7, 10):
            when = datetime.date(year, month, 1).toordinal()
            if start <= when <= end:
                colour = "#999999" if month == 1 else "#dddddd"
                out.append(f'<line x1="{x(when):.1f}" x2="{x(when):.1f}" y1="{TOP - 6}" y2="{below + PANEL}" stroke="{colour}"/>')
                if month == 1:
                    out.append(f'<text x="{x(when) + 3:.1f}" y="{below + PANEL + 14}">{year}</text>')
    for i, name in enumerate(lanes):
        out.append(f'<text x="{LEFT - 8}" y="{TOP + LANE * i + 14}" text-anchor="end">{name}</text>')
    for number, (key, (first, last)) in enumerate(sorted(bars.items(), key=lambda b: (b[1][0], b[0][1]))):
        name, begins, ends = key
        top = TOP + LANE * lanes.index(name)
        colour = COLOURS[int(begins[5:]) % len(COLOURS)]
        wide = max(2.0, x(last) - x(first))
        months = begins if begins == ends else f"{begins} to {ends}"
        out.append(f'<g><title>{name}: {months}, {datetime.date.fromordinal(first)} to {datetime.date.fromordinal(last)}</title>'
                   f'<rect x="{x(first):.1f}" y="{top + 2}" width="{wide:.1f}" height="{LANE - 5}" fill="{colour}"/>')
        if wide > 7 * len(months):
            out.append(f'<text x="{x(first) + 4:.1f}" y="{top + 14}" fill="white">{months}</text>')
        out.append("</g>")
    out.append(f'<line x1="{LEFT}" x2="{WIDTH - RIGHT}" y1="{y(0):.1f}" y2="{y(0):.1f}" stroke="#666666"/>')
    for cents in (low, 0, high):
        out.append(f'<text x="{LEFT - 8}" y="{y(cents) + 4:.1f}" text-anchor="end">{cents}</text>')
    out.append(f'<path d="{steps([(a[0], a[2]) for a in account], x, y)}" fill="none" stroke="#c07840"/>')
    out.append(f'<path d="{steps([(a[0], a[1]) for a in account], x, y)}" fill="none" stroke="#4878a8" stroke-width="1.5"/>')
    out.append(f'<text x="{LEFT}" y="{below + PANEL + 34}" fill="#4878a8">cash in cents</text>')
    out.append(f'<text x="{LEFT + 110}" y="{below + PANEL + 34}" fill="#c07840">margins in cents</text>')
    out.append("</svg>")
    return "\n".join(out) + "\n"


if __name__ == "__main__":
    sys.stdout.write(picture(sys.argv[1], *read(sys.stdin)))
