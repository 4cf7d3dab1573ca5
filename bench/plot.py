#!/usr/bin/env python3
"""Draws figures of history.tsv by date, as SVG: a curve for each job and input.

    plot.py [--program compare.py] [--unit ratio] [--job WORD] [--history FILE] > figures.svg

Where a day has several figures of one job and input the curve goes through their median, and each is a dot.
"""
import argparse
import collections
import datetime
import html
import pathlib
import statistics

import history

WIDTH, HEIGHT, LEFT, TOP, LEGEND = 640, 360, 50, 20, 200
COLOURS = ["#1b6ca8", "#d1495b", "#66a182", "#edae49", "#6a4c93", "#2e4057", "#8d96a3", "#a44a3f", "#3a7d44", "#b5838d"]


def day(text):
    return datetime.date.fromisoformat(text).toordinal()


def figure(text):
    try:
        return float(text)
    except ValueError:
        return None


def curves(args):
    """The figures of each job and input, by day."""
    found = collections.defaultdict(lambda: collections.defaultdict(list))
    for row in history.read(args.history):
        value = figure(row["figure"])
        if row["program"] == args.program and row["unit"] == args.unit and args.job in row["job"] and value is not None:
            found[f"{row['job']} {row['input']}".strip()][day(row["date"])].append(value)
    return found


def scale(low, high, length, start):
    return lambda it: start + (it - low) / max(high - low, 1e-9) * length


def axes(days, top, at_day, at_figure):
    """The frame, five lines across, and the first and the last date."""
    yield f'<rect x="{LEFT}" y="{TOP}" width="{WIDTH}" height="{HEIGHT}" fill="none" stroke="#999"/>'
    for step in range(6):
        value = top * step / 5
        y = at_figure(value)
        yield f'<line x1="{LEFT}" x2="{LEFT + WIDTH}" y1="{y:.1f}" y2="{y:.1f}" stroke="#ddd"/>'
        yield f'<text x="{LEFT - 6}" y="{y + 4:.1f}" text-anchor="end">{value:.2g}</text>'
    for it in sorted({min(days), max(days)}):
        date = datetime.date.fromordinal(it).isoformat()
        yield f'<text x="{at_day(it):.1f}" y="{TOP + HEIGHT + 16}" text-anchor="middle">{date}</text>'


def curve(name, index, by_day, at_day, at_figure):
    """One curve, its dots, and its name beside the frame."""
    colour = COLOURS[index % len(COLOURS)]
    points = [(at_day(it), at_figure(statistics.median(by_day[it]))) for it in sorted(by_day)]
    line = " ".join(f"{x:.1f},{y:.1f}" for x, y in points)
    yield f'<polyline points="{line}" fill="none" stroke="{colour}" stroke-width="1.5"/>'
    for it, values in by_day.items():
        for value in values:
            yield f'<circle cx="{at_day(it):.1f}" cy="{at_figure(value):.1f}" r="2" fill="{colour}"/>'
    yield f'<text x="{LEFT + WIDTH + 12}" y="{TOP + 12 + 15 * index}" fill="{colour}">{html.escape(name)}</text>'


def main():
    words = argparse.ArgumentParser(description=__doc__, formatter_class=argparse.RawDescriptionHelpFormatter)
    words.add_argument("--program", default="compare.py")
    words.add_argument("--unit", default="ratio")
    words.add_argument("--job", default="")
    words.add_argument("--history", type=pathlib.Path, default=history.FILE)
    args = words.parse_args()
    found = curves(args)
    if not found:
        words.error("no such figures")
    days = [it for by_day in found.values() for it in by_day]
    top = 1.1 * max(value for by_day in found.values() for values in by_day.values() for value in values)
    at_day = scale(min(days), max(days), WIDTH - 80, LEFT + 40)
    at_figure = scale(0, top, -HEIGHT, TOP + HEIGHT)
    tall = max(TOP + HEIGHT + 30, TOP + 15 * len(found) + 20)
    wide = LEFT + WIDTH + LEGEND
    print(f'<svg xmlns="http://www.w3.org/2000/svg" width="{wide}" height="{tall}" font-family="sans-serif" font-size="12">')
    print('<rect width="100%" height="100%" fill="white"/>', *axes(days, top, at_day, at_figure), sep="\n")
    for index, name in enumerate(sorted(found)):
        print(*curve(name, index, found[name], at_day, at_figure), sep="\n")
    print("</svg>")


if __name__ == "__main__":
    main()
