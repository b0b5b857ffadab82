#!/usr/bin/env python3
"""report.py RULES ROLL [--kind whole|hundredths] [--group G] [--book N] [--limit N] [--set NAME=FIGURE]..: what comes of
the rules over the roll, for people. ROLL is a roll file, in hundredths a file of amounts. NAME is a variable, or an
array's name with its subscript, as a[3]."""

import argparse

from run import Hundredths, Run, Whole, amount_line, amount_roll, leaver_filter, text_roll, whole_line
from text import Refused, read

KINDS = {"whole": (Whole, text_roll, whole_line), "hundredths": (Hundredths, amount_roll, amount_line)}


def shown(figure, unit):
    if unit == 1:
        return str(figure)
    return f"{'-' if figure < 0 else ''}{abs(figure) // unit}.{abs(figure) % unit:02}"


def cell_names(table):
    """The names of the named cells in their order, an array's with their subscripts."""
    names = []
    for spelling in table.appearance:
        low = table.bounds[spelling][0] if table.kind(spelling) == "array" else None
        for k in range(table.size(spelling)):
            names.append(spelling if low is None else f"{spelling}[{low + k}]")
    return names


def place_words(text, place):
    line = text.count(b"\n", 0, place) + 1
    column = place - (text.rfind(b"\n", 0, place) + 1) + 1
    return f"byte {place} (line {line}, column {column})"


def report(text, data, kind="whole", group=None, book=1024, limit=4_000_000_000, settings=()):
    """The lines of the report."""
    try:
        statements, table = read(text)
    except Refused as r:
        return [f"refused {r.number} at {place_words(text, r.place)}"]
    figures_of, roll_of, figure = KINDS[kind]
    figures, ending = roll_of(data)
    if group:
        figures = leaver_filter(figures, group)
    names = cell_names(table)
    cells = [0] * len(names)
    for setting in settings:
        name, _, words = setting.partition("=")
        cells[names.index(name)] = figure(words.encode())
    run = Run(statements, table, figures_of(), cells, figures, ending, book)
    run.advance(limit)
    return run_lines(run, text, names)


def run_lines(run, text, names):
    unit = run.kind.unit
    lines = [f"posted: {len(run.book)}"]
    lines += [f"  {shown(f, unit)}" for f in run.book]
    lines.append(f"count: {run.count}")
    if run.fault:
        number, place, roll_place = run.fault
        at = "" if roll_place is None else f", roll byte {roll_place}"
        lines.append(f"status: fault {number} at {place_words(text, place)}{at}")
    else:
        lines.append(f"status: {run.status()}")
    lines.append(f"cells: {len(names)}")
    return lines + [f"  {n} = {shown(c, unit)}" for n, c in zip(names, run.cells)]


def arguments():
    parser = argparse.ArgumentParser(description=__doc__)
    parser.add_argument("rules")
    parser.add_argument("roll")
    parser.add_argument("--kind", choices=KINDS, default="whole")
    parser.add_argument("--group", type=int)
    parser.add_argument("--book", type=int, default=1024)
    parser.add_argument("--limit", type=int, default=4_000_000_000)
    parser.add_argument("--set", action="append", default=[], dest="settings")
    return parser


def lines_of(words, folder="."):
    """The report for the words of a command, with its files in the folder."""
    a = arguments().parse_args(words)
    with open(f"{folder}/{a.rules}", "rb") as rules, open(f"{folder}/{a.roll}", "rb") as roll:
        return report(rules.read(), roll.read(), a.kind, a.group, a.book, a.limit, a.settings)


if __name__ == "__main__":
    import sys
    print("\n".join(lines_of(sys.argv[1:])))
