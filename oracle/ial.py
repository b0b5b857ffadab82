#!/usr/bin/env python3
"""ial.py TEXT [--kind whole|hundredths] [--roll FIGURES | --roll-file FILE] [--filter G] [--cells FIGURES] [--book N]
[--steps N]: what comes of the text in the file TEXT, as one line of JSON. FIGURES are whole numbers with commas between;
in hundredths they count hundredths."""

import argparse
import json

from run import Hundredths, Run, Whole, leaver_filter, text_roll
from text import Refused, read

KINDS = {"whole": Whole, "hundredths": Hundredths}


def result(text, kind="whole", figures=(), ending=None, cells=None, book=16, steps=10_000):
    """A refusal, or the state of the run after at most so many steps."""
    try:
        statements, table = read(text)
    except Refused as r:
        return {"refused": r.number, "place": r.place}
    run = Run(statements, table, KINDS[kind](), cells, figures, ending, book)
    run.advance(steps)
    return {"steps": run.count, "status": run.status(), "cells": run.cells, "book": run.book, "roll": run.figures}


def numbers(text):
    return [int(n) for n in text.split(",") if n]


def main():
    parser = argparse.ArgumentParser(description=__doc__)
    parser.add_argument("text")
    parser.add_argument("--kind", choices=KINDS, default="whole")
    parser.add_argument("--roll", type=numbers, default=[])
    parser.add_argument("--roll-file")
    parser.add_argument("--filter", type=int)
    parser.add_argument("--cells", type=numbers)
    parser.add_argument("--book", type=int, default=16)
    parser.add_argument("--steps", type=int, default=10_000)
    a = parser.parse_args()
    figures, ending = a.roll, None
    if a.roll_file:
        figures, ending = text_roll(open(a.roll_file, "rb").read())
    if a.filter:
        figures = leaver_filter(figures, a.filter)
    print(json.dumps(result(open(a.text, "rb").read(), a.kind, figures, ending, a.cells, a.book, a.steps)))


if __name__ == "__main__":
    main()
