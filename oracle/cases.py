#!/usr/bin/env python3
"""Runs the worked cases that crates/meaning/specs/Cases.antt proves, and the texts that docs/ gives for each refusal, and
compares. Prints a line for each that differs, and ends with status 1 if any does."""

import sys

from ial import result
from run import amount_roll, leaver_filter, text_roll


def ran(steps, cells, book=(), status="end"):
    return {"steps": steps, "status": status, "cells": list(cells), "book": list(book)}


def fault(number, place, roll_place=None):
    return {"fault": number, "place": place, "roll_place": roll_place}


SWITCH = b"switch s := (a, b); go to s[%d]; x := 1; a: b: y := 1"
MEMBERS = b"in=:(n); s:=0; for i:=1(1)n; begin in=:(x); s:=s+x end; print(s)"

# text, arguments, what comes of it
RUNS = [
    (b"x := 7/2", {}, ran(1, [3])),
    (b"x := -7/2", {}, ran(1, [-3])),
    (b"x := 999999999+999999999+2", {}, ran(1, [2_000_000_000])),
    (b"x := 999999999+999999999+3", {}, ran(0, [0], status=fault(31, 0))),
    (b"for i := 5(1)3; x := x+1", {}, ran(4, [6, 1])),
    (SWITCH % 3, {}, ran(3, [1, 1])),
    (SWITCH % 2, {}, ran(2, [0, 1])),
    (b"boolean(p, q); q := p", {"cells": [7, 0]}, ran(1, [7, 1])),
    (b"integer(x); x := 7/2", {"kind": "hundredths"}, ran(1, [400])),
    (MEMBERS, {"figures": [2, 10, 20], "book": 1}, ran(12, [2, 30, 3, 20], [30])),
    # beyond the cases that are proved
    (MEMBERS, {"figures": [2, 10], "book": 1}, ran(7, [2, 10, 2, 10], status=fault(33, 35))),
    (MEMBERS, {"figures": [2, 10], "ending": 5, "book": 1}, ran(7, [2, 10, 2, 10], status=fault(34, 35, 5))),
    (b"print(1, 2)", {"book": 1}, ran(1, [], [1], fault(35, 0))),
    (b"array(a[-1:1]); a[2] := 1", {}, ran(0, [0, 0, 0], status=fault(36, 16))),
    (b"for i := 3(-1)1, 9; print(i)", {}, ran(12, [9], [3, 2, 1, 9])),
    (b"i := 1; for j := 1(1)9; begin if (j >= 4); go to out; i := i*2 end; out: print(i)", {}, ran(17, [8, 4], [8])),
    (b"x := (1/0 and 0)", {}, {"refused": 9, "place": 6}),
    (b"boolean(p); p := ((1/0 > 1) and 0)", {}, ran(0, [0], status=fault(32, 12))),
    (b"comment nothing", {}, ran(0, [])),
]

REFUSALS = [
    (b"x := 1 # 2", 2, 7), (b"x := 1234567890", 3, 5), (b"x := 1 +", 5, 8), (b"a: a: stop", 7, 3),
    (b"array(a[1:2]); x := a", 8, 20), (b"x := (y > 1)", 9, 5), (b"go to a; for i := 1; a: x := 1", 10, 6),
    (b"array(a[2:1])", 11, 7), (b" " * 8193, 1, 8192), (b"stop;" * 250 + b"stop", 4, 1250), (b"", 5, 0),
    (b"x := " + b"(" * 33 + b"1" + b")" * 33, 6, 37), (b"array(a[1:2048]); x := 1", 12, 18),
    (b"array(a[1:2048]); for i := 1; stop", 12, 22), (b"x := 1 # 1234567890", 2, 7), (b"go to x", 8, 6),
]


def main():
    bad = 0

    def compare(what, got, wanted):
        nonlocal bad
        if got != wanted:
            bad += 1
            print(f"{what!r}: {got}, not {wanted}")

    for text, arguments, wanted in RUNS:
        got = result(text, **arguments)
        got.pop("roll", None)
        compare(text, got, wanted)
    for text, number, place in REFUSALS:
        compare(text[:60], result(text), {"refused": number, "place": place})
    compare("leavers", leaver_filter([1, 10, 0, 20, 1, 30, 0], 2), [1, 10, 1, 30])
    compare("lines", text_roll(b"12\n-7\n2000000001\n"), ([12, -7], 6))
    compare("unended line", text_roll(b"12\n-7"), ([12], 3))
    compare("amounts", amount_roll(b"7\n-0.05\n20000000.00\n1.5\n"), ([700, -5, 2_000_000_000], 20))
    print(f"{len(RUNS) + len(REFUSALS) + 4} compared, {bad} differ")
    sys.exit(1 if bad else 0)


if __name__ == "__main__":
    main()
