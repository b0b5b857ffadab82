#!/usr/bin/env python3
"""Writes the benchmark's code file and rolls: a loop over members with a switch, arithmetic and array reads."""
import random
import struct
import sys

NAMES = ("HALT MARK CONST LOAD STORE GET PUT TEST ROUND TRUTH ADD SUB MUL DIV NEG LESS SAME MORE NOT AND OR EQV "
         "JUMP FALSE TABLE ROWS HERE TAKE TAKEW POST").split()

# cells
N, I, STATUS, AGE, PAY, TOTAL, RATES = range(7)
NAMED = RATES + 10


def cells(first, count, low):
    return first + 4096 * count + 16777216 * (low + 10000)


def take(cell):
    return [("MARK", 0), ("CONST", 1), ("TAKE", cells(cell, 1, 1))]


def assemble():
    code, labels = [], {}

    def put(*lines):
        for line in lines:
            code.append(line)

    def label(name):
        labels[name] = len(code)

    def add_to_total(divisor):
        put(("MARK", 0), ("LOAD", TOTAL), ("LOAD", PAY), ("LOAD", AGE), ("CONST", 10), ("DIV", 0),
            ("GET", cells(RATES, 10, 0)), ("MUL", 0), ("CONST", divisor), ("DIV", 0), ("ADD", 0), ("STORE", TOTAL))

    put(*take(N))
    for k in range(10):
        put(("MARK", 0), ("CONST", 3 * k + 5), ("STORE", RATES + k))
    put(("MARK", 0), ("CONST", 1), ("STORE", I))
    label("member")
    put(*take(STATUS))
    put(*take(AGE))
    put(*take(PAY))
    put(("MARK", 0), ("LOAD", STATUS), ("TABLE", "rows"))
    put(("MARK", 0), ("JUMP", "next"))
    label("active")
    add_to_total(100)
    put(("MARK", 0), ("JUMP", "next"))
    label("deferred")
    add_to_total(200)
    put(("MARK", 0), ("JUMP", "next"))
    label("pensioner")
    put(("MARK", 0), ("LOAD", TOTAL), ("LOAD", PAY), ("ADD", 0), ("STORE", TOTAL))
    label("next")
    put(("MARK", 0), ("LOAD", I), ("CONST", 1), ("ADD", 0), ("STORE", I))
    put(("MARK", 0), ("LOAD", I), ("LOAD", N), ("MORE", 0), ("FALSE", "member"))
    put(("MARK", 0), ("LOAD", TOTAL), ("POST", 0), ("MARK", 0), ("HALT", 0))
    label("rows")
    put(("ROWS", 3), ("JUMP", "active"), ("JUMP", "deferred"), ("JUMP", "pensioner"))
    return [(op, labels[x] if isinstance(x, str) else x) for op, x in code]


def main(folder):
    code = assemble()
    n = len(code)
    with open(f"{folder}/members.code", "wb") as f:
        f.write(struct.pack("<4I", n, NAMED, NAMED, 8))
        f.write(bytes(NAMES.index(op) for op, _ in code))
        f.write(b"".join(struct.pack("<Q", x) for _, x in code))
    for count in (900, 9000, 90000):
        pick = random.Random(count)
        with open(f"{folder}/members-{count}.roll", "w") as f:
            f.write(f"{count}\n")
            for _ in range(count):
                f.write(f"{pick.choice([1, 1, 2, 3, 7])}\n{pick.randrange(20, 99)}\n{pick.randrange(100, 9000)}\n")


main(sys.argv[1])
