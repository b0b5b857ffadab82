#!/usr/bin/env python3
"""generate.py SEED COUNT [FOLDER]: random texts and rolls with what comes of them, a line of JSON each. Some are damaged or
given an offence on purpose, so that refusals are tried too. With a folder, each trial is also written there as NNNN.ial, NNNN.roll
and NNNN.json."""

import json
import os
import random
import sys

from ial import result
from run import leaver_filter, text_roll

REALS = ["x", "y", "z"]
INTEGERS = ["i", "j", "n"]
BOOLEANS = ["p", "q"]
ARRAYS = ["a", "b"]
LABELS = ["l1", "l2", "l3", "l4"]
SWITCHES = ["s1", "s2"]


class Texts:
    """Texts of the grammar, by a random choice at every form; `depth` keeps them small."""

    def __init__(self, random):
        self.r = random
        self.free = list(LABELS)
        self.reach = [[]]  # the labels planned for each for body around, innermost last

    def text(self):
        r = self.r
        self.reach[0] = [self.free.pop() for _ in range(r.randint(0, 3))]
        items = [self.statement(2) for _ in range(r.randint(1, 5))]
        for label in self.reach[0]:
            at = r.randrange(len(items))
            items[at] = f"{label}: {items[at]}"
        declarations = ["integer(i, j)" if r.random() < 0.5 else "integer (i,j , n)", "boolean(p, q)", "array(a[-2:3], b[1:2])"]
        if self.reach[0]:
            for s in SWITCHES:
                declarations.append(f"switch {s} := ({', '.join(r.choice(self.reach[0]) for _ in range(r.randint(1, 3)))})")
        else:
            declarations.append("comment no labels here")
        for d in declarations:
            items.insert(r.randint(0, len(items)), d)
        return r.choice(["; ", ";\n", " ;"]).join(items)

    def statement(self, depth):
        r = self.r
        form = r.choices(["assign", "flag", "if", "for", "block", "go", "switch", "in", "print", "stop"],
                         [6, 2, 3 * (depth > 0), 3 * (depth > 0), 1 * (depth > 0), 1, 0.7, 1, 2, 0.3])[0]
        if form == "assign":
            return f"{self.place()} := {self.sum(depth)}"
        if form == "flag":
            return f"{r.choice(BOOLEANS)} := {self.condition(depth)}"
        if form == "if":
            return f"if {self.condition(depth - 1)}; {self.statement(depth - 1)}"
        if form == "for":
            return self.loop(depth)
        if form == "block":
            return "begin " + "; ".join(self.statement(depth - 1) for _ in range(r.randint(1, 3))) + " end"
        if form == "go":
            known = [l for level in self.reach for l in level]
            return f"go to {r.choice(known)}" if known else "print(1)"
        if form == "switch":
            return f"go to {r.choice(SWITCHES)}[{self.sum(1)}]" if self.reach[0] else f"print({self.sum(1)})"
        if form == "in":
            return f"in =: ({self.place()})"
        if form == "print":
            return "print(" + ", ".join(self.sum(depth) for _ in range(r.randint(1, 3))) + ")"
        return "stop"

    def loop(self, depth):
        r = self.r
        elements = []
        for _ in range(r.randint(1, 3)):
            if r.random() < 0.5:
                elements.append(self.sum(1))
            else:
                step = r.choice(["1", "2", "-1", "-2", "n", "0/1+1"])
                elements.append(f"{r.randint(0, 5)}({step}){r.choice(['', '-', ''])}{r.randint(0, 6)}")
        inner = [self.free.pop()] if self.free and r.random() < 0.4 else []
        self.reach.append(inner)
        parts = [self.statement(depth - 1) for _ in range(r.randint(1, 3))]
        self.reach.pop()
        for label in inner:
            at = r.randrange(len(parts))
            parts[at] = f"{label}: {parts[at]}"
        body = "begin " + "; ".join(parts) + " end" if len(parts) > 1 or r.random() < 0.3 else parts[0]
        return f"for {r.choice(REALS + INTEGERS)} := {', '.join(elements)}; {body}"

    def place(self):
        r = self.r
        return r.choice(REALS + INTEGERS) if r.random() < 0.7 else f"{r.choice(ARRAYS)}[{self.subscript(1)}]"

    def subscript(self, depth):
        r = self.r
        return r.choice(["1", "2", "1", "2", "3 - 1", "0"]) if r.random() < 0.9 else self.sum(depth)

    def sum(self, depth):
        r = self.r
        text = r.choice(["", "", "", "-", "+"]) + self.term(depth)
        for _ in range(r.choice([0, 0, 0, 1, 2])):
            text += r.choice([" + ", " - ", "+", "-"]) + self.term(depth)
        return text

    def term(self, depth):
        r = self.r
        text = self.factor(depth)
        for _ in range(r.choice([0, 0, 0, 1, 2])):
            if r.random() < 0.6:
                text += "*" + self.factor(depth)
            else:
                text += " / " + (self.factor(depth) if r.random() < 0.2 else str(r.randint(1, 9)))
        return text

    def factor(self, depth):
        r = self.r
        if depth > 0 and r.random() < 0.25:
            return f"({self.sum(depth - 1)})"
        if r.random() < 0.4:
            return str(r.choice([0, 1, 1, 2, 2, 3, 7, 10, 10, 100, 100, 99999] + [999999999] * (r.random() < 0.2)))
        if depth > 0 and r.random() < 0.3:
            return f"{r.choice(ARRAYS)}[{self.subscript(depth - 1)}]"
        return r.choice(REALS + INTEGERS)

    def condition(self, depth):
        r = self.r
        text = self.simple_condition(depth)
        for _ in range(r.choice([0, 0, 1, 2])):
            text += r.choice([" and ", " or ", " eqv "]) + self.simple_condition(depth)
        return text

    def simple_condition(self, depth):
        r = self.r
        negation = r.choice(["", "", "not "])
        if depth > 0 and r.random() < 0.2:
            return f"{negation}({self.condition(depth - 1)})"
        if r.random() < 0.3:
            return negation + r.choice(BOOLEANS + ["0", "1"])
        return f"{negation}({self.sum(max(depth, 0))} {r.choice(['<', '<=', '=', '/=', '>=', '>'])} {self.sum(0)})"


def damaged(text, r):
    """The text with one word or byte taken out, doubled, swapped or replaced."""
    parts = text.split(" ")
    at = r.randrange(len(parts))
    how = r.randrange(5)
    if how == 0:
        del parts[at]
    elif how == 1:
        parts.insert(at, parts[at])
    elif how == 2:
        parts[at] = r.choice(["begin", "end", "(", ")", "[", "]", ";", "1", "x", "p", "a", "l1", "s1", "not", ":=", "array", "#", "x" * 17])
    elif how == 3:
        other = r.randrange(len(parts))
        parts[at], parts[other] = parts[other], parts[at]
    else:
        whole = " ".join(parts)
        cut = r.randrange(len(whole))
        return whole[:cut]
    return " ".join(parts)


def offended(text, r):
    """The text with one more item, that offends against a rule or comes near to it."""
    deep = r.randint(29, 33)
    item = r.choice(["integer(x)", "boolean(x)", "integer(l1)", "boolean(s1)", "l1: stop", "l4: stop", "x: stop", "x := a", "a := 1", "x[1] := 1",
                     "x := l1", "x := p", "p := x", "p := 1", "p := 01", "p := +1", "p := 2", "x := (y > 1)", "print((1))", "print((p))", "if x; stop",
                     "go to x", "go to l4", "go to s1", "go to l1[1]", "switch s3 := (x)", "switch s1 := (l1)", "in =: (p)", "for p := 1; stop",
                     "for i := 1; begin l9: stop end; go to l9", "for i := 1; begin l9: go to l8; for j := 1; begin l8: stop end end",
                     "array(c[2:1])", "array(c[-9999:-9999])", "array(c[0:10000])", "array(c[-10000:0])", "array(c[1:2026])", "array(c[1:2030])",
                     "array(c, d[1:1020])", "x := " + "(" * deep + "1" + ")" * deep, "if (1 = " + "(" * deep + "1" + ")" * deep + "); stop",
                     "comment " + "z" * 8000, "x := " + "+".join(["1"] * r.randint(120, 260))])
    return f"{item}; {text}" if r.random() < 0.5 else f"{text}; {item}"


def trial(seed):
    r = random.Random(seed)
    text = Texts(r).text()
    chance = r.random()
    if chance < 0.2:
        text = damaged(text, r)
    elif chance < 0.4:
        text = offended(text, r)
    roll = b"".join(b"%d\n" % r.choice([0, 1, 2, 3, -4, 10, 250, -2000000000, 2000000000]) for _ in range(r.randint(0, 12)))
    if r.random() < 0.2:
        roll += r.choice([b"x\n", b"12", b"2000000001\n", b"-\n", b"\n"])
    kind = r.choice(["whole", "hundredths"])
    group = r.choice([0, 0, 1, 2, 3])
    book, steps = r.choice([0, 3, 40, 400]), r.choice([0, 1, 5, 50, 2000, 2000, 2000])
    figures, ending = text_roll(roll)
    if kind == "hundredths":
        ending = None
    if group:
        figures = leaver_filter(figures, group)
    outcome = result(text.encode(), kind, figures, ending, None, book, steps)
    return {"seed": seed, "text": text, "kind": kind, "roll": roll.decode(), "group": group, "book": book, "steps": steps, "result": outcome}


def main():
    first, count = int(sys.argv[1]), int(sys.argv[2])
    for seed in range(first, first + count):
        t = trial(seed)
        print(json.dumps(t))
        if len(sys.argv) > 3:
            base = os.path.join(sys.argv[3], f"{seed:04}")
            open(base + ".ial", "w").write(t["text"])
            open(base + ".roll", "w").write(t["roll"])
            json.dump(t, open(base + ".json", "w"))


if __name__ == "__main__":
    main()
