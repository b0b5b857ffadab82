#!/usr/bin/env python3
"""readings.py SEED COUNT [--sentences]: writes texts and what the reading says of each, for the program crate
crates/reading_trials: data/texts has the texts, each ended by a byte 0, and stdout the answers, a line each. The texts are a
list of both sides of every limit and rule, and COUNT random ones from the number SEED on, many of them damaged. With
--sentences the rules on names are not asked."""

import os
import random
import sys

from generate import Texts, damaged, offended
from text import Parser, Refused, read, words_of

FOLDER = os.path.join(os.path.dirname(__file__), "..", "crates", "reading_trials")


def nested(opener, inner, closer, levels):
    return opener * levels + inner + closer * levels


# Words and sentences: every refusal and both sides of every limit.
SENTENCES = [
    "", " ", " \n\n", "x := 1", "x := 1 # 2", "x\t:= 1", "x := 1\r\n", "x := 123456789", "x := 1234567890",
    "abcdefghijklmnop := 1", "abcdefghijklmnopq := 1", "x := abcdefghijklmnopq + 1234567890",
    "x := 1 +", "x := 1 +  \n ", "x := 1 + * 2", "x :=", "x", "x := 12ab", "x := 1 2", "x := (1", "x := (1)", "x := (1 < 2)",
    "x := (1 < 2 < 3)", "x := 1 < 2", "x := a[1", "x := a[1]", "x := a[]", "x := +1", "x := +-1", "x := not not 1", "x := not -1",
    "x := 1 + not 1", "x := - not 1", "x := 1 eqv 0 or 1 and not 0", "x := a * b / c - d", "x := (+a) * (-b)",
    "comment", "comment x", "comment #\x01; x := 1", "x := 1; comment", "x := comment 1; 2", "begin comment; x := 1 end", "begin x := 1 end",
    "begin x := 1; end", "begin end", "begin x := 1; y := 2 end", "begin begin x := 1 end end", "begin integer(x) end",
    "x := 1;", ";", "x := 1;; y := 2", "integer(x)", "integer(x, y)", "integer()", "integer x", "integer(x,)", "boolean(p); p := 1", "boolean(1)",
    "array(a[1:2])", "array(a, b[-1:+2], c[0:0])", "array(a)", "array(a[1])", "array(a[x:2])", "array(a[1:2]", "array(a[--1:2])", "array()",
    "switch s := (a)", "switch s := (a, b); a: b: stop", "switch s := a", "switch s(a)", "switch := (a)", "switch s := ()",
    "a: stop", "a: b: c: stop", "a:", "a: ;", "a: integer(x)", "a: comment", "1: stop", "go to a", "go a", "goto a", "go to", "go to 1",
    "go to s[1]; a: stop; switch s := (a)", "go to s[1", "go to s[]", "if 1; stop", "if 1 stop", "if; stop", "if 1;", "if 1; ; stop",
    "if (x < 1); if (x > 2); stop", "if (x < 1); a: stop", "for i := 1; stop", "for i := 1(1)3; stop", "for i := 1, 2(3)4, 5; x := i", "for i; stop",
    "for i := ; stop", "for a[1] := 1; stop", "for i := 1(1); stop", "for i := 1(1)3(1)5; stop", "for i := (1); stop", "for i := (1)(2)3; stop",
    "for i := 1 stop", "for i := 1; for j := 2; print(i, j)", "in =: (x)", "in =: (a[1]); array(a[1:1])", "in =: x", "in := (x)", "in (x)", "in =: (1)",
    "in =: (x, y)", "print(1)", "print(1, 2, 3)", "print()", "print 1", "print(1,)", "stop", "stop stop", "stop; stop", "end", "to", "x := y := 1",
    "(x) := 1", "x = 1", "x =: 1", "x <= 1", "begin stop", "begin stop; stop end end", "eqv", "x := 1 and", "Begin x := 1 End", "BEGIN: stop",
    "a[1] := 1; array(a[1:1])", "a[1][2] := 1", "x := a[b[c[1]]]; array(a, b, c[1:1])", "x := 0000000001", "x := 000000001",
    # levels
    "x := " + nested("(", "1", ")", 32), "x := " + nested("(", "1", ")", 33), "x := " + nested("(", "1", ")", 34), "x := " + nested("(", "", "", 33),
    "x := " + nested("a[", "1", "]", 32) + "; array(a[1:1])", "x := " + nested("a[", "1", "]", 33) + "; array(a[1:1])",
    nested("begin ", "stop", " end", 32), nested("begin ", "stop", " end", 33), "if 1; " * 32 + "stop", "if 1; " * 33 + "stop",
    "for i := 1; " * 32 + "stop", "for i := 1; " * 33 + "stop", "if 1; " * 31 + "print(1)", "if 1; " * 32 + "print(1)", "if 1; " * 32 + "print 1",
    "if 1; " * 32 + "x := 1", "if 1; " * 32 + "x := (1)", "if 1; " * 31 + "x := (1)", "if 1; " * 32 + "begin", "if 1; " * 32 + "end",
    "if 1; " * 32 + "go to s[1]", "if 1; " * 31 + "go to s[1]; a: stop; switch s := (a)", "if 1; " * 32 + "in =: (x)", "if 1; " * 31 + "in =: (x)",
    "if " + nested("(", "1", ")", 31) + "; stop", "if " + nested("(", "1", ")", 32) + "; stop", "if 1; " * 16 + nested("begin ", "stop", " end", 16),
    "if 1; " * 16 + nested("begin ", "stop", " end", 17), "for i := " + nested("(", "1", ")", 31) + "(1)2; stop", "a: " * 60 + "stop",
    "x := (1); " * 40 + "x := " + nested("(", "1", ")", 32), "if 1; if 1; stop; " * 20 + "if 1; " * 32 + "stop",
    # words and bytes
    "stop;" * 249 + "stop", "stop;" * 249 + "stop;", "stop;" * 250, "stop;" * 250 + "stop", "stop;" * 250 + "#", "stop;" * 250 + "1234567890",
    "x := 1" + "+1" * 248, "x := 1" + "+1" * 249, "x := (1" + "+1" * 247 + ")", " " * 8186 + "x := 1", " " * 8187 + "x := 1", " " * 8192, " " * 8193,
    "comment " + "z" * 8184, "comment " + "z" * 8185, "#" * 8193, "x := " + "1" * 9000, "a, " * 250, "\xff", "x := 1\x00"[:-1] + "\x7f",
]

# Names, types, jumps, bounds and cells: every rule in both directions.
NAMES = [
    "a: a: stop", "a: stop; a: stop", "a: stop; b: stop", "integer(x); integer(x)", "integer(x, x)", "integer(x); boolean(x)", "integer(x); x := 1; boolean(y)",
    "array(a[1:2]); array(a[1:2])", "array(a, a[1:2])", "array(a[1:1]); a: stop", "a: stop; array(a[1:1])", "switch s := (a); s: stop; a: stop",
    "integer(a); a: stop", "a: stop; integer(a)", "boolean(s); switch s := (a); a: stop", "switch s := (a); a: stop; integer(s)",
    "array(a[1:1]); integer(a); a: stop", "integer(a); array(a[1:1])", "integer(a); array(a[1:1]); a[1] := 2", "boolean(a); array(a[1:1]); a[1] := 1",
    "x := a; array(a[1:2])", "array(a[1:2]); x := a", "x[1] := 2", "x := x[1]", "array(a[1:2]); a := 1", "array(a[1:2]); a[1] := 1", "go to x", "go to x; x := 1",
    "go to a; a: stop", "array(a[1:1]); go to a", "switch s := (a); go to s; a: stop", "go to a[1]; a: stop", "go to x[1]", "switch s := (a); go to s[1]; a: stop",
    "switch s := (x); go to s[1]", "switch s := (s); go to s[1]", "switch s := (a, x); a: stop", "x := a; a: stop", "x := s; switch s := (a); a: stop",
    "print(a); a: stop", "for a := 1; stop; a: stop", "in =: (a); a: stop", "array(a[1:1]); in =: (a)", "array(a[1:1]); for a := 1; stop", "x := y[z]",
    "integer(x)", "integer(x); x := 1", "x := 1; integer(x)", "x := (y > 1)", "boolean(p); p := (y > 1)", "p := (y > 1); boolean(p)", "boolean(p); p := y",
    "boolean(p); x := p", "boolean(p, q); q := p", "boolean(p); p := 0", "boolean(p); p := 1", "boolean(p); p := 2", "boolean(p); p := 00", "boolean(p); p := 01",
    "boolean(p); p := +1", "boolean(p); p := -1", "boolean(p); p := (1)", "boolean(p); p := (2)", "boolean(p); p := ((x))", "boolean(p); p := not 1",
    "boolean(p); p := not p and p or p eqv p", "boolean(p); p := p + 1", "x := 1 and 0", "x := ((1 and 0))", "x := not 1", "x := 1 + p; boolean(p)",
    "x := (1 < p); boolean(p)", "boolean(p); p := (p = p)", "if x; stop", "if 1; stop", "if 2; stop", "if (x < 1); stop", "if p; stop; boolean(p)", "if (p); stop; boolean(p)",
    "if p and (x < 1); stop; boolean(p)", "for p := 1; stop; boolean(p)", "for i := p; stop; boolean(p)", "for i := 1(p)2; stop; boolean(p)", "for i := 1(1)p; stop; boolean(p)",
    "for i := (1 < 2); stop", "in =: (p); boolean(p)", "in =: (b[1]); boolean(b); array(b[1:1])", "print(p); boolean(p)", "print((p)); boolean(p)", "print((1 < 2))", "print(1, p); boolean(p)",
    "go to s[p]; switch s := (a); a: stop; boolean(p)", "array(a[1:2]); x := a[p]; boolean(p)", "array(a[1:2]); x := a[(1 < 2)]", "array(b[1:2]); boolean(b); b[1] := 2", "array(b[1:2]); boolean(b); b[1] := b[2]",
    "array(b[1:2]); boolean(b); x := b[2]", "array(a[1:1]); a[1] := (1 < 2)", "x := (1/0 and 0)",
    "go to a; for i := 1; a: x := 1", "for i := 1; a: x := 1; go to a", "for i := 1; begin a: x := 1; go to a end", "for i := 1; begin go to a; a: x := 1 end",
    "for i := 1; go to a; a: stop", "a: for i := 1; go to a", "for i := 1; begin for j := 1; go to a; a: stop end", "for i := 1; begin for j := 1; a: stop; go to a end",
    "for i := 1; a: for j := 1; go to a", "for i := 1; for j := 1; a: go to a", "for i := 1; if 1; a: go to a", "if 1; a: stop; go to a", "begin a: stop end; go to a",
    "for i := 1; a: stop; for j := 1; go to a", "switch s := (a, b); go to s[1]; a: stop; for i := 1; b: stop", "switch s := (b, a); for i := 1; begin go to s[1]; b: stop end; a: stop",
    "switch s := (b); for i := 1; begin for j := 1; go to s[1]; b: stop end", "switch s := (b); for i := 1; b: stop; go to s[1]", "switch s := (b); for i := 1; b: stop",
    "go to x; for i := 1; a: go to a", "for i := 1; a: stop; for i := 1; b: go to a; go to b",
    "array(a[2:1])", "array(a[1:1])", "array(a[-1:-2])", "array(a[-2:-1])", "array(a[0:9999])", "array(a[0:10000])", "array(a[-9999:0])", "array(a[-10000:0])", "array(a[9999:9999])", "array(a[-9999:-9999])",
    "array(a[10000:10000])", "array(a[1:2], b[2:1], c[3:1])", "array(a[2:1]); array(b[1:99999])", "array(a[-0:0])", "array(a[+1:+2])", "array(a[1:999999999])",
    "array(a[1:2048])", "array(a[1:2049])", "array(a[1:2047]); x := 1", "array(a[1:2048]); x := 1", "x := 1; array(a[1:2047])", "x := 1; array(a[1:2048])", "array(a, b[1:1024])", "array(a, b[1:1025])",
    "array(a[1:2047]); for a := 1; stop", "array(a[1:2046]); for i := 1; stop", "array(a[1:2047]); for i := 1; stop", "array(a[1:2048]); for i := 1; stop", "for i := 1; stop; array(a[1:2047])",
    "for i := 1; stop; array(a[1:2046])", "for i := 1; for i := 2; stop; array(a[1:2045])", "for i := 1; for i := 2; stop; array(a[1:2046])", "for i := 1; for i := 2; stop; array(a[1:2047])",
    "array(a[1:3000]); array(b[2:1])", "array(a[1:2048]); a: stop", "array(a[1:1000], b[1:1000], c[1:1000], d[1:1000])", "integer(" + ", ".join(f"v{i}" for i in range(240)) + ")",
    "a: a: x := (y > 1)", "x := a; array(a[2:1])", "x := (y > 1); go to z", "go to a; for i := 1; a: x := (y > 1)",
]


def answer(text, sentences):
    """What the reading says of a text."""
    try:
        words = words_of(text)
        if sentences:
            Parser(words, len(text)).program()
        else:
            read(text)
        return f"accepted: {len(words)} words"
    except Refused as r:
        return f"refused {r.number} at byte {r.place}"


def random_text(seed):
    r = random.Random(seed)
    text = Texts(r).text()
    for _ in range(r.choice([0, 0, 1, 1, 1, 2])):
        text = damaged(text, r) if r.random() < 0.6 else offended(text, r)
    return text


def main():
    sentences = "--sentences" in sys.argv
    seed, count = (int(a) for a in sys.argv[1:] if a != "--sentences")
    texts = SENTENCES + NAMES + [random_text(seed + i) for i in range(count)]
    texts = [t.encode("latin-1") for t in texts]
    os.makedirs(os.path.join(FOLDER, "data"), exist_ok=True)
    with open(os.path.join(FOLDER, "data", "texts"), "wb") as f:
        f.write(b"".join(t + b"\0" for t in texts))
    with open(os.path.join(FOLDER, "stdout"), "w") as f:
        f.write("".join(answer(t, sentences) + "\n" for t in texts))
    print(f"{len(texts)} texts")


if __name__ == "__main__":
    main()
