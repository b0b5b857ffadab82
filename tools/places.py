#!/usr/bin/env python3
"""Lists the places of src/ that might be said in a plainer form of the language. Each is a candidate: a reader judges it.

usage: places.py [--list] [FOLDER]

FOLDER (the current one) is a repository with crates/. Without --list only the counts are printed, a line each. Tests inside
`#[cfg(test)]` count too.

  1 codes     functions that answer or take a number where a kind or a refusal is told, and numbers held for them
  1 shapes    own enums with a variant for nothing or for a refusal
  1 unwraps   matches that pass an error or a missing value on by hand
  2 twins     functions whose bodies are the same but for names and constants (of at least 14 tokens)
  3 loops     loops over a range of numbers, `while` and `loop`
  4 equality  comparisons and conversions written out: functions of such a name, `as` between enum and number, matches of bools
  4 printing  functions that print or give words for a value
  5 facts     a clause of a contract that stands, but for names, in three or more functions
  5 together  two parameters of the same names and types that travel together through four or more functions
  6 buffers   structs with an array, a slice or a vector beside a number or beside another
  7 switches  functions that take an enum of their crate only to choose what is done, and tables of functions
"""

import os
import re
import sys
from collections import defaultdict

LINE = re.compile(r"//[^\n]*")
FN = re.compile(r"^(?P<indent>[ \t]*)(?:#\[[^\n]*\]\s*)*(?:pub(?:\([a-z]+\))?\s+)?(?:const\s+)?(?:unsafe\s+)?(?:extern \"C\"\s+)?fn\s+(?P<name>\w+)", re.M)
TOKEN = re.compile(r"b?\"(?:[^\"\\]|\\.)*\"|b?'(?:[^'\\]|\\.)'|\w+|[^\w\s]")
WORDS = set("as break continue else false fn for if impl in let loop match mod move mut pub ref return self Self static struct trait true type unsafe use where while None Some Ok Err Result Option u8 u16 u32 u64 usize i8 i16 i32 i64 bool str".split())


def sources(root):
    for crate in sorted(os.listdir(os.path.join(root, "crates"))):
        folder = os.path.join(root, "crates", crate, "src")
        for name in sorted(os.listdir(folder)) if os.path.isdir(folder) else []:
            if name.endswith(".rt"):
                path = os.path.join(folder, name)
                with open(path, encoding="utf-8") as f:
                    yield crate, os.path.relpath(path, root), LINE.sub("", f.read())


def closing(text, start, opens="{", closes="}"):
    depth, i = 0, start
    while i < len(text):
        m = TOKEN.match(text, i)
        if not m:
            i += 1
            continue
        if m.group() == opens:
            depth += 1
        elif m.group() == closes:
            depth -= 1
            if depth == 0:
                return i + 1
        i = m.end()
    return len(text)


class Function:
    def __init__(self, crate, path, text, m):
        self.crate, self.path, self.name = crate, path, m.group("name")
        self.line = text.count("\n", 0, m.start("name")) + 1
        at = text.index("(", m.end())
        end = closing(text, at, "(", ")")
        self.params = split(text[at + 1:end - 1])
        i, self.clauses = end, []
        head = re.compile(r"\s*(requires|ensures)\*?\s*\w*\s*\{")
        j = min([k for k in (text.find("{", i), text.find(";", i)) if k >= 0], default=len(text))
        clause = re.compile(r"\b(?:requires|ensures)\b").search(text, i, j + 1)
        answer_end = clause.start() if clause else j
        self.answer = " ".join(text[i:answer_end].split())
        i = answer_end
        while True:
            m2 = head.match(text, i)
            if not m2:
                break
            brace = m2.end() - 1
            i = closing(text, brace)
            self.clauses.append((m2.group(1), " ".join(text[brace + 1:i - 1].split())))
        while i < len(text) and text[i] not in "{;":
            i += 1
        self.body = text[i:closing(text, i)] if i < len(text) and text[i] == "{" else ""

    def where(self):
        return f"{self.path}:{self.line} {self.name}"


def split(params):
    out, depth, part = [], 0, ""
    for c in params:
        depth += c in "(<[" 
        depth -= c in ")>]"
        if c == "," and depth == 0:
            out.append(" ".join(part.split()))
            part = ""
        else:
            part += c
    if part.strip():
        out.append(" ".join(part.split()))
    return out


def shape(body):
    names, out = {}, []
    for t in TOKEN.findall(body):
        if t in WORDS or not (t[0].isalpha() or t[0] == "_"):
            out.append("0" if t[0].isdigit() or t[0] in "\"'" else t)
        elif t.startswith(("b\"", "b'")):
            out.append("0")
        else:
            out.append("x%d" % names.setdefault(t, len(names)))
    return out


def main():
    args = sys.argv[1:]
    listed = "--list" in args
    args = [a for a in args if a != "--list"]
    root = args[0] if args else "."
    files = list(sources(root))
    fns = [Function(c, p, t, m) for c, p, t in files for m in FN.finditer(t)]
    found = defaultdict(list)

    code = re.compile(r"-> (?:Result<\w+, )?u8\b|-> \([^)]*\bu8\b[^)]*\)|\bnumber: u8|-> u8$")
    for f in fns:
        if (code.search(f.answer) and "u8::" not in f.answer) or any(re.search(r"\bnumber: u8\b", p) for p in f.params):
            found["1 codes"].append(f.where())
    for c, p, t in files:
        for m in re.finditer(r"^\s*(?:pub(?:\(crate\))? )?\w+: u8,|^\s*\w+\(u8\),", t, re.M):
            found["1 codes"].append(f"{p}:{t.count(chr(10), 0, m.start()) + 2} {m.group().strip()}")
        for m in re.finditer(r"enum (\w+)[^{]*\{", t):
            body = t[m.end():closing(t, m.end() - 1) - 1]
            variants = re.findall(r"^\s*(\w+)\b", body, re.M)
            if re.search(r"^\s*(?:Empty|End|Nothing|None|Missing|Untyped|Unused|Refused|Failed|Told)\b", body, re.M):
                found["1 shapes"].append(f"{p} {m.group(1)}: {', '.join(variants)}")
        for m in re.finditer(r"Err\((\w+)\) => (?:return )?Err\(|None => (?:return )?None\b|Ok\((\w+)\) => Ok\(\2\)|None => (?:return )?Err\(", t):
            found["1 unwraps"].append(f"{p}:{t.count(chr(10), 0, m.start()) + 1} {m.group()}")
        for m in re.finditer(r"\bfor (?:\w+|_) in [^{]*\.\.[^{]*\{|\bwhile\b[^{]*\{|\bloop\s*\{", t):
            found["3 loops"].append(f"{p}:{t.count(chr(10), 0, m.start()) + 1} {m.group().strip()}")
        for m in re.finditer(r" as u8 [=!]= \w+ as u8|\b\w+::\w+ as u8\b|=> (?:true|false),", t):
            found["4 equality"].append(f"{p}:{t.count(chr(10), 0, m.start()) + 1} {m.group().strip()}")
        for m in re.finditer(r"\bstruct (\w+)[^{;]*\{", t):
            body = t[m.end():closing(t, m.end() - 1) - 1]
            body = re.sub(r"ghost [^\n]*", "", body)
            lists = len(re.findall(r": (?:&(?:'\w+ )?(?:mut )?)?(?:\[|Vec<|String)", body))
            numbers = len(re.findall(r": (?:usize|u32|u64)\b", body))
            if lists and (numbers or lists > 1):
                found["6 buffers"].append(f"{p} {m.group(1)}")
        for m in re.finditer(r"static (\w+): \[|: fn\(|\[fn\(|&\[(?:Box<)?dyn", t):
            found["7 switches"].append(f"{p}:{t.count(chr(10), 0, m.start()) + 1} {m.group().strip()}")
    by_shape = defaultdict(list)
    for f in fns:
        s = shape(f.body)
        if len(s) >= 14:
            by_shape[tuple(s)].append(f)
    for group in by_shape.values():
        if len(group) > 1:
            found["2 twins"].append("; ".join(f.where() for f in group))
    words = re.compile(r"^(equal|same_\w+|differs|is_same\w*|has_letters|\w+_has_letters|decode\w*|handed|attempted|type_of_\w+|copy_\w+|to_\w+|from_\w+|clamp)$")
    told = re.compile(r"^(print\w*|\w+_text|\w+_words|reason|\w+_reason|caption|\w+_caption|\w+_label|number_of_byte|\w+_line|name)$")
    for f in fns:
        if words.match(f.name):
            found["4 equality"].append(f.where())
        if told.match(f.name) and ("str" in f.answer or "String" in f.answer or "io::Result" in f.answer):
            found["4 printing"].append(f.where())
    facts = defaultdict(set)
    for f in fns:
        for kind, c in f.clauses:
            for part in re.split(r"\) × \(", c):
                if len(TOKEN.findall(part)) >= 2 and "result" not in part:
                    facts[(f.crate, kind, re.sub(r"\.(old|new|now|entry)\b", "", part).strip("() "))].add(f.where())
    for (crate, kind, c), places in sorted(facts.items()):
        if len(places) >= 3:
            found["5 facts"].append(f"{crate} {kind} {{ {c} }}: {len(places)} functions")
    pairs = defaultdict(set)
    for f in fns:
        ps = [p for p in f.params if ":" in p]
        for i in range(len(ps)):
            for j in range(i + 1, len(ps)):
                pairs[(f.crate, re.sub(r"^mut ", "", ps[i]), ps[j])].add(f.where())
    for (crate, a, b), places in sorted(pairs.items()):
        if len(places) >= 4:
            found["5 together"].append(f"{crate} ({a}, {b}): {len(places)} functions")
    enums = {(c, m.group(1)) for c, p, t in files for m in re.finditer(r"enum (\w+)", t)}
    for f in fns:
        for p in f.params:
            m = re.match(r"(\w+): (\w+)$", p)
            if m and (f.crate, m.group(2)) in enums and re.search(r"\bmatch %s\b" % m.group(1), f.body) and len(f.params) > 2:
                found["7 switches"].append(f.where() + f" on {m.group(1)}: {m.group(2)}")
    order = re.findall(r"^  (\d \w+)", __doc__, re.M)
    for key in order:
        print(f"{key}: {len(found[key])}")
        if listed:
            for place in found[key]:
                print(f"    {place}")


if __name__ == "__main__":
    main()
