#!/usr/bin/env python3
"""Respells the names that this repository's own specs/ and proofs/ declare: types in upper camel case, every other name in
snake case, the prime as an apostrophe, and arrows in words.

usage: respell.py [--list] [FOLDER]

FOLDER (the current one) is a repository with crates/. With --list it only prints old and new names. Names of goals and
steps, which the check makes, names of the toolchain's libraries, comments (but for names in backticks) and strings stay. It
tells where two names of one file fall together. A second run changes nothing.
"""

import os
import re
import shutil
import sys

KIT = os.path.join(os.path.dirname(os.path.realpath(shutil.which("rt") or "/")), "..", "rattle")
LETTER = r"A-Za-z0-9_'′₀-₉→"
TOKEN = re.compile(r"--(?!>)[^\n]*|//[^\n]*|\"(?:[^\"\\]|\\.)*\"|«[^»]*»|(?:→(?=[A-Za-z]))?[A-Za-z_][" + LETTER + r"]*(?:-[" + LETTER + r"]+)*")
MARKS = r"(?:(?:pattern|unfoldable|abbrev|axiom|pub)\s+)*"
SIGNATURE = re.compile(r"^(\s*)" + MARKS + r"([^\s:={}().;,\"]+(?: [^\s:={}().;,\"]+)*)\s*(?:\{[^{}:]*\}\s*)?:\s(.*)$")
HEADED = re.compile(r"^\s*" + MARKS + r"(data|record|module)\s+([^\s:({]+)")
MADE = re.compile(r"\b(goal|need|given)\.")


# Names whose new spelling another name of their file has already.
CHOSEN = {"Too-deep": "IsTooDeep", "Group-size": "IsGroupSize"}


def files(root, ends):
    for top in sorted(os.listdir(os.path.join(root, "crates"))):
        for folder, dirs, names in os.walk(os.path.join(root, "crates", top)):
            dirs[:] = sorted(d for d in dirs if d != "out")
            for n in sorted(names):
                if n.endswith(ends):
                    yield os.path.join(folder, n)


def read(path):
    with open(path, encoding="utf-8") as f:
        return f.read()


def codomain(text):
    """What stands behind the last arrow that is in no bracket."""
    depth, last = 0, 0
    for i, c in enumerate(text):
        if c in "({[":
            depth += 1
        elif c in ")}]":
            depth -= 1
        elif c == "→" and depth == 0:
            last = i + 1
    return text[last:].strip()


def declared(path):
    """The names that a file declares, each with whether it is a type."""
    out = {}
    lines = read(path).split("\n")
    for i, line in enumerate(lines):
        m = HEADED.match(line)
        if m and m.group(2) != "_":
            out[m.group(2)] = m.group(1) != "module"
            continue
        m = SIGNATURE.match(line)
        if not m or line.lstrip().startswith(("let ", "--", "in ", "use ", "λ")):
            continue
        indent, names, kind = len(m.group(1)), m.group(2).split(), m.group(3)
        if names[0] in ("let", "where", "elim", "case"):
            continue
        j = i + 1
        while j < len(lines) and lines[j].strip() and len(lines[j]) - len(lines[j].lstrip()) > indent and not re.match(r"\s*(where|unfolding)\b", lines[j]):
            kind += " " + lines[j].strip()
            j += 1
        if MADE.search(kind):
            continue
        is_type = re.match(r"Type\b", codomain(kind)) is not None
        for n in names:
            out[n] = out.get(n, False) or is_type
    return out


BOUND = [
    re.compile(r"\blet\s+([^\s:=(){}]+)\s*[:=]"),
    re.compile(r"λ\s+([^.]*?)\.\s"),
    re.compile(r"[({]([^(){}:;,]+?)\s:\s"),
]


def bound(path):
    """The names that a file binds: by a let, a λ, or as an argument with a type."""
    out = set()
    text = re.sub(r"--[^\n]*", "", read(path))
    for r in BOUND:
        for m in r.finditer(text):
            for n in re.findall(r"[A-Za-z_][" + LETTER + r"-]*", re.sub(r":[^)}]*", "", m.group(1))):
                out.add(n)
    return out


def camel(name):
    return "".join(p[:1].upper() + p[1:] for p in name.replace("′", "'").split("-"))


def snake(name):
    name = name.replace("′", "'").replace("-", "_")
    if name.startswith("→"):
        name = "to_" + name[1:]
    elif name.endswith("→"):
        name = "from_" + name[:-1]
    name = name.replace("→", "_to_")
    return name[:1].lower() + name[1:]


def kit_names():
    """Every name with a dash that the kit's libraries use."""
    out = set()
    for folder, dirs, names in os.walk(KIT):
        for n in names:
            if n.endswith(".antt"):
                for t in re.findall(r"[A-Za-z_][" + LETTER + r"]*(?:-[" + LETTER + r"*+≡≤<≢]+)+", read(os.path.join(folder, n))):
                    out.add(t)
    return out


def main(words):
    listing = "--list" in words
    words = [w for w in words if w != "--list"]
    root = words[0] if words else "."
    own, local = {}, set()
    for p in files(root, ".antt"):
        for n, is_type in declared(p).items():
            own[n] = own.get(n, False) or is_type
        local |= bound(p)
    for p in files(root, (".antt", ".rt")):
        local |= set(re.findall(r"\bas ([a-z][" + LETTER + r"-]*)", re.sub(r"(--|//)[^\n]*", "", read(p))))
    turned = {}
    for n, is_type in own.items():
        if is_type:
            if "-" in n or "′" in n:
                turned[n] = camel(n)
        elif re.search(r"[-′→]", n):
            turned[n] = snake(n)
    for n in local:
        if n not in turned and re.search(r"[-′]", n) and re.match(r"[a-z_]", n):
            turned[n] = snake(n)
    turned.update(CHOSEN)
    cited = set()
    for p in files(root, ".antt"):
        if os.path.basename(p) in ("Answers.antt", "Invariants.antt", "Proof.antt"):
            text = re.sub(r"--[^\n]*", "", read(p))
            cited |= set(re.findall(r"\bgoal\.([" + LETTER + r"-]+)", text))
    for n in cited:
        turned.pop(n, None)
    if listing:
        kit = kit_names()
        for n in sorted(turned):
            print(n, turned[n], "KIT" if n in kit else "", "type" if own.get(n) else "", "" if n in own else "local")
        return 0
    together = 0
    own_crates = set(os.listdir(os.path.join(root, "crates")))
    for p in files(root, (".antt", ".rt")):
        text = read(p)
        kept = brought(text, own_crates)
        made = os.path.basename(p) in ("Answers.antt", "Invariants.antt", "Proof.antt")
        seen = {}

        def turn(m):
            t = m.group(0)
            if t.startswith(("--", "//")):
                return re.sub(r"`[^`]*`", lambda q: TOKEN.sub(lambda k: turned.get(k.group(0), k.group(0)), q.group(0)), t)
            if t.startswith(('"', "«")):
                return t
            new = turned.get(t, t)
            # the kit's own word, or a step of a proof, which the check names
            if new == t or t in kept or (made and re.search(r"(?<![\w.'-])[cwl]\.$", m.string[max(0, m.start() - 3) : m.start()])):
                seen.setdefault(t, set()).add(t)
                return t
            seen.setdefault(new, set()).add(t)
            return new

        fresh = TOKEN.sub(turn, text)
        for new, olds in seen.items():
            if len(olds) > 1:
                together += 1
                print(f"{p}: {' and '.join(sorted(olds))} fall together as {new}", file=sys.stderr)
        if fresh != text:
            with open(p, "w", encoding="utf-8") as f:
                f.write(fresh)
    print(f"respell: {len(turned)} names; {together} fall together")
    return 0


def brought(text, own_crates):
    """The names that a file brings in from the kit."""
    out = set()
    for m in re.finditer(r"\buse ([^\s{;]+?)\.\{([^}]*)\}", text):
        parts = m.group(1).split(".")
        if parts[0] == "Rattle" and len(parts) > 1 and parts[1] in own_crates:
            continue
        for n in m.group(2).split(","):
            out.add(n.split(" as ")[-1].strip())
    return out


if __name__ == "__main__":
    sys.exit(main(sys.argv[1:]))
