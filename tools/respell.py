#!/usr/bin/env python3
"""Respells the repository's own names as today's Rattle spells them: usage: python3 tools/respell.py [--list]

Words are in snake case, types, facts and modules in camel case, and a prime is an apostrophe. To be run once, at the top, after the kit's port.py.
A name is the repository's own where a file of specs/ or proofs/ declares it, or an import brings it in under another name: a definition, a lemma,
a field, a variable. Names that the check makes (a line such as `f : goal.f` answers a goal), names of std and names of src/ stay as they are.
Comments of .antt files speak of the names, and are respelt with them. --list prints the names without writing.
"""

import collections
import os
import re
import sys

LETTER = r"A-Za-z0-9_'\u2032\u2080-\u2089\u2102-\u214f\u0391-\u03c9\u00b7*+"
NAME = re.compile(rf"[A-Za-z\u2102-\u214f\u0391-\u03c9][{LETTER}-]*")
# a line that says which goal a name answers
GOAL = re.compile(r"^\s*(?:abbrev\s+)?(?:pub\s+)?([^\s:]+)\s*:\s*(?:\([^)]*\)\s*→\s*)*(?:goal|goals|need|needs|given)\.")


def files(*ends):
    for folder, dirs, names in os.walk("crates"):
        dirs[:] = sorted(d for d in dirs if d != "out")
        for n in sorted(names):
            if n.endswith(ends):
                yield os.path.join(folder, n)


def read(path):
    with open(path, encoding="utf-8") as f:
        return f.read()


def code(text):
    """The text without its comments, for looking."""
    return re.sub(r"--[^\n]*", "", text)


def declared():
    """Each name that a .antt file declares, with the files; and the names that answer goals."""
    own, made = collections.defaultdict(set), set()
    for path in files(".antt"):
        text = code(read(path))
        for line in text.split("\n"):
            if m := GOAL.match(line):
                made.add(m[1])
            elif m := re.match(rf"^\s*(?:unfoldable\s+)?(?:abbrev\s+)?(?:pub\s+)?(?:unfoldable\s+)?((?:{NAME.pattern}\s+)*{NAME.pattern})\s*:(?!=)", line):
                for n in m[1].split():
                    own[n].add(path)
            if m := re.match(rf"^\s*(?:pub\s+)?(?:record|data)\s+({NAME.pattern})", line):
                own[m[1]].add(path)
        for m in re.finditer(rf"\blet\s+({NAME.pattern})", text):
            own[m[1]].add(path)
        for m in re.finditer(rf"[({{,;]\s*((?:{NAME.pattern}\s+)*{NAME.pattern})\s*:", text):
            for n in m[1].split():
                own[n].add(path)
        for m in re.finditer(rf"λ\s*((?:{NAME.pattern}\s*)+)\.", text):
            for n in m[1].split():
                own[n].add(path)
        for m in re.finditer(rf"\bas\s+({NAME.pattern})", text):
            own[m[1]].add(path)
    for path in files(".rt"):
        for m in re.finditer(rf"\bas\s+({NAME.pattern})", "\n".join(l for l in read(path).split("\n") if l.startswith("ghost use"))):
            own[m[1]].add(path)
    return own, made


def respelt(name):
    name = name.replace("′", "'")
    if "-" not in name:
        return name
    if name[0].isupper():
        return "".join(p[:1].upper() + p[1:] for p in name.split("-"))
    return name.replace("-", "_")


def main(argv):
    own, made = declared()
    std = {n.split(" as ")[0].strip() for path in files(".antt", ".rt") for m in re.finditer(r"use Rattle\.std[\w.]*\.\{([^}]*)\}", read(path)) for n in m[1].split(",")}
    turn = {n: respelt(n) for n in own if respelt(n) != n and n not in made and n not in std}
    # a name that falls together with another one
    clash = collections.defaultdict(set)
    for n, to in turn.items():
        clash[to].add(n)
    words = collections.defaultdict(set)
    for path in files(".antt"):
        for n in NAME.findall(code(read(path))):
            words[n].add(path)
    for to, names in sorted(clash.items()):
        if len(names) > 1:
            print("falls together:", to, sorted(names))
        if to in words:
            print("stands already:", to, "for", sorted(names), sorted(words[to])[:4])
    if "--list" in argv:
        for n in sorted(turn):
            print(n, "->", turn[n])
        return 0
    changed = 0
    for path in files(".antt", ".rt"):
        text = read(path)
        out = respell(text, turn) if path.endswith(".antt") else ghost(text, turn)
        if out != text:
            with open(path, "w", encoding="utf-8") as f:
                f.write(out)
            changed += 1
    print(len(turn), "names respelt in", changed, "files")
    return 0


def respell(text, turn):
    """The text with the names respelt; behind `c.` and `l.`, the facts of a goal and of a loop, stand names that the check makes."""
    return re.sub(rf"(?<![{LETTER}.-])([cl]\.)?({NAME.pattern})|\.({NAME.pattern})", lambda m: m[0] if m[1] else (turn.get(m[2], m[2]) if m[2] else "." + turn.get(m[3], m[3])), text)


def ghost(text, turn):
    """A source file: only names with a dash or a prime stand for ghost names there. Strings that end on their line, and lines of comment, stay."""
    def line(l):
        if l.lstrip().startswith("//"):
            return l
        parts = re.split(r'("(?:\\.|[^"\\])*")', l)
        return "".join(p if i % 2 else respell(p, turn) for i, p in enumerate(parts))
    return "\n".join(line(l) for l in text.split("\n"))


if __name__ == "__main__":
    raise SystemExit(main(sys.argv[1:]))
