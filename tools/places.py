#!/usr/bin/env python3
"""Lists the places in src/ where an older form may stand in for one of today's: usage: python3 tools/places.py [POINT] [--list]

To be run at the top. It reads src/ as text (tests and comments left out) and counts lines, or functions, by the points of docs/DESIGN-PASS.md.
A line that it finds is a place to look at, not a verdict. --list prints the lines.
"""

import collections
import glob
import re
import sys

# for each point: what is looked for, and the pattern of a line that has it
LINES = {
    1: [
        ("an error in an Option", r"-> Option<(?:Refusal|Reason|Complaint|Fault)>"),
        ("a flag beside a value, in a tuple", r"-> \((?:\w+, bool|bool, \w+)\)"),
        ("a flag beside a value, in a struct, a variant or a signature", r"^\s*(?:pub(?:\(crate\))? )?(?:market|is_market|settled): bool|[(, ](?:market|is_market|settled): bool"),
        ("a number for a kind or a refusal", r"^\s*(?:pub(?:\(crate\))? )?(?:edition|time_in_force): u64,|_EDITION: u64|kind: u64|number\(?\)? == Reason::|number: reason\.number\(\)|number: Reason::"),
        ("a number that means none", r"(?:lot|first|second)\.size == 0|size: 0 };"),
        ("a flag without a name in a variant", r"^\s*\w+\(bool\)"),
    ],
    3: [
        ("a while loop", r"^\s*(?:'\w+: )?while "),
        ("a loop over places", r"^\s*(?:'\w+: )?for \w+ in .*\.\."),
        ("a loop that counts its items", r"\.enumerate\(\)"),
        ("a loop that looks for one item", r"^\s*for &?\w+ in (?!.*\.\.)"),
    ],
    4: [
        ("a code, a text or a name of an enum by hand", r"fn (?:code|coded|text|name|\w+_code|\w+_coded|side_text|time_text|sign_text)\("),
        ("a conversion by hand", r"fn (?:refusal|within_32|from_row|positive|negative|is_buy|is_immediate|leg_of|legs_of|lot)\("),
        ("an equality or an order by hand", r"fn (?:same_\w+|is_ahead|precedes|is_before)\("),
        ("a text that is printed by hand", r"fn \w+_(?:text|line)\(|fn push_\w+\("),
    ],
    6: [
        ("a length beside a buffer", r"^\s*(?:pub(?:\(crate\))? )?(?:count|len): (?:usize|u32),$"),
        ("arrays side by side", r"^\s*(?:bids|offers): \["),
        ("items with a name each, not in an array", r"let (?:second|third|fourth) = |\w+\[[123]\]"),
        ("words taken by their places and their count", r"word_at\(words, \d\)|count\(words\)"),
        ("a sorted list searched from its front", r"fn (?:start|best_order)\b|pub(?:\(crate\))? fn place_of<"),
    ],
    7: [
        ("a table of functions or a boxed function", r"fn\(|\bdyn \b|Box<"),
        ("a number or a flag that picks a step", r"match (?:mode|phase|state|step_number)\b"),
    ],
}


def sources():
    for path in sorted(glob.glob("crates/*/src/**/*.rt", recursive=True)):
        if path.startswith("crates/checks/"):
            continue
        with open(path, encoding="utf-8") as f:
            lines = f.read().split("\n")
        yield path, lines


def code(lines):
    """The lines of code with their numbers: no comments, no ghost imports, no clauses, no tests."""
    for n, line in enumerate(lines, 1):
        bare = line.strip()
        if bare.startswith("#[cfg(test)]"):
            return
        if not bare or bare.startswith(("//", "ghost ", "ensures", "requires", "use ", "pub use ")):
            continue
        yield n, line


def functions(lines):
    """Each function's name with its clauses and its parameters."""
    name, clauses, params = None, [], ""
    for line in lines:
        m = re.match(r"\s*(?:pub(?:\([a-z]+\))? )?(?:const )?fn (\w+)", line)
        if m:
            if name:
                yield name, clauses, params
            name, clauses, params = m.group(1), [], ""
        m = re.match(r"\s*(requires|ensures)(?:\*)?(?: \w+)? \{(.*)\}", line)
        if m and name:
            clauses.append(m.group(2).strip())
        if name and not clauses and not line.strip().startswith(("//", "ghost")):
            params += " " + line.strip()
    if name:
        yield name, clauses, params


KEYWORDS = set("as bool break const continue else enum false fn for if impl in let loop match mut pub ref return self Self struct true use where while Some None Ok Err Option Result u8 u16 u32 u64 u128 usize i64 str".split())


def bodies():
    """Each function with its body, as text."""
    for path, lines in sources():
        at = 0
        while at < len(lines):
            m = re.match(r"(\s*)(?:pub(?:\([a-z]+\))? )?(?:const )?fn (\w+)", lines[at])
            if not m:
                at += 1
                continue
            end = at
            while end < len(lines) and lines[end] not in (m.group(1) + "}", "}"):
                if lines[end].rstrip().endswith(";") and lines[end].startswith(m.group(1)) and "{" not in "".join(lines[at:end + 1]):
                    break
                end += 1
            body = [b for b in lines[at:end + 1] if not b.strip().startswith(("//", "ensures", "requires"))]
            yield path, at + 1, m.group(2), "\n".join(body)
            at = end + 1


def shape(text):
    """A function's text without its names, numbers and texts."""
    out = []
    for t in re.findall(r"b?\"[^\"]*\"|b?'[^']'|[A-Za-z_]\w*|\d[\d_]*|\S", text):
        if t[0] in "\"'" or t[:2] in ("b\"", "b'"):
            out.append("text")
        elif t[0].isdigit():
            out.append("0")
        elif (t[0].isalpha() or t[0] == "_") and t not in KEYWORDS:
            out.append("name")
        else:
            out.append(t)
    return " ".join(t for t in out if t not in ("pub", "crate"))


def point_2():
    """Functions of one shape: their texts are the same but for names, numbers and texts."""
    groups = collections.defaultdict(list)
    for path, n, name, text in bodies():
        s = shape(text)
        if len(s.split()) >= 30:
            groups[s].append(f"{path}:{n}: {name}")
    return [", ".join(g) for g in groups.values() if len(g) > 1]


def point_5():
    """Facts that stand in the contracts of three or more functions of one crate, and parameters that three or more have in common."""
    facts, groups = collections.defaultdict(set), collections.defaultdict(set)
    for path, lines in sources():
        crate = path.split("/")[1]
        for name, clauses, params in functions(lines):
            for c in clauses:
                if "result" not in c:
                    facts[(crate, c)].add(name)
            head = params.split(")")[0]
            names = [p for p in re.findall(r"(\w+): ", head) if p != "self"]
            for i in range(len(names)):
                for j in range(i + 3, len(names) + 1):
                    groups[(crate, ", ".join(names[i:j]))].add(name)
    out = []
    for (crate, c), fns in sorted(facts.items()):
        if len(fns) >= 3:
            out.append(f"{crate}: {c}  [{len(fns)} functions: {', '.join(sorted(fns))}]")
    for (crate, g), fns in sorted(groups.items()):
        if len(fns) >= 3:
            out.append(f"{crate}: ({g})  [{len(fns)} functions: {', '.join(sorted(fns))}]")
    return out


def point_8():
    out = []
    for path in sorted(glob.glob("crates/*/proofs/**/*.antt", recursive=True)):
        with open(path, encoding="utf-8") as f:
            text = f.read()
        if path.endswith("Answers.antt"):
            for m in re.findall(r"^(?:abbrev )?pub (\S+) :.*goal\.", text, re.M):
                out.append(f"{path}: {m}")
    return out


# the points whose places are found otherwise than line by line
LISTS = {
    2: ("groups of functions of one shape", point_2),
    5: ("facts and parameters that three functions share", point_5),
    8: ("answers", point_8),
}


def report(point, what, rows, show):
    """How many places there are, and the places where they are asked for."""
    print(f"{point} {what}: {len(rows)}")
    if show:
        print("\n".join("    " + r for r in rows))


def main():
    points = [int(a) for a in sys.argv[1:] if a.isdigit()] or [1, 2, 3, 4, 5, 6, 7, 8]
    show = "--list" in sys.argv
    for p in points:
        if p in LINES:
            for what, pattern in LINES[p]:
                rows = [f"{path}:{n}: {line.strip()}" for path, lines in sources() for n, line in code(lines) if re.search(pattern, line)]
                report(p, what, rows, show)
        else:
            what, find = LISTS[p]
            report(p, what, find(), show)


main()
