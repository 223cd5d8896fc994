#!/usr/bin/env python3
"""The places in crates/*/src that an older form of the language left, counted point by point as docs/DESIGN-PASS.md has them.

tools/places.py [--list] [POINT ..]    prints the counts; with --list each place too, as crate/file:line
"""
import glob
import re
import sys

ARRAY = re.compile(r"\[(?:u8|u16|u64|bool); \w+\]|\[(?:0u8|0u16|0u64|false); ")


def sources():
    for path in sorted(glob.glob("crates/*/src/**/*.rt", recursive=True)):
        with open(path, encoding="utf-8") as f:
            yield path[len("crates/"):].replace("/src/", "/"), f.read().split("\n")


def lines_with(pattern):
    rule = re.compile(pattern)
    for path, lines in sources():
        for i, line in enumerate(lines):
            if rule.search(line.split("//")[0] if not pattern.startswith(r"^\s*//") else line):
                yield f"{path}:{i + 1}", line.strip()


def items(head):
    """The items whose first line matches, each with its place and its lines up to the brace that closes it."""
    rule = re.compile(head)
    for path, lines in sources():
        for i, line in enumerate(lines):
            if rule.match(line):
                indent = re.match(r"\s*", line).group(0)
                end = i
                while end + 1 < len(lines) and lines[end] != indent + "}" and not (end > i and lines[end].startswith(indent + "}")):
                    end += 1
                yield f"{path}:{i + 1}", lines[i:end + 1]


def functions():
    for place, lines in items(r"\s*(?:pub(?:\(crate\))? )?(?:extern \"C\" )?fn \w+"):
        text = "\n".join(lines)
        head = re.split(r"\n\s*(?:requires|ensures|\{)", text)[0]
        params = re.search(r"\((.*?)\)\s*(?:->|$|\n|requires|ensures|\{)", head + "\n", re.S)
        names = re.findall(r"(\w+): ", params.group(1)) if params else []
        name = re.search(r"fn (\w+)", text).group(1)
        body = text[len(head):]
        code = "\n".join(l for l in body.split("\n") if not re.match(r"\s*(requires|ensures)\b", l))
        yield place, name, params.group(1) if params else "", names, code, [l.strip() for l in lines if re.match(r"\s*requires\b", l)]


def own_options():
    """Enums with a case that holds a value and one that holds none, or with two cases that hold one: the shape of Option or Result."""
    for place, lines in items(r"\s*(?:pub(?:\(crate\))? )?enum \w+"):
        cases = [l.strip() for l in lines[1:-1] if re.match(r"\s*[A-Z]\w*[,(]", l)]
        full = [c for c in cases if "(" in c]
        if full and (len(full) < len(cases) or len(cases) == 2):
            yield place, lines[0].strip()


def flags():
    for place, lines in items(r"\s*(?:pub(?:\(crate\))? )?struct \w+"):
        if len(lines) > 3 and any(re.search(r"\w+: (bool|Answer|Look),", l) for l in lines):
            yield place, lines[0].strip()


def codes():
    for place, _, params, _, _, _ in functions():
        if re.search(r"\b(kind|class|journal|which|letter|status|code): u(8|16|64)\b", params):
            yield place, "a number for a kind: " + re.search(r"\b(kind|class|journal|which|letter|status|code): u\d+", params).group(0)


def twins():
    """Functions of one file that are the same but for names, types and numbers, and those that say so."""
    seen = {}
    for place, name, params, _, code, _ in functions():
        shape = re.sub(r"\b[A-Za-z_]\w*\b", lambda m: m.group(0) if m.group(0) in ("if", "while", "for", "in", "match", "return", "let", "mut", "else", "as") else "x", code)
        shape = re.sub(r"\b\d+\b", "0", re.sub(r"\s+", " ", shape))
        shape = re.sub(r"x(::x)+", "x", shape)
        if len(shape) > 40:
            seen.setdefault((place.split(":")[0], shape), []).append((place, name))
    for group in seen.values():
        if len(group) > 1:
            for place, name in group:
                yield place, f"{name}, like " + ", ".join(n for p, n in group if p != place)
    yield from lines_with(r"^\s*// The same")


def many_parameters():
    for place, name, _, names, _, _ in functions():
        if len(names) > 5:
            yield place, f"{name}: {len(names)} parameters"


def repeated_facts():
    count = {}
    for place, name, _, _, _, requires in functions():
        for r in requires:
            count.setdefault((place.split("/")[0], re.sub(r"^requires \w+ \{", "requires {", r)), []).append((place, name))
    for (_, r), group in count.items():
        if len(group) > 2:
            for place, name in group:
                yield place, f"{name} {r}"


POINTS = {
    "1 own Option or Result": own_options,
    "1 a flag beside a value": flags,
    "1 a number for a kind": codes,
    "2 twins": twins,
    "3 loops that count by hand": lambda: lines_with(r"^\s*while "),
    "4 equality, copying, conversion by hand": lambda: lines_with(r"\bfn (same\w*|matching|kind_no|number|letter|of_letter|of_word|maybe_of_word|kind_by|filable_by|journal_by|wide)\b|^\s*\w+\[(\w+ \+ )?\w+\] = \w+\[\w+\];"),
    "4 printing by hand": lambda: lines_with(r"\bfn (put|print|say|tell|write|show|spell)\w*\("),
    "5 more than five parameters": many_parameters,
    "5 a fact in three contracts or more": repeated_facts,
    "6 fixed arrays": lambda: lines_with(ARRAY.pattern),
    "6 searched by halves": lambda: lines_with(r"^\s*while (lo|low|from) < (hi|high|to)\b"),
    "7 a switch on which step to run": lambda: lines_with(r"^\s*match (word|command|name|which|step)\b"),
}

wanted = [a for a in sys.argv[1:] if a != "--list"]
for point, places in POINTS.items():
    if wanted and not any(point.startswith(w) for w in wanted):
        continue
    found = list(places())
    print(f"{len(found):4} {point}")
    if "--list" in sys.argv:
        for place, what in found:
            print(f"       {place} {what[:110]}")
if not wanted or "8" in wanted:
    answers = glob.glob("crates/*/proofs/**/Answers.antt", recursive=True)
    print(f"{len(answers):4} 8 files of answers, of {sum(len(re.findall(r'^pub ', open(a, encoding='utf-8').read(), re.M)) for a in answers)} answers")
