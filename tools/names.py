#!/usr/bin/env python3
"""Spells the definitions and lemmas of this repository in snake case, as today's Rattle spells its own.

usage: tools/names.py [--dry] [--anyway] FOLDER

It turns each word that begins with a small letter and has a capital behind it, as `recordsOf`, in the crates, the edits, the pages and the tests below
FOLDER. Functions of src/ and exported names have no such words, and texts in quotes of .rt files stay. Where a new spelling is one that some file has
already, or two words would meet in one, it says so and, without --anyway, turns nothing. Read with --dry, the words that it names are functions of src/,
which no clause can name, but for the lemmas of LEMMAS.
"""

import os
import re
import sys

# What is no name of a definition: names of other languages and programs.
LEAVE = {"dN", "iPhone"}
WORD = re.compile(r"(?<![\w'′◌])[a-z][a-z0-9_₀-₉]*[A-Z][\w'′-]*")
PART = re.compile(r"[a-z][a-z0-9_₀-₉]*[A-Z]\w*'?")
# A lemma that would have its function's name: it ends in `_lem`, where it is declared and where it is brought in.
LEMMAS = {
    "same_kind": "entries.proofs.SameLaws", "same_code": "entries.proofs.SameLaws", "same_number": "fields.proofs.NumberLaws",
    "all_digits": "laws.proofs.Digits", "held_all": "composing.proofs.LayLaws", "in_order": "asking.proofs.answering.Order",
    "last_digits": "fields.proofs.BlockLaws", "on_line": "files.proofs.AsBefore", "no_line": "starting.proofs.tables.Spreading",
}
# Words whose new spelling is another one than the rule's.
OTHERWISE = {"getD": "get_or"}


def part(word):
    prime = "'" if word.endswith("'") else ""
    bare = word[: len(word) - len(prime)]
    if bare in OTHERWISE:
        return OTHERWISE[bare] + prime
    return re.sub(r"(?<=[a-z0-9])[A-Z]+", lambda m: "_" + m[0].lower(), bare) + prime


def turned(word):
    if word in LEAVE:
        return word
    return "-".join(part(p) if PART.fullmatch(p) else p for p in word.split("-"))


def texts(root, ends, folders):
    for top in folders:
        for folder, dirs, files in os.walk(os.path.join(root, top)):
            dirs[:] = sorted(d for d in dirs if d not in ("out", ".git", "target"))
            for f in sorted(files):
                if f.endswith(ends):
                    yield os.path.join(folder, f)


def mark_lemmas(root, code):
    for p in code:
        text = new = open(p, encoding="utf-8").read()
        for name, module in LEMMAS.items():
            own = os.path.relpath(p, root) == "crates/" + module.replace(".", "/") + ".antt"
            if own or re.search(rf"use Rattle\.{re.escape(module)}\.\{{[^}}]*(?<![\w'-]){name}(?![\w'-])", text):
                new = re.sub(rf"(?<![\w'.-]){name}(?![\w'-])", name + "_lem", new)
        if new != text:
            open(p, "w", encoding="utf-8").write(new)


def main(argv):
    dry = "--dry" in argv
    root = [a for a in argv if not a.startswith("--")][0]
    code = list(texts(root, (".antt", ".rt"), ["crates"]))
    words, there = {}, set()
    for p in code:
        text = open(p, encoding="utf-8").read()
        there |= set(re.findall(r"[\w'′-]+", text))
        for w in WORD.findall(text):
            words[w] = turned(w)
    met = {}
    bad = 0
    for w, new in sorted(words.items()):
        if new in there and new != w:
            print(f"there already: {w} -> {new}")
            bad += 1
        if new in met:
            print(f"two meet: {w} and {met[new]} -> {new}")
            bad += 1
        met[new] = w
    print(f"{len(words)} words, {bad} that meet another")
    if dry or (bad and "--anyway" not in argv):
        return 1 if bad else 0
    mark_lemmas(root, code)
    for p in code + list(texts(root, (".edit",), ["crates"])) + list(texts(root, (".md", ".sh", ".awk"), ["docs", "tests", "bin"])) + [os.path.join(root, "README.md")] + list(texts(root, ("",), ["tests/seen", "tests/outer", "tests/without-contract"])):
        if not os.path.isfile(p):
            continue
        text = open(p, encoding="utf-8").read()
        new = WORD.sub(lambda m: words.get(m[0], m[0]), text)
        if new != text:
            open(p, "w", encoding="utf-8").write(new)
    return 0


if __name__ == "__main__":
    raise SystemExit(main(sys.argv[1:]))
