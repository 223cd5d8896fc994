#!/usr/bin/env python3
"""What files_run must print, worked out from the specification and the project's readings of it alone.

usage: model.py    (writes the file stdout beside itself, and in the file stdin the cases of faults.py anew, behind those by hand)

Nothing here is taken from the Rattle code: a record is tested by regular expressions and the calendar of Python.
"""
import datetime
import pathlib
import re
import sys

sys.dont_write_bytecode = True
import faults  # noqa: E402

CR = "\r"
WORD = "Zeilenanzahl:"
FIRST = datetime.date(1998, 1, 1)


# ---- fields

def is_date(s):
    if not re.fullmatch(r"[0-9]{8}", s):
        return False
    try:
        d = datetime.date(int(s[4:]), int(s[2:4]), int(s[:2]))
    except ValueError:
        return False
    return 1998 <= d.year <= 2049


def is_code(s):
    return re.fullmatch(r"D[0-9]{3}", s) is not None


def is_block(a, b):
    """4.4.2, rule 5: a ends in n zeros, b in n nines, and before them they differ at most in the last digit."""
    if len(a) != len(b):
        return False
    for n in range(1, len(a) + 1):
        head, tail = a[:len(a) - n], a[len(a) - n:]
        last, nines = b[:len(b) - n], b[len(b) - n:]
        if tail == "0" * n and nines == "9" * n and head[:-1] == last[:-1] and head[-1:] <= last[-1:]:
            return True
    return False


def is_number(a, b):
    if not re.fullmatch(r"[0-9]{1,11}", a):
        return False
    return b == "" or (re.fullmatch(r"[0-9]{1,11}", b) is not None and is_block(a, b))


# ---- records

def is_report(s):
    f = s.split(",")
    if len(f) != 6:
        return False
    a, b, date, gaining, losing, status = f
    return is_number(a, b) and is_date(date) and is_code(losing) and status in ("P", "L", "Z") and (is_code(gaining) or (gaining == "" and status == "Z"))


def is_part(s):
    f = s.split(",")
    if len(f) != 6:
        return False
    a, b, date, gaining, losing, status = f
    if a == "":
        if b != "":
            return False
    elif not is_number(a, b):
        return False
    return (date == "" or is_date(date)) and all(c == "" or is_code(c) for c in (gaining, losing)) and status in ("", "P", "L", "Z")


def is_correction(s):
    m = re.fullmatch(r"([0-9]{4})U:([^:]*),K:([^:]*)", s, re.S)
    if not m:
        return False
    code, u, k = m.groups()
    if not (is_part(u) and is_part(k)):
        return False
    if code.startswith("25"):
        return is_report(u)
    return u.split(",")[0] != "" or k.split(",")[0] != ""


def is_request(s):
    f = s.split(",")
    return len(f) == 3 and is_code(f[0]) and (f[1] == "" or is_date(f[1])) and f[2] == ""


RECORD = {"default": is_report, "response": is_report, "correction": is_correction, "request": is_request}


# ---- files: ("records", n) or ("fault", place)

def judge(kind, s):
    if kind == "request":
        if CR not in s:
            return ("fault", 0)
        line, rest = s.split(CR, 1)
        if not is_request(line):
            return ("fault", 0)
        return ("records", 1) if rest == "" else ("fault", 1)
    i = 0
    while True:
        if s == "":
            return ("fault", i)
        if s.startswith(WORD):
            right = WORD + str(i + 1) + "," + CR
            if not s.startswith(right):
                return ("fault", i)
            return ("records", i) if s == right else ("fault", i + 1)
        if CR not in s:
            return ("fault", i)
        line, s = s.split(CR, 1)
        if not RECORD[kind](line):
            return ("fault", i)
        i += 1


def said(j):
    return f"{j[1]} records" if j[0] == "records" else f"4 at {j[1]}"


def sign(j):
    return chr(97 + j[1]) if j[0] == "records" else str(j[1])


# ---- names

def name(s):
    m = re.fullmatch(r"1([DKQR])([0-9]{2})([0-9]{2})([0-9]{2})\.txt", s)
    if not m or s.endswith("\n"):
        return "fault"
    letter, yy, mm, dd = m.groups()
    y = int(yy)
    if 50 <= y <= 97:
        return "fault"
    try:
        d = datetime.date(2000 + y if y < 50 else 1900 + y, int(mm), int(dd))
    except ValueError:
        return "fault"
    kind = {"D": "default", "K": "correction", "Q": "request", "R": "response"}[letter]
    return f"{kind}, day {(d - FIRST).days}, written: {s}"


# ---- files from words

def digits_of(w):
    """A leading 1 and at most 11 digits."""
    s = str(w)
    return s[1:] if s[0] == "1" and len(s) <= 12 else None


def date_of(w):
    if w == 65535:
        return ""
    if w > 18992:
        return None
    return (FIRST + datetime.timedelta(days=w)).strftime("%d%m%Y")


def code_of(w):
    return "" if w == 1000 else f"D{w:03}" if w < 1000 else None


def part_of(ws):
    f = [digits_of(ws[0]), digits_of(ws[1]), date_of(ws[2]), code_of(ws[3]), code_of(ws[4]), {0: "P", 1: "L", 2: "Z", 3: ""}.get(ws[5])]
    return None if None in f else ",".join(f)


def record_of(kind, ws):
    if kind == "request":
        f = [code_of(ws[0]), date_of(ws[1])]
        text = None if None in f else f[0] + "," + f[1] + ","
    elif kind == "correction":
        f = [part_of(ws[1:7]), part_of(ws[7:13])]
        text = None if None in f or ws[0] > 9999 else f"{ws[0]:04}U:{f[0]},K:{f[1]}"
    else:
        text = part_of(ws)
    return text if text is not None and RECORD[kind](text) else None


WIDTH = {"default": 6, "response": 6, "correction": 13, "request": 2}


def write(kind, ws, room):
    """(answer, the file or '')"""
    w = WIDTH[kind]
    groups = [ws[i:i + w] for i in range(0, len(ws), w)]
    texts = []
    for i, g in enumerate(groups):
        text = record_of(kind, g) if len(g) == w else None
        if text is None or (kind == "request" and i == 1):
            return (f"4 at {i}", "")
        texts.append(text)
    if kind == "request":
        if not texts:
            return ("4 at 0", "")
    else:
        texts.append(WORD + str(len(texts) + 1) + ",")
    s = "".join(t + CR for t in texts)
    return (f"{len(s)} bytes", s) if len(s) <= room else ("41", "")


# ---- what is printed

KIND = {"D": "default", "K": "correction", "Q": "request", "R": "response"}
MADE = "# The cases from here on are those of faults.py\n"
ROOM = 300000


def plain(s):
    for b, sign in faults.SIGNS.items():
        s = s.replace(sign, chr(b))
    return s


def example(kind, s, numbers):
    j = judge(kind, s)
    if j[0] != "records":
        return said(j)
    assert composed(kind, numbers) == (f"{len(s)} bytes", s), "the words are those of the file"
    return "\n  ".join([said(j)] + s.split(CR)[:j[1]] + [f"written: {len(s)} bytes, the same"])


def composed(kind, numbers):
    """The length of the buffer, how many words, and the words; where these are fewer they are taken again, the first one higher each time."""
    room, count, *words = [int(w) for w in numbers.split()]
    n = len(words)
    return write(kind, [words[i % n] + (0 if i % n else i // n) for i in range(count)], room)


def large(kind, numbers):
    answer, s = composed(kind, numbers)
    j = judge(kind, s)
    return f"{answer}, {said(j)}, {j[1]} walked"


ANSWER = {
    "=": lambda kind, s, more: "",
    "l": lambda kind, s, more: s + (" same" if RECORD[kind](s) else " fault"),
    "n": lambda kind, s, more: f"{s}: {name(s)}",
    "f": example,
    "w": lambda kind, s, more: f"{composed(kind, more)[0]}, 0 changed behind",
    "g": lambda kind, s, more: large(kind, more),
    "J": lambda kind, s, more: said(judge(kind, s)),
    "C": lambda kind, s, more: "".join(sign(judge(kind, s[:n])) for n in range(len(s) + 1)),
    "R": lambda kind, s, more: "".join(sign(judge(kind, s[:i] + more + s[i + 1:])) for i in range(len(s))),
}


def main():
    here = pathlib.Path(__file__)
    by_hand = here.with_name("stdin").read_text().split(MADE)[0]
    stdout = []
    for line in by_hand.splitlines():
        if line.startswith("#"):
            continue
        what, letter, words, text, more = (line.split("\t") + [""])[:5]
        stdout.append(words + ANSWER[what](KIND[letter], plain(text), plain(more)) + "\n")
    made, said_of_made = faults.lines()
    stdin = by_hand + MADE + "".join(made)
    assert len(stdin) <= ROOM, "the program has room for so many bytes"
    here.with_name("stdin").write_text(stdin)
    here.with_name("stdout").write_text("".join(stdout + said_of_made))


main()
