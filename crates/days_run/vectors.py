#!/usr/bin/env python3
"""What days_run must print, worked out apart from it: by Python's datetime, dateutil's Easter and Python's sort.

usage: vectors.py    (writes the file stdout beside it, and in the file stdin the sums that are its own anew)
"""
import pathlib
from bisect import bisect_right
from datetime import date, timedelta

from dateutil.easter import easter

FIRST, LAST = date(1998, 1, 1), date(2049, 12, 31)
DAYS = [FIRST + timedelta(n) for n in range((LAST - FIRST).days + 1)]
LETTERS = "mo di mi do fr sa so".split()
ROOM = 10240


def holidays(year):
    e = easter(year)
    moved = [e + timedelta(n) for n in (-2, 1, 39, 50)]
    once = [date(2017, 10, 31)] if year == 2017 else []
    return {date(year, m, d) for m, d in ((1, 1), (5, 1), (10, 3), (12, 25), (12, 26))} | set(moved) | set(once)


FREE = set().union(*(holidays(y) for y in range(1998, 2050)))
WORKS = [d.weekday() < 5 and d not in FREE for d in DAYS]
WORKING = [n for n, works in enumerate(WORKS) if works]


def after(n, k):
    """The k-th working day after n, and 65535 where the calendar ends."""
    if k == 0:
        return n
    place = bisect_right(WORKING, n) + k - 1
    return WORKING[place] if place < len(WORKING) else 65535


def found(y, m, d):
    """The number of a date, and 65535 for a fault."""
    try:
        x = date(y, m, d)
    except ValueError:
        return 65535
    return (x - FIRST).days if FIRST <= x <= LAST else 65535


# ---- a run of days, or of dates, folded

VALUE = {
    "d": lambda n, k: DAYS[n].year * 10000 + DAYS[n].month * 100 + DAYS[n].day,
    "w": lambda n, k: DAYS[n].weekday(),
    "k": lambda n, k: int(WORKS[n]),
    "a": after,
    "f": lambda n, k: found(1990 + n // 640, n % 640 // 40, n % 40),
}


def folded(what, numbers):
    h = 0
    for n in range(numbers[0], numbers[1]):
        h = (h * 31 + VALUE[what](n, numbers[2])) % 1000003
    return h


# ---- the dates that are stated

def counted(s):
    f = s.split(" ")
    start, stated = date.fromisoformat(f[0]), date.fromisoformat(f[8])
    here = DAYS[after((start - FIRST).days, int(f[2]))] + timedelta(int(f[5]))
    right = here == stated and LETTERS[stated.weekday()] == f[9]
    return f"{s} ok" if right else f"{s} differs, here {here}"


def free(s):
    day = date.fromisoformat(s[:10])
    return f"{s} ok" if not WORKS[(day - FIRST).days] and LETTERS[day.weekday()] == s.split()[4] else f"{s} differs"


# ---- keys in order

def sorting(name, numbers):
    n, start, step, *divisors = numbers[:5]
    keys = [(start + i * step) % 2 ** 64 for i in range(ROOM)]
    for m in divisors:
        keys = [k % m if m else k for k in keys]
    keys[:len(numbers) - 5] = numbers[5:]
    front = sorted(keys[:n])
    rises = "rises" if all(a < b for a, b in zip(front, front[1:])) else "does not rise"
    return f"{name}{n}: in order, same sum, same bits, others untouched, {rises} " + " ".join(map(str, (front + keys[n:])[:7]))


# ---- the lines

def number(s):
    """A difference is counted down from 2 to the 64th."""
    return int(s) if "-" not in s else (int(s.split("-")[0]) - int(s.split("-")[1])) % 2 ** 64


def line(s, stdin, stdout):
    what, words, numbers = (s.split("\t") + [""])[:3] if "\t" in s else (s, "", "")
    listed = [number(x) for x in numbers.split()]
    if what in VALUE:
        here, stated = folded(what, listed), listed[3]
        assert here == stated or words.startswith("vectors.py"), "the paper's own number"
        words = words.replace(str(stated), str(here))
        s = "\t".join((what, words, " ".join(map(str, listed[:3] + [here]))))
        stdout.append(f"{words} ok")
    elif what in ("+", "-"):
        stdout.append(counted(words) if what == "+" else free(words))
    elif what == "o":
        stdout.append(sorting(words, listed))
    stdin.append(s)


def main():
    here = pathlib.Path(__file__)
    stdin, stdout = [], []
    for s in here.with_name("stdin").read_text().splitlines():
        line(s, stdin, stdout)
    here.with_name("stdin").write_text("".join(s + "\n" for s in stdin))
    here.with_name("stdout").write_text("".join(s + "\n" for s in stdout))


main()
