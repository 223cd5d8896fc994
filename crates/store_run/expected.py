#!/usr/bin/env python3
"""What the independent witness answers to the steps on filing in `stdin`: expected.py WITNESS < stdin

It prints the part of `stdout` from the line `Filing` on, up to the line `Asking`. WITNESS is the program built from witness/ (see its README).
Answer 44 is the only one that it does not give: a store with a damaged byte is expected to be refused with 44. That a refusal changes no
byte is what the paper asks for.
"""
import datetime
import os
import subprocess
import sys
import tempfile

witness = os.path.abspath(sys.argv[1])
root = tempfile.mkdtemp()
store, numbers, made, damaged = None, [], 0, False


def run(*words):
    done = subprocess.run([witness, *words], stdout=subprocess.PIPE, stderr=subprocess.PIPE, cwd=root)
    assert done.returncode < 2, (words, done.stderr)
    return done.stdout.decode().splitlines()


def put(name, text):
    global made
    made += 1
    folder = os.path.join(root, str(made))
    os.mkdir(folder)
    path = os.path.join(folder, name)
    with open(path, "wb") as f:
        f.write(text.encode())
    return path


def name(kind, day):
    if len(day) == 8:
        return "1%s%s%s%s.txt" % (kind, day[6:], day[2:4], day[:2])
    date = datetime.date(1998, 1, 1) + datetime.timedelta(int(day))
    return "1%s%s.txt" % (kind, date.strftime("%y%m%d")) if date.year < 2050 else "1%s500101.txt" % kind


def told(line):
    words = line.split("\t")[1:]
    if words[0] == "filed":
        return "0, count %s\n" % words[1]
    return words[1] + (", place %s" % words[2] if len(words) > 2 else "")


def laid(n, record, text):
    digits = lambda k: record.replace("<", str(k // 100 % 10)).replace("^", str(k // 10 % 10)).replace(">", str(k % 10))
    return ("".join(digits(k) for k in range(int(n or 0))) + text).replace("|", "\r").replace("~", "\n")


def offer(kind, publisher, day, text, more):
    if more:
        paths = [put(name(kind, str(int(day) + k)), text) for k in range(int(more) + 1)]
        return "0 for %d\n" % [told(l)[0] for l in run("file", store, publisher, *paths)].count("0")
    if damaged:
        return "44"
    return told(run("file", store, publisher, put(name(kind, day), text))[0])


steps = sys.stdin.read().splitlines()
for line in steps[steps.index("=Filing") : steps.index("=Asking")]:
    what, *p = line.split(";")
    out = ""
    if line[:1] == "=":
        out = line[1:] + "\n"
    elif what == "start":
        store = os.path.join(root, "store%d" % made)
        text = laid(*p[4:7])
        numbers = ["-".join(x for x in l.split(",")[:2] if x) for l in text.splitlines()]
        out = "%s: %s" % (p[0], run("start", store, put("table", text))[0].replace("\t", " "))
    elif what == "file":
        out = "%s: %s" % (p[0], offer(*p[1:4], laid(*p[4:7]), "".join(p[7:])))
    elif what == "entry":
        holder, last, places = run("show", store, numbers[int(p[1])])[0].split("\t")[1:]
        out = "%s: holder %s, last %s, open %s\n" % (p[0], holder, last, places.replace(";", " "))
    elif what == "put":
        # each byte that is damaged is put back by the next such step
        damaged = not damaged
    elif what == "kept":
        out = ", no byte changed\n"
    sys.stdout.write(out)
