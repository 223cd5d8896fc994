"""The cases of files_run that ask for field and cause of a fault, and what it must print of them, worked out from the specification's tables and
the rules on faults alone. model.py writes them behind its own.

Nothing here is taken from the Rattle code. What a case means to damage is said when it is made, and where it says a field and a cause,
the answer worked out must be those.
"""
import datetime
import re

CR = "\r"
WORD = "Zeilenanzahl:"


# ---- a field by itself

def is_character(c):
    """The table of 4.4.1, and the three of it that are not printed."""
    return ord(c) in (9, 10, 13) or 32 <= ord(c) <= 126 or 192 <= ord(c) <= 255


def is_date(s):
    if not re.fullmatch(r"[0-9]{8}", s):
        return False
    try:
        return 1998 <= datetime.date(int(s[4:]), int(s[2:4]), int(s[:2])).year <= 2049
    except ValueError:
        return False


# A sort of field: the lengths it may have, its test, and the cause where the test fails.
SORTS = {
    "number": (range(1, 12), lambda s: re.fullmatch(r"[0-9]+", s), "value"),
    "date": ([8], is_date, "date"),
    "network": ([4], lambda s: re.fullmatch(r"D[0-9]{3}", s), "code"),
    "status": ([1], lambda s: s in "PLZ", "value"),
    "correction code": ([4], lambda s: re.fullmatch(r"[0-9]{4}", s), "value"),
    "U:": ([2], lambda s: s == "U:", "value"),
    "K:": ([2], lambda s: s == "K:", "value"),
    "end": ([], None, None),
}


def wrong(sort, s):
    """Why a field is wrong, or None. One that is empty is right here."""
    lengths, test, cause = SORTS[sort]
    if not all(map(is_character, s)):
        return "character"
    if s == "":
        return None
    if len(s) not in lengths:
        return "length"
    return None if test(s) else cause


# ---- records: every wrong field in order, as (position, cause)

def is_block(a, b):
    """4.4.2, rule 5: a ends in n zeros, b in n nines, and before them they differ at most in the last digit."""
    if len(a) != len(b):
        return False
    for n in range(1, len(a) + 1):
        head, tail = a[:len(a) - n], a[len(a) - n:]
        last, nines = b[:len(b) - n], b[len(b) - n:]
        if tail == "0" * n and nines == "9" * n and head[:-1] == last[:-1] and head[-1:] <= last[-1:]:
            return True
    return False


def part(at, fields, whole, named=True):
    """Six fields, the first at the position `at`. Where the part must be whole, `whole` is the cause of an empty field that may not be; and
    it may be that the first number must be named."""
    first, last, date, gaining, losing, status = fields
    sorts = ("number", "number", "date", "network", "network", "status")
    for i, (sort, s) in enumerate(zip(sorts, fields)):
        pos, cause = at + 2 * i, wrong(sort, s)
        if cause:
            yield pos, cause
        elif s == "":
            if whole and i in (0, 2, 4, 5):
                yield pos, whole
            if i == 0 and not named:
                yield pos, "value"
        elif i == 1 and not is_block(first, last):
            yield pos, "value"
        elif i == 5 and whole and gaining == "" and status != "Z":
            yield pos, "value"


def needed(pos, sort, s):
    if wrong(sort, s) or s == "":
        yield pos, wrong(sort, s) or "length"


def pieces(line, n):
    """The first n pieces between commas, the last of them with all that is left; how many commas cut them."""
    f = line.split(",", n - 1)
    return f + [""] * (n - len(f)), len(f) - 1


def report(line):
    yield from part(1, pieces(line, 6)[0], "length")


def request(line):
    (code, date, rest), commas = pieces(line, 3)
    yield from needed(1, "network", code)
    for pos, sort, s in ((3, "date", date), (5, "end", rest)):
        if wrong(sort, s):
            yield pos, wrong(sort, s)
    if commas < 2:
        yield (2, 4)[commas], "length"


def correction(line):
    f, commas = pieces(line, 12)
    head = f[0]
    m = re.match(r"([^:]*)U:", head, re.S)
    code = m.group(1) if m else head[:4]
    mark, u = head[len(code):][:2], [head[len(code):][2:]] + f[1:6]
    k = [f[6][2:]] + f[7:]
    objects = code[:2] == "25"
    yield from needed(1, "correction code", code)
    yield from needed(2, "U:", mark)
    yield from part(3, u, "value" if objects else None)
    yield from needed(15, "K:", f[6][:2])
    yield from part(16, k, None, objects or u[0] != "")
    if commas < 11:
        yield 5 + 2 * commas, "length"


RECORD = {"D": report, "R": report, "K": correction, "Q": request}
END = {"D": 12, "R": 12, "K": 27, "Q": 5}


# ---- files: how many records, or (place, field, cause)

def first_fault(kind, line):
    return next(RECORD[kind](line), None)


def judge(kind, s):
    i = 0
    while True:
        if kind != "Q":
            if s == "":
                return i, 0, "closing"
            if s.startswith(WORD):
                right = f"{WORD}{i + 1},{CR}"
                if not s.startswith(right):
                    return i, 0, "closing"
                return i if s == right else (i + 1, 0, "after")
        elif i == 1:
            return 1 if s == "" else (1, 0, "after")
        line, cr, s = s.partition(CR)
        fault = first_fault(kind, line) or (None if cr else (END[kind], "length"))
        if fault:
            return i, *fault
        i += 1


def said(j):
    return f"{j} records" if isinstance(j, int) else f"{j[0]} {j[1]} {j[2]}"


# ---- lines of both files

SIGNS = {13: "|", 10: "^", 9: "~", 0: "(", 31: ")", 127: "<", 128: ">", 191: "[", 192: "]", 228: "{", 255: "}"}
stdin, stdout = [], []


def spelt(s):
    assert not any(c in SIGNS.values() for c in s), s
    return "".join(SIGNS.get(ord(c), c) for c in s)


def put(what, kind, words, s, answer, byte=""):
    line, byte = spelt(s), spelt(byte)
    assert len(s) <= 1024 and all(32 <= ord(c) <= 126 for c in line + words + byte), (words, s)
    stdin.append(f"{what}\t{kind}\t{words}\t{line}" + (f"\t{byte}" if byte else "") + "\n")
    stdout.append(f"{words}{answer}\n")


def heading(words):
    put("=", "D", words, "", "")


def case(kind, words, s, meant=None):
    j = judge(kind, s)
    assert meant is None or j == meant, (words, s, j, meant)
    put("j", kind, f"{words}: ", s, said(j))


def turns(js):
    text, last = "", None
    for i, j in js:
        if j != last:
            text += f"; {i}: {said(j)}"
        last = j
    return text


def each_byte(kind, words, s):
    n = len(s)
    put("c", kind, f"{words}, cut short to each length", s, turns((i, judge(kind, s[:i])) for i in range(n + 1)))
    put("x", kind, f"{words}, each byte left out", s, turns((i, judge(kind, s[:i] + s[i + 1:])) for i in range(n)))
    for b in (44, 13, 10, 32, 0, 228, 53, 68, 85, 58):
        name = f"`{chr(b)}`" if 32 < b < 127 else f"byte {b}"
        put("r", kind, f"{words}, each byte replaced by {name}", s, turns((i, judge(kind, s[:i] + chr(b) + s[i + 1:])) for i in range(n)), chr(b))


# ---- the kinds of file: letter, a right record by the positions of its table, and what the positions hold

def six(at, date):
    fields = ("300", "309", date, "D002", "D001", "P")
    return {at + i: fields[i // 2] if i % 2 == 0 else "," for i in range(11)}


SIX = ("first number", "last number", "date", "gaining network", "losing network", "status")


def six_sorts(at):
    return {at + 2 * i: name for i, name in enumerate(SIX)}


def correction_of(code):
    return {1: code, 2: "U:"} | six(3, "04032024") | {14: ",", 15: "K:"} | six(16, "05032024")


REPORT_SORTS = six_sorts(1)
CORRECTION_SORTS = {1: "correction code", 2: "U:"} | six_sorts(3) | {15: "K:"} | six_sorts(16)
REQUEST_SORTS = {1: "losing network", 3: "date", 5: "end"}

KINDS = {
    "default": ("D", six(1, "04032024"), REPORT_SORTS),
    "response": ("R", six(1, "04032024"), REPORT_SORTS),
    "objection": ("K", correction_of("2501"), CORRECTION_SORTS),
    "correction": ("K", correction_of("0500"), CORRECTION_SORTS),
    "request": ("Q", {1: "D456", 2: ",", 3: "01041998", 4: ",", 5: ""}, REQUEST_SORTS),
}


def text(record):
    return "".join(record.values())


def with_fields(name, changed):
    return text(KINDS[name][1] | changed)


def file_of(kind, *lines):
    """The lines, each with its CR, and the closing record."""
    return "".join(x + CR for x in lines) + ("" if kind == "Q" else f"{WORD}{len(lines) + 1},{CR}")


def one(name, words, line, fault=None):
    """A line as the only record of a file. Where no fault is meant, any is."""
    case(KINDS[name][0], f"{name} {words}", file_of(KINDS[name][0], line), fault and (0, *fault))


def both(name, words, line, fault):
    """The same, and as a later record."""
    kind, record, _ = KINDS[name]
    one(name, words, line, fault)
    if kind != "Q":
        case(kind, f"{name} {words}, later", file_of(kind, text(record), line), (1, *fault))


def fine(name, words, line):
    case(KINDS[name][0], f"{name} {words}", file_of(KINDS[name][0], line), 1)


# What a field is damaged to, by what it holds: cause, words, the field.
NUMBER = [("character", "byte 128", "3\x800"), ("length", "12 digits", "300000000000"), ("value", "a letter", "3X0"), ("value", "a blank", " 300"), ("value", "a sign", "+300")]
NETWORK = [("character", "byte 127", "D\x7f02"), ("length", "3 bytes", "D02"), ("length", "5 bytes", "D0002"), ("code", "E for D", "E002"), ("code", "d for D", "d002"),
           ("code", "a letter O", "D0O2"), ("code", "4 digits", "0002")]
DAMAGE = {
    "first number": NUMBER,
    "last number": NUMBER,
    "date": [("character", "byte 0", "0403\x00024"), ("length", "7 digits", "4032024"), ("length", "9 digits", "040320240"), ("length", "6 digits", "040324"),
             ("date", "day 0", "00032024"), ("date", "day 32", "32032024"), ("date", "31 April", "31042024"), ("date", "29 February 2023", "29022023"),
             ("date", "29 February 2100", "29022100"), ("date", "month 0", "04002024"), ("date", "month 13", "04132024"), ("date", "year first", "20240304"),
             ("date", "1997", "31121997"), ("date", "2050", "01012050"), ("date", "a letter", "0403202X"), ("date", "a blank", " 4032024")],
    "gaining network": NETWORK,
    "losing network": NETWORK,
    "status": [("character", "byte 31", "\x1f"), ("length", "2 bytes", "PP"), ("value", "X", "X"), ("value", "p", "p"), ("value", "a blank", " "), ("value", "a digit", "0")],
    "correction code": [("character", "byte 191", "2\xbf01"), ("length", "3 digits", "250"), ("length", "5 digits", "25010"), ("length", "1 digit", "2"), ("value", "a letter", "25O1"),
                        ("value", "a blank", " 501")],
    "U:": [("character", "byte 0 for `U`", "\x00:"), ("character", "byte 0 for `:`", "U\x00"), ("value", "`u:`", "u:"), ("value", "`U;`", "U;"), ("value", "`K:`", "K:"),
           ("value", "`:U`", ":U"), ("value", "missing", "")],
    "K:": [("character", "byte 0 for `K`", "\x00:"), ("character", "byte 0 for `:`", "K\x00"), ("value", "`k:`", "k:"), ("value", "`K;`", "K;"), ("value", "`U:`", "U:"),
           ("value", "`:K`", ":K"), ("value", "missing", "")],
    "end": [("character", "byte 0", "\x00"), ("length", "a letter", "X"), ("length", "a blank", " "), ("length", "LF", "\n"), ("length", "a comma", ","), ("length", "a date", "01041998")],
}
# A field that is wrong in two ways: the cause that counts, words, the field.
TWICE_NUMBER = [("character", "and length", "30000000000\x00"), ("character", "and value", "3X\x00"), ("length", "and value", "30000000000X"), ("length", "and letters", "abcdefghijklm")]
TWICE_NETWORK = [("character", "and length", "D0\x00"), ("character", "and code", "E0\x000"), ("length", "and code", "E0002"), ("length", "and small", "d02")]
TWICE = {
    "first number": TWICE_NUMBER,
    "last number": TWICE_NUMBER + [("length", "and no block", "309999999999"), ("value", "and other length", "3X")],
    "date": [("character", "and length", "0403202\x00\x00"), ("character", "and date", "3203202\x00"), ("length", "and date", "320320240"), ("length", "and letters", "4 March"),
             ("date", "in all of it", "XXXXXXXX")],
    "gaining network": TWICE_NETWORK,
    "losing network": TWICE_NETWORK,
    "status": [("character", "and length", "P\x00"), ("length", "and value", "XX"), ("length", "and comma", "XXX")],
    "correction code": [("character", "and length", "250\x00\x00"), ("character", "and value", "X\x0001"), ("length", "and value", "25X01"), ("length", "and letters", "X")],
    "U:": [("character", "both bytes", "\x00\x00"), ("character", "and value", "u\x80")],
    "K:": [("character", "both bytes", "\x00\x00"), ("character", "and value", "k\x80")],
    "end": [("character", "and length", "X\x00"), ("character", "behind a comma", ",\x00")],
}
BYTES = (("LF", 10), ("tab", 9), ("blank", 32), ("a letter", 65), ("byte 0", 0), ("byte 31", 31), ("byte 127", 127), ("byte 128", 128), ("byte 191", 191), ("byte 192", 192),
         ("byte 255", 255))
LAST_CAUSE = {"first number": "value", "last number": "value", "date": "date", "gaining network": "code", "losing network": "code", "status": "value",
              "correction code": "value", "U:": "value", "K:": "value", "end": "length"}


def field_by_cause():
    for name, (kind, record, sorts) in KINDS.items():
        heading(f"{name}: each field by each cause")
        for pos, sort in sorts.items():
            seen = set()
            for cause, words, field in DAMAGE[sort]:
                (one if cause in seen else both)(name, f"{pos} {cause}, {words}", with_fields(name, {pos: field}), (pos, cause))
                seen.add(cause)
        if kind == "K":
            for words, head in (("head ends behind the code", ""), ("head ends behind `U`", "U"), ("head ends with `:`", ":")):
                (both if head == "" else one)(name, f"2 length, {words}", with_fields(name, {2: head, 3: ""}), (2, "length"))
            one(name, "1 length, head ends in the code", with_fields(name, {1: record[1][:3], 2: "", 3: ""}), (1, "length"))
            one(name, "1 length, head empty", with_fields(name, {1: "", 2: "", 3: ""}), (1, "length"))
            one(name, "1 length, code empty", with_fields(name, {1: ""}), (1, "length"))
            one(name, "1 value, code and `U` missing", with_fields(name, {1: "", 2: ":"}), (1, "value"))
            one(name, "3 value, a second `U:`", with_fields(name, {2: "U:U:"}), (3, "value"))
            one(name, "3 value, a second colon", with_fields(name, {2: "U::"}), (3, "value"))
            one(name, "1 length, a `U` more", with_fields(name, {2: "UU:"}), (1, "length"))
            one(name, "2 value, a colon in front of `U:`", with_fields(name, {2: ":U:"}), (2, "value"))
            one(name, "2 value, no `U:` but one in the next field", with_fields(name, {2: "", 5: "U:309"}), (2, "value"))
            both(name, "15 length, `K:` and number empty", with_fields(name, {15: "", 16: ""}), (15, "length"))
            one(name, "15 length, `K` alone", with_fields(name, {15: "K", 16: ""}), (15, "length"))
            one(name, "16 value, a second `K:`", with_fields(name, {15: "K:K:"}), (16, "value"))
        if kind != "Q":
            for words, line in (("", text(record)), (", behind a right one", text(record) + CR + text(record))):
                case(kind, f"{name} {END[kind]} length, no CR and no closing record{words}", line, (line.count(CR), END[kind], "length"))
        else:
            case(kind, f"{name} 5 length, no CR", text(record), (0, 5, "length"))


def must_not_be_empty(name, pos):
    """The cause of a field that is empty and may not be, where another field does not decide it."""
    if name in ("default", "response"):
        return "length" if pos in (1, 5, 9, 11) else None
    if name == "objection" and pos in (3, 7, 11, 13):
        return "value"
    return "length" if pos == 1 else None


def empty_fields():
    heading("Empty fields")
    for name, (kind, record, sorts) in KINDS.items():
        one(name, "as it is", text(record))
        for pos, sort in sorts.items():
            if sort != "end":
                cause = must_not_be_empty(name, pos)
                (both if cause else one)(name, f"{pos} empty ({sort})", with_fields(name, {pos: ""}), cause and (pos, cause))
        if kind == "Q":
            one(name, "3 empty, 1 a blank", with_fields(name, {1: " ", 3: ""}))
            case(kind, "request, only commas", ",,\r", (0, 1, "length"))
            continue
        for at in (1,) if kind != "K" else (3, 16):
            for status in "PLZ":
                one(name, f"{at + 6} empty, status {status}", with_fields(name, {at + 6: "", at + 10: status}))
            one(name, f"{at + 6} and {at + 10} empty", with_fields(name, {at + 6: "", at + 10: ""}))
            one(name, f"{at} and {at + 2} empty", with_fields(name, {at: "", at + 2: ""}))
            one(name, f"{at} empty, {at + 2} a letter", with_fields(name, {at: "", at + 2: "X"}))
            one(name, f"all from {at} empty", with_fields(name, {at + 2 * i: "" for i in range(6)}))
            for i in range(6):
                one(name, f"all from {at} empty but {at + 2 * i}", with_fields(name, {at + 2 * k: "" for k in range(6) if k != i}))
        if kind == "K":
            one(name, "3 and 16 empty", with_fields(name, {3: "", 16: ""}))
            one(name, "3, 5 and 16 empty", with_fields(name, {3: "", 5: "", 16: ""}))
            one(name, "3, 5, 16 and 18 empty", with_fields(name, {3: "", 5: "", 16: "", 18: ""}))
            one(name, "both parts empty", with_fields(name, {at + 2 * i: "" for at in (3, 16) for i in range(6)}))
            one(name, "both parts empty but 26", with_fields(name, {at + 2 * i: "" for at in (3, 16) for i in range(6) if at + 2 * i != 26}))


def two_field_rules():
    heading("Rules over two fields")
    blocks = (("shorter", "300", "39"), ("longer", "300", "3099"), ("shorter and no decade", "300", "30"), ("ends in 8", "300", "308"), ("begins with 1", "301", "309"),
              ("begins and ends the same", "300", "300"), ("two digits differ, c)", "68975678070", "68975678129"), ("two digits differ, d)", "68975678100", "68975678229"),
              ("two digits differ, e)", "3919900500", "3919900649"), ("begins with 1, f)", "23629674001", "23629674500"), ("not a multiple, g)", "23629674150", "23629674649"),
              ("ends before it begins", "350", "339"), ("other head", "300", "409"))
    good = (("a)", "68975678000", "68975678999"), ("b)", "68975678030", "68975678059"), ("of one digit", "0", "9"), ("of three", "000", "999"), ("of eleven", "00000000000", "99999999999"))
    for name, (kind, record, _) in KINDS.items():
        for at in {"Q": (), "K": (3, 16)}.get(kind, (1,)):
            for words, a, b in blocks:
                one(name, f"{at + 2} value, {words}", with_fields(name, {at: a, at + 2: b}), (at + 2, "value"))
            for words, a, b in good:
                fine(name, f"block at {at}, {words}", with_fields(name, {at: a, at + 2: b}))
            one(name, f"{at} before the rule at {at + 2}", with_fields(name, {at: "3X0", at + 2: "308"}), (at, "value"))
            one(name, f"the rule at {at + 2} before {at + 4}", with_fields(name, {at + 2: "308", at + 4: "\x00"}), (at + 2, "value"))
        if kind != "Q" and name != "correction":
            at = 3 if kind == "K" else 1
            for status in "PL":
                one(name, f"{at + 10} value, {status} to no network", with_fields(name, {at + 6: "", at + 10: status}), (at + 10, "value"))
            one(name, f"{at + 8} before the rule at {at + 10}", with_fields(name, {at + 6: "", at + 8: "E001"}), (at + 8, "code"))
            one(name, f"{at + 10} length before its rule", with_fields(name, {at + 6: "", at + 10: "PP"}), (at + 10, "length"))
            fine(name, f"Z to no network at {at + 6}", with_fields(name, {at + 6: "", at + 10: "Z"}))
        if kind == "K":
            for code in ("2499", "2600", "0025"):
                fine(name, f"of code {code}, U without a date and a status", with_fields(name, {1: code, 7: "", 13: ""}))
            for code in ("2500", "2599"):
                one(name, f"7 value, of code {code}, U without a date and a status", with_fields(name, {1: code, 7: "", 13: ""}), (7, "value"))
            one(name, "of code 25X0, U without a number", with_fields(name, {1: "25X0", 3: "", 5: ""}), (1, "value"))


def two_causes():
    heading("A field wrong in two ways: the first of the causes counts")
    for name, (kind, record, sorts) in KINDS.items():
        for pos, sort in sorts.items():
            for cause, words, field in TWICE[sort]:
                one(name, f"{pos} {cause} {words}", with_fields(name, {pos: field}), (pos, cause))


def bytes_in_fields():
    heading("Bytes in each field, in the place of its second byte")
    for name in ("default", "correction", "request"):
        kind, record, sorts = KINDS[name]
        for pos, sort in sorts.items():
            for words, b in BYTES:
                s = record[pos]
                at = min(1, max(len(s) - 1, 0))
                cause = LAST_CAUSE[sort] if is_character(chr(b)) else "character"
                line = with_fields(name, {pos: s[:at] + chr(b) + s[at + 1:]})
                case(kind, f"{name} {pos} {cause}, {words}", file_of(kind, line), (0, pos, cause))


def two_fields():
    heading("Two faulty fields: the first counts, also where the other's cause is tried before its own")
    for name in ("default", "objection", "correction", "request"):
        kind, record, sorts = KINDS[name]
        spots = list(sorts.items())
        for i, (p, sort) in enumerate(spots):
            cause = LAST_CAUSE[sort]
            worse = next(field for c, _, field in DAMAGE[sort] if c == cause)
            for q, _ in spots[i + 1:] if name != "correction" else spots[i + 1:i + 2]:
                line = with_fields(name, {p: worse, q: "\x00\x00"})
                case(kind, f"{name} {p} {cause}, with {q} character", file_of(kind, line), (0, p, cause))
                if name != "objection":
                    line = with_fields(name, {p: "\x00\x00", q: ""})
                    case(kind, f"{name} {p} character, with {q} empty", file_of(kind, line), (0, p, "character"))


def records():
    heading("Two faulty records: the first counts")
    for name, (kind, record, sorts) in KINDS.items():
        right, end = text(record), max(p for p in sorts)
        first = with_fields(name, {min(sorts): "\x00"})
        last = with_fields(name, {end: "X"})
        cause = LAST_CAUSE[sorts[end]]
        if kind == "Q":
            case(kind, f"{name}, wrong at 5, and bytes behind", last + CR + first + CR, (0, 5, "length"))
            case(kind, f"{name}, wrong at 5, and no CR", last, (0, 5, "length"))
            case(kind, f"{name}, a second one", file_of(kind, right, right), (1, 0, "after"))
            case(kind, f"{name}, a second one, wrong", file_of(kind, right, first), (1, 0, "after"))
            continue
        case(kind, f"{name}, the first wrong at {end}, the second at 1", file_of(kind, last, first), (0, end, cause))
        case(kind, f"{name}, the first wrong at 1, the second at {end}", file_of(kind, first, last), (0, 1, "character"))
        case(kind, f"{name}, the second wrong at {end}, the third at 1", file_of(kind, right, last, first), (1, end, cause))
        case(kind, f"{name}, the third of three wrong at {end}", file_of(kind, right, right, last), (2, end, cause))
        case(kind, f"{name}, wrong at {end}, and no closing record", last + CR, (0, end, cause))
        case(kind, f"{name}, wrong at {end}, and no CR", last, (0, end, cause))
        case(kind, f"{name}, wrong at {end}, and bytes after the end", file_of(kind, last) + "X", (0, end, cause))
        case(kind, f"{name}, the closing record, then one wrong at 1", file_of(kind) + first + CR, (1, 0, "after"))
        case(kind, f"{name}, an empty line", file_of(kind, right, "", right))
        case(kind, f"{name}, an empty line at the end", file_of(kind, right, ""))
        case(kind, f"{name}, a long line of commas", file_of(kind, "," * 40))
        case(kind, f"{name}, a long line of digits", file_of(kind, "1" * 90))
        case(kind, f"{name}, a long line of byte 0", file_of(kind, "\x00" * 90))


def commas():
    heading("Commas")
    for name, (kind, record, sorts) in KINDS.items():
        places = [p for p, s in record.items() if s == ","]
        for p in places:
            one(name, f"comma {p} missing", with_fields(name, {p: ""}))
        for p in places:
            one(name, f"comma {p} twice", with_fields(name, {p: ",,"}))
        for p in places:
            case(kind, f"{name} semicolon for comma {p}", file_of(kind, with_fields(name, {p: ";"})))
        for p in places:
            line = text({q: s for q, s in record.items() if q < p})
            case(kind, f"{name} ends before comma {p}", file_of(kind, line))
            case(kind, f"{name} ends behind comma {p}", file_of(kind, line + ","))
        one(name, "a comma in front", "," + text(record))
        one(name, "a comma behind", text(record) + ",")
        if kind == "K":
            for n in range(5):
                one(name, f"{17 + 2 * n} length, a K part of {n} commas", text({p: s for p, s in record.items() if p < 16}) + "," * n, (17 + 2 * n, "length"))
                line = text({p: s for p, s in record.items() if p < 17 + 2 * n})
                both(name, f"{17 + 2 * n} length, a K part that ends there", line, (17 + 2 * n, "length"))
            one(name, "15 length, no K part", text({p: s for p, s in record.items() if p < 15}), (15, "length"))
            one(name, "only a U part", text({p: s for p, s in record.items() if p < 14}))
            one(name, "U part of a comma fewer, all empty", f"{record[1]}U:,,,,,K:300,309,12042004,D001,D009,L")
            one(name, "U part of a comma more, all empty", f"{record[1]}U:,,,,,,,K:300,309,12042004,D001,D009,L")
            one(name, "the parts changed about", f"{record[1]}K:300,309,12042004,D001,D009,L,U:300,309,12042004,D001,D009,L")
        if kind == "Q":
            one(name, "2 length, only a code", "D456", (2, "length"))
            one(name, "4 length, a code and a comma", "D456,", (4, "length"))
            one(name, "4 length, a date and no comma", "D456,01041998", (4, "length"))
            case(kind, "request 2 length, only a code, and no CR", "D456", (0, 2, "length"))
            case(kind, "request 4 length, a code and a comma, and no CR", "D456,", (0, 4, "length"))
            case(kind, "request 5 length, only the CR is missing", "D456,,", (0, 5, "length"))


def ends():
    heading("CR, the closing record, bytes after the end")
    for name, (kind, record, sorts) in KINDS.items():
        right = text(record)
        case(kind, f"{name}, no byte", "")
        case(kind, f"{name}, a CR", CR)
        case(kind, f"{name}, a LF", "\n")
        case(kind, f"{name}, byte 0", "\x00")
        case(kind, f"{name}, byte 255", "\xff")
        case(kind, f"{name}, a comma", ",")
        case(kind, f"{name}, a CR in front", CR + file_of(kind, right))
        case(kind, f"{name}, CR LF", file_of(kind, right, right).replace(CR, "\r\n"))
        case(kind, f"{name}, LF for CR", file_of(kind, right, right).replace(CR, "\n"))
        case(kind, f"{name}, LF CR", file_of(kind, right, right).replace(CR, "\n\r"))
        case(kind, f"{name}, two CR", file_of(kind, right).replace(CR, "\r\r"))
        case(kind, f"{name}, a CR in the middle of the first field", file_of(kind, right[:2] + CR + right[2:]))
        for b in (0, 10, 13, 32, 65, 128, 255):
            case(kind, f"{name}, byte {b} after the end", file_of(kind, right) + chr(b), (1 if kind == "Q" else 2, 0, "after"))
        case(kind, f"{name}, the file twice", file_of(kind, right) * 2, (1 if kind == "Q" else 2, 0, "after"))
        if kind == "Q":
            case(kind, "request, with a closing record", right + CR + f"{WORD}2,\r", (1, 0, "after"))
            case(kind, "request, only a closing record", f"{WORD}1,\r")
            case(kind, "request, CR LF behind it", right + "\r\n", (1, 0, "after"))
            continue
        case(kind, f"{name}, no CR between two records", right + file_of(kind, right))
        case(kind, f"{name}, no CR before the closing record", right + file_of(kind))
        case(kind, f"{name}, the closing record between two records", file_of(kind, right) + right + CR, (2, 0, "after"))
        for n in (0, 1, 2) if name == "default" else (1,):
            body = (right + CR) * n
            words = f"{name}, {n} records"
            case(kind, f"{words}, right", f"{body}{WORD}{n + 1},\r", n)
            case(kind, f"{words}, no closing record", body, (n, 0, "closing"))
            for why, closing in (("one too few", f"{n},\r"), ("one too many", f"{n + 2},\r"), ("a leading zero", f"0{n + 1},\r"), ("a sign", f"+{n + 1},\r"), ("a blank", f" {n + 1},\r"),
                                 ("a blank behind", f"{n + 1} ,\r"), ("no count", ",\r"), ("a letter", "X,\r"), ("byte 0", "\x00,\r"), ("byte 128 behind", f"{n + 1},\x80\r"),
                                 ("a digit more", f"{n + 1}0,\r"), ("2 to the 64th more", f"{n + 1 + 2 ** 64},\r"), ("no comma", f"{n + 1}\r"), ("two commas", f"{n + 1},,\r"),
                                 ("a field more", f"{n + 1},X\r"), ("no CR", f"{n + 1},"), ("LF for CR", f"{n + 1},\n"), ("cut behind the count", f"{n + 1}"),
                                 ("cut behind the word", ""), ("only a CR behind the word", "\r"), ("wrong, and bytes behind", f"{n},\rX")):
                case(kind, f"{words}, closing record: {why}", f"{body}{WORD}{closing}", (n, 0, "closing"))
            for why, closing in (("CR LF", f"{n + 1},\r\n"), ("twice", f"{n + 1},\r{WORD}{n + 2},\r")):
                case(kind, f"{words}, closing record: {why}", f"{body}{WORD}{closing}", (n + 1, 0, "after"))
            for why, closing in (("small", f"zeilenanzahl:{n + 1},\r"), ("no colon", f"Zeilenanzahl{n + 1},\r"), ("a blank in front", f" {WORD}{n + 1},\r"), ("LF in front", f"\n{WORD}{n + 1},\r"),
                                 ("byte 0 in the word", f"Zeilen\x00nzahl:{n + 1},\r"), ("a letter missing", f"Zeilenanzal:{n + 1},\r"), ("cut in the word", "Zeilenan"),
                                 ("cut before the colon", "Zeilenanzahl"), ("CR in the word", "Zeilen\ranzahl:1,\r"), ("only a letter", "Z")):
                case(kind, f"{words}, closing record: {why}", body + closing)


def other_kinds():
    heading("A file of one kind judged as another")
    for name, (kind, record, _) in KINDS.items():
        s = file_of(kind, text(record))
        for letter, other in (("D", "default"), ("R", "response"), ("K", "correction"), ("Q", "request")):
            case(letter, f"{name} as {other}", s)


def small_files():
    heading("Small files, damaged at each byte: from which length or byte on, what is found")
    each_byte("D", "default, a block", "300,309,04032024,D002,D001,P\rZeilenanzahl:2,\r")
    each_byte("D", "default, two records", "31,,29022024,,D001,Z\r4000,4999,04032024,D002,D001,L\rZeilenanzahl:3,\r")
    each_byte("R", "response, a number", "30,,04032024,D002,D001,P\rZeilenanzahl:2,\r")
    each_byte("R", "response, no record", "Zeilenanzahl:1,\r")
    each_byte("K", "objection, whole", "2501U:300,309,04032024,D002,D001,P,K:300,309,05032024,D002,D001,P\rZeilenanzahl:2,\r")
    each_byte("K", "objection, K empty", "2520U:30,,04032024,,D001,Z,K:,,,,,\rZeilenanzahl:2,\r")
    each_byte("K", "correction, whole", "0500U:300,309,04032024,D002,D001,P,K:300,309,05032024,D002,D001,P\rZeilenanzahl:2,\r")
    each_byte("K", "correction, U empty", "6000U:,,,,,,K:300,309,12042004,D001,D009,L\rZeilenanzahl:2,\r")
    each_byte("K", "correction, little in both", "2000U:30,,,,,,K:,,,,,\r4200U:,,,D001,,,K:7,,,,,Z\rZeilenanzahl:3,\r")
    each_byte("Q", "request, with a date", "D987,01041998,\r")
    each_byte("Q", "request, without", "D456,,\r")


def lines():
    """Lines of stdin, and of stdout."""
    field_by_cause()
    empty_fields()
    two_field_rules()
    two_causes()
    bytes_in_fields()
    two_fields()
    records()
    commas()
    ends()
    other_kinds()
    small_files()
    return stdin, stdout
