//! Changes that make a record wrong, or leave it good now and then. Each strikes one line; those of
//! single bytes strike a whole file as well.

use crate::chance::Chance;

pub type Strike = fn(&mut Chance, &[u8]) -> Vec<u8>;

pub const STRIKES: &[(&str, Strike)] = &[
    ("byte changed", byte_changed),
    ("byte left out", byte_left_out),
    ("byte put in", byte_put_in),
    ("byte twice", byte_twice),
    ("bit turned", bit_turned),
    ("cut", cut_short),
    ("field changed", field_changed),
    ("field changed", field_changed),
    ("field empty", field_empty),
    ("number changed", number_changed),
    ("num2 alone", num2_alone),
    ("fields changed places", fields_changed_places),
    ("comma more", comma_more),
    ("comma fewer", comma_fewer),
    ("last fields left out", last_fields_left_out),
    ("head changed", head_changed),
    ("part U emptied", part_u_emptied),
    ("part K emptied", part_k_emptied),
];

/// One strike more often than two, and two more often than three.
pub fn struck(chance: &mut Chance, line: &[u8]) -> Vec<u8> {
    let mut line = line.to_vec();
    for _ in 0..chance.pick(&[1, 1, 1, 2, 2, 3]) {
        let (_, strike) = chance.pick(STRIKES);
        line = strike(chance, &line);
    }
    line
}

/// What records are made of, the rest of 4.4.1 at its ends, and what lies just outside it.
const BYTES: &[u8] = b"0123456789,DPLZUK:\r\n \0\xff-;\t\x08\x0b\x0c\x0e\x1f~\x7f\x80\xbf\xc0";

pub fn byte_changed(chance: &mut Chance, bytes: &[u8]) -> Vec<u8> {
    let mut bytes = bytes.to_vec();
    if !bytes.is_empty() {
        let at = chance.below(bytes.len());
        bytes[at] = chance.pick(BYTES);
    }
    bytes
}

pub fn byte_left_out(chance: &mut Chance, bytes: &[u8]) -> Vec<u8> {
    let mut bytes = bytes.to_vec();
    if !bytes.is_empty() {
        bytes.remove(chance.below(bytes.len()));
    }
    bytes
}

pub fn byte_put_in(chance: &mut Chance, bytes: &[u8]) -> Vec<u8> {
    let byte = chance.pick(BYTES);
    put_in(chance, bytes, &[byte])
}

fn byte_twice(chance: &mut Chance, bytes: &[u8]) -> Vec<u8> {
    let mut bytes = bytes.to_vec();
    if !bytes.is_empty() {
        let at = chance.below(bytes.len());
        bytes.insert(at, bytes[at]);
    }
    bytes
}

pub fn bit_turned(chance: &mut Chance, bytes: &[u8]) -> Vec<u8> {
    let mut bytes = bytes.to_vec();
    if !bytes.is_empty() {
        let at = chance.below(bytes.len());
        bytes[at] ^= 1 << chance.below(8);
    }
    bytes
}

pub fn cut_short(chance: &mut Chance, bytes: &[u8]) -> Vec<u8> {
    bytes[..chance.below(bytes.len().max(1))].to_vec()
}

fn put_in(chance: &mut Chance, bytes: &[u8], more: &[u8]) -> Vec<u8> {
    let (before, behind) = bytes.split_at(chance.below(bytes.len() + 1));
    [before, more, behind].concat()
}

pub fn comma_more(chance: &mut Chance, line: &[u8]) -> Vec<u8> {
    put_in(chance, line, b",")
}

pub fn comma_fewer(chance: &mut Chance, line: &[u8]) -> Vec<u8> {
    let mut line = line.to_vec();
    let commas: Vec<usize> = (0..line.len()).filter(|i| line[*i] == b',').collect();
    if !commas.is_empty() {
        line.remove(chance.pick(&commas));
    }
    line
}

/// The line up to one of its commas.
fn last_fields_left_out(chance: &mut Chance, line: &[u8]) -> Vec<u8> {
    let fields: Vec<&[u8]> = line.split(|c| *c == b',').collect();
    fields[..chance.below(fields.len()).max(1)].join(&b',')
}

/// Changes one field to `change` of its place in the six; `CCCCU:` and `K:` before it stay.
fn in_a_field(line: &[u8], at: usize, change: &[u8]) -> Vec<u8> {
    let mut fields: Vec<Vec<u8>> = line.split(|c| *c == b',').map(<[u8]>::to_vec).collect();
    if let Some(field) = fields.get_mut(at) {
        let mark = field.iter().position(|c| *c == b':').map_or(0, |colon| colon + 1);
        *field = [&field[..mark], change].concat();
    }
    fields.join(&b',')
}

fn field_count(line: &[u8]) -> usize {
    line.iter().filter(|c| **c == b',').count() + 1
}

const WRONG_NUM1: &[&[u8]] = &[
    b"123456789012",
    b"30555a",
    b" 3055501",
    b"3055501 ",
    b"-3055501",
    b"0",
    b"305\x005501",
    b"305550112345\x7f",
    b"x23456789012",
];
const WRONG_NUM2: &[&[u8]] = &[
    b"3055509",
    b"30555",
    b"3055599",
    b"99999999999",
    b"x",
    b"9",
    b"305550999",
    b"305\xbf509",
    b"999999999999",
    b"\x80",
];
const WRONG_DATES: &[&[u8]] = &[
    b"30022004",
    b"00012004",
    b"01002004",
    b"01132004",
    b"31121997",
    b"01012050",
    b"1012004",
    b"010120040",
    b"0101 004",
    b"29022001",
    b"29022000",
    b"2004-1-1",
    b"0101200\x1f",
    b"\x0b",
    b"0101200\xc4",
];
const WRONG_CODES: &[&[u8]] = &[
    b"D00A",
    b"d001",
    b"D01",
    b"D0001",
    b"E001",
    b"D 01",
    b"D999",
    b" D001",
    b"D0\x001",
    b"D001\xa0",
    b"D00\xff",
    b"\x7f",
    b"0001",
];
const WRONG_STATUS: &[&[u8]] =
    &[b"X", b"p", b"PL", b" ", b"Z", b"K", b"\x00", b"P\x1a", b"\n", b"P\n", b"\xd0"];
const WRONG_ENDS: &[&[u8]] = &[b" ", b"\n", b"x", b"\x00", b"01041998", b"\xff", b"x\x80"];

pub fn field_changed(chance: &mut Chance, line: &[u8]) -> Vec<u8> {
    let count = field_count(line);
    let at = chance.below(count);
    let wrong = match (count, at % 6) {
        (3, 0) => WRONG_CODES, // a request
        (3, 1) => WRONG_DATES,
        (3, _) => WRONG_ENDS,
        (_, 0) => WRONG_NUM1,
        (_, 1) => WRONG_NUM2,
        (_, 2) => WRONG_DATES,
        (_, 3) | (_, 4) => WRONG_CODES,
        _ => WRONG_STATUS,
    };
    in_a_field(line, at, chance.pick(wrong))
}

pub fn field_empty(chance: &mut Chance, line: &[u8]) -> Vec<u8> {
    in_a_field(line, chance.below(field_count(line)), b"")
}

/// Number fields around the decade rule (4.4.2, rule 5); some of them are good.
pub fn number_changed(chance: &mut Chance, line: &[u8]) -> Vec<u8> {
    let part = 6 * chance.below((field_count(line) / 6).max(1));
    let (num1, num2) = chance.pick(&[
        ("68975678000", "68975678999"),
        ("68975678030", "68975678059"),
        ("68975678070", "68975678129"),
        ("3919900500", "3919900649"),
        ("23629674150", "23629674649"),
        ("3055550", "3055519"),
        ("3055900", "3055199"),
        ("3055501", "3055509"),
        ("3055500", "3055508"),
        ("3055500", "3055500"),
        ("3055500", "305559"),
        ("305550", "3055599"),
        ("00000000000", "99999999999"),
        ("000000000000", "999999999999"),
        ("1000", "9999"),
        ("100", "9990"),
        ("10", "19"),
        ("", "3055509"),
        ("", ""),
    ]);
    let line = in_a_field(line, part, num1.as_bytes());
    in_a_field(&line, part + 1, num2.as_bytes())
}

/// A num2 without its num1: in a correction the K part's, where a field may be empty.
pub fn num2_alone(_: &mut Chance, line: &[u8]) -> Vec<u8> {
    let part = if field_count(line) == 12 { 6 } else { 0 };
    in_a_field(&in_a_field(line, part, b""), part + 1, b"3055509")
}

pub fn fields_changed_places(chance: &mut Chance, line: &[u8]) -> Vec<u8> {
    let mut fields: Vec<&[u8]> = line.split(|c| *c == b',').collect();
    let count = fields.len();
    fields.swap(chance.below(count), chance.below(count));
    fields.join(&b',')
}

/// The head of a correction, `CCCCU:` or `K:`; of a report, its first field.
pub fn head_changed(chance: &mut Chance, line: &[u8]) -> Vec<u8> {
    let text = String::from_utf8_lossy(line).into_owned();
    let (old, new) = chance.pick(&[
        ("U:", "u:"),
        ("U:", "U"),
        ("U:", ":"),
        ("U:", "U: "),
        ("K:", "k:"),
        ("K:", "K"),
        ("K:", ""),
        (",K:", "K:"),
        (",K:", ",,K:"),
        ("25", "5"),
        ("25", "025"),
        ("25", "2X"),
        ("25", "26"),
        ("2", "25"),
        ("U:", ""),
        ("U:", "\0:"),
        ("U:", "UU:"),
        ("U:", "U:U:"),
        ("U:", " :U:"),
        ("U:", "U,"),
        ("K:", "K\u{7f}"),
        ("K:", "\t:"),
        ("0", "\u{b}"),
        ("0", "00"),
    ]);
    text.replacen(old, new, 1).into_bytes()
}

pub fn part_u_emptied(_: &mut Chance, line: &[u8]) -> Vec<u8> {
    part_emptied(line, 0)
}

pub fn part_k_emptied(_: &mut Chance, line: &[u8]) -> Vec<u8> {
    part_emptied(line, 6)
}

/// Six fields from field `from` on emptied.
fn part_emptied(line: &[u8], from: usize) -> Vec<u8> {
    (from..from + 6).fold(line.to_vec(), |line, at| in_a_field(&line, at, b""))
}
