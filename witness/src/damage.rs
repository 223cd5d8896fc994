//! Damage to files: what a file that was good must not look like. A few damaged files are good
//! files all the same (a digit that became another digit); the programs must agree on those too.

use crate::chance::Chance;
use crate::strike::{
    bit_turned, byte_changed, byte_left_out, byte_put_in, comma_fewer, comma_more, cut_short,
    field_changed, field_empty, fields_changed_places, head_changed, num2_alone, number_changed,
    part_k_emptied, part_u_emptied, Strike,
};

/// How a file is damaged, with the name that the coverage report counts it under.
type Damage = (&'static str, Strike);

pub const DAMAGES: &[Damage] = &[
    ("cut", cut_short),
    ("no bytes", |_, _| Vec::new()),
    ("byte changed", byte_changed),
    ("byte left out", byte_left_out),
    ("byte put in", byte_put_in),
    ("bit turned", bit_turned),
    ("bytes behind the end", bytes_behind),
    ("whole file twice", |_, b| [b, b].concat()),
    ("LF for CR", |_, b| replaced(b, b"\r", b"\n")),
    ("CR LF for CR", |_, b| replaced(b, b"\r", b"\r\n")),
    ("blank behind commas", |_, b| replaced(b, b",", b", ")),
    ("closing record missing", |_, b| lines(b).split_last().map_or(Vec::new(), |(_, l)| joined(l))),
    ("closing record twice", |_, b| [b, &closing(b)[..]].concat()),
    ("closing record first", |_, b| [&closing(b)[..], b].concat()),
    ("closing record changed", closing_changed),
    ("line twice", line_twice),
    ("line left out", line_left_out),
    ("field changed", |c, b| in_a_line(c, b, field_changed)),
    ("field empty", |c, b| in_a_line(c, b, field_empty)),
    ("number changed", |c, b| in_a_line(c, b, number_changed)),
    ("number changed", |c, b| in_a_line(c, b, number_changed)),
    ("num2 alone", |c, b| in_a_line(c, b, num2_alone)),
    ("fields changed places", |c, b| in_a_line(c, b, fields_changed_places)),
    ("comma more", |c, b| in_a_line(c, b, comma_more)),
    ("comma fewer", |c, b| in_a_line(c, b, comma_fewer)),
    ("head changed", |c, b| in_a_line(c, b, head_changed)),
    ("part U emptied", |c, b| in_a_line(c, b, part_u_emptied)),
    ("part K emptied", |c, b| in_a_line(c, b, part_k_emptied)),
];

/// Lines with their ends.
fn lines(bytes: &[u8]) -> Vec<Vec<u8>> {
    bytes.split_inclusive(|c| *c == b'\r').map(<[u8]>::to_vec).collect()
}

fn joined(lines: &[Vec<u8>]) -> Vec<u8> {
    lines.concat()
}

fn closing(bytes: &[u8]) -> Vec<u8> {
    lines(bytes).last().cloned().unwrap_or_default()
}

fn replaced(bytes: &[u8], old: &[u8], new: &[u8]) -> Vec<u8> {
    let parts: Vec<&[u8]> = bytes.split(|c| [*c] == *old).collect();
    parts.join(new)
}

fn bytes_behind(chance: &mut Chance, bytes: &[u8]) -> Vec<u8> {
    let behind: &[&[u8]] = &[b"\r", b"\n", b"\x1a", b" ", b"3055501,,04032024,D002,D001,P\r"];
    [bytes, chance.pick(behind)].concat()
}

fn closing_changed(chance: &mut Chance, bytes: &[u8]) -> Vec<u8> {
    let lines = lines(bytes);
    let records = lines.len().saturating_sub(1);
    let closing = match chance.below(10) {
        0 => format!("Zeilenanzahl:{},\r", records),
        1 => format!("Zeilenanzahl:{},\r", records + 2),
        2 => format!("Zeilenanzahl:0{},\r", records + 1),
        3 => format!("Zeilenanzahl:{}\r", records + 1),
        4 => format!("Zeilenanzahl: {},\r", records + 1),
        5 => format!("Zeilenanzahl:{},", records + 1),
        6 => format!("zeilenanzahl:{},\r", records + 1),
        7 => format!("Zeilenanzahl:{},0\r", records + 1),
        8 => format!("Zeilenanzahl {},\r", records + 1),
        _ => "Zeilenanzahl:".to_string(),
    };
    [joined(&lines[..records]), closing.into_bytes()].concat()
}

fn line_twice(chance: &mut Chance, bytes: &[u8]) -> Vec<u8> {
    let mut lines = lines(bytes);
    let at = chance.below(lines.len().max(1));
    if let Some(line) = lines.get(at).cloned() {
        lines.insert(at, line);
    }
    joined(&lines)
}

fn line_left_out(chance: &mut Chance, bytes: &[u8]) -> Vec<u8> {
    let mut lines = lines(bytes);
    if !lines.is_empty() {
        lines.remove(chance.below(lines.len()));
    }
    joined(&lines)
}

/// Changes one record (or the closing record, where there is no other line); its end stays.
fn in_a_line(chance: &mut Chance, bytes: &[u8], change: Strike) -> Vec<u8> {
    let mut lines = lines(bytes);
    let at = chance.below(lines.len().saturating_sub(1).max(1));
    if let Some(line) = lines.get_mut(at) {
        let end = line.len().saturating_sub(1);
        *line = [&change(chance, &line[..end])[..], &line[end..]].concat();
    }
    joined(&lines)
}
