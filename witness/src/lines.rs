//! Request K1 in `witness selftest`: the answers of wrong.rs, and the judge of records beside the
//! search for faults over many lines that were struck.

use crate::chance::Chance;
use crate::faults::{line_fault, Cause, Fault};
use crate::files::FileKind::{self, Correction, Default, Request, Response};
use crate::files::{closing_record, is_record, read_file};
use crate::strike::struck;
use crate::wrong::{good_lines, unended_lines, wrong_lines, WRONG_FILES};
use std::collections::BTreeSet;

type Check<'a> = &'a mut dyn FnMut(&str, bool);

pub fn lines(check: Check) {
    for kind in [Default, Response, Correction, Request] {
        for line in good_lines(kind) {
            let good = is_record(kind, line) && line_fault(kind, line).is_none();
            check(&format!("{:?}: {} is a record", kind, shown(line)), good);
        }
        for (line, field, cause) in wrong_lines(kind) {
            worked(kind, &ended(line), (*field, *cause), check);
        }
        for (line, field, cause) in unended_lines(kind) {
            worked(kind, line, (*field, *cause), check);
        }
    }
    for (kind, bytes, place, field, cause) in WRONG_FILES {
        asked(*kind, bytes, Fault { place: *place, field: *field, cause: *cause }, check);
    }
    for kind in [Default, Correction, Request] {
        agree(kind, check);
    }
}

/// Bytes for people.
fn shown(bytes: &[u8]) -> String {
    bytes.iter().flat_map(|byte| std::ascii::escape_default(*byte)).map(char::from).collect()
}

fn asked(kind: FileKind, bytes: &[u8], right: Fault, check: Check) {
    let answer = read_file(kind, bytes).map(|records| records.len());
    let what = format!("{:?}: {} is {:?}, not {:?}", kind, shown(bytes), answer, right);
    check(&what, answer == Err(right));
}

fn ended(line: &[u8]) -> Vec<u8> {
    let mut line = line.to_vec();
    line.push(b'\r');
    line
}

/// A wrong line as record 0, and as record 2 with good ones before it; what follows plays no part.
fn worked(kind: FileKind, line: &[u8], (field, cause): (usize, Cause), check: Check) {
    let goes_on = line.ends_with(b"\r") && kind != Request;
    let closing = if goes_on { closing_record(1) } else { String::new() };
    let alone = [line, closing.as_bytes()].concat();
    asked(kind, &alone, Fault { place: 0, field, cause }, check);
    if kind == Request {
        return;
    }
    let good = [ended(good_lines(kind)[0]), ended(good_lines(kind)[1])].concat();
    let behind = if goes_on { good.clone() } else { Vec::new() };
    let third = [good, line.to_vec(), behind].concat();
    asked(kind, &third, Fault { place: 2, field, cause }, check);
}

/// How many lines of a kind are struck at random.
const STRUCK: usize = 60_000;

/// "Which files are refused stays the same": a line is no record exactly if a fault is found. And
/// the worked lines have every field with every cause that is found.
fn agree(kind: FileKind, check: Check) {
    let mut found: BTreeSet<(usize, Cause)> = BTreeSet::new();
    let mut differs = None;
    let mut good = 0;
    let mut judge = |line: &[u8]| {
        let fault = line_fault(kind, line);
        if is_record(kind, line) != fault.is_none() {
            differs = Some(format!("{} {:?}", shown(line), fault));
        }
        good += usize::from(fault.is_none());
        found.extend(fault);
    };
    good_lines(kind).iter().for_each(|line| every_byte_struck(line, &mut judge));
    let mut chance = Chance::new(1);
    for _ in 0..STRUCK {
        let line = chance.pick(good_lines(kind));
        judge(&struck(&mut chance, line));
    }
    check(&format!("{:?}: judge and search differ: {:?}", kind, differs), differs.is_none());
    check(&format!("{:?}: some struck lines are records", kind), good > 100);
    let worked = wrong_lines(kind).iter().map(|(_, field, cause)| (*field, *cause));
    let worked: BTreeSet<(usize, Cause)> = worked.collect();
    let others: Vec<_> = found.symmetric_difference(&worked).collect();
    check(&format!("{:?}: found or worked alone: {:?}", kind, others), others.is_empty());
}

/// Each byte left out, twice, and changed to any other; any byte put in before it; the line cut
/// there.
fn every_byte_struck(line: &[u8], judge: &mut dyn FnMut(&[u8])) {
    for at in 0..=line.len() {
        let (before, behind) = line.split_at(at);
        judge(before);
        if let Some((byte, left)) = behind.split_first() {
            judge(&[before, left].concat());
            judge(&[before, &[*byte], behind].concat());
        }
        for byte in 0..=255 {
            judge(&[before, &[byte], behind].concat());
            if !behind.is_empty() {
                judge(&[before, &[byte], &behind[1..]].concat());
            }
        }
    }
}
