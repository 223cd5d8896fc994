//! Names of files (5.2.2) and files as a whole: records and closing record.

use crate::calendar::{read_yymmdd, Day};
use crate::faults::{line_fault, unended_fault, Fault};
use crate::layout::{is_request, read_correction, read_report};

#[derive(Clone, Copy, PartialEq, Eq, Debug)]
pub enum FileKind {
    Default,
    Correction,
    Request,
    Response,
}

/// The last component of a path: `1Dyymmdd.txt` default, `1Kyymmdd.txt` correction,
/// `1Qyymmdd.txt` request, `1Ryymmdd.txt` response.
pub fn read_name(path: &[u8]) -> Option<(FileKind, Day)> {
    let name = path.rsplit(|c| *c == b'/').next()?;
    if name.len() != 12 || &name[8..] != b".txt" {
        return None;
    }
    let kind = match &name[..2] {
        b"1D" => FileKind::Default,
        b"1K" => FileKind::Correction,
        b"1Q" => FileKind::Request,
        b"1R" => FileKind::Response,
        _ => return None,
    };
    Some((kind, read_yymmdd(&name[2..8])?))
}

/// The judge of which lines are records; what is wrong with the others, faults.rs says.
pub fn is_record(kind: FileKind, line: &[u8]) -> bool {
    match kind {
        FileKind::Default | FileKind::Response => read_report(line).is_some(),
        FileKind::Correction => read_correction(line).is_some(),
        FileKind::Request => is_request(line),
    }
}

/// The records of a file without their line ends, or the first fault (answer 4).
pub fn read_file(kind: FileKind, bytes: &[u8]) -> Result<Vec<Vec<u8>>, Fault> {
    match kind {
        FileKind::Request => read_request_file(bytes),
        _ => read_closed_file(kind, bytes),
    }
}

/// "A request file is one record and has no closing record; bytes behind it are fault 4 at
/// place 1."
fn read_request_file(bytes: &[u8]) -> Result<Vec<Vec<u8>>, Fault> {
    let (record, left) = next_record(FileKind::Request, bytes, 0)?;
    if left.is_empty() {
        Ok(vec![record.to_vec()])
    } else {
        Err(Fault::after(1))
    }
}

/// "Reading a file, at place i: nothing left: fault at i. What is left begins with
/// `Zeilenanzahl:`: it must be exactly the right closing record, else fault at i, and nothing may
/// follow, else fault at i + 1. Otherwise the bytes up to the next CR must be a record, else (or
/// without a CR) fault at i." Request K1: "a closing record that is missing or whose count
/// disagrees; bytes after the end" have field 0.
fn read_closed_file(kind: FileKind, bytes: &[u8]) -> Result<Vec<Vec<u8>>, Fault> {
    let mut records: Vec<Vec<u8>> = Vec::new();
    let mut left = bytes;
    loop {
        let place = records.len();
        if left.is_empty() {
            return Err(Fault::closing(place));
        }
        if left.starts_with(b"Zeilenanzahl:") {
            return match left.strip_prefix(closing_record(place).as_bytes()) {
                None => Err(Fault::closing(place)),
                Some(b"") => Ok(records),
                Some(_) => Err(Fault::after(place + 1)),
            };
        }
        let (record, behind) = next_record(kind, left, place)?;
        records.push(record.to_vec());
        left = behind;
    }
}

/// "Closing record: `Zeilenanzahl:`, the number of lines with this one, decimal without leading
/// zeros, `,`, CR."
pub fn closing_record(records: usize) -> String {
    format!("Zeilenanzahl:{},\r", records + 1)
}

/// The record up to the next CR, and what is left behind that CR.
fn next_record(kind: FileKind, left: &[u8], place: usize) -> Result<(&[u8], &[u8]), Fault> {
    match left.iter().position(|c| *c == b'\r') {
        None => Err(Fault::of_line(place, unended_fault(kind, left))),
        Some(end) if is_record(kind, &left[..end]) => Ok((&left[..end], &left[end + 1..])),
        Some(end) => {
            let fault = line_fault(kind, &left[..end]).expect("a fault in what is no record");
            Err(Fault::of_line(place, fault))
        }
    }
}
