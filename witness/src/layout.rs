//! The layouts of records: 4.5.1, 4.5.2.3, 4.7.8, and the form of numbers, 4.4.2.

use crate::calendar::{digits, read_ddmmyyyy, Day};
use std::fmt;

/// "A network code is D and three digits (9.3)." Codes are ordered, lowest first.
#[derive(Clone, Copy, PartialEq, Eq, PartialOrd, Ord, Debug)]
pub struct Code(u32);

impl Code {
    pub fn read(text: &[u8]) -> Option<Code> {
        if text.len() != 4 || text[0] != b'D' {
            return None;
        }
        digits(&text[1..]).map(Code)
    }
}

impl fmt::Display for Code {
    fn fmt(&self, f: &mut fmt::Formatter) -> fmt::Result {
        write!(f, "D{:03}", self.0)
    }
}

/// "A number is known by all the digits of its number fields; two numbers are the same exactly if
/// these agree field by field. A block is its own number."
#[derive(Clone, PartialEq, Eq, PartialOrd, Ord, Debug)]
pub struct Number {
    num1: String,
    num2: String,
}

impl Number {
    pub fn read(num1: &[u8], num2: &[u8]) -> Option<Number> {
        let well_formed = is_single(num1) && (num2.is_empty() || is_block(num1, num2));
        let text = |field: &[u8]| String::from_utf8(field.to_vec()).ok();
        if well_formed {
            Some(Number { num1: text(num1)?, num2: text(num2)? })
        } else {
            None
        }
    }
}

/// As the command line names a number: `num1` or `num1-num2`.
impl fmt::Display for Number {
    fn fmt(&self, f: &mut fmt::Formatter) -> fmt::Result {
        if self.num2.is_empty() {
            write!(f, "{}", self.num1)
        } else {
            write!(f, "{}-{}", self.num1, self.num2)
        }
    }
}

/// One number has 1 to 11 digits (4.4.2, rule 2).
fn is_single(num1: &[u8]) -> bool {
    (1..=11).contains(&num1.len()) && num1.iter().all(u8::is_ascii_digit)
}

/// Rules 5 and 8 of 4.4.2: as many digits in both; "for some n of at least 1, num1 ends in n
/// zeros and num2 in n nines, and without these n digits they differ at most in the last digit,
/// num1's being the smaller or equal one".
pub fn is_block(num1: &[u8], num2: &[u8]) -> bool {
    if num1.len() != num2.len() || !num2.iter().all(u8::is_ascii_digit) {
        return false;
    }
    (1..=num1.len()).any(|n| {
        let (first, zeros) = num1.split_at(num1.len() - n);
        let (last, nines) = num2.split_at(num2.len() - n);
        zeros.iter().all(|c| *c == b'0')
            && nines.iter().all(|c| *c == b'9')
            && differ_at_most_in_the_last_digit(first, last)
    })
}

fn differ_at_most_in_the_last_digit(first: &[u8], last: &[u8]) -> bool {
    match (first.split_last(), last.split_last()) {
        (Some((a, before_a)), Some((b, before_b))) => before_a == before_b && a <= b,
        _ => true, // no digit is left, so none differs
    }
}

/// 4.1.4: P, L or Z.
#[derive(Clone, Copy, PartialEq, Eq, Debug)]
pub enum ReportKind {
    P,
    L,
    Z,
}

impl ReportKind {
    pub fn read(text: &[u8]) -> Option<ReportKind> {
        match text {
            b"P" => Some(ReportKind::P),
            b"L" => Some(ReportKind::L),
            b"Z" => Some(ReportKind::Z),
            _ => None,
        }
    }
}

/// "A report is P, L or Z with number, porting date, losing and gaining network (4.1.4)."
/// No gaining network: a Z that leaves the field empty (note 2 of the table in 4.5.2.3).
#[derive(Clone, Debug)]
pub struct Report {
    pub kind: ReportKind,
    pub number: Number,
    pub date: Day,
    pub losing: Code,
    pub gaining: Option<Code>,
}

/// A correction: its code, the number that it names, and with code 25XX the report that it names.
#[derive(Clone, Debug)]
pub struct Correction {
    pub code: u32,
    pub number: Number,
    pub named: Option<Report>,
}

/// Six fields of a record: num1, num2, ddmmyyyy, GAINING, LOSING, STATUS.
type Six<'a> = [&'a [u8]; 6];

fn fields(record: &[u8]) -> Vec<&[u8]> {
    record.split(|c| *c == b',').collect()
}

/// Report record (4.5.2.3): `num1,num2,ddmmyyyy,GAINING,LOSING,STATUS`.
pub fn read_report(record: &[u8]) -> Option<Report> {
    match fields(record)[..] {
        [num1, num2, date, gaining, losing, status] => {
            whole_report([num1, num2, date, gaining, losing, status])
        }
        _ => None,
    }
}

fn whole_report(six: Six) -> Option<Report> {
    let [num1, num2, date, gaining, losing, status] = six;
    let kind = ReportKind::read(status)?;
    Some(Report {
        kind,
        number: Number::read(num1, num2)?,
        date: read_ddmmyyyy(date)?,
        losing: Code::read(losing)?,
        gaining: if gaining.is_empty() && kind == ReportKind::Z {
            None
        } else {
            Some(Code::read(gaining)?)
        },
    })
}

/// Correction record (4.7.8): `CCCCU:`, six fields, `,K:`, six fields.
pub fn read_correction(record: &[u8]) -> Option<Correction> {
    match fields(record)[..] {
        [head, u2, u3, u4, u5, u6, middle, k2, k3, k4, k5, k6] => {
            if head.len() < 4 {
                return None;
            }
            let code = digits(&head[..4])?;
            let u = [head[4..].strip_prefix(b"U:")?, u2, u3, u4, u5, u6];
            let k = [middle.strip_prefix(b"K:")?, k2, k3, k4, k5, k6];
            correction(code, u, k)
        }
        _ => None,
    }
}

/// "In both parts a field may be empty; one that is not is well formed by itself. With code 25XX
/// the U part is a whole report. With any other code at least one part has a num1. The number
/// that a correction names is the U part's, or the K part's where U has none."
fn correction(code: u32, u: Six, k: Six) -> Option<Correction> {
    if !is_well_formed_part(u) || !is_well_formed_part(k) {
        return None;
    }
    let named = if is_objection(code) { Some(whole_report(u)?) } else { None };
    let number = Number::read(u[0], u[1]).or_else(|| Number::read(k[0], k[1]))?;
    Some(Correction { code, number, named })
}

/// Code 25XX.
pub fn is_objection(code: u32) -> bool {
    code / 100 == 25
}

fn is_well_formed_part(six: Six) -> bool {
    let [num1, num2, date, gaining, losing, status] = six;
    let no_number = num1.is_empty() && num2.is_empty();
    (no_number || Number::read(num1, num2).is_some())
        && (date.is_empty() || read_ddmmyyyy(date).is_some())
        && (gaining.is_empty() || Code::read(gaining).is_some())
        && (losing.is_empty() || Code::read(losing).is_some())
        && (status.is_empty() || ReportKind::read(status).is_some())
}

/// Request record (4.5.1): `DXXX,`, a date or nothing, `,`.
pub fn is_request(record: &[u8]) -> bool {
    match fields(record)[..] {
        [code, date, b""] => {
            Code::read(code).is_some() && (date.is_empty() || read_ddmmyyyy(date).is_some())
        }
        _ => false,
    }
}
