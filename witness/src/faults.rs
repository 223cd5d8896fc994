//! Request K1: a refusal 4 names record, field and cause. What a record is, layout.rs says; here
//! a line that is none is searched for its first faulty field.

use crate::calendar::{digits, read_ddmmyyyy};
use crate::files::FileKind;
use crate::layout::{is_block, is_objection, Code, ReportKind};
use std::fmt;

/// The causes, in the order in which they are tried for one field.
#[derive(Clone, Copy, PartialEq, Eq, PartialOrd, Ord, Debug)]
pub enum Cause {
    /// "a character outside 4.4.1"
    Character,
    /// "a field of the wrong length"
    Length,
    /// "a date that doesn't exist"
    Date,
    /// "a network code that isn't one"
    Code,
    /// "a value the table doesn't allow"
    Value,
    /// "a closing record that is missing or whose count disagrees"
    Closing,
    /// "bytes after the end"
    After,
}

/// As the command line prints it.
impl fmt::Display for Cause {
    fn fmt(&self, f: &mut fmt::Formatter) -> fmt::Result {
        f.write_str(match self {
            Cause::Character => "character",
            Cause::Length => "length",
            Cause::Date => "date",
            Cause::Code => "code",
            Cause::Value => "value",
            Cause::Closing => "closing",
            Cause::After => "after",
        })
    }
}

/// "The first faulty field of the first faulty record counts": the record's place from 0, the
/// field's "Pos." in the table of its record (4.5.1, 4.5.2.3, 4.7.8), and the cause.
#[derive(Clone, Copy, PartialEq, Eq, Debug)]
pub struct Fault {
    pub place: usize,
    pub field: usize,
    pub cause: Cause,
}

/// PLACE, FIELD and CAUSE with tabs between them.
impl fmt::Display for Fault {
    fn fmt(&self, f: &mut fmt::Formatter) -> fmt::Result {
        write!(f, "{}\t{}\t{}", self.place, self.field, self.cause)
    }
}

impl Fault {
    /// A fault of a line at this place.
    pub fn of_line(place: usize, (field, cause): (usize, Cause)) -> Fault {
        Fault { place, field, cause }
    }

    /// The closing record is missing or wrong: field 0.
    pub fn closing(place: usize) -> Fault {
        Fault { place, field: 0, cause: Cause::Closing }
    }

    /// Bytes behind the end: field 0.
    pub fn after(place: usize) -> Fault {
        Fault { place, field: 0, cause: Cause::After }
    }
}

/// What a field holds where it is not empty.
#[derive(Clone, Copy)]
enum Form {
    Number,
    Date,
    Network,
    Status,
    CorrectionCode,
    Mark(&'static [u8]),
    Nothing,
}

struct Field<'a> {
    /// Its "Pos." in the table.
    position: usize,
    form: Form,
    bytes: &'a [u8],
    /// The cause where it is empty; none where it may be.
    empty: Option<Cause>,
    /// Whether the rule over this field and an earlier one holds, where there is such a rule.
    agrees: bool,
}

fn field(position: usize, form: Form, bytes: &[u8], empty: Option<Cause>) -> Field<'_> {
    Field { position, form, bytes, empty, agrees: true }
}

impl Field<'_> {
    /// What is wrong with this field: the causes in their order.
    fn cause(&self) -> Option<Cause> {
        let (bytes, length) = (self.bytes, self.bytes.len());
        if !bytes.iter().all(|byte| is_character(*byte)) {
            return Some(Cause::Character);
        }
        if bytes.is_empty() {
            return self.empty;
        }
        let right_length = match self.form {
            Form::Number => length <= 11,
            Form::Date => length == 8,
            Form::Network | Form::CorrectionCode => length == 4,
            Form::Status => length == 1,
            Form::Mark(_) => length == 2,
            Form::Nothing => false,
        };
        if !right_length {
            return Some(Cause::Length);
        }
        let all_digits = bytes.iter().all(u8::is_ascii_digit);
        match self.form {
            Form::Date if read_ddmmyyyy(bytes).is_none() => Some(Cause::Date),
            Form::Network if Code::read(bytes).is_none() => Some(Cause::Code),
            Form::Number | Form::CorrectionCode if !all_digits => Some(Cause::Value),
            Form::Status if ReportKind::read(bytes).is_none() => Some(Cause::Value),
            Form::Mark(mark) if bytes != mark => Some(Cause::Value),
            _ if !self.agrees => Some(Cause::Value),
            _ => None,
        }
    }
}

/// 4.4.1: tab, LF, CR, 32 to 126, and 192 to 255.
fn is_character(byte: u8) -> bool {
    matches!(byte, 9 | 10 | 13 | 32..=126 | 192..=255)
}

/// The "Pos." of the commas of a record, and of its CR.
fn ends(kind: FileKind) -> (&'static [usize], usize) {
    match kind {
        FileKind::Default | FileKind::Response => (&[2, 4, 6, 8, 10], 12),
        FileKind::Correction => (&[4, 6, 8, 10, 12, 14, 17, 19, 21, 23, 25], 27),
        FileKind::Request => (&[2, 4], 5),
    }
}

/// "A field reaches to the next comma, the last one to the end of the record; fields that are
/// missing are empty."
fn cut(line: &[u8], commas: usize) -> Vec<&[u8]> {
    let mut pieces: Vec<&[u8]> = line.splitn(commas + 1, |c| *c == b',').collect();
    pieces.resize(commas + 1, &[]);
    pieces
}

/// The fields of a line in the order of their positions.
fn fields(kind: FileKind, line: &[u8]) -> Vec<Field<'_>> {
    let pieces = cut(line, ends(kind).0.len());
    match kind {
        FileKind::Default | FileKind::Response => {
            six([1, 3, 5, 7, 9, 11], &pieces, Some(Cause::Length))
        }
        FileKind::Correction => correction(&pieces),
        FileKind::Request => vec![
            field(1, Form::Network, pieces[0], Some(Cause::Length)),
            field(3, Form::Date, pieces[1], None),
            field(5, Form::Nothing, pieces[2], None),
        ],
    }
}

/// num1, num2, ddmmyyyy, GAINING, LOSING, STATUS. `missing` is the cause of an empty field where
/// they make a whole report; without it any of them may be empty. "A rule over two fields (same
/// length, decade rule, a part that must be whole) is the fault of the later field and a value the
/// table doesn't allow, where each by itself is well formed."
fn six<'a>(at: [usize; 6], pieces: &[&'a [u8]], missing: Option<Cause>) -> Vec<Field<'a>> {
    let (num1, num2, gaining, status) = (pieces[0], pieces[1], pieces[3], pieces[5]);
    let goes_nowhere = gaining.is_empty() && status != b"Z";
    let mut six = vec![
        field(at[0], Form::Number, num1, missing),
        field(at[1], Form::Number, num2, None),
        field(at[2], Form::Date, pieces[2], missing),
        field(at[3], Form::Network, gaining, None),
        field(at[4], Form::Network, pieces[4], missing),
        field(at[5], Form::Status, status, missing),
    ];
    six[1].agrees = is_block(num1, num2);
    six[5].agrees = !(missing.is_some() && goes_nowhere);
    six
}

/// Code, `U:`, six fields, `K:`, six fields. With code 25XX the U part is a whole report: each of
/// its fields may be empty by itself, and the rule is over the code and that field. With any other
/// code one part has a num1: the fault of the later one, K's.
fn correction<'a>(pieces: &[&'a [u8]]) -> Vec<Field<'a>> {
    let (code, mark_u, num1_u) = cut_head(pieces[0]);
    let (mark_k, num1_k) = cut_mark(pieces[6]);
    let objection = digits(code).map_or(false, is_objection);
    let u = [&[num1_u][..], &pieces[1..6]].concat();
    let k = [&[num1_k][..], &pieces[7..12]].concat();
    let u = six([3, 5, 7, 9, 11, 13], &u, if objection { Some(Cause::Value) } else { None });
    let mut k = six([16, 18, 20, 22, 24, 26], &k, None);
    if !objection && num1_u.is_empty() {
        k[0].empty = Some(Cause::Value);
    }
    let mut all = vec![
        field(1, Form::CorrectionCode, code, Some(Cause::Length)),
        field(2, Form::Mark(b"U:"), mark_u, Some(Cause::Length)),
    ];
    all.extend(u);
    all.push(field(15, Form::Mark(b"K:"), mark_k, Some(Cause::Length)));
    all.extend(k);
    all
}

/// Code, mark and num1 of a correction's first piece: no comma parts them. A `U` with a colon
/// behind it, the first one, ends the code; without it the code is four bytes.
fn cut_head(head: &[u8]) -> (&[u8], &[u8], &[u8]) {
    let code = match head.iter().position(|c| *c == b':') {
        Some(colon) if head[..colon].ends_with(b"U") => colon - 1,
        _ => head.len().min(4),
    };
    let (mark, num1) = cut_mark(&head[code..]);
    (&head[..code], mark, num1)
}

/// A mark has two bytes; num1 stands right behind it.
fn cut_mark(piece: &[u8]) -> (&[u8], &[u8]) {
    piece.split_at(piece.len().min(2))
}

/// The first faulty field of a line with its cause; none: the line is a record. Where all fields
/// are right, a comma may be missing behind them: its own position, and a wrong length.
pub fn line_fault(kind: FileKind, line: &[u8]) -> Option<(usize, Cause)> {
    let faults = fields(kind, line).into_iter().filter_map(|f| Some((f.position, f.cause()?)));
    let commas = line.iter().filter(|c| **c == b',').count();
    let missing = ends(kind).0.get(commas).map(|position| (*position, Cause::Length));
    faults.chain(missing).next()
}

/// The fault of a line without a CR: where the rest is right, the CR's own position, and a wrong
/// length.
pub fn unended_fault(kind: FileKind, line: &[u8]) -> (usize, Cause) {
    line_fault(kind, line).unwrap_or((ends(kind).1, Cause::Length))
}
