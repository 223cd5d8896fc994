//! What the generator knows: all that scenarios have in them or bring about, a name each, items
//! with a tab between them. `generate --coverage` asks for each.

use crate::damage::DAMAGES;
use crate::files::FileKind::{self, Correction, Default, Request, Response};
use crate::refused::worked_count;
use crate::scenario::{
    LIMITS, ORDERS, STRANGE_NUMBERS, WRONG_NAMES, WRONG_PUBLISHERS, WRONG_REWORKS, WRONG_TABLES,
};
use crate::stories::{BREACHES, FLAVOURS, OBJECTION_CODES, OTHER_CODES, STORIES};
use crate::wrong::{unended_lines, wrong_lines, WRONG_FILES};

type Names = &'static [&'static str];

/// What scenarios choose from.
const CHOICES: &[(&str, Names)] = &[
    ("story", &STORIES),
    ("code", &OBJECTION_CODES),
    ("code", &OTHER_CODES),
    ("breach", &BREACHES),
    ("order", &ORDERS),
    ("publisher", &WRONG_PUBLISHERS),
    ("publisher", &["and a wrong name"]),
    ("name", &WRONG_NAMES),
    ("table", &WRONG_TABLES),
    ("number", &STRANGE_NUMBERS),
    ("command", &WRONG_REWORKS),
    ("damage", &["struck record"]),
    ("folder", &["with a blank"]),
    ("start", &["again"]),
    ("file", &["missing"]),
];

/// What is answered to them.
const ANSWERS: &[(&str, Names)] = &[
    ("answer", &["0", "1", "2", "3", "4", "6"]),
    ("status", &["0", "1", "2"]),
    ("verdict", &["10", "11", "12", "13", "14", "15", "16", "17", "18"]),
    ("verdict", &["19", "20", "21", "22", "30", "31", "32", "33", "34"]),
    ("why", &["L before P", "P before L", "Z before P", "z before P", "none", "refused"]),
    ("entry", &["confirmed, with open reports", "with a free place before a taken one"]),
    ("entry", &["with eight open reports"]),
    ("arrival", &["late"]),
    ("read", &["record", "refused"]),
    ("rework", &["changed 0"]),
    ("2017-10-31", &EXCEPTION),
    ("cause\tfile", &CAUSES),
    ("cause\tread", &CAUSES),
];

/// What 31 October 2017 has to do with a scenario: returns confirmed over it, records and numbers
/// that the list without it answers otherwise, and scenarios with such a record.
pub const EXCEPTION: [&str; 4] =
    ["returns over it", "verdicts moved", "entries moved", "scenarios"];

/// The causes of a refusal 4, which both `file` and `read` must answer.
const CAUSES: [&str; 7] = ["character", "length", "date", "code", "value", "closing", "after"];

/// What only scenarios that fill a store have.
const AT_LIMITS: &[(&str, Names)] = &[("limit", &LIMITS), ("answer", &["5"])];

const KINDS: [FileKind; 4] = [Default, Correction, Request, Response];

/// All that is known; what belongs to full stores only where it is asked for.
pub fn known(at_limits: bool) -> Vec<String> {
    let mut all: Vec<String> = KINDS.iter().flat_map(|kind| of_kind(*kind)).collect();
    all.extend(FLAVOURS.iter().map(|flavour| format!("flavour\t{:?}", flavour)));
    all.extend(DAMAGES.iter().map(|(name, _)| format!("damage\t{}", name)));
    let lists = CHOICES.iter().chain(ANSWERS).chain(if at_limits { AT_LIMITS } else { &[] });
    all.extend(
        lists.flat_map(|(what, names)| names.iter().map(move |n| format!("{}\t{}", what, n))),
    );
    all
}

/// The worked faults of files of a kind, each by itself, and what is answered to them.
fn of_kind(kind: FileKind) -> Vec<String> {
    let name = kind_name(kind);
    let mut all: Vec<String> = (0..worked_count(kind)).map(|at| worked_name(kind, at)).collect();
    let lines = wrong_lines(kind).iter().chain(unended_lines(kind));
    let files = WRONG_FILES.iter().filter(|file| file.0 == kind);
    let faults = lines.map(|line| (line.1, line.2)).chain(files.map(|file| (file.3, file.4)));
    all.extend(faults.map(|(field, cause)| format!("fault\t{}\t{}\t{}", name, field, cause)));
    all
}

/// A worked fault by its place in wrong.rs: the lines of the kind, those without an end, the files.
pub fn worked_name(kind: FileKind, at: usize) -> String {
    format!("worked\t{}\t{}", kind_name(kind), at)
}

pub fn kind_name(kind: FileKind) -> &'static str {
    match kind {
        Default => "default",
        Correction => "correction",
        Request => "request",
        Response => "response",
    }
}
