//! Paper 01, "Verdicts on reports", and the processing order (5.6).

use crate::calendar::{working_day_after, Day};
use crate::layout::{Code, Correction, Number, Report, ReportKind};

/// A line of the number table: "each with owner and set-up day".
#[derive(Clone, Debug)]
pub struct Line {
    pub number: Number,
    pub owner: Code,
    pub set_up: Day,
}

#[derive(Clone, Debug)]
pub enum Content {
    Report(Report),
    Correction(Correction),
}

/// A filed record "with publisher, publication day and place in its file".
#[derive(Clone, Debug)]
pub struct Filed {
    pub content: Content,
    pub publisher: Code,
    pub published: Day,
    pub place_in_file: usize,
}

impl Filed {
    /// The number that the record names.
    pub fn number(&self) -> &Number {
        match &self.content {
            Content::Report(report) => &report.number,
            Content::Correction(correction) => &correction.number,
        }
    }
}

/// An open report in its place. `gaining` is the owner where a Z left the field empty; `record`
/// says which filed record it is, for the pair.
#[derive(Clone, Debug)]
pub struct Open {
    pub kind: ReportKind,
    pub date: Day,
    pub losing: Code,
    pub gaining: Code,
    pub published: Day,
    pub record: usize,
}

/// "Each entry holds the holder (at first the owner), the last confirmed porting date or none,
/// and eight places for open reports."
#[derive(Clone, Debug)]
pub struct Entry {
    pub holder: Code,
    pub last: Option<Day>,
    pub places: [Option<Open>; 8],
}

fn first_entry(line: &Line) -> Entry {
    Entry { holder: line.owner, last: None, places: Default::default() }
}

/// What a walk over all records leaves: an entry and a pair (as filed records, the one processed
/// first coming first) per line of the table, and a verdict per record.
pub struct Outcome {
    pub entries: Vec<Entry>,
    pub pairs: Vec<Option<(usize, usize)>>,
    pub verdicts: Vec<u32>,
}

/// "By publication day; on one day corrections, then P, then L, then Z; within each of these by
/// publisher, lowest code first, then by place in the file."
fn processing_order(filed: &Filed) -> (Day, u32, Code, usize) {
    let class = match &filed.content {
        Content::Correction(_) => 0,
        Content::Report(report) => match report.kind {
            ReportKind::P => 1,
            ReportKind::L => 2,
            ReportKind::Z => 3,
        },
    };
    (filed.published, class, filed.publisher, filed.place_in_file)
}

/// Walks all records, day after day, from the first entries on. "A number's entry depends on its
/// own table line, the records that name it ... and the holiday list."
pub fn walk(table: &[Line], records: &[Filed], list: &[Day]) -> Outcome {
    let mut outcome = Outcome {
        entries: table.iter().map(first_entry).collect(),
        pairs: vec![None; table.len()],
        verdicts: vec![0; records.len()],
    };
    let mut order: Vec<usize> = (0..records.len()).collect();
    order.sort_by_key(|record| processing_order(&records[*record]));
    for record in order {
        outcome.verdicts[record] = step(table, &records[record], record, list, &mut outcome);
    }
    outcome
}

/// One record: its verdict, and what the verdict does.
fn step(table: &[Line], filed: &Filed, record: usize, list: &[Day], outcome: &mut Outcome) -> u32 {
    let at = match table.iter().position(|line| line.number == *filed.number()) {
        Some(at) => at,
        None => return 12, // number not in the table (H)
    };
    let entry = &mut outcome.entries[at];
    match &filed.content {
        Content::Correction(correction) => {
            let (verdict, named) = on_correction(correction, filed.publisher, &table[at], entry);
            if let Some(place) = named {
                entry.places[place] = None; // the named report lapses
            }
            verdict
        }
        Content::Report(report) => {
            let report = opened(report, filed.published, record, table[at].owner);
            let (verdict, sister) = on_report(&report, filed.publisher, &table[at], entry, list);
            match (verdict, sister) {
                (10, _) => keep(entry, report),
                (11, Some(sister)) => {
                    outcome.pairs[at] = Some((sister, record));
                    confirm(entry, &report);
                }
                _ => (), // "Verdicts other than 10 and 11 change nothing."
            }
            verdict
        }
    }
}

/// The report as it would be kept open: "an empty field means the owner of the number's table
/// line".
fn opened(report: &Report, published: Day, record: usize, owner: Code) -> Open {
    Open {
        kind: report.kind,
        date: report.date,
        losing: report.losing,
        gaining: report.gaining.unwrap_or(owner),
        published,
        record,
    }
}

/// "A kept report takes the lowest free place."
fn keep(entry: &mut Entry, report: Open) {
    if let Some(free) = entry.places.iter_mut().find(|place| place.is_none()) {
        *free = Some(report);
    }
}

/// "Confirming sets the holder to the gaining network and the last confirmed date to the porting
/// date. Every open report with that date or an older one lapses; newer ones stay."
fn confirm(entry: &mut Entry, report: &Open) {
    entry.holder = report.gaining;
    entry.last = Some(report.date);
    for place in entry.places.iter_mut() {
        if matches!(place, Some(open) if open.date <= report.date) {
            *place = None;
        }
    }
}

/// "P not from the gaining network; L or Z not from the losing one": who has to publish it.
fn rightful_publisher(report: &Open) -> Code {
    match report.kind {
        ReportKind::P => report.gaining,
        ReportKind::L | ReportKind::Z => report.losing,
    }
}

/// The place of the open report of this kind that matches: "same number, date, losing and gaining
/// network". The entry is the number's own, so the number is the same.
fn matching(entry: &Entry, kind: ReportKind, report: &Open) -> Option<usize> {
    entry.places.iter().position(|place| {
        matches!(place, Some(open) if open.kind == kind
            && open.date == report.date
            && open.losing == report.losing
            && open.gaining == report.gaining)
    })
}

fn open_at(entry: &Entry, place: Option<usize>) -> Option<&Open> {
    place.and_then(|place| entry.places[place].as_ref())
}

/// The table of verdicts on reports, the first line that applies; line 12 is asked before. With
/// 11 comes the filed record of the sister.
fn on_report(
    report: &Open,
    publisher: Code,
    line: &Line,
    entry: &Entry,
    list: &[Day],
) -> (u32, Option<usize>) {
    use ReportKind::{L, P, Z};
    let kind = report.kind;
    // 13: P not from the gaining network; L or Z not from the losing one
    if publisher != rightful_publisher(report) {
        return (13, None);
    }
    // 14: losing and gaining are the same (H)
    if report.losing == report.gaining {
        return (14, None);
    }
    // 15: porting date is not before the publication day
    if report.date >= report.published {
        return (15, None);
    }
    // 16: porting date is before the set-up day
    if report.date < line.set_up {
        return (16, None);
    }
    // 17: porting date is before the last confirmed date
    if matches!(entry.last, Some(last) if report.date < last) {
        return (17, None);
    }
    // 18: porting date equals the last confirmed date
    if entry.last == Some(report.date) {
        return (18, None);
    }
    // 19: Z whose gaining network is not the owner
    if kind == Z && report.gaining != line.owner {
        return (19, None);
    }
    // 20: a report equal in kind, number, date, losing and gaining network is open
    if matching(entry, kind, report).is_some() {
        return (20, None);
    }
    // 11: P with a matching open L, or L with a matching open P: confirmed
    if kind == P || kind == L {
        let other = if kind == P { L } else { P };
        if let Some(sister) = open_at(entry, matching(entry, other, report)) {
            return (11, Some(sister.record));
        }
    }
    if kind == P {
        if let Some(z) = open_at(entry, matching(entry, Z, report)) {
            return match working_day_after(5, z.published, list) {
                // 11: P with a matching open Z, otherwise: confirmed
                Some(fifth) if report.published >= fifth => (11, Some(z.record)),
                // 21: published before the fifth working day after that Z's publication, or the
                // calendar ends first
                _ => (21, None),
            };
        }
    }
    // 22: all eight places are taken
    if entry.places.iter().all(|place| place.is_some()) {
        return (22, None);
    }
    // 10: kept open
    (10, None)
}

/// "Permitted (table in 4.7.11): against P and L 2500 to 2508, 2510, 2547, 2599; against Z 2500,
/// 2502, 2599."
fn is_permitted(code: u32, against: ReportKind) -> bool {
    match against {
        ReportKind::P | ReportKind::L => matches!(code, 2500..=2508 | 2510 | 2547 | 2599),
        ReportKind::Z => matches!(code, 2500 | 2502 | 2599),
    }
}

/// The verdicts on corrections, in order; 12 is asked before. With 30 comes the place of the
/// report that lapses.
fn on_correction(
    correction: &Correction,
    objector: Code,
    line: &Line,
    entry: &Entry,
) -> (u32, Option<usize>) {
    // 34: code not 25XX
    let named = match &correction.named {
        Some(report) => opened(report, 0, 0, line.owner),
        None => return (34, None),
    };
    // 31: code not permitted
    if !is_permitted(correction.code, named.kind) {
        return (31, None);
    }
    // 32: the objector published the named report (the gaining network for P, the losing one for
    // L and Z)
    if objector == rightful_publisher(&named) {
        return (32, None);
    }
    match matching(entry, named.kind, &named) {
        // 33: no such report is open
        None => (33, None),
        // 30: otherwise, and the named report lapses
        Some(place) => (30, Some(place)),
    }
}
