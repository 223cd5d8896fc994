//! The number table, the accepted files in order of arrival, and what filing answers.

use crate::calendar::{holiday_list, read_ddmmyyyy, read_written, written, Day};
use crate::faults::Fault;
use crate::files::{read_file, read_name, FileKind};
use crate::layout::{read_correction, read_report, Code, Number};
use crate::verdict::{walk, Content, Entry, Filed, Line, Open, Outcome};
use std::collections::BTreeSet;
use std::fs;
use std::io;
use std::path::Path;

/// "Number table: at most 1,024 numbers."
const MOST_NUMBERS: usize = 1024;
/// "The regular journal takes 8,192 records and 1,048,576 bytes; the correction journal 2,048
/// records and 262,144 bytes; together they take 1,024 files."
const MOST_REGULAR: (usize, usize) = (8192, 1_048_576);
const MOST_CORRECTIONS: (usize, usize) = (2048, 262_144);
const MOST_FILES: usize = 1024;

/// An accepted file: its records' bytes as published, without line ends and closing record.
#[derive(Clone)]
pub struct Accepted {
    pub kind: FileKind,
    pub publisher: Code,
    pub published: Day,
    pub records: Vec<Vec<u8>>,
}

#[derive(Clone)]
pub struct Store {
    pub table: Vec<Line>,
    pub files: Vec<Accepted>,
}

/// What filing answers.
#[derive(PartialEq, Eq, Debug)]
pub enum Answer {
    /// 0, with the count of journal records whose number is named by some record of the file.
    Filed(usize),
    /// 1, 2, 3 or 5.
    Refused(u32),
    /// 4, with the first record that breaks its layout, the field of it, and the cause.
    Fault(Fault),
}

/// A table text: lines `num1,num2,OWNER,ddmmyyyy`, each ended by LF, nothing else. None is
/// answer 6: more than 1,024 numbers, a number twice, "a malformed number, an owner that is no
/// network code or a set-up day outside the calendar".
pub fn read_table(text: &[u8]) -> Option<Vec<Line>> {
    let mut table: Vec<Line> = Vec::new();
    let mut left = text;
    while !left.is_empty() {
        let end = left.iter().position(|c| *c == b'\n')?;
        let line = read_line(&left[..end])?;
        if table.len() == MOST_NUMBERS || table.iter().any(|known| known.number == line.number) {
            return None;
        }
        table.push(line);
        left = &left[end + 1..];
    }
    Some(table)
}

fn read_line(line: &[u8]) -> Option<Line> {
    let fields: Vec<&[u8]> = line.split(|c| *c == b',').collect();
    match fields[..] {
        [num1, num2, owner, set_up] => Some(Line {
            number: Number::read(num1, num2)?,
            owner: Code::read(owner)?,
            set_up: read_ddmmyyyy(set_up)?,
        }),
        _ => None,
    }
}

impl Store {
    pub fn new(table: Vec<Line>) -> Store {
        Store { table, files: Vec::new() }
    }

    /// The checks that need no look into the file: 1, then 2. "A request or response file offered
    /// for filing is 2."
    pub fn check_heading(publisher: &[u8], path: &[u8]) -> Result<(Code, FileKind, Day), Answer> {
        let publisher = Code::read(publisher).ok_or(Answer::Refused(1))?;
        match read_name(path) {
            Some((kind, day)) if kind == FileKind::Default || kind == FileKind::Correction => {
                Ok((publisher, kind, day))
            }
            _ => Err(Answer::Refused(2)),
        }
    }

    /// Files a file: the checks in the order of the paper, 1 and 2 having passed; with answer 0
    /// the file joins the others.
    pub fn file(&mut self, heading: (Code, FileKind, Day), bytes: &[u8]) -> Answer {
        let (publisher, kind, published) = heading;
        // 3: same publisher, day and file kind is filed already
        if self.files.iter().any(|f| (f.publisher, f.kind, f.published) == heading) {
            return Answer::Refused(3);
        }
        // 4: a record breaks its layout
        let records = match read_file(kind, bytes) {
            Ok(records) => records,
            Err(fault) => return Answer::Fault(fault),
        };
        let file = Accepted { kind, publisher, published, records };
        // 5: records, bytes or files would exceed a limit
        if !self.has_room_for(&file) {
            return Answer::Refused(5);
        }
        self.files.push(file);
        Answer::Filed(self.records_with_numbers_of_last_file())
    }

    fn has_room_for(&self, file: &Accepted) -> bool {
        let (most_records, most_bytes) = match file.kind {
            FileKind::Correction => MOST_CORRECTIONS,
            _ => MOST_REGULAR,
        };
        let same_journal = self.files.iter().filter(|f| f.kind == file.kind);
        let all: Vec<&Vec<u8>> = same_journal.chain([file]).flat_map(|f| &f.records).collect();
        let bytes: usize = all.iter().map(|record| record.len()).sum();
        all.len() <= most_records && bytes <= most_bytes && self.files.len() < MOST_FILES
    }

    /// "The count of journal records, in both journals and after filing, whose number is named by
    /// some record of this file", numbers that are not in the table included.
    fn records_with_numbers_of_last_file(&self) -> usize {
        let last = self.files.last().map(filed_records).unwrap_or_default();
        let named: BTreeSet<&Number> = last.iter().map(Filed::number).collect();
        let all: Vec<Filed> = self.files.iter().flat_map(filed_records).collect();
        all.iter().filter(|record| named.contains(record.number())).count()
    }

    /// The files of one journal, in order of arrival: default files make the regular journal.
    pub fn journal(&self, kind: FileKind) -> impl Iterator<Item = &Accepted> {
        self.files.iter().filter(move |file| file.kind == kind)
    }

    /// All filed records with their bytes, the regular journal first, each journal by place.
    pub fn records(&self) -> (Vec<Filed>, Vec<&[u8]>) {
        let both = || self.journal(FileKind::Default).chain(self.journal(FileKind::Correction));
        let bytes = both().flat_map(|file| file.records.iter().map(|r| &r[..])).collect();
        (both().flat_map(filed_records).collect(), bytes)
    }

    /// Entries, pairs and verdicts, worked out from all records.
    pub fn outcome(&self) -> Outcome {
        self.outcome_with(&holiday_list())
    }

    /// The same with another holiday list.
    pub fn outcome_with(&self, list: &[Day]) -> Outcome {
        walk(&self.table, &self.records().0, list)
    }

    /// The store as it was before file `n` (from 1) arrived.
    pub fn before(&self, n: usize) -> Store {
        Store { table: self.table.clone(), files: self.files[..n - 1].to_vec() }
    }
}

fn filed_records(file: &Accepted) -> Vec<Filed> {
    let content = |record: &Vec<u8>| match file.kind {
        FileKind::Correction => read_correction(record).map(Content::Correction),
        _ => read_report(record).map(Content::Report),
    };
    let numbered = file.records.iter().enumerate();
    let filed = |(place_in_file, record): (usize, &Vec<u8>)| Filed {
        content: content(record).expect("an accepted record"),
        publisher: file.publisher,
        published: file.published,
        place_in_file,
    };
    numbered.map(filed).collect()
}

/// HOLDER, LAST and OPEN of an entry, as `show` prints them.
pub fn shown(entry: &Entry) -> String {
    let last = entry.last.map_or("-".to_string(), written);
    let taken: Vec<String> = (entry.places.iter().enumerate())
        .filter_map(|(i, place)| place.as_ref().map(|open| shown_place(i, open)))
        .collect();
    let open = if taken.is_empty() { "-".to_string() } else { taken.join(";") };
    format!("{}\t{}\t{}", entry.holder, last, open)
}

fn shown_place(i: usize, open: &Open) -> String {
    let (date, published) = (written(open.date), written(open.published));
    format!("{}:{:?}:{}:{}>{}:{}", i, open.kind, date, open.losing, open.gaining, published)
}

// On disk: STORE/table (the table text), STORE/entries (a line of `shown` per entry),
// STORE/holidays (how many days the list had that the entries were worked out with) and
// STORE/arrived/NNNN-D-D001-2024-03-05 or NNNN-K-..., an accepted file each.

fn broken(what: &str) -> io::Error {
    io::Error::new(io::ErrorKind::InvalidData, what.to_string())
}

pub fn create(folder: &Path, table_text: &[u8], store: &Store) -> io::Result<()> {
    fs::create_dir(folder)?;
    fs::create_dir(folder.join("arrived"))?;
    fs::write(folder.join("table"), table_text)?;
    write_entries(folder, store)
}

/// Writes the entries as they are now, then which list they were worked out with.
pub fn write_entries(folder: &Path, store: &Store) -> io::Result<()> {
    let entries = store.outcome().entries;
    let text: String = entries.iter().map(|entry| shown(entry) + "\n").collect();
    fs::write(folder.join("entries"), text)?;
    fs::write(folder.join("holidays"), mark())
}

/// What STORE/holidays holds where the entries were worked out with the list of today.
fn mark() -> String {
    format!("{}\n", holiday_list().len())
}

/// Whether the stored entries were worked out with the list of today; a store from before the
/// mark has none.
pub fn is_current(folder: &Path) -> bool {
    matches!(fs::read(folder.join("holidays")), Ok(text) if text == mark().as_bytes())
}

pub fn read_entries(folder: &Path) -> io::Result<Vec<String>> {
    let text = fs::read_to_string(folder.join("entries"))?;
    Ok(text.lines().map(str::to_string).collect())
}

/// Writes the file that was filed last, and the entries as they are now.
pub fn write_last_file(folder: &Path, store: &Store, bytes: &[u8]) -> io::Result<()> {
    if let Some(file) = store.files.last() {
        let letter = if file.kind == FileKind::Correction { 'K' } else { 'D' };
        let number = store.files.len();
        let day = written(file.published);
        let name = format!("{:04}-{}-{}-{}", number, letter, file.publisher, day);
        fs::write(folder.join("arrived").join(name), bytes)?;
    }
    write_entries(folder, store)
}

pub fn load(folder: &Path) -> io::Result<Store> {
    let table = read_table(&fs::read(folder.join("table"))?).ok_or_else(|| broken("table"))?;
    let mut names: Vec<String> = Vec::new();
    for entry in fs::read_dir(folder.join("arrived"))? {
        names.push(entry?.file_name().into_string().map_err(|_| broken("name"))?);
    }
    names.sort();
    let mut store = Store::new(table);
    for name in names {
        let bytes = fs::read(folder.join("arrived").join(&name))?;
        store.files.push(read_accepted(&name, &bytes).ok_or_else(|| broken(&name))?);
    }
    Ok(store)
}

fn read_accepted(name: &str, bytes: &[u8]) -> Option<Accepted> {
    let parts: Vec<&str> = name.splitn(4, '-').collect();
    match parts[..] {
        [_, letter, publisher, day] => {
            let kind = if letter == "K" { FileKind::Correction } else { FileKind::Default };
            Some(Accepted {
                kind,
                publisher: Code::read(publisher.as_bytes())?,
                published: read_written(day.as_bytes())?,
                records: read_file(kind, bytes).ok()?,
            })
        }
        _ => None,
    }
}
