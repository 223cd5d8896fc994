//! The command line: what each command prints, and its exit status.

use crate::calendar::{digits, written};
use crate::files::{read_file, read_name, FileKind};
use crate::layout::Number;
use crate::store::{self, read_table, shown, Answer, Store};
use crate::verdict::Line;
use std::ffi::OsStr;
use std::fs;
use std::os::unix::ffi::OsStrExt;
use std::path::Path;

/// Exit status 0: all answers were 0; 1: an answer was a refusal, or `figure` found a difference.
type Status = u8;

/// Exit status 2, with words for people: usage, or a file that can't be read or written.
type Stopped = String;

const USAGE: &str = "usage: witness start STORE TABLE
       witness file STORE PUBLISHER FILE...
       witness file STORE --list LIST
       witness files STORE
       witness show STORE [--before N] [NUMBER...]
       witness why STORE NUMBER...
       witness verdicts STORE
       witness figure STORE
       witness rework STORE
       witness read FILE
       witness selftest";

/// Runs one command line; output goes to `out` as far as the command came.
pub fn run(args: &[&[u8]], out: &mut Vec<u8>) -> Result<Status, Stopped> {
    match *args {
        [b"start", folder, table] => start(path(folder), path(table), out),
        [b"file", folder, b"--list", list] => file_list(path(folder), path(list), out),
        [b"file", _, b"--list", ..] => Err(USAGE.to_string()),
        [b"file", folder, publisher, ref files @ ..] if !files.is_empty() => {
            let offers = files.iter().map(|file| (publisher, *file)).collect();
            file_all(path(folder), offers, out)
        }
        [b"files", folder] => files(&load(path(folder))?, out),
        [b"show", folder, b"--before", n, ref numbers @ ..] => {
            show_before(&load(path(folder))?, n, numbers, out)
        }
        [b"show", _, b"--before"] => Err(USAGE.to_string()),
        [b"show", folder, ref numbers @ ..] => show(&load(path(folder))?, numbers, out),
        [b"why", folder, ref numbers @ ..] if !numbers.is_empty() => {
            why(&load(path(folder))?, numbers, out)
        }
        [b"verdicts", folder] => verdicts(&load(path(folder))?, out),
        [b"figure", folder] => figure(path(folder), out),
        [b"rework", folder] => rework(path(folder), out),
        [b"read", file] => read(file, out),
        _ => Err(USAGE.to_string()),
    }
}

fn path(bytes: &[u8]) -> &Path {
    Path::new(OsStr::from_bytes(bytes))
}

fn stopped(what: &Path, error: std::io::Error) -> Stopped {
    format!("{}: {}", what.display(), error)
}

/// A store as any command but `rework` reads it: its entries have to be of the list of today.
fn load(folder: &Path) -> Result<Store, Stopped> {
    let store = load_any(folder)?;
    if !store::is_current(folder) {
        let what = "its entries were worked out with another holiday list: it wants `rework` first";
        return Err(format!("{}: {}", folder.display(), what));
    }
    Ok(store)
}

fn load_any(folder: &Path) -> Result<Store, Stopped> {
    store::load(folder).map_err(|e| stopped(folder, e))
}

/// One line of output: items with tabs between them, LF at the end.
fn print(out: &mut Vec<u8>, items: &[&[u8]]) {
    out.extend_from_slice(&items.join(&b'\t'));
    out.push(b'\n');
}

fn start(folder: &Path, table: &Path, out: &mut Vec<u8>) -> Result<Status, Stopped> {
    if fs::symlink_metadata(folder).is_ok() {
        return Err(format!("{} is there already", folder.display()));
    }
    let text = fs::read(table).map_err(|e| stopped(table, e))?;
    match read_table(&text) {
        None => {
            print(out, &[b"refused", b"6"]);
            Ok(1)
        }
        Some(lines) => {
            let count = lines.len().to_string();
            let store = Store::new(lines);
            store::create(folder, &text, &store).map_err(|e| stopped(folder, e))?;
            print(out, &[b"started", count.as_bytes()]);
            Ok(0)
        }
    }
}

/// The lines `PUBLISHER<TAB>PATH` of a list, in that order; blank lines are passed over.
fn file_list(folder: &Path, list: &Path, out: &mut Vec<u8>) -> Result<Status, Stopped> {
    let text = fs::read(list).map_err(|e| stopped(list, e))?;
    let mut offers = Vec::new();
    for line in text.split(|c| *c == b'\n').filter(|line| !line.is_empty()) {
        let tab = line.iter().position(|c| *c == b'\t');
        let tab = tab.ok_or_else(|| format!("{}: a line without a tab", list.display()))?;
        offers.push((&line[..tab], &line[tab + 1..]));
    }
    file_all(folder, offers, out)
}

fn file_all(
    folder: &Path,
    offers: Vec<(&[u8], &[u8])>,
    out: &mut Vec<u8>,
) -> Result<Status, Stopped> {
    let mut store = load(folder)?;
    let mut status = 0;
    for (publisher, file) in offers {
        let answer = file_one(folder, &mut store, publisher, file)?;
        if !matches!(answer, Answer::Filed(_)) {
            status = 1;
        }
        print_answer(out, file, &answer);
    }
    Ok(status)
}

fn file_one(
    folder: &Path,
    store: &mut Store,
    publisher: &[u8],
    file: &[u8],
) -> Result<Answer, Stopped> {
    let heading = match Store::check_heading(publisher, file) {
        Ok(heading) => heading,
        Err(refusal) => return Ok(refusal),
    };
    let bytes = fs::read(path(file)).map_err(|e| stopped(path(file), e))?;
    let answer = store.file(heading, &bytes);
    if matches!(answer, Answer::Filed(_)) {
        store::write_last_file(folder, store, &bytes).map_err(|e| stopped(folder, e))?;
    }
    Ok(answer)
}

/// `PATH filed COUNT`, or `PATH refused NO`, for 4 with PLACE, FIELD and CAUSE behind it.
fn print_answer(out: &mut Vec<u8>, file: &[u8], answer: &Answer) {
    let text = match answer {
        Answer::Filed(count) => format!("filed\t{}", count),
        Answer::Refused(number) => format!("refused\t{}", number),
        Answer::Fault(fault) => format!("refused\t4\t{}", fault),
    };
    print(out, &[file, text.as_bytes()]);
}

/// N (from 1), `default` or `correction`, PUBLISHER, DAY, RECORDS.
fn files(store: &Store, out: &mut Vec<u8>) -> Result<Status, Stopped> {
    for (i, file) in store.files.iter().enumerate() {
        let kind = if file.kind == FileKind::Correction { "correction" } else { "default" };
        let (day, records) = (written(file.published), file.records.len());
        let text = format!("{}\t{}\t{}\t{}\t{}", i + 1, kind, file.publisher, day, records);
        print(out, &[text.as_bytes()]);
    }
    Ok(0)
}

/// The line of the table that the command line names; a text that is no number finds none.
fn find(table: &[Line], number: &[u8]) -> Option<usize> {
    let named = |number: &Number| number.to_string().into_bytes();
    table.iter().position(|line| named(&line.number) == number)
}

fn show_before(
    store: &Store,
    n: &[u8],
    numbers: &[&[u8]],
    out: &mut Vec<u8>,
) -> Result<Status, Stopped> {
    match digits(n).map(|n| n as usize) {
        None | Some(0) => Err("--before wants the number of a file, from 1".to_string()),
        Some(n) if n > store.files.len() => {
            print(out, &[b"refused", b"7"]);
            Ok(1)
        }
        Some(n) => show(&store.before(n), numbers, out),
    }
}

/// NUMBER, HOLDER, LAST, OPEN; NUMBER `refused` 12 for one that is not in the table.
fn show(store: &Store, numbers: &[&[u8]], out: &mut Vec<u8>) -> Result<Status, Stopped> {
    let entries = store.outcome().entries;
    if numbers.is_empty() {
        for (line, entry) in store.table.iter().zip(&entries) {
            print(out, &[line.number.to_string().as_bytes(), shown(entry).as_bytes()]);
        }
    }
    let mut status = 0;
    for number in numbers {
        match find(&store.table, number) {
            Some(at) => print(out, &[number, shown(&entries[at]).as_bytes()]),
            None => {
                print(out, &[number, b"refused", b"12"]);
                status = 1;
            }
        }
    }
    Ok(status)
}

/// NUMBER `pair` RECORD PUBLISHED RECORD PUBLISHED, or NUMBER `none`, or NUMBER `refused` 12.
fn why(store: &Store, numbers: &[&[u8]], out: &mut Vec<u8>) -> Result<Status, Stopped> {
    let pairs = store.outcome().pairs;
    let (records, bytes) = store.records();
    let published = |record: usize| written(records[record].published);
    let mut status = 0;
    for number in numbers {
        match find(&store.table, number).map(|at| pairs[at]) {
            Some(Some((first, second))) => {
                let (day1, day2) = (published(first), published(second));
                let first = [bytes[first], day1.as_bytes()];
                let second = [bytes[second], day2.as_bytes()];
                print(out, &[number, b"pair", first[0], first[1], second[0], second[1]]);
            }
            Some(None) => print(out, &[number, b"none"]),
            None => {
                print(out, &[number, b"refused", b"12"]);
                status = 1;
            }
        }
    }
    Ok(status)
}

/// `R` or `C`, PLACE, PUBLISHER, DAY, PLACE IN FILE, VERDICT, RECORD.
fn verdicts(store: &Store, out: &mut Vec<u8>) -> Result<Status, Stopped> {
    let verdicts = store.outcome().verdicts;
    let (records, bytes) = store.records();
    let regular = store.journal(FileKind::Default).map(|file| file.records.len()).sum();
    for (i, record) in records.iter().enumerate() {
        let (journal, place) = if i < regular { ("R", i) } else { ("C", i - regular) };
        let (publisher, day) = (record.publisher, written(record.published));
        let heading = format!("{}\t{}\t{}\t{}", journal, place, publisher, day);
        let answer = format!("{}\t{}", record.place_in_file, verdicts[i]);
        print(out, &[heading.as_bytes(), answer.as_bytes(), bytes[i]]);
    }
    Ok(0)
}

/// A line for each number whose stored entry is not the one worked out: NUMBER with HOLDER LAST
/// OPEN as stored and as worked out.
fn differing(folder: &Path, store: &Store) -> Result<Vec<String>, Stopped> {
    let stored = store::read_entries(folder).map_err(|e| stopped(folder, e))?;
    let mut lines = Vec::new();
    for (i, entry) in store.outcome().entries.iter().enumerate() {
        let was = stored.get(i).cloned().unwrap_or_default();
        if was != shown(entry) {
            lines.push(format!("{}\t{}\t{}", store.table[i].number, was, shown(entry)));
        }
    }
    Ok(lines)
}

/// `differ` D `of` M, then the lines of those that differ.
fn figure(folder: &Path, out: &mut Vec<u8>) -> Result<Status, Stopped> {
    let store = load(folder)?;
    let lines = differing(folder, &store)?;
    let figure = format!("differ\t{}\tof\t{}", lines.len(), store.table.len());
    print(out, &[figure.as_bytes()]);
    for line in &lines {
        print(out, &[line.as_bytes()]);
    }
    Ok(if lines.is_empty() { 0 } else { 1 })
}

/// Works out all entries again and keeps them: the lines of those that changed, then `changed` N
/// `of` M.
fn rework(folder: &Path, out: &mut Vec<u8>) -> Result<Status, Stopped> {
    let store = load_any(folder)?;
    let lines = differing(folder, &store)?;
    store::write_entries(folder, &store).map_err(|e| stopped(folder, e))?;
    for line in &lines {
        print(out, &[line.as_bytes()]);
    }
    let changed = format!("changed\t{}\tof\t{}", lines.len(), store.table.len());
    print(out, &[changed.as_bytes()]);
    Ok(0)
}

/// `record` PLACE RECORD for each record, or `refused` 4 PLACE FIELD CAUSE alone; `refused` 2 for
/// a name.
fn read(file: &[u8], out: &mut Vec<u8>) -> Result<Status, Stopped> {
    let kind = match read_name(file) {
        Some((kind, _)) => kind,
        None => {
            print(out, &[b"refused", b"2"]);
            return Ok(1);
        }
    };
    let bytes = fs::read(path(file)).map_err(|e| stopped(path(file), e))?;
    match read_file(kind, &bytes) {
        Ok(records) => {
            for (place, record) in records.iter().enumerate() {
                print(out, &[b"record", place.to_string().as_bytes(), record]);
            }
            Ok(0)
        }
        Err(fault) => {
            print(out, &[b"refused", b"4", fault.to_string().as_bytes()]);
            Ok(1)
        }
    }
}
