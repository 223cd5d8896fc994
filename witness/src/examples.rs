//! `witness selftest`: calendar, layouts and limits, and the examples of worked.rs, each with the
//! answer that the paper gives.

use crate::calendar::{
    day_of, easter, holiday_list, holiday_list_before, is_working_day, read_ddmmyyyy,
    the_exception, weekday, working_day_after, written, LAST_DAY,
};
use crate::dialogue::dialogue;
use crate::faults::{Cause, Fault};
use crate::files::{closing_record, read_file, read_name, FileKind};
use crate::layout::{Code, Number};
use crate::lines::lines;
use crate::store::{read_table, shown, Answer, Store};
use crate::worked::{Example, Row, NUMBER, PAPER, READINGS, REQUEST_K3, SPECIFICATION};

/// Counts what held, and says what did not.
struct Tally<'a> {
    out: &'a mut Vec<u8>,
    passed: u32,
    failed: u32,
}

impl Tally<'_> {
    fn say(&mut self, text: &str) {
        self.out.extend_from_slice(text.as_bytes());
        self.out.push(b'\n');
    }

    fn check(&mut self, what: &str, holds: bool) {
        if holds {
            self.passed += 1;
        } else {
            self.failed += 1;
            self.say(&format!("failed: {}", what));
        }
    }
}

pub fn selftest(out: &mut Vec<u8>) -> Result<u8, String> {
    let mut tally = Tally { out, passed: 0, failed: 0 };
    days(&mut tally);
    holidays(&mut tally);
    exception(&mut tally);
    fifth_days(&mut tally);
    numbers(&mut tally);
    names(&mut tally);
    contents(&mut tally);
    lines(&mut |what, holds| tally.check(what, holds));
    tables(&mut tally);
    for example in PAPER.iter().chain(REQUEST_K3).chain(SPECIFICATION).chain(READINGS) {
        run(example, &mut tally);
    }
    day_early(&mut tally);
    late_objection(&mut tally);
    places(&mut tally);
    limits(&mut tally);
    most_files(&mut tally);
    dialogue(&mut |what, holds| tally.check(what, holds));
    let last = format!("{} passed, {} failed", tally.passed, tally.failed);
    tally.say(&last);
    Ok(if tally.failed == 0 { 0 } else { 1 })
}

fn day(dotted: &str) -> u32 {
    read_ddmmyyyy(dotted.replace('.', "").as_bytes()).expect("a date of an example")
}

/// Paper 01, "Days and reports worked through", its first two lines, and the calendar's laws.
fn days(tally: &mut Tally) {
    tally.check("2000-02-29 is day 789", day_of(2000, 2, 29) == Some(789));
    tally.check("2001-02-29 is a fault", day_of(2001, 2, 29).is_none());
    tally.check("2024-03-04 is day 9559", day_of(2024, 3, 4) == Some(9559));
    tally.check("2024-03-04 is a Monday", weekday(9559) == 0);
    tally.check("2049-12-26 is day 18987", day_of(2049, 12, 26) == Some(18987));
    tally.check("2049-12-31 is day 18992", day_of(2049, 12, 31) == Some(LAST_DAY));
    tally
        .check("1998-01-01 is day 0, a Thursday", day_of(1998, 1, 1) == Some(0) && weekday(0) == 3);
    let outside = [(1997, 12, 31), (2050, 1, 1), (2004, 13, 1), (2004, 0, 1), (2004, 4, 31)];
    tally.check("no day outside", outside.iter().all(|(y, m, d)| day_of(*y, *m, *d).is_none()));
    let list = holiday_list();
    let after = |k, date| working_day_after(k, day(date), &list).map(written);
    let is = |date: &str| Some(date.to_string());
    tally.check("two after 2014-05-22", after(2, "22.05.2014") == is("2014-05-26"));
    tally.check("twenty after 2008-06-16", after(20, "16.06.2008") == is("2008-07-14"));
    tally.check("five after 2017-04-13", after(5, "13.04.2017") == is("2017-04-24"));
    tally.check("one after 2049-12-31: the calendar ends", after(1, "31.12.2049").is_none());
    tally.check("none after 2049-12-31", after(0, "31.12.2049") == is("2049-12-31"));
    tally.check("none after a Sunday is that Sunday", after(0, "03.03.2024") == is("2024-03-03"));
    tally.check("outside the calendar", working_day_after(0, LAST_DAY + 1, &list).is_none());
    let sundays =
        ["12.04.1998", "23.04.2000", "23.03.2008", "24.04.2011", "31.03.2024", "25.04.2038"];
    let years = [1998, 2000, 2008, 2011, 2024, 2038];
    let easters = years.iter().zip(sundays).all(|(year, sunday)| easter(*year) == day(sunday));
    tally.check("Easter Sundays", easters);
    let all = (0..=LAST_DAY).all(|d| read_ddmmyyyy(&ddmmyyyy(d)) == Some(d));
    tally.check("every day is read as it is written", all);
}

/// The holiday list: paper 01 with request K3.
fn holidays(tally: &mut Tally) {
    let (list, before) = (holiday_list(), holiday_list_before());
    tally.check("469 holidays", list.len() == 469);
    tally.check("the list never falls", list.windows(2).all(|w| w[0] <= w[1]));
    let equal: Vec<u32> = list.windows(2).filter(|w| w[0] == w[1]).map(|w| w[0]).collect();
    tally.check("one equal pair, 1 May 2008", equal == [day("01.05.2008")]);
    tally.check("the last holiday", list.last() == Some(&18987));
    tally.check("468 holidays before", before.len() == 468);
    let others: Vec<u32> = list.iter().filter(|d| **d != the_exception()).cloned().collect();
    tally.check("one more than before, 31 October 2017", others == before);
}

/// Request K3: 31 October is a holiday in 2017 alone.
fn exception(tally: &mut Tally) {
    let (list, before) = (holiday_list(), holiday_list_before());
    let tuesday = the_exception();
    tally.check("31 October 2017 is day 7243, a Tuesday", tuesday == 7243 && weekday(7243) == 1);
    tally.check("31 October 2017 is no working day", !is_working_day(tuesday, &list));
    tally.check("31 October 2017 was one before", is_working_day(tuesday, &before));
    let mondays_to_fridays = [("31.10.2016", 0), ("31.10.2018", 2), ("31.10.2028", 1)];
    for (date, is) in mondays_to_fridays {
        let works = weekday(day(date)) == is && is_working_day(day(date), &list);
        tally.check(&format!("{} is a working day", date), works);
    }
}

/// What the exception moves: a fifth working day, with the list before and with the list of now.
fn fifth_days(tally: &mut Tally) {
    let (list, before) = (holiday_list(), holiday_list_before());
    let fifth = |date, list: &[u32]| working_day_after(5, day(date), list).map(written);
    let cases = [
        ("23.10.2017", "2017-10-30", "2017-10-30"),
        ("24.10.2017", "2017-10-31", "2017-11-01"),
        ("25.10.2017", "2017-11-01", "2017-11-02"),
        ("27.10.2017", "2017-11-03", "2017-11-06"),
        ("30.10.2017", "2017-11-06", "2017-11-07"),
        ("31.10.2017", "2017-11-07", "2017-11-07"),
    ];
    for (date, was, is) in cases {
        let holds = fifth(date, &before).as_deref() == Some(was)
            && fifth(date, &list).as_deref() == Some(is);
        tally.check(&format!("five after {}: {}, before {}", date, is, was), holds);
    }
}

fn ddmmyyyy(day: u32) -> Vec<u8> {
    let (y, m, d) = crate::calendar::date_of(day);
    format!("{:02}{:02}{:04}", d, m, y).into_bytes()
}

/// 4.4.2: rule 5 with its examples a) to g), and what the readings say of number fields.
fn numbers(tally: &mut Tally) {
    let cases: [(&str, &str, bool); 22] = [
        ("68975678000", "68975678999", true),  // a)
        ("68975678030", "68975678059", true),  // b)
        ("68975678070", "68975678129", false), // c)
        ("68975678100", "68975678229", false), // d)
        ("3919900500", "3919900649", false),   // e)
        ("23629674001", "23629674500", false), // f)
        ("23629674150", "23629674649", false), // g)
        ("3055501", "", true),
        ("1", "", true),
        ("00", "99", true),
        ("00", "49", true),
        ("123", "123", false),
        ("121", "122", false),
        ("1200", "1299", true),
        ("1250", "1219", false),
        ("120", "1299", false),
        ("12345678901", "", true),
        ("123456789012", "", false),
        ("", "", false),
        ("", "1299", false),
        ("12a", "", false),
        ("12 ", "", false),
    ];
    for (num1, num2, well_formed) in cases {
        let read = Number::read(num1.as_bytes(), num2.as_bytes());
        tally.check(&format!("4.4.2: {} {}", num1, num2), read.is_some() == well_formed);
    }
    let codes = ["D000", "D999", "D00A", "d001", "D01", "D0001", "", "E001"];
    let good: Vec<bool> = codes.iter().map(|code| Code::read(code.as_bytes()).is_some()).collect();
    let right = [true, true, false, false, false, false, false, false];
    tally.check("a network code is D and three digits", good == right);
}

/// 5.2.2, and the two-digit year of the paper.
fn names(tally: &mut Tally) {
    use FileKind::{Correction, Default, Request, Response};
    let cases = [
        ("1D980301.txt", Some((Default, "01.03.1998"))),
        ("D001/1K020212.txt", Some((Correction, "12.02.2002"))),
        ("1Q980403.txt", Some((Request, "03.04.1998"))),
        ("1R020531.txt", Some((Response, "31.05.2002"))),
        ("1D000229.txt", Some((Default, "29.02.2000"))),
        ("1D491231.txt", Some((Default, "31.12.2049"))),
        ("1D500101.txt", None),
        ("1D970101.txt", None),
        ("1D010229.txt", None),
        ("1Q980403.gz", None),
        ("1d980301.txt", None),
        ("1D980301.TXT", None),
        ("7K980301.txt", None),
        ("1D980301.txt.txt", None),
        ("1D98031.txt", None),
    ];
    for (name, meaning) in cases {
        let meaning = meaning.map(|(kind, date)| (kind, day(date)));
        tally.check(&format!("5.2.2: {}", name), read_name(name.as_bytes()) == meaning);
    }
}

#[rustfmt::skip]
/// Contents of files: how many records, or place, field and cause of the fault. `|` stands for CR.
fn contents(tally: &mut Tally) {
    use Cause::{After, Closing, Code, Date, Length, Value};
    use FileKind::{Correction as K, Default as D, Request as Q};
    const P: &str = "3055501,,04032024,D002,D001,P";
    const U: &str = "2500U:3055501,,04032024,D002,D001,P";
    let cases: Vec<(FileKind, String, Result<usize, (usize, usize, Cause)>)> = vec![
        (D, "Zeilenanzahl:1,|".into(), Ok(0)), // 4.5.2.2: an empty file has one line
        (D, format!("{P}|Zeilenanzahl:2,|"), Ok(1)),
        (D, "".into(), Err((0, 0, Closing))),
        (D, format!("{P}|"), Err((1, 0, Closing))),
        (D, format!("{P}|Zeilenanzahl:2,"), Err((1, 0, Closing))),
        (D, format!("{P}|Zeilenanzahl:3,|"), Err((1, 0, Closing))), // 4.5.2.3 would process it all the same
        (D, format!("{P}|Zeilenanzahl:02,|"), Err((1, 0, Closing))),
        (D, format!("{P}|Zeilenanzahl:2,|{P}|"), Err((2, 0, After))),
        (D, format!("{P}|Zeilenanzahl:2,|\n"), Err((2, 0, After))),
        (D, format!("{P}|\nZeilenanzahl:2,|\n"), Err((1, 1, Length))), // 4.4.3 would accept CR LF
        (D, " 3055501,,04032024,D002,D001,P|Zeilenanzahl:2,|".into(), Err((0, 1, Value))), // 4.4.3: blanks
        (D, format!("{P}|{P}x|Zeilenanzahl:3,|"), Err((1, 11, Length))),
        (D, format!("{P}|{P}"), Err((1, 12, Length))),
        (D, "3055501,,04032024,,D001,Z|Zeilenanzahl:2,|".into(), Ok(1)),
        (D, "3055501,,04032024,,D001,L|Zeilenanzahl:2,|".into(), Err((0, 11, Value))),
        (D, "3055501,,04032024,D002,,P|Zeilenanzahl:2,|".into(), Err((0, 9, Length))),
        (D, "3055501,,04032024,D00B,D00A,P|Zeilenanzahl:2,|".into(), Err((0, 7, Code))),
        (D, "3055501,,30022024,D002,D001,P|Zeilenanzahl:2,|".into(), Err((0, 5, Date))),
        (D, "121,122,15062004,D002,D001,P|Zeilenanzahl:2,|".into(), Err((0, 3, Value))), // 11.1.2.7
        (D, "123,123,15062004,D003,D001,L|Zeilenanzahl:2,|".into(), Err((0, 3, Value))), // 11.1.2.10
        (Q, "D456,,|".into(), Ok(1)),
        (Q, "D987,01041998,|".into(), Ok(1)),
        (Q, "D987,01041997,|".into(), Err((0, 3, Date))),
        (Q, "D987,01041998|".into(), Err((0, 4, Length))),
        (Q, "D456,,".into(), Err((0, 5, Length))),
        (Q, "D456,,|Zeilenanzahl:2,|".into(), Err((1, 0, After))),
        (Q, "Zeilenanzahl:1,|".into(), Err((0, 1, Length))),
        (K, "Zeilenanzahl:1,|".into(), Ok(0)),
        (K, format!("{U},K:,,,,,|Zeilenanzahl:2,|"), Ok(1)),
        // the three examples of 4.7.9; the second has one comma fewer than the table of 4.7.8
        (K, "0500U:3012345000,3012345999,12022002,D009,D001,P,K:3012345000,3012345999,12022002,D009,D005,P|Zeilenanzahl:2,|".into(), Ok(1)),
        (K, "6000U:,,,,,K:3012345000,3012345999,12042004,D001,D009,L|Zeilenanzahl:2,|".into(), Err((0, 13, Length))),
        (K, "2000U:3012345000,3012345999,12042004,D001,D009,P,K:,,,,,|Zeilenanzahl:2,|".into(), Ok(1)),
        (K, "6000U:,,,,,,K:3012345000,3012345999,12042004,D001,D009,L|Zeilenanzahl:2,|".into(), Ok(1)),
        (K, "6000U:,,,,,,K:,,12042004,D001,D009,L|Zeilenanzahl:2,|".into(), Err((0, 16, Value))),
        (K, "2500U:,,,,,,K:3055501,,04032024,D002,D001,P|Zeilenanzahl:2,|".into(), Err((0, 3, Value))),
        (K, "2500U:3055501,,04032024,,D001,Z,K:,,,,,|Zeilenanzahl:2,|".into(), Ok(1)),
        (K, "2500U:3055501,,04032024,,D001,P,K:,,,,,|Zeilenanzahl:2,|".into(), Err((0, 13, Value))),
        (K, "0100U:3055501,,04032024,,,,K:,3055509,,,,|Zeilenanzahl:2,|".into(), Err((0, 18, Value))),
        (K, "250U:3055501,,04032024,D002,D001,P,K:,,,,,|Zeilenanzahl:2,|".into(), Err((0, 1, Length))),
        (K, "2500K:3055501,,04032024,D002,D001,P,U:,,,,,|Zeilenanzahl:2,|".into(), Err((0, 2, Value))),
        // 11.1.3: changes of number volumes; the base files them and gives 34
        (K, "4200U:12300,12399,15062004,D002,D002,,K:12300,12329,10072008,D002,D002,|Zeilenanzahl:2,|".into(), Ok(1)),
        (K, "4300U:12300,12309,15062004,D002,D002,,K:,,11072008,,,|Zeilenanzahl:2,|".into(), Ok(1)),
        (K, "4500U:,,,,,,K:12360,12399,10072008,D002,D002,|Zeilenanzahl:2,|".into(), Ok(1)),
        (K, "4700U:91311700000,91311799999,,D001,D001,,K:9131170,,02092019,D001,D001,|Zeilenanzahl:2,|".into(), Ok(1)),
        (K, "3025U:2101000,2101999,01042022,D002,D006,P,K:2101000,2101299,,,,|Zeilenanzahl:2,|".into(), Ok(1)),
    ];
    for (kind, text, result) in cases {
        let read = read_file(kind, text.replace('|', "\r").as_bytes());
        let read = read.map(|records| records.len()).map_err(|f| (f.place, f.field, f.cause));
        tally.check(&format!("contents: {} is {:?}", text, read), read == result);
    }
}

/// The number table: what 6 refuses.
fn tables(tally: &mut Tally) {
    let lines =
        |n: u32| (0..n).map(|i| format!("{},,D001,02012024\n", 1000 + i)).collect::<String>();
    let cases: [(String, Option<usize>); 14] = [
        ("".into(), Some(0)),
        ("3055501,,D001,02012024\n".into(), Some(1)),
        ("30500,30599,D001,02012024\n30500,,D001,02012024\n".into(), Some(2)),
        (lines(1024), Some(1024)),
        (lines(1025), None),
        ("1,,D001,02012024\n1,,D002,03012024\n".into(), None),
        ("3055501,,D001,02012024".into(), None),
        ("3055501,,D001,02012024\r\n".into(), None),
        ("3055501,,D001,02012024\n\n".into(), None),
        ("3055501,3055502,D001,02012024\n".into(), None),
        ("3055501,,D00A,02012024\n".into(), None),
        ("3055501,,D001,01012050\n".into(), None),
        ("3055501,D001,02012024\n".into(), None),
        ("3055501,,D001,02012024,\n".into(), None),
    ];
    for (text, lines) in cases {
        let read = read_table(text.as_bytes()).map(|table| table.len());
        tally.check(&format!("table: {:.60}", text), read == lines);
    }
}

/// One record as a row of an example says it.
fn record(row: &Row) -> String {
    let (_, status, losing, gaining, from, to, date, _, _) = *row;
    let gaining = if gaining == "-" { "" } else { gaining };
    let six = |status: &str| {
        format!("{},{},{},{},{},{}", from, to, date.replace('.', ""), gaining, losing, status)
    };
    match status.split_once(' ') {
        None => six(status),
        Some((code, status)) if code.starts_with('6') => {
            format!("{}U:,,,,,,K:{}", code, six(status))
        }
        Some((code, status)) => format!("{}U:{},K:,,,,,", code, six(status)),
    }
}

fn is_correction(row: &Row) -> bool {
    row.1.contains(' ')
}

/// The rows as files: publisher, name, contents, and which rows each holds.
fn files_of(rows: &[Row]) -> Vec<(&'static str, String, String, Vec<usize>)> {
    let mut files: Vec<(&str, String, String, Vec<usize>)> = Vec::new();
    for (i, row) in rows.iter().enumerate() {
        let letter = if is_correction(row) { 'K' } else { 'D' };
        let (dd, mm, yy) = (&row.7[0..2], &row.7[3..5], &row.7[8..10]);
        let name = format!("1{}{}{}{}.txt", letter, yy, mm, dd);
        match files.iter_mut().find(|file| file.0 == row.0 && file.1 == name) {
            Some(file) => {
                file.2 += &(record(row) + "\r");
                file.3.push(i);
            }
            None => files.push((row.0, name, record(row) + "\r", vec![i])),
        }
    }
    for file in &mut files {
        file.2 += &closing_record(file.3.len());
    }
    files
}

fn started(table: &[(&str, &str, &str, &str)]) -> Store {
    let line = |l: &(&str, &str, &str, &str)| {
        format!("{},{},{},{}\n", l.0, l.1, l.2, l.3.replace('.', ""))
    };
    let text: String = table.iter().map(line).collect();
    Store::new(read_table(text.as_bytes()).expect("a table of an example"))
}

fn offer(store: &mut Store, publisher: &str, name: &str, text: &str) -> Answer {
    match Store::check_heading(publisher.as_bytes(), name.as_bytes()) {
        Ok(heading) => store.file(heading, text.as_bytes()),
        Err(refusal) => refusal,
    }
}

/// Files the rows in order and in reverse order of arrival: "The day of arrival plays no part."
fn run(example: &Example, tally: &mut Tally) {
    let files = files_of(example.rows);
    for backwards in [false, true] {
        let mut store = started(example.table);
        let mut arrivals: Vec<usize> = (0..files.len()).collect();
        if backwards {
            arrivals.reverse();
        }
        for at in arrivals {
            let (publisher, name, text, _) = &files[at];
            let answer = offer(&mut store, publisher, name, text);
            let filed = matches!(answer, Answer::Filed(_));
            tally.check(&format!("{}: {} is filed", example.section, name), filed);
        }
        check_rows(example, &store, tally);
        check_ends(example, &store, tally);
    }
}

fn check_rows(example: &Example, store: &Store, tally: &mut Tally) {
    let verdicts = store.outcome().verdicts;
    let (records, bytes) = store.records();
    for row in example.rows {
        let here = (0..records.len()).find(|i| {
            bytes[*i] == record(row).as_bytes()
                && records[*i].publisher.to_string() == row.0
                && records[*i].published == day(row.7)
        });
        let verdict = here.map(|i| verdicts[i]);
        let what = format!("{}: {:?} gets {:?}", example.section, row, verdict);
        tally.check(&what, verdict == Some(row.8));
    }
}

fn check_ends(example: &Example, store: &Store, tally: &mut Tally) {
    let entries = store.outcome().entries;
    for (entry, end) in entries.iter().zip(example.ends) {
        let is = shown(entry).replace('\t', " ");
        tally.check(&format!("{}: {} is {}", example.section, end, is), is == *end);
    }
    tally.check(example.section, entries.len() == example.ends.len());
}

/// "One P was confirmed a day early": that of 2017-11-01 in the first example of request K3. With
/// the list of nine days a year it gets 11, and the holder is D001.
fn day_early(tally: &mut Tally) {
    let example = &REQUEST_K3[0];
    let mut store = started(example.table);
    for (publisher, name, text, _) in files_of(example.rows) {
        offer(&mut store, publisher, &name, &text);
    }
    let (was, is) = (store.outcome_with(&holiday_list_before()), store.outcome());
    tally.check("a day early: confirmed before", was.verdicts == [10, 11, 10, 11]);
    tally.check("a day early: the holder before", shown(&was.entries[0]) == "D001\t2017-10-24\t-");
    tally.check("a day early: 21 now", is.verdicts == [10, 11, 10, 21]);
    tally.check("a day early: the holder now", is.entries[0].holder.to_string() == "D002");
}

/// "P as above published 03-05, L published 03-06: holder D002. Then D001's objection 2500 against
/// P, published 03-06, arrives last: it gets 30, L gets 10, the holder is D001 again, and no pair
/// is shown."
fn late_objection(tally: &mut Tally) {
    let rows: [Row; 3] = [
        ("D002", "P", "D001", "D002", "3055501", "", "04.03.2024", "05.03.2024", 10),
        ("D001", "L", "D001", "D002", "3055501", "", "04.03.2024", "06.03.2024", 10),
        ("D001", "2500 P", "D001", "D002", "3055501", "", "04.03.2024", "06.03.2024", 30),
    ];
    let mut store = started(&[("3055501", "", "D001", "02.01.2024")]);
    let mut seen = Vec::new();
    for (publisher, name, text, _) in files_of(&rows) {
        let answer = offer(&mut store, publisher, &name, &text);
        let outcome = store.outcome();
        seen.push((
            answer,
            outcome.entries[0].holder.to_string(),
            outcome.pairs[0],
            outcome.verdicts,
        ));
    }
    let owner = "D001".to_string();
    let (filed, d002) = (Answer::Filed, "D002".to_string());
    tally.check("late objection: P alone", seen[0] == (filed(1), owner.clone(), None, vec![10]));
    tally.check("late objection: pair", seen[1] == (filed(2), d002, Some((0, 1)), vec![10, 11]));
    tally.check("late objection: none", seen[2] == (filed(3), owner, None, vec![10, 10, 30]));
}

/// "An eighth open report is kept, a ninth gets 22." A place freed is used again, the lowest first.
fn places(tally: &mut Tally) {
    let l = |dd: u32| format!("3055501,,{:02}032024,D002,D001,L\r", dd);
    let text: String = (1..=9).map(l).collect::<String>() + &closing_record(9);
    let mut store = started(&[("3055501", "", "D001", "02.01.2024")]);
    offer(&mut store, "D001", "1D240320.txt", &text);
    let verdicts = store.outcome().verdicts;
    tally
        .check("eight are kept, a ninth gets 22", verdicts == [10, 10, 10, 10, 10, 10, 10, 10, 22]);
    let again = format!("3055501,,10032024,D002,D001,L\r{}", closing_record(1));
    let object = "2500U:3055501,,03032024,D002,D001,L,K:,,,,,\r".to_string() + &closing_record(1);
    offer(&mut store, "D001", "1D240322.txt", &again);
    offer(&mut store, "D003", "1K240321.txt", &object);
    let place = store.outcome().entries[0].places[2].as_ref().map(|open| open.date);
    tally.check("a freed place is used again", place == Some(day("10.03.2024")));
    let p = format!("3055501,,04032024,D002,D001,P\r{}", closing_record(1));
    offer(&mut store, "D002", "1D240323.txt", &p);
    let taken: Vec<bool> = store.outcome().entries[0].places.iter().map(|p| p.is_some()).collect();
    let right = [false, false, true, false, true, true, true, true];
    tally.check("a confirmation keeps the newer reports in their places", taken == right);
}

/// "With 8,192 regular records filed, one more of these is refused with 5", and the other limits.
fn limits(tally: &mut Tally) {
    let record = "3055501,,04032024,D002,D001,L\r";
    let object = "2500U:3055501,,04032024,D002,D001,L,K:,,,,,\r";
    let file = |record: &str, n: usize| record.repeat(n) + &closing_record(n);
    let mut store = started(&[("3055501", "", "D001", "02.01.2024")]);
    let mut answers =
        |publisher: &str, name: &str, text: String| offer(&mut store, publisher, name, &text);
    tally.check("8192", answers("D001", "1D240305.txt", file(record, 8192)) == Answer::Filed(8192));
    tally.check("8193", answers("D001", "1D240306.txt", file(record, 1)) == Answer::Refused(5));
    tally.check(
        "8193 by another",
        answers("D009", "1D240305.txt", file(record, 1)) == Answer::Refused(5),
    );
    tally.check("2049", answers("D001", "1K240306.txt", file(object, 2049)) == Answer::Refused(5));
    tally
        .check("2048", answers("D001", "1K240306.txt", file(object, 2048)) == Answer::Filed(10240));
    tally.check(
        "2049 in two",
        answers("D002", "1K240306.txt", file(object, 1)) == Answer::Refused(5),
    );
    tally.check("3 before 4", answers("D001", "1K240306.txt", "x".into()) == Answer::Refused(3));
    let fault = Answer::Fault(Fault { place: 0, field: 1, cause: Cause::Value });
    tally.check("4 before 5", answers("D001", "1D240306.txt", "x".into()) == fault);
    tally.check("1 before 2", answers("D00A", "x", "x".into()) == Answer::Refused(1));
    tally.check("2 before 3", answers("D001", "1R240305.txt", "x".into()) == Answer::Refused(2));
}

/// "Together they take 1,024 files. A file without records counts as a file."
fn most_files(tally: &mut Tally) {
    let mut store = started(NUMBER);
    let mut answers = |publisher: usize, name: &str| {
        offer(&mut store, &format!("D{:03}", publisher), name, &closing_record(0))
    };
    let many = (0..1000).all(|n| answers(n, "1D240401.txt") == Answer::Filed(0));
    let more = (0..24).all(|n| answers(n, "1K240402.txt") == Answer::Filed(0));
    tally.check("1024 files", many && more);
    tally.check("1025 files", answers(999, "1D240403.txt") == Answer::Refused(5));
}

#[cfg(test)]
mod tests {
    #[test]
    fn the_selftest_passes() {
        let mut out = Vec::new();
        let status = super::selftest(&mut out);
        assert_eq!(status, Ok(0), "{}", String::from_utf8_lossy(&out));
    }
}
