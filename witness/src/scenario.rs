//! A scenario: a table, files in order of arrival, and command lines to run.

use crate::calendar::{Day, LAST_DAY};
use crate::chance::Chance;
use crate::damage::DAMAGES;
use crate::files::FileKind;
use crate::refused::Refused;
use crate::store::{read_table, Answer, Store};
use crate::stories::{Flavour, World, OTHER_CODES};
use crate::told::{ddmmyyyy, file_name, file_text, Num, Told};
use std::collections::BTreeMap;

/// A file that is offered for filing.
#[derive(Clone)]
struct Offer {
    publisher: String,
    path: String,
    bytes: Vec<u8>,
}

pub struct Scenario {
    /// Files to write: a path in the scenario's folder, and bytes.
    pub files: Vec<(String, Vec<u8>)>,
    /// Command lines to run in that folder, program name left out.
    pub commands: Vec<Vec<String>>,
    /// What is in it, in the words of known.rs.
    pub notes: Vec<String>,
}

/// A file of one publisher, day and kind.
struct Published {
    publisher: String,
    day: Day,
    letter: char,
    records: Vec<String>,
}

impl Published {
    fn path(&self, folder: &str) -> String {
        format!("{}{}/{}", folder, self.publisher, file_name(self.letter, self.day))
    }
}

pub fn scenario(seed: u64) -> Scenario {
    if fills_a_store(seed) {
        limit_scenario(seed)
    } else {
        story_scenario(seed)
    }
}

/// Every 40th scenario reaches a limit.
pub fn fills_a_store(seed: u64) -> bool {
    seed % 40 == 39
}

/// Counts the scenarios up to this one, those that fill a store left out: what goes in turn goes on
/// from one to the next.
pub fn turn(seed: u64) -> usize {
    (seed - seed / 40) as usize
}

/// One item after the other, in every so manieth scenario.
fn in_turn(seed: u64, every: usize, items: &[&'static str]) -> Option<&'static str> {
    let of = turn(seed);
    (of % every == 0).then(|| items[of / every % items.len()])
}

fn story_scenario(seed: u64) -> Scenario {
    let mut world = World::new(seed);
    world.tell();
    world.tell_code(OTHER_CODES[turn(seed) % OTHER_CODES.len()]);
    let files = published(&mut world);
    let mut notes: Vec<String> = world.notes.iter().map(|n| format!("story\t{}", n)).collect();
    notes.push(format!("flavour\t{:?}", world.flavour));
    notes.append(&mut world.choices);
    let folder = if world.chance.one_in(8) { "süd west/" } else { "" };
    if !folder.is_empty() {
        notes.push("folder\twith a blank".into());
    }
    let offers = offers(&mut world, files, folder, &mut notes);
    let table: String = world.numbers.iter().map(Num::table_line).collect();
    let mut scenario = Scenario { files: Vec::new(), commands: Vec::new(), notes };
    scenario.files.push(("table.txt".into(), table.into_bytes()));
    let mut refused = refused(seed, &world);
    if let Some(wrong) = in_turn(seed, 3, &WRONG_TABLES) {
        bad_start(&mut scenario, &world, wrong);
    }
    commands(&mut scenario, &mut world, offers, &mut refused);
    if let Some(wrong) = in_turn(seed, 10, &WRONG_REWORKS) {
        scenario.notes.push(format!("command\t{}", wrong));
        scenario.commands.push(wrong.split(' ').map(str::to_string).collect());
    }
    scenario
}

/// Files that 4 refuses, made from what the stories told.
fn refused(seed: u64, world: &World) -> Refused {
    let records = |letter: char| {
        let own = world.told.iter().filter(|told| told.letter == letter);
        own.map(|told| told.record.clone().into_bytes()).collect()
    };
    Refused::new(seed, records('D'), records('K'))
}

/// The records in files, by publisher, day and kind; a few files have no records.
fn published(world: &mut World) -> Vec<Published> {
    let mut files: BTreeMap<(Day, String, char), Vec<String>> = BTreeMap::new();
    for Told { publisher, day, letter, record, .. } in world.told.clone() {
        files.entry((day, publisher, letter)).or_default().push(record);
    }
    for _ in 0..world.chance.below(3) {
        let day = (world.base + world.chance.below(14) as Day).min(LAST_DAY);
        let key = (day, world.chance.pick(&world.codes), world.chance.pick(&['D', 'K']));
        files.entry(key).or_default();
    }
    let mut all = Vec::new();
    for ((day, publisher, letter), mut records) in files {
        world.chance.shuffle(&mut records);
        all.push(Published { publisher, day, letter, records });
    }
    reorder(world, &mut all);
    all
}

/// Order of arrival: by day, with late files, or any order at all.
pub const ORDERS: [&str; 3] = ["by day", "some late", "any"];

fn reorder(world: &mut World, files: &mut Vec<Published>) {
    let late = world.flavour == Flavour::Late || world.chance.one_in(3);
    let any = late && world.chance.one_in(2);
    world.choices.push(format!("order\t{}", ORDERS[usize::from(late) + usize::from(any)]));
    if any {
        world.chance.shuffle(files);
    } else if late {
        for _ in 0..files.len() / 4 {
            let file = files.remove(world.chance.below(files.len()));
            let at = world.chance.below(files.len() + 1);
            files.insert(at, file);
        }
    }
}

/// What is offered: every file, and around some of them damaged ones, others again, wrong names
/// and wrong publishers.
fn offers(
    world: &mut World,
    files: Vec<Published>,
    folder: &str,
    notes: &mut Vec<String>,
) -> Vec<Offer> {
    let often = if world.flavour == Flavour::Damage { 2 } else { 9 };
    let mut offers = Vec::new();
    for (i, file) in files.iter().enumerate() {
        let good = file_text(&file.records);
        let extra = |sort: &str| file.path(&format!("{}{}{}/", folder, sort, i));
        let offer =
            |path: String, bytes: Vec<u8>| Offer { publisher: file.publisher.clone(), path, bytes };
        if world.chance.one_in(often) {
            let bytes = damaged(&mut world.chance, &good, notes);
            offers.push(offer(extra("damaged"), bytes));
        }
        if world.chance.one_in(12) {
            let (name, wrong) = misnamed(&mut world.chance, file, &good);
            notes.push(format!("name\t{}", name));
            offers.push(Offer { path: format!("{}name{}/{}", folder, i, wrong.path), ..wrong });
        }
        if world.chance.one_in(12) {
            let right = offer(extra("publisher"), good.clone());
            offers.push(misaddressed(&mut world.chance, right, notes));
        }
        offers.push(offer(file.path(folder), good.clone()));
        if world.chance.one_in(8) {
            offers.push(offer(extra("again"), good.clone()));
        }
        if world.chance.one_in(12) {
            let other = world.chance.pick(&files.iter().map(|f| &f.records).collect::<Vec<_>>());
            offers.push(offer(extra("other"), file_text(other)));
        }
        if world.chance.one_in(often + 6) {
            let bytes = damaged(&mut world.chance, &good, notes);
            offers.push(offer(extra("late-damaged"), bytes));
        }
    }
    offers
}

fn damaged(chance: &mut Chance, good: &[u8], notes: &mut Vec<String>) -> Vec<u8> {
    let (name, damage) = chance.pick(DAMAGES);
    notes.push(format!("damage\t{}", name));
    damage(chance, good)
}

pub const WRONG_PUBLISHERS: [&str; 8] =
    ["D00A", "d001", "D01", "D0001", "X001", "D 01", "001", "D-01"];

/// The same from a publisher that is none; now and then by a name that is none either.
fn misaddressed(chance: &mut Chance, offer: Offer, notes: &mut Vec<String>) -> Offer {
    let publisher = chance.pick(&WRONG_PUBLISHERS).to_string();
    notes.push(format!("publisher\t{}", publisher));
    if !chance.one_in(3) {
        return Offer { publisher, ..offer };
    }
    notes.push("publisher\tand a wrong name".into());
    Offer { publisher, path: offer.path + "/1D24.txt", ..offer }
}

/// Names that filing refuses: no name of a file, no date, or a request or response file. `yymmdd`
/// stands for the day, `ymmdd` for what is left of it without its first digit.
pub const WRONG_NAMES: [&str; 12] = [
    "1Ryymmdd.txt",
    "1Qyymmdd.txt",
    "1dyymmdd.txt",
    "1Dyymmdd.TXT",
    "7Kyymmdd.txt",
    "1Dyymmdd.gz",
    "1D20yymmdd.txt",
    "1Dymmdd.txt",
    "1D500101.txt",
    "1K970101.txt",
    "1D010229.txt",
    "x1Dyymmdd.txt",
];

/// A file by one of these names.
fn misnamed(chance: &mut Chance, file: &Published, good: &[u8]) -> (&'static str, Offer) {
    let name = file_name(file.letter, file.day);
    let wrong = chance.pick(&WRONG_NAMES);
    let path = wrong.replace("yymmdd", &name[2..8]).replace("ymmdd", &name[3..8]);
    let request = format!("{},{},\r", file.publisher, ddmmyyyy(file.day)).into_bytes();
    let bytes = if wrong.starts_with("1Q") { request } else { good.to_vec() };
    let path = format!("{}/{}", file.publisher, path);
    (wrong, Offer { publisher: file.publisher.clone(), path, bytes })
}

fn words(words: &[&str]) -> Vec<String> {
    words.iter().map(|word| word.to_string()).collect()
}

/// The command lines: start, file, ask; file what was held back, and ask again. Files that are
/// refused with 4 stand between the others in LIST.
fn commands(
    scenario: &mut Scenario,
    world: &mut World,
    mut offers: Vec<Offer>,
    refused: &mut Refused,
) {
    scenario.commands.push(words(&["start", "store", "table.txt"]));
    if world.chance.one_in(6) {
        ask(scenario, world, 0);
    }
    let held_back = offers.split_off(offers.len() - world.chance.below(3).min(offers.len()));
    let mut accepted = accepted(world, &offers);
    scenario.commands.push(words(&["file", "store", "--list", "LIST"]));
    let wrong = refused_offers(scenario, world, refused);
    let list = list(world, &offers);
    scenario.files.push(("LIST".into(), with_refused(list, &wrong, refused)));
    ask(scenario, world, accepted.files.len());
    read_some(scenario, world, &offers, &wrong, refused);
    if world.chance.one_in(5) {
        scenario.commands.push(words(&["rework", "store"]));
    }
    for offer in &held_back {
        scenario.commands.push(words(&["file", "store", &offer.publisher, &offer.path]));
        accept(&mut accepted, offer);
    }
    stop_at_a_missing_file(scenario, world);
    if !held_back.is_empty() || world.chance.one_in(4) {
        ask(scenario, world, accepted.files.len());
    }
    if world.chance.one_in(10) {
        scenario.notes.push("start\tagain".into());
        scenario.commands.push(words(&["start", "store", "table.txt"]));
    }
    scenario.commands.push(words(&["show", "store"]));
    rework(scenario, world);
    for offer in offers.iter().chain(&held_back).chain(&wrong) {
        scenario.files.push((offer.path.clone(), offer.bytes.clone()));
    }
}

/// All entries worked out again in the end: none changes, and what is asked then says so too.
fn rework(scenario: &mut Scenario, world: &mut World) {
    if world.chance.one_in(3) {
        for command in ["rework", "figure", "rework"] {
            scenario.commands.push(words(&[command, "store"]));
        }
    }
}

/// Command lines that are wrong.
pub const WRONG_REWORKS: [&str; 3] = ["rework", "rework store store", "rework none"];

/// What is wrong with a table that 6 refuses, or a line behind the good ones.
pub const WRONG_TABLES: [&str; 13] = [
    "first line twice",
    "last LF missing",
    "CR LF for LF",
    "empty line",
    "3055,,D00A,02012024",
    "3055,,D001,02012050",
    "3055,,D001,31121997",
    "3055,3056,D001,02012024",
    ",,D001,02012024",
    "3055,,D001,02012024,",
    "3055,D001,02012024",
    "123456789012,,D001,02012024",
    "blank behind a comma",
];

/// A table that 6 refuses, before the good one: nothing is written.
fn bad_start(scenario: &mut Scenario, world: &World, wrong: &str) {
    let good: String = world.numbers.iter().map(Num::table_line).collect();
    scenario.notes.push(format!("table\t{}", wrong));
    let bad = match wrong {
        "first line twice" => good + &world.numbers[0].table_line(),
        "last LF missing" => good.trim_end().to_string(),
        "CR LF for LF" => good.replace('\n', "\r\n"),
        "empty line" => good + "\n",
        "blank behind a comma" => good.replacen(',', ", ", 1),
        line => good + line + "\n",
    };
    scenario.files.push(("bad-table.txt".into(), bad.into_bytes()));
    scenario.commands.push(words(&["start", "store", "bad-table.txt"]));
}

fn list(world: &mut World, offers: &[Offer]) -> Vec<u8> {
    let mut text = String::new();
    for offer in offers {
        text += &format!("{}\t{}\n", offer.publisher, offer.path);
        if world.chance.one_in(30) {
            text += "\n";
        }
    }
    text.into_bytes()
}

/// Default and correction files of a network that has no other files: the worked faults of each
/// kind whose turn it is, and any others.
fn refused_offers(scenario: &mut Scenario, world: &World, refused: &mut Refused) -> Vec<Offer> {
    let others = if world.flavour == Flavour::Damage { 8 } else { 2 };
    let (reports, corrections) = (('D', FileKind::Default), ('K', FileKind::Correction));
    let mut files = Vec::new();
    files.extend(refused.worked_in_turn(reports.1).into_iter().map(|file| (reports.0, file)));
    files.extend(refused.worked_in_turn(corrections.1).into_iter().map(|f| (corrections.0, f)));
    files.extend((0..others).map(|_| {
        let (letter, kind) = refused.chance().pick(&[reports, corrections, corrections]);
        (letter, refused.any(kind))
    }));
    let mut offers = Vec::new();
    for (i, (letter, (name, bytes))) in files.into_iter().enumerate() {
        scenario.notes.push(name);
        let path = format!("refused{}/{}", i, file_name(letter, world.base));
        offers.push(Offer { publisher: "D777".to_string(), path, bytes });
    }
    offers
}

/// A LIST with these offers anywhere between its lines.
fn with_refused(list: Vec<u8>, offers: &[Offer], refused: &mut Refused) -> Vec<u8> {
    let mut lines: Vec<Vec<u8>> =
        list.split_inclusive(|c| *c == b'\n').map(<[u8]>::to_vec).collect();
    for offer in offers {
        let at = refused.chance().below(lines.len() + 1);
        lines.insert(at, format!("{}\t{}\n", offer.publisher, offer.path).into_bytes());
    }
    lines.concat()
}

/// The witness's own store after these offers: `show --before N` needs to know how many files there
/// are.
fn accepted(world: &World, offers: &[Offer]) -> Store {
    let table: String = world.numbers.iter().map(Num::table_line).collect();
    let mut store = Store::new(read_table(table.as_bytes()).unwrap_or_default());
    for offer in offers {
        accept(&mut store, offer);
    }
    store
}

fn accept(store: &mut Store, offer: &Offer) {
    let heading = Store::check_heading(offer.publisher.as_bytes(), offer.path.as_bytes());
    let _: Result<Answer, Answer> = heading.map(|heading| store.file(heading, &offer.bytes));
}

/// What `show` is asked for and is no number.
pub const STRANGE_NUMBERS: [&str; 7] =
    ["abc", "3055500-", "30555-30555", "123456789012", "3055501,", "D001", "-"];

/// All that can be asked about a store with this many files.
fn ask(scenario: &mut Scenario, world: &mut World, files: usize) {
    let named: Vec<String> = world.numbers.iter().map(Num::named).collect();
    let mut why = words(&["why", "store"]);
    why.extend(named.iter().cloned());
    if world.chance.one_in(3) {
        why.insert(2, world.chance.pick(&world.unknown).named());
    }
    for command in ["files", "show", "verdicts", "figure"] {
        scenario.commands.push(words(&[command, "store"]));
    }
    scenario.commands.push(why);
    for _ in 0..2.min(files) {
        let n = world.chance.between(1, files).to_string();
        let mut before = words(&["show", "store", "--before", &n]);
        if world.chance.one_in(3) {
            before.push(world.chance.pick(&named));
        }
        scenario.commands.push(before);
    }
    if world.chance.one_in(3) {
        let strange = world.chance.pick(&STRANGE_NUMBERS);
        scenario.notes.push(format!("number\t{}", strange));
        let unknown = world.chance.pick(&world.unknown).named();
        let known = world.chance.pick(&named);
        scenario.commands.push(words(&["show", "store", &known, &unknown, strange, &known]));
    }
}

/// `read` of an offered file, of one that is refused with 4, and of a request or response file,
/// which is refused more often than not.
fn read_some(
    scenario: &mut Scenario,
    world: &mut World,
    offers: &[Offer],
    wrong: &[Offer],
    refused: &mut Refused,
) {
    for i in 0..2.min(offers.len()) {
        let offer = world.chance.pick(offers);
        let offer = if i == 0 { offer } else { refused.chance().pick(wrong) };
        scenario.commands.push(words(&["read", &offer.path]));
    }
    let chance = &mut world.chance;
    let day = (world.base + chance.below(9) as Day).min(LAST_DAY);
    let (letter, kind, mut bytes) = if chance.one_in(2) && !offers.is_empty() {
        ('R', FileKind::Response, chance.pick(offers).bytes)
    } else {
        let date = chance.pick(&[String::new(), ddmmyyyy(day)]);
        let request = format!("{},{},\r", chance.pick(&world.codes), date).into_bytes();
        ('Q', FileKind::Request, request)
    };
    if chance.one_in(3) {
        bytes = damaged(chance, &bytes, &mut scenario.notes);
    } else if !refused.chance().one_in(4) {
        let (name, wrong) = refused.any(kind);
        scenario.notes.push(name);
        bytes = wrong;
    }
    read_also(scenario, format!("read/{}", file_name(letter, day)), bytes);
    read_worked(scenario, day, refused);
}

/// `read` of a file that is not offered.
fn read_also(scenario: &mut Scenario, path: String, bytes: Vec<u8>) {
    scenario.commands.push(words(&["read", &path]));
    scenario.files.push((path, bytes));
}

/// `read` of request and response files with the worked faults whose turn it is.
fn read_worked(scenario: &mut Scenario, day: Day, refused: &mut Refused) {
    let requests = refused.worked_in_turn(FileKind::Request).into_iter().map(|file| ('Q', file));
    let responses = refused.worked_in_turn(FileKind::Response).into_iter().map(|file| ('R', file));
    for (i, (letter, (name, bytes))) in requests.chain(responses).enumerate() {
        scenario.notes.push(name);
        read_also(scenario, format!("worked{}/{}", i, file_name(letter, day)), bytes);
    }
}

/// A file that can't be read stops filing: status 2, and the file behind it is not filed.
fn stop_at_a_missing_file(scenario: &mut Scenario, world: &mut World) {
    if !world.chance.one_in(10) {
        return;
    }
    let day = (world.base + 60).min(LAST_DAY);
    let publisher = world.chance.pick(&world.codes);
    let missing = format!("missing/{}", file_name('D', day));
    let behind = format!("behind/{}", file_name('K', day));
    scenario.notes.push("file\tmissing".into());
    scenario.files.push((behind.clone(), file_text(&[])));
    scenario.commands.push(words(&["file", "store", &publisher, &missing, &behind]));
}

/// The limits that scenarios reach.
pub const LIMITS: [&str; 4] =
    ["8192 regular records", "2048 corrections", "1024 numbers", "1024 files"];

/// Rarely: a scenario that reaches a limit.
fn limit_scenario(seed: u64) -> Scenario {
    let mut world = World::new(seed);
    world.numbers.truncate(2);
    let mut scenario = Scenario { files: Vec::new(), commands: Vec::new(), notes: Vec::new() };
    let limit = (seed / 40 % 4) as usize;
    let offers = match limit {
        0 => full_journal(&mut world, 'D', 8192),
        1 => full_journal(&mut world, 'K', 2048),
        2 => full_table(&mut scenario, &mut world),
        _ => many_files(&mut world),
    };
    scenario.notes.push(format!("limit\t{}", LIMITS[limit]));
    let table: String = world.numbers.iter().map(Num::table_line).collect();
    scenario.files.push(("table.txt".into(), table.into_bytes()));
    scenario.files.push(("LIST".into(), list(&mut world, &offers)));
    for command in ["start store table.txt", "file store --list LIST", "files store"] {
        scenario.commands.push(command.split(' ').map(str::to_string).collect());
    }
    for command in ["show", "verdicts", "figure", "rework"] {
        scenario.commands.push(words(&[command, "store"]));
    }
    scenario.commands.push(words(&["why", "store", &world.numbers[0].named()]));
    scenario.files.extend(offers.into_iter().map(|offer| (offer.path, offer.bytes)));
    scenario
}

/// Records up to the limit of a journal and one more; an empty file still has room, and the other
/// journal too.
fn full_journal(world: &mut World, letter: char, most: usize) -> Vec<Offer> {
    let mut left = most;
    let mut offers = Vec::new();
    let mut day = world.base + 15;
    while left > 0 {
        let records = left.min(world.chance.between(most / 8, most / 4));
        offers.push(many_records(world, letter, day, records));
        left -= records;
        day += 1;
        if left > 0 && left < most / 8 {
            offers.push(many_records(world, letter, day, left + 1)); // one too many
        }
    }
    let other = if letter == 'D' { 'K' } else { 'D' };
    for (letter, records) in [(letter, 1), (letter, 0), (other, 3), (letter, 2)] {
        day += 1;
        offers.push(many_records(world, letter, day, records));
    }
    offers
}

/// A file of records of one publisher, picked from a pool, so that many are told again.
fn many_records(world: &mut World, letter: char, day: Day, records: usize) -> Offer {
    let publisher = world.chance.pick(&world.codes);
    world.told.clear();
    for _ in 0..40 {
        world.tell();
    }
    let own = |told: &&Told| told.letter == letter && told.publisher == publisher;
    let pool: Vec<String> = world.told.iter().filter(own).map(|t| t.record.clone()).collect();
    let texts: Vec<String> = (0..records).map(|_| world.chance.pick(&pool)).collect();
    let path = format!("{}/{}", publisher, file_name(letter, day.min(LAST_DAY)));
    Offer { publisher, path, bytes: file_text(&texts) }
}

/// A table of 1,024 numbers, and before it one of 1,025.
fn full_table(scenario: &mut Scenario, world: &mut World) -> Vec<Offer> {
    let last = world.numbers[0].clone();
    for i in 0..1024 - world.numbers.len() {
        world.numbers.push(Num {
            num1: (40000 + i).to_string(),
            num2: String::new(),
            ..last.clone()
        });
    }
    let mut one_more: String = world.numbers.iter().map(Num::table_line).collect();
    one_more += "5,,D001,01012000\n";
    scenario.files.push(("bad-table.txt".into(), one_more.into_bytes()));
    scenario.commands.push(words(&["start", "store", "bad-table.txt"]));
    let day = world.base + 8;
    (0..4).map(|i| many_records(world, 'D', day + i, 60)).collect()
}

/// 1,024 files and one more of each kind, with a record and without.
fn many_files(world: &mut World) -> Vec<Offer> {
    let mut offers = Vec::new();
    for i in 0..1024u32 {
        let (publisher, letter) = (format!("D{:03}", i % 997), if i % 5 == 0 { 'K' } else { 'D' });
        let day = world.base.saturating_sub(90) + i / 997;
        let path = format!("{}/{}", publisher, file_name(letter, day));
        offers.push(Offer { publisher, path, bytes: file_text(&[]) });
    }
    for (letter, records) in [('D', 1), ('K', 1), ('D', 0), ('K', 0)] {
        let day = world.base + 8 + records as Day;
        offers.push(many_records(world, letter, day, records));
    }
    offers
}
