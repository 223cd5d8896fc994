//! The generator: writes seeded scenarios, and says what they reach.

use std::collections::BTreeMap;
use std::fs;
use std::io;
use std::path::Path;
use witness::calendar::{holiday_list_before, the_exception};
use witness::commands;
use witness::files::read_name;
use witness::known::{kind_name, known, EXCEPTION};
use witness::layout::ReportKind;
use witness::scenario::{fills_a_store, scenario, Scenario};
use witness::store::{self, shown};
use witness::verdict::{Content, Filed};

const USAGE: &str = "usage: generate SEED FOLDER       writes the scenario of this seed
       generate --what SEED        says what is in it
       generate --coverage N       runs the scenarios 1 to N through the witness and counts
       generate --coverage FROM TO ..    runs those of these seeds";

fn main() {
    let args: Vec<String> = std::env::args().skip(1).collect();
    let args: Vec<&str> = args.iter().map(|a| &a[..]).collect();
    let status = match run_line(&args) {
        Ok(true) => 0,
        Ok(false) => 1,
        Err(words) => {
            eprintln!("{}", words);
            2
        }
    };
    std::process::exit(status);
}

/// One command line; false where something never occurred.
fn run_line(args: &[&str]) -> Result<bool, String> {
    let number = |word: &str| word.parse::<u64>().map_err(|_| USAGE.to_string());
    match *args {
        ["--coverage", n] => coverage(&[(1, number(n)?)]),
        ["--coverage", ref seeds @ ..] if !seeds.is_empty() && seeds.len() % 2 == 0 => {
            let range = |pair: &[&str]| Ok((number(pair[0])?, number(pair[1])?));
            coverage(&seeds.chunks(2).map(range).collect::<Result<Vec<_>, String>>()?)
        }
        ["--what", seed] => {
            scenario(number(seed)?).notes.iter().for_each(|note| println!("{}", note));
            Ok(true)
        }
        [seed, folder] => {
            let written = write(&scenario(number(seed)?), Path::new(folder));
            written.map(|()| true).map_err(|e| format!("{}: {}", folder, e))
        }
        _ => Err(USAGE.to_string()),
    }
}

/// Writes the files of a scenario, and its command lines to COMMANDS, each as a shell reads it.
fn write(scenario: &Scenario, folder: &Path) -> io::Result<()> {
    fs::create_dir_all(folder)?;
    for (path, bytes) in &scenario.files {
        let path = folder.join(path);
        if let Some(parent) = path.parent() {
            fs::create_dir_all(parent)?;
        }
        fs::write(path, bytes)?;
    }
    let quoted = |words: &Vec<String>| words.iter().map(|w| quote(w)).collect::<Vec<_>>().join(" ");
    let lines: String = scenario.commands.iter().map(|command| quoted(command) + "\n").collect();
    fs::write(folder.join("COMMANDS"), lines)
}

fn quote(word: &str) -> String {
    let plain = |c: char| c.is_ascii_alphanumeric() || "-_./,".contains(c);
    if !word.is_empty() && word.chars().all(plain) {
        word.to_string()
    } else {
        format!("'{}'", word)
    }
}

/// Runs the scenarios of these seeds, FROM to TO, through the witness and prints how often each thing
/// that is known occurred, and others; false where one that is known never did. What only full
/// stores have is asked for where a scenario among them fills one.
fn coverage(ranges: &[(u64, u64)]) -> Result<bool, String> {
    let seeds: Vec<u64> = ranges.iter().flat_map(|(from, to)| *from..=*to).collect();
    let known = known(seeds.iter().any(|seed| fills_a_store(*seed)));
    let mut counts: BTreeMap<String, usize> = known.into_iter().map(|what| (what, 0)).collect();
    let folder = std::env::temp_dir().join(format!("coverage-{}", std::process::id()));
    for seed in &seeds {
        let ran = run(&scenario(*seed), &folder, &mut counts);
        ran.map_err(|error| format!("scenario {}: {}", seed, error))?;
    }
    println!("scenarios\t{}", seeds.len());
    counts.iter().for_each(|(what, count)| println!("{}\t{}", what, count));
    Ok(counts.values().all(|count| *count > 0))
}

/// Runs one scenario in a folder of its own.
fn run(scenario: &Scenario, folder: &Path, counts: &mut BTreeMap<String, usize>) -> io::Result<()> {
    write(scenario, folder)?;
    let before = std::env::current_dir()?;
    std::env::set_current_dir(folder)?;
    let mut verdicts = BTreeMap::new();
    for note in &scenario.notes {
        *counts.entry(note.clone()).or_insert(0) += 1;
    }
    for command in &scenario.commands {
        let args: Vec<&[u8]> = command.iter().map(|word| word.as_bytes()).collect();
        let mut out = Vec::new();
        let status = commands::run(&args, &mut out).unwrap_or(2);
        *counts.entry(format!("status\t{}", status)).or_insert(0) += 1;
        count_output(command, &out, counts, &mut verdicts);
    }
    for (what, count) in verdicts {
        *counts.entry(what).or_insert(0) += count;
    }
    for (what, count) in EXCEPTION.iter().zip(exception()?) {
        *counts.entry(format!("2017-10-31\t{}", what)).or_insert(0) += count;
    }
    std::env::set_current_dir(before)?;
    fs::remove_dir_all(folder)
}

/// The counts of EXCEPTION for the store that a scenario leaves.
fn exception() -> io::Result<[usize; 4]> {
    let store = store::load(Path::new("store"))?;
    let records = store.records().0;
    let (was, is) = (store.outcome_with(&holiday_list_before()), store.outcome());
    let is_z = |filed: &Filed| match &filed.content {
        Content::Report(report) => report.kind == ReportKind::Z,
        Content::Correction(_) => false,
    };
    let over_it = |pair: &&(usize, usize)| {
        let (first, second) = (&records[pair.0], &records[pair.1]);
        is_z(first) && first.published < the_exception() && second.published > the_exception()
    };
    let returns = is.pairs.iter().flatten().filter(over_it).count();
    let verdicts = (0..records.len()).filter(|i| was.verdicts[*i] != is.verdicts[*i]).count();
    let lines = 0..store.table.len();
    let entries = lines.filter(|i| shown(&was.entries[*i]) != shown(&is.entries[*i])).count();
    Ok([returns, verdicts, entries, verdicts.min(1)])
}

/// Counts what a command printed; of verdicts, those that a scenario ends with.
fn count_output(
    command: &[String],
    out: &[u8],
    counts: &mut BTreeMap<String, usize>,
    verdicts: &mut BTreeMap<String, usize>,
) {
    let text = String::from_utf8_lossy(out);
    if command[0] == "verdicts" {
        verdicts.clear();
    }
    let mut latest = "";
    for line in text.lines() {
        let items: Vec<&str> = line.split('\t').collect();
        let refused_file = if command[0] == "read" { &command[1][..] } else { items[0] };
        if let [.., "refused", "4", _, field, cause] = items[..] {
            *counts.entry(format!("cause\t{}\t{}", command[0], cause)).or_insert(0) += 1;
            let fault = format!("fault\t{}\t{}\t{}", kind(refused_file), field, cause);
            *counts.entry(fault).or_insert(0) += 1;
        }
        let mut count = |what: String| *counts.entry(what).or_insert(0) += 1;
        match (&command[0][..], &items[..]) {
            ("file", [_, "filed", _]) | ("start", ["started", _]) => count("answer\t0".into()),
            ("file", [_, "refused", number, ..]) => count(format!("answer\t{}", number)),
            ("start", ["refused", number]) => count(format!("answer\t{}", number)),
            ("why", [_, "pair", first, _, second, _]) => {
                count(format!("why\t{}", pair(first, second)))
            }
            ("why", [_, answer, ..]) => count(format!("why\t{}", answer)),
            ("files", [_, _, _, day, _]) => {
                if latest > *day {
                    count("arrival\tlate".into());
                }
                latest = latest.max(day);
            }
            ("show", [_, _, last, open]) => {
                for sort in entry_sorts(last, open) {
                    count(format!("entry\t{}", sort));
                }
            }
            ("read", [answer, ..]) => count(format!("read\t{}", answer)),
            ("rework", ["changed", number, ..]) => count(format!("rework\tchanged {}", number)),
            ("verdicts", [_, _, _, _, _, verdict, _]) => {
                *verdicts.entry(format!("verdict\t{}", verdict)).or_insert(0) += 1;
            }
            _ => (),
        }
    }
}

/// What a file is by its name.
fn kind(path: &str) -> &'static str {
    read_name(path.as_bytes()).map_or("none", |(kind, _)| kind_name(kind))
}

/// Which reports a pair is made of, in the order processed; a Z without gaining network is `z`.
fn pair(first: &str, second: &str) -> String {
    let status = |record: &str| match record.split(',').collect::<Vec<_>>()[..] {
        [_, _, _, "", _, "Z"] => "z".to_string(),
        [.., status] => status.to_string(),
        [] => String::new(),
    };
    status(first) + " before " + &status(second)
}

/// What is worth counting about an entry.
fn entry_sorts(last: &str, open: &str) -> Vec<&'static str> {
    let taken = if open == "-" { 0 } else { open.split(';').count() };
    let in_row = open.split(';').enumerate().all(|(i, place)| place.starts_with(&i.to_string()));
    let mut sorts = Vec::new();
    if last != "-" && taken > 0 {
        sorts.push("confirmed, with open reports");
    }
    if taken > 0 && !in_row {
        sorts.push("with a free place before a taken one");
    }
    if taken == 8 {
        sorts.push("with eight open reports");
    }
    sorts
}
