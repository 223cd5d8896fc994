//! Files that are refused with 4: worked lines of wrong.rs among good records, records that were
//! struck, and damaged files. They take chances of their own, so that the rest of a scenario is
//! what it is without them.

use crate::chance::Chance;
use crate::damage::DAMAGES;
use crate::files::{closing_record, read_file, FileKind};
use crate::known::worked_name;
use crate::scenario::turn;
use crate::strike::struck;
use crate::wrong::{good_lines, unended_lines, wrong_lines, WRONG_FILES};

/// As many scenarios as are run at each gate whatever the commit.
const ROUND: usize = 80;

pub struct Refused {
    chance: Chance,
    turn: usize,
    /// Good records of the scenario, reports and corrections.
    reports: Vec<Vec<u8>>,
    corrections: Vec<Vec<u8>>,
}

/// What is wrong with a file, in the words of known.rs, and its bytes.
pub type RefusedFile = (String, Vec<u8>);

/// How many worked faults there are for files of a kind.
pub fn worked_count(kind: FileKind) -> usize {
    wrong_lines(kind).len() + unended_lines(kind).len() + wrong_files(kind).len()
}

fn wrong_files(kind: FileKind) -> Vec<&'static [u8]> {
    WRONG_FILES.iter().filter(|file| file.0 == kind).map(|file| file.1).collect()
}

impl Refused {
    pub fn new(seed: u64, reports: Vec<Vec<u8>>, corrections: Vec<Vec<u8>>) -> Refused {
        Refused { chance: Chance::new(seed + (1 << 32)), turn: turn(seed), reports, corrections }
    }

    pub fn chance(&mut self) -> &mut Chance {
        &mut self.chance
    }

    /// The worked faults whose turn it is, so many at a time that ROUND scenarios in a row have all
    /// of them.
    pub fn worked_in_turn(&mut self, kind: FileKind) -> Vec<RefusedFile> {
        let at_a_time = (worked_count(kind) + ROUND - 1) / ROUND;
        let first = self.turn * at_a_time;
        (first..first + at_a_time).map(|turn| self.worked(kind, turn)).collect()
    }

    /// A worked fault, a damaged file, or a struck record; what is good all the same is passed over.
    pub fn any(&mut self, kind: FileKind) -> RefusedFile {
        for _ in 0..20 {
            let (name, bytes) = match self.chance.below(4) {
                0 => {
                    let turn = self.chance.below(1 << 16);
                    self.worked(kind, turn)
                }
                1 => {
                    let (name, damage) = self.chance.pick(DAMAGES);
                    let good = self.file(kind, None);
                    (format!("damage\t{}", name), damage(&mut self.chance, &good))
                }
                _ => ("damage\tstruck record".into(), self.struck_file(kind)),
            };
            if read_file(kind, &bytes).is_err() {
                return (name, bytes);
            }
        }
        self.worked(kind, 0)
    }

    /// The worked lines of a kind in files, then the worked files.
    fn worked(&mut self, kind: FileKind, turn: usize) -> RefusedFile {
        let (lines, unended) = (wrong_lines(kind), unended_lines(kind));
        let at = turn % worked_count(kind);
        let bytes = if at < lines.len() {
            self.file(kind, Some(lines[at].0))
        } else if at < lines.len() + unended.len() {
            let before = if kind == FileKind::Request { Vec::new() } else { self.some(kind, 0) };
            [&before[..], unended[at - lines.len()].0].concat()
        } else {
            wrong_files(kind)[at - lines.len() - unended.len()].to_vec()
        };
        (worked_name(kind, at), bytes)
    }

    fn struck_file(&mut self, kind: FileKind) -> Vec<u8> {
        let good = self.record(kind);
        let line = struck(&mut self.chance, &good);
        self.file(kind, Some(&line))
    }

    fn record(&mut self, kind: FileKind) -> Vec<u8> {
        let own: &[Vec<u8>] = match kind {
            FileKind::Default | FileKind::Response => &self.reports,
            FileKind::Correction => &self.corrections,
            FileKind::Request => &[],
        };
        if own.is_empty() {
            self.chance.pick(good_lines(kind)).to_vec()
        } else {
            self.chance.pick(own)
        }
    }

    /// A few good records with their ends.
    fn some(&mut self, kind: FileKind, least: usize) -> Vec<u8> {
        let count = self.chance.between(least, 2);
        (0..count).flat_map(|_| [self.record(kind), b"\r".to_vec()].concat()).collect()
    }

    /// A file with a line among good records, or with good records alone; a request file is one
    /// line.
    fn file(&mut self, kind: FileKind, line: Option<&[u8]>) -> Vec<u8> {
        if kind == FileKind::Request {
            let line = line.map_or_else(|| self.record(kind), <[u8]>::to_vec);
            return [&line[..], b"\r"].concat();
        }
        let mut file = self.some(kind, 1 - usize::from(line.is_some()));
        if let Some(line) = line {
            file.extend_from_slice(line);
            file.push(b'\r');
            file.extend(self.some(kind, 0));
        }
        let records = file.iter().filter(|c| **c == b'\r').count();
        file.extend_from_slice(closing_record(records).as_bytes());
        file
    }
}
