//! What networks tell: reports and corrections as text, and the files they come in.

use crate::calendar::{date_of, Day};
use crate::files::closing_record;

/// A number with its line in the table.
#[derive(Clone)]
pub struct Num {
    pub num1: String,
    pub num2: String,
    pub owner: String,
    pub set_up: Day,
}

impl Num {
    /// As the command line names it.
    pub fn named(&self) -> String {
        if self.num2.is_empty() {
            self.num1.clone()
        } else {
            format!("{}-{}", self.num1, self.num2)
        }
    }

    pub fn table_line(&self) -> String {
        format!("{},{},{},{}\n", self.num1, self.num2, self.owner, ddmmyyyy(self.set_up))
    }
}

/// A report; the gaining network of a Z may be empty.
#[derive(Clone)]
pub struct Rep {
    pub status: char,
    pub number: Num,
    pub date: Day,
    pub losing: String,
    pub gaining: String,
}

impl Rep {
    pub fn text(&self) -> String {
        let Num { num1, num2, .. } = &self.number;
        let date = ddmmyyyy(self.date);
        format!("{},{},{},{},{},{}", num1, num2, date, self.gaining, self.losing, self.status)
    }

    /// Who has to publish it.
    pub fn publisher(&self) -> String {
        if self.status == 'P' {
            self.gaining.clone()
        } else {
            self.losing.clone()
        }
    }
}

/// A record on its way into the file of a publisher and a day.
#[derive(Clone)]
pub struct Told {
    pub publisher: String,
    pub day: Day,
    pub letter: char,
    pub record: String,
    /// The report that it is, for objections and repetitions.
    pub report: Option<Rep>,
}

pub fn ddmmyyyy(day: Day) -> String {
    let (y, m, d) = date_of(day);
    format!("{:02}{:02}{:04}", d, m, y)
}

pub fn file_name(letter: char, day: Day) -> String {
    let (y, m, d) = date_of(day);
    format!("1{}{:02}{:02}{:02}.txt", letter, y % 100, m, d)
}

pub fn file_text(records: &[String]) -> Vec<u8> {
    let lines: String = records.iter().map(|record| record.clone() + "\r").collect();
    (lines + &closing_record(records.len())).into_bytes()
}
