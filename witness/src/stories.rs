//! Stories that networks tell about a few numbers in a few days, so that they collide often.

use crate::calendar::{
    holiday_list, holiday_list_before, nine_days, the_exception, weekday, working_day_after, Day,
    FIRST_YEAR, LAST_DAY, LAST_YEAR,
};
use crate::chance::Chance;
use crate::told::{Num, Rep, Told};

/// What a scenario is about most of all.
#[derive(Clone, Copy, PartialEq, Eq, Debug)]
pub enum Flavour {
    Mixed,
    Returns,
    Crowd,
    Objections,
    Blocks,
    FirstDays,
    LastDays,
    Damage,
    OneDay,
    Late,
    Holidays,
    Breaches,
}

pub const FLAVOURS: [Flavour; 12] = [
    Flavour::Mixed,
    Flavour::Returns,
    Flavour::Crowd,
    Flavour::Objections,
    Flavour::Blocks,
    Flavour::FirstDays,
    Flavour::LastDays,
    Flavour::Damage,
    Flavour::OneDay,
    Flavour::Late,
    Flavour::Holidays,
    Flavour::Breaches,
];

/// The stories that are told.
pub const STORIES: [&str; 12] = [
    "port",
    "return",
    "return over the exception",
    "near",
    "object",
    "objected pair",
    "other code",
    "again",
    "breach",
    "crowd",
    "refill",
    "one day",
];

/// Codes of objections, the first ones more often than the others.
pub const OBJECTION_CODES: [&str; 16] = [
    "2500", "2500", "2500", "2501", "2502", "2505", "2508", "2510", "2547", "2599", "2509", "2511",
    "2546", "2548", "2560", "2598",
];

/// Correction codes that are not built at first.
pub const OTHER_CODES: [&str; 22] = [
    "0000", "0100", "0300", "0500", "2000", "2046", "2100", "2200", "2400", "2499", "2600", "3000",
    "3025", "4100", "4200", "4500", "4700", "6000", "6100", "6101", "6200", "9999",
];

/// The rules that a story breaks, by the verdict that it is after.
pub const BREACHES: [&str; 8] = ["12", "13", "14 of a Z", "15", "16", "17 or 18", "19", "14"];

pub struct World {
    pub chance: Chance,
    pub flavour: Flavour,
    /// The numbers of the table, and some that are not in it.
    pub numbers: Vec<Num>,
    pub unknown: Vec<Num>,
    pub codes: Vec<String>,
    /// Stories begin on this day or soon after it.
    pub base: Day,
    pub told: Vec<Told>,
    /// Which stories were told, and what they chose, for the coverage report.
    pub notes: Vec<&'static str>,
    pub choices: Vec<String>,
}

/// Numbers that are easily taken for each other.
const POOL: [(&str, &str); 14] = [
    ("3055501", ""),
    ("3055500", ""),
    ("3055500", "3055509"),
    ("3055500", "3055599"),
    ("3055500", "3055549"),
    ("30555", ""),
    ("305550", "305559"),
    ("3055000", "3055999"),
    ("12345678901", ""),
    ("12345678900", "12345678909"),
    ("00", "99"),
    ("00", ""),
    ("7", ""),
    ("03055501", ""),
];

impl World {
    pub fn new(seed: u64) -> World {
        let mut chance = Chance::new(seed);
        let flavour = FLAVOURS[(seed % FLAVOURS.len() as u64) as usize];
        let base = base_day(&mut chance, flavour);
        let codes = some_codes(&mut chance);
        let mut pool: Vec<(&str, &str)> = POOL.to_vec();
        if flavour == Flavour::Blocks {
            pool.retain(|(num1, _)| num1.starts_with("3055"));
        }
        chance.shuffle(&mut pool);
        let mut numbers = Vec::new();
        for (num1, num2) in pool {
            let set_up = match chance.below(8) {
                0 => base + 3,
                1 => base,
                _ => base.saturating_sub(chance.below(40) as Day),
            };
            let owner = chance.pick(&codes);
            numbers.push(Num { num1: num1.into(), num2: num2.into(), owner, set_up });
        }
        let known = match flavour {
            Flavour::Crowd | Flavour::OneDay => 1,
            _ => chance.between(2, 4),
        };
        let unknown = numbers.split_off(known);
        World {
            chance,
            flavour,
            numbers,
            unknown,
            codes,
            base,
            told: Vec::new(),
            notes: Vec::new(),
            choices: Vec::new(),
        }
    }

    /// Tells as many stories as the flavour asks for.
    pub fn tell(&mut self) {
        let stories = self.chance.between(5, 14);
        for _ in 0..stories {
            let story = self.next_story();
            self.tell_story(story);
        }
    }

    fn next_story(&mut self) -> &'static str {
        let mixed = [
            "port",
            "port",
            "port",
            "return",
            "near",
            "object",
            "objected pair",
            "other code",
            "again",
            "breach",
        ];
        let own: &[&'static str] = match self.flavour {
            _ if self.base == before_the_exception() => {
                &["return over the exception", "return over the exception", "return", "port"]
            }
            Flavour::Returns | Flavour::Holidays => {
                &["return", "return", "return", "port", "object"]
            }
            Flavour::LastDays => &["return", "return", "port"],
            Flavour::Crowd => &["crowd", "refill", "refill", "port", "objected pair"],
            Flavour::Objections => {
                &["objected pair", "objected pair", "object", "port", "return", "other code"]
            }
            Flavour::Blocks => &["port", "near", "near"],
            Flavour::OneDay => &["one day", "one day", "object"],
            Flavour::Breaches => &["breach", "breach", "again", "near"],
            _ => &mixed,
        };
        if self.chance.one_in(4) {
            self.chance.pick(&mixed)
        } else {
            self.chance.pick(own)
        }
    }

    fn tell_story(&mut self, story: &'static str) {
        self.notes.push(story);
        match story {
            "port" => self.port(),
            "return" => self.give_back(),
            "return over the exception" => self.give_back_over_the_exception(),
            "near" => self.near(),
            "object" => self.object(),
            "objected pair" => self.objected_pair(),
            "other code" => {
                let code = self.chance.pick(&OTHER_CODES);
                self.tell_code(code);
            }
            "again" => self.again(),
            "breach" => self.breach(),
            "crowd" => self.crowd(),
            "refill" => self.refill(),
            _ => self.one_day(),
        }
    }

    fn number(&mut self) -> Num {
        self.chance.pick(&self.numbers)
    }

    fn code(&mut self) -> String {
        self.chance.pick(&self.codes)
    }

    /// Another code than this one.
    fn other(&mut self, than: &str) -> String {
        let codes: Vec<String> = self.codes.iter().filter(|c| *c != than).cloned().collect();
        self.chance.pick(&codes)
    }

    fn day(&mut self) -> Day {
        let days = match self.flavour {
            Flavour::Holidays | Flavour::Returns => 6,
            _ => 12,
        };
        self.base + self.chance.below(days) as Day
    }

    /// A report of a move from one network to another.
    fn report(&mut self, status: char) -> Rep {
        let (number, date, losing) = (self.number(), self.day(), self.code());
        let gaining = self.other(&losing);
        Rep { status, number, date, losing, gaining }
    }

    /// A return to the owner; with or without the gaining network.
    fn returned(&mut self) -> Rep {
        let (number, date) = (self.number(), self.day());
        let losing = self.other(&number.owner);
        let gaining = self.chance.pick(&[String::new(), number.owner.clone()]);
        Rep { status: 'Z', number, date, losing, gaining }
    }

    /// A day or a few after the porting date.
    fn soon(&mut self, date: Day) -> Day {
        date + self.chance.pick(&[1, 1, 1, 2, 2, 3, 4])
    }

    fn publish_by(&mut self, publisher: String, report: Rep, day: Day) {
        let day = day.min(LAST_DAY);
        let report = Rep { date: report.date.min(LAST_DAY), ..report };
        let record = report.text();
        self.told.push(Told { publisher, day, letter: 'D', record, report: Some(report) });
    }

    fn publish(&mut self, report: Rep, day: Day) {
        self.publish_by(report.publisher(), report, day);
    }

    fn correct(&mut self, publisher: String, day: Day, record: String) {
        let day = day.min(LAST_DAY);
        self.told.push(Told { publisher, day, letter: 'K', record, report: None });
    }

    /// P and L, in either order; one may stay away.
    fn port(&mut self) {
        let p = self.report('P');
        let l = Rep { status: 'L', ..p.clone() };
        let (p_day, l_day) = (self.soon(p.date), self.soon(p.date));
        let left_out = self.chance.below(8);
        if left_out != 0 {
            self.publish(p, p_day);
        }
        if left_out != 1 {
            self.publish(l, l_day);
        }
    }

    /// Z and the owner's P around the fifth working day after the Z.
    fn give_back(&mut self) {
        let z = self.returned();
        let p = Rep { status: 'P', gaining: z.number.owner.clone(), ..z.clone() };
        let z_day = self.soon(z.date);
        let working_days = self.chance.pick(&[4, 5, 5, 5, 6]);
        let due = due_after(working_days, z_day);
        let p_day = match self.chance.below(8) {
            0 => due.saturating_sub(1),
            1 => due + 1,
            2 => z_day + 5,
            3 => z_day,
            _ => due,
        };
        self.publish(z, z_day);
        if self.chance.one_in(3) {
            self.publish(p.clone(), p_day.saturating_sub(1));
        }
        self.publish(p, p_day);
    }

    /// A Z in the week before 31 October 2017, so that its fifth working day falls behind that
    /// Tuesday, and the owner's P on some days from then on up to the fifth working day, or up to
    /// the day that was the fifth when the Tuesday counted.
    fn give_back_over_the_exception(&mut self) {
        let tuesday = the_exception();
        let z_day = tuesday - self.chance.pick(&[7, 6, 6, 5, 5, 4, 1]);
        let z = Rep { date: z_day - self.chance.pick(&[1, 1, 2]), ..self.returned() };
        let p = Rep { status: 'P', gaining: z.number.owner.clone(), ..z.clone() };
        let due = due_after(5, z_day);
        let due_before = working_day_after(5, z_day, &holiday_list_before()).unwrap_or(due);
        let last = self.chance.pick(&[due_before, due_before, due, due + 1]);
        self.publish(z, z_day);
        for day in tuesday..last {
            if self.chance.one_in(3) {
                self.publish(p.clone(), day);
            }
        }
        self.publish(p, last);
    }

    /// Sisters that must not match: one of number, date, losing and gaining network differs.
    fn near(&mut self) {
        let p = self.report('P');
        let status = self.chance.pick(&['L', 'L', 'Z']);
        let mut l = Rep { status, ..p.clone() };
        match self.chance.below(4) {
            0 => l.number = self.number(),
            1 => l.date += 1,
            2 => l.losing = self.code(),
            _ => l.gaining = self.code(),
        }
        let (p_day, l_day) = (self.soon(p.date), self.soon(l.date));
        self.publish(p, p_day);
        self.publish(l, l_day);
    }

    /// An objection to a report that was told, of the same day or later, by anyone; sometimes the
    /// report that it names is slightly another one.
    fn object(&mut self) {
        let reports: Vec<Told> = self.told.iter().filter(|t| t.report.is_some()).cloned().collect();
        if reports.is_empty() {
            return self.port();
        }
        let told = self.chance.pick(&reports);
        let mut named = match told.report {
            Some(report) => report,
            None => return,
        };
        let code = self.chance.pick(&OBJECTION_CODES);
        self.choices.push(format!("code\t{}", code));
        match self.chance.below(12) {
            0 => named.date = named.date.saturating_sub(1),
            1 => named.gaining = self.code(),
            2 => named.status = self.chance.pick(&['P', 'L']),
            3 if named.status == 'Z' => named.gaining = named.number.owner.clone(),
            4 if named.status == 'Z' => named.gaining = String::new(),
            _ => (),
        }
        if named.gaining.is_empty() && named.status != 'Z' {
            named.gaining = named.number.owner.clone();
        }
        let objector = match self.chance.below(5) {
            0 => named.publisher(),
            1 => named.losing.clone(),
            _ => self.code(),
        };
        let day = told.day + self.chance.pick(&[0, 1, 1, 1, 2, 3]);
        let k = self.part_k(&named);
        self.correct(objector, day, format!("{}U:{},K:{}", code, named.text(), k));
    }

    /// A pair whose first report is objected to before, on or after the day of its sister; the
    /// report may be told again afterwards.
    fn objected_pair(&mut self) {
        let first_status = self.chance.pick(&['P', 'L', 'Z']);
        let first = if first_status == 'Z' { self.returned() } else { self.report(first_status) };
        let mut sister =
            Rep { status: if first_status == 'P' { 'L' } else { 'P' }, ..first.clone() };
        if sister.gaining.is_empty() {
            sister.gaining = sister.number.owner.clone();
        }
        let day = first.date + 1;
        let sister_day = if first_status == 'Z' {
            due_after(5, day)
        } else {
            day + self.chance.between(1, 3) as Day
        };
        let objection_day = match self.chance.below(6) {
            0 => day,
            1 => day + 1,
            2 => sister_day + 1,
            3 => sister_day.saturating_sub(1),
            _ => sister_day,
        };
        let objector = self.other(&first.publisher());
        let code = self.chance.pick(&["2500", "2500", "2502", "2599"]);
        let k = self.part_k(&first);
        let record = format!("{}U:{},K:{}", code, first.text(), k);
        self.publish(first.clone(), day);
        self.publish(sister, sister_day);
        self.correct(objector, objection_day, record);
        if self.chance.one_in(3) {
            self.publish(first, sister_day + 1);
        }
    }

    /// The K part of an objection: empty, or what the objector knows.
    fn part_k(&mut self, named: &Rep) -> String {
        match self.chance.below(6) {
            0 => Rep { date: named.date.saturating_sub(1), ..named.clone() }.text(),
            1 => format!("{},{},,,,", named.number.num1, named.number.num2),
            2 => format!(",,,,{},", named.losing),
            _ => ",,,,,".to_string(),
        }
    }

    /// A correction with a code that is not built at first, with one part or both.
    pub fn tell_code(&mut self, code: &str) {
        self.choices.push(format!("code\t{}", code));
        let mut report = self.report('P');
        if self.chance.one_in(5) {
            report.number = self.chance.pick(&self.unknown);
        }
        let other = self.report('L');
        let number = format!("{},{},,,,", report.number.num1, report.number.num2);
        let (u, k) = match self.chance.below(5) {
            0 => (report.text(), ",,,,,".to_string()),
            1 => (",,,,,".to_string(), report.text()),
            2 => (report.text(), other.text()),
            3 => (number.clone(), number),
            _ => (format!(",,,{},,", report.gaining), number),
        };
        let (publisher, day) = (self.code(), self.soon(report.date));
        self.correct(publisher, day, format!("{}U:{},K:{}", code, u, k));
    }

    /// A record told again: another day, another publisher, or the very same file.
    fn again(&mut self) {
        if self.told.is_empty() {
            return self.port();
        }
        let mut told = self.chance.pick(&self.told);
        match self.chance.below(4) {
            0 => told.publisher = self.code(),
            1 => (),
            _ => told.day = (told.day + self.chance.between(1, 4) as Day).min(LAST_DAY),
        }
        self.told.push(told);
    }

    /// A report that breaks one or two of the rules that give 12 to 19.
    fn breach(&mut self) {
        let status = self.chance.pick(&['P', 'L', 'Z']);
        let mut report = if status == 'Z' { self.returned() } else { self.report(status) };
        let mut day = self.soon(report.date);
        let mut publisher = None;
        for _ in 0..self.chance.pick(&[1, 1, 2]) {
            let breach = self.chance.pick(&BREACHES);
            self.choices.push(format!("breach\t{}", breach));
            match breach {
                "12" => report.number = self.chance.pick(&self.unknown),
                "13" => publisher = Some(self.code()),
                "14 of a Z" => report.losing = report.number.owner.clone(),
                "15" => day = report.date.saturating_sub(self.chance.below(3) as Day),
                "16" => report.date = report.number.set_up.saturating_sub(1),
                "17 or 18" => report.date = self.base,
                "19" => {
                    report.status = 'Z';
                    report.gaining = self.code();
                }
                _ => {
                    report.status = 'P';
                    report.gaining = report.losing.clone();
                }
            }
        }
        if report.gaining.is_empty() && report.status != 'Z' {
            report.gaining = report.number.owner.clone();
        }
        let publisher = publisher.unwrap_or_else(|| report.publisher());
        self.publish_by(publisher, report, day);
    }

    /// More open reports than places, then a confirmation that keeps the newer ones, then more.
    fn crowd(&mut self) {
        let first = self.report('L');
        let day = self.base + 13 + self.chance.below(3) as Day;
        let reports = self.chance.between(5, 11);
        for i in 0..reports {
            let mut report = Rep { date: self.base + i as Day, ..first.clone() };
            if self.chance.one_in(4) {
                report.gaining = self.other(&report.losing);
            }
            if self.chance.one_in(5) {
                report.status = 'P';
            }
            let later = self.chance.below(3) as Day;
            self.publish(report, day + later);
        }
        if self.chance.one_in(2) {
            let date = self.base + self.chance.below(8) as Day;
            let day = day + self.chance.below(5) as Day;
            self.publish(Rep { status: 'P', date, ..first }, day);
        }
    }

    /// A confirmation frees all places; then one report a day until they are full, with the P of a
    /// Z among them, an objection to one of them, and reports for the place that it freed. One such
    /// story follows the other.
    fn refill(&mut self) {
        let refills = self.notes.iter().filter(|note| **note == "refill").count() as Day;
        let start = self.base + 22 * refills;
        let l = Rep { date: start, ..self.report('L') };
        self.publish(l.clone(), start + 1);
        self.publish(Rep { status: 'P', ..l.clone() }, start + 2);
        let reports = self.chance.between(8, 9) as Day;
        let z = Rep { date: start + 4, number: l.number.clone(), ..self.returned() };
        let with_z = self.chance.one_in(2);
        for i in 1..=reports {
            let report = Rep { date: start + i, ..l.clone() };
            self.publish(if i == 4 && with_z { z.clone() } else { report }, start + 2 + i);
        }
        if with_z {
            let gaining = z.number.owner.clone();
            let day = start + 11 + self.chance.below(4) as Day;
            self.publish(Rep { status: 'P', gaining, ..z }, day);
        }
        let objected = start + self.chance.pick(&[1, 1, 2, 5, 8]);
        let named = Rep { date: objected.min(LAST_DAY), ..l.clone() };
        let objector = self.other(&l.losing);
        self.correct(objector, start + 14, format!("2500U:{},K:,,,,,", named.text()));
        for i in 0..2 {
            self.publish(Rep { date: start + 12 + i, ..l.clone() }, start + 15 + i);
        }
    }

    /// Many records of one number, published on one day by everyone.
    fn one_day(&mut self) {
        let day = self.base + 8;
        let records = self.chance.between(4, 10);
        for _ in 0..records {
            let status = self.chance.pick(&['P', 'P', 'L', 'L', 'Z']);
            let mut report = if status == 'Z' { self.returned() } else { self.report(status) };
            report.date = self.base + self.chance.between(4, 7) as Day;
            if self.chance.one_in(2) {
                report.losing = self.codes[0].clone();
                report.gaining = self.codes[1].clone();
            }
            self.publish(report, day);
        }
    }
}

/// The k-th working day after a day, or the calendar's last.
fn due_after(working_days: u32, day: Day) -> Day {
    working_day_after(working_days, day.min(LAST_DAY), &holiday_list()).unwrap_or(LAST_DAY)
}

/// Before 31 October 2017, so that a return's period goes over it.
fn before_the_exception() -> Day {
    the_exception() - 9
}

/// Where the stories happen: any year, the ends of the calendar, or around a holiday.
fn base_day(chance: &mut Chance, flavour: Flavour) -> Day {
    match flavour {
        Flavour::FirstDays => chance.below(4) as Day,
        Flavour::LastDays => LAST_DAY - chance.between(12, 20) as Day,
        Flavour::Holidays if chance.below(4) > 0 => before_the_exception(),
        Flavour::Holidays => before_a_holiday(chance),
        Flavour::Returns if chance.one_in(3) => before_the_exception(),
        Flavour::Returns => before_a_holiday(chance),
        _ => chance.between(100, LAST_DAY as usize - 100) as Day,
    }
}

/// Before one of the nine days of a year that falls on a day from Monday to Friday.
fn before_a_holiday(chance: &mut Chance) -> Day {
    let which = chance.below(9);
    let on_work_days = |year: &u32| weekday(nine_days(*year)[which]) < 5;
    let years: Vec<u32> = (FIRST_YEAR + 1..=LAST_YEAR).filter(on_work_days).collect();
    nine_days(chance.pick(&years))[which] - 6
}

/// Three to five codes; the lowest and the highest are among them now and then.
fn some_codes(chance: &mut Chance) -> Vec<String> {
    let mut codes: Vec<String> = ["D000", "D001", "D002", "D009", "D010", "D123", "D456", "D999"]
        .iter()
        .map(|code| code.to_string())
        .collect();
    chance.shuffle(&mut codes);
    codes.truncate(chance.between(3, 5));
    codes
}
