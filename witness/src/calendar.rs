//! Paper 01, "Days and working days", with the holiday list of request K3.

/// A day is counted from 1998-01-01, which is day 0.
pub type Day = u32;

/// "Dates run from 1998-01-01, day 0, a Thursday, to 2049-12-31, day 18992."
pub const FIRST_YEAR: u32 = 1998;
pub const LAST_YEAR: u32 = 2049;
pub const LAST_DAY: Day = 18992;

/// Days of the week, Monday first.
const THURSDAY: u32 = 3;
const SATURDAY: u32 = 5;
const SUNDAY: u32 = 6;

fn is_leap(year: u32) -> bool {
    year % 4 == 0 && (year % 100 != 0 || year % 400 == 0)
}

fn days_in_year(year: u32) -> u32 {
    if is_leap(year) {
        366
    } else {
        365
    }
}

fn days_in_month(year: u32, month: u32) -> u32 {
    match month {
        4 | 6 | 9 | 11 => 30,
        2 if is_leap(year) => 29,
        2 => 28,
        _ => 31,
    }
}

/// The day with this date; none where there is no such date or it lies outside the calendar.
pub fn day_of(year: u32, month: u32, day: u32) -> Option<Day> {
    if !(FIRST_YEAR..=LAST_YEAR).contains(&year) || !(1..=12).contains(&month) {
        return None;
    }
    if day < 1 || day > days_in_month(year, month) {
        return None;
    }
    let years: u32 = (FIRST_YEAR..year).map(days_in_year).sum();
    let months: u32 = (1..month).map(|m| days_in_month(year, m)).sum();
    Some(years + months + day - 1)
}

/// Year, month and day of a day of the calendar.
pub fn date_of(day: Day) -> (u32, u32, u32) {
    let mut left = day;
    let mut year = FIRST_YEAR;
    while left >= days_in_year(year) {
        left -= days_in_year(year);
        year += 1;
    }
    let mut month = 1;
    while left >= days_in_month(year, month) {
        left -= days_in_month(year, month);
        month += 1;
    }
    (year, month, left + 1)
}

/// 0 is Monday, 6 is Sunday; day 0 is a Thursday.
pub fn weekday(day: Day) -> u32 {
    (day + THURSDAY) % 7
}

/// The Gregorian Easter Sunday: the first Sunday after the ecclesiastical full moon, which the
/// golden number and the epact of the year give. March 32 is April 1, and so on.
pub fn easter(year: u32) -> Day {
    let golden = year % 19 + 1;
    let century = year / 100 + 1;
    let leap_days_left_out = 3 * century / 4 - 12;
    let moon_steps = (8 * century + 5) / 25 - 5;
    let mut epact = (11 * golden + 20 + 30 + moon_steps - leap_days_left_out) % 30;
    if epact == 24 || (epact == 25 && golden > 11) {
        epact += 1;
    }
    let mut full_moon_in_march = 44 - epact;
    if full_moon_in_march < 21 {
        full_moon_in_march += 30;
    }
    let march_1 = day_of(year, 3, 1).expect("a year of the calendar");
    let mut sunday = march_1 + full_moon_in_march - 1 + 1;
    while weekday(sunday) != SUNDAY {
        sunday += 1;
    }
    sunday
}

/// "Nine days a year ... in this order: 1 January, Good Friday, Easter Monday, 1 May,
/// Ascension (Easter + 39), Whit Monday (Easter + 50), 3 October, 25 and 26 December."
pub fn nine_days(year: u32) -> [Day; 9] {
    let on = |month, day| day_of(year, month, day).expect("a year of the calendar");
    let sunday = easter(year);
    [
        on(1, 1),
        sunday - 2,
        sunday + 1,
        on(5, 1),
        sunday + 39,
        sunday + 50,
        on(10, 3),
        on(12, 25),
        on(12, 26),
    ]
}

/// Request K3, the rule's one exception: 31 October 2017, a Tuesday, "was a public holiday in
/// every federal state that year".
pub fn the_exception() -> Day {
    day_of(2017, 10, 31).expect("a day of the calendar")
}

/// The nine days of a year; in 2017 the exception comes behind 3 October.
pub fn holidays(year: u32) -> Vec<Day> {
    let mut days = nine_days(year).to_vec();
    if year == 2017 {
        days.insert(7, the_exception());
    }
    days
}

/// The holiday list: "469 days".
pub fn holiday_list() -> Vec<Day> {
    (FIRST_YEAR..=LAST_YEAR).flat_map(holidays).collect()
}

/// The list as it was before request K3: nine days a year alone, "468 in all".
pub fn holiday_list_before() -> Vec<Day> {
    (FIRST_YEAR..=LAST_YEAR).flat_map(nine_days).collect()
}

/// "A working day is Monday to Friday and not in the holiday list."
pub fn is_working_day(day: Day, list: &[Day]) -> bool {
    weekday(day) < SATURDAY && !list.contains(&day)
}

/// "The k-th working day after d ... is the smallest day e, not before d, with exactly k working
/// days after d up to and including e." None: the calendar ends, or d lies outside it.
pub fn working_day_after(k: u32, d: Day, list: &[Day]) -> Option<Day> {
    let mut working_days = 0;
    for e in d..=LAST_DAY {
        if e > d && is_working_day(e, list) {
            working_days += 1;
        }
        if working_days == k {
            return Some(e);
        }
    }
    None
}

/// The value of decimal digits; none where a byte is no digit or there is none.
pub fn digits(text: &[u8]) -> Option<u32> {
    if text.is_empty() || text.len() > 9 || !text.iter().all(u8::is_ascii_digit) {
        return None;
    }
    Some(text.iter().fold(0, |n, c| n * 10 + u32::from(c - b'0')))
}

/// A date as records write it: ddmmyyyy.
pub fn read_ddmmyyyy(text: &[u8]) -> Option<Day> {
    if text.len() != 8 {
        return None;
    }
    day_of(digits(&text[4..])?, digits(&text[2..4])?, digits(&text[..2])?)
}

/// A date as names of files write it: yymmdd. "98 and 99 are 19xx, 00 to 49 are 20xx, others
/// are a fault."
pub fn read_yymmdd(text: &[u8]) -> Option<Day> {
    if text.len() != 6 {
        return None;
    }
    let year = match digits(&text[..2])? {
        yy @ 98..=99 => 1900 + yy,
        yy @ 0..=49 => 2000 + yy,
        _ => return None,
    };
    day_of(year, digits(&text[2..4])?, digits(&text[4..])?)
}

/// A date as output writes it: yyyy-mm-dd.
pub fn written(day: Day) -> String {
    let (y, m, d) = date_of(day);
    format!("{:04}-{:02}-{:02}", y, m, d)
}

/// A date of the output read back.
pub fn read_written(text: &[u8]) -> Option<Day> {
    if text.len() != 10 || text[4] != b'-' || text[7] != b'-' {
        return None;
    }
    day_of(digits(&text[..4])?, digits(&text[5..7])?, digits(&text[8..])?)
}
