//! Days and microseconds since 2000-01-01 as dates and times, by counting.

pub const SECOND: i64 = 1_000_000;
pub const DAY: i64 = 86_400 * SECOND;

/// The calendar repeats after so many years, of which 97 have a day more.
const CYCLE_YEARS: i64 = 400;
const CYCLE_DAYS: i64 = 400 * 365 + 97;

fn is_leap(year: i64) -> bool {
    (year % 4 == 0 && year % 100 != 0) || year % 400 == 0
}

fn month_days(year: i64, month: usize) -> i64 {
    match month {
        2 if is_leap(year) => 29,
        2 => 28,
        4 | 6 | 9 | 11 => 30,
        _ => 31,
    }
}

/// The date so many days after 2000-01-01, or before it.
pub fn date(days: i64) -> String {
    let mut year = 2000 + CYCLE_YEARS * days.div_euclid(CYCLE_DAYS);
    let mut left = days.rem_euclid(CYCLE_DAYS);
    while left >= 365 + i64::from(is_leap(year)) {
        left -= 365 + i64::from(is_leap(year));
        year += 1;
    }
    let mut month = 1;
    while left >= month_days(year, month) {
        left -= month_days(year, month);
        month += 1;
    }
    let sign = if year < 0 { "-" } else { "" };
    format!("{sign}{:04}-{month:02}-{:02}", year.abs(), left + 1)
}

/// The time of day: an accepted local_time lies within it (R5.15).
pub fn time(microseconds: i64) -> String {
    assert!((0..DAY).contains(&microseconds), "a time within a day");
    let seconds = microseconds / SECOND;
    let (hours, minutes) = (seconds / 3600, seconds / 60 % 60);
    let part = part_of_second(microseconds % SECOND);
    format!("{hours:02}:{minutes:02}:{:02}{part}", seconds % 60)
}

pub fn date_time(microseconds: i64) -> String {
    let (days, of_day) = (microseconds.div_euclid(DAY), microseconds.rem_euclid(DAY));
    format!("{}T{}", date(days), time(of_day))
}

/// A point and the digits needed; nothing if there is no part.
fn part_of_second(microseconds: i64) -> String {
    let digits = format!(".{microseconds:06}");
    digits.trim_end_matches('0').trim_end_matches('.').into()
}

/// The parts of a duration that are not zero, each with its own sign.
pub fn duration(microseconds: i64, days: i32, months: i32) -> String {
    let seconds = microseconds / SECOND;
    let mut parts: Vec<String> = [
        (i64::from(months / 12), "year"),
        (i64::from(months % 12), "month"),
        (i64::from(days), "day"),
        (seconds / 3600, "hour"),
        (seconds / 60 % 60, "minute"),
    ]
    .into_iter()
    .filter(|(count, _)| *count != 0)
    .map(|(count, unit)| counted(count, unit))
    .collect();
    let left = microseconds % (60 * SECOND);
    if left != 0 || parts.is_empty() {
        parts.push(seconds_text(left));
    }
    parts.join(" ")
}

fn counted(count: i64, unit: &str) -> String {
    let plural = if count.abs() == 1 { "" } else { "s" };
    format!("{count} {unit}{plural}")
}

/// Under a minute, of either sign.
fn seconds_text(microseconds: i64) -> String {
    let part = part_of_second(microseconds.abs() % SECOND);
    if part.is_empty() {
        return counted(microseconds / SECOND, "second");
    }
    let sign = if microseconds < 0 { "-" } else { "" };
    format!("{sign}{}{part} seconds", microseconds.abs() / SECOND)
}
