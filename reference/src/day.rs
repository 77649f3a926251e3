//! "a Gregorian day from 19500101 to 20991231", written "as year x 10,000 + month x 100 + day".

/// The first and the last day that a contract may bear.
const FIRST_DAY: i128 = 19500101;
const LAST_DAY: i128 = 20991231;

/// Whether a number is such a day.
pub fn is_day(number: i128) -> bool {
    let (year, month, day) = (number / 10_000, number / 100 % 100, number % 100);
    (FIRST_DAY..=LAST_DAY).contains(&number)
        && (1..=12).contains(&month)
        && (1..=days_of_month(year, month)).contains(&day)
}

fn days_of_month(year: i128, month: i128) -> i128 {
    match month {
        2 if is_leap_year(year) => 29,
        2 => 28,
        4 | 6 | 9 | 11 => 30,
        _ => 31,
    }
}

/// The Gregorian leap rule: every fourth year, of the full centuries every fourth one alone.
fn is_leap_year(year: i128) -> bool {
    year % 4 == 0 && (year % 100 != 0 || year % 400 == 0)
}
