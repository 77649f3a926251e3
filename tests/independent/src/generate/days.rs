//! Contract dates: days, and numbers that are no day.

use super::random::Random;
use reference::file::{Contract, GREATEST_NUMBER};
use reference::limits::RuleBook;

/// "Gregorian day from 19500101 to 20991231"
pub const YEARS: [i128; 2] = [1950, 2099];

/// "From 20120101 onward [..] the limits are today's."
pub const FIRST_YEAR_OF_TODAY: i128 = 2012;

/// "year x 10,000 + month x 100 + day"
pub fn date(year: i128, month: i128, day: i128) -> i128 {
    year * 10_000 + month * 100 + day
}

/// The last day of a month; from 1950 to 2099 every fourth year is a leap year.
pub fn last_of_month(year: i128, month: i128) -> i128 {
    let february = if year % 4 == 0 { 29 } else { 28 };
    [31, february, 31, 30, 31, 30, 31, 31, 30, 31, 30, 31][month as usize - 1]
}

/// The months that are shorter than others come more often.
pub fn random_month(random: &mut Random) -> i128 {
    if random.chance(50) {
        random.pick(&[2, 4, 6, 9, 11])
    } else {
        random.between(1, 12)
    }
}

/// 40 of 100 roads have a contract date.
pub fn random_contract(random: &mut Random) -> Contract {
    if random.chance(40) {
        Contract::Dated(random_day(random))
    } else {
        Contract::Undated
    }
}

/// A contract under a rule book; today's comes without a date too.
pub fn contract_under(random: &mut Random, book: RuleBook) -> Contract {
    let [first, last] = YEARS;
    match book {
        RuleBook::OldHandbook => Contract::Dated(day_of(random, first, FIRST_YEAR_OF_TODAY - 1)),
        RuleBook::Today if random.chance(30) => Contract::Undated,
        RuleBook::Today => Contract::Dated(day_of(random, FIRST_YEAR_OF_TODAY, last)),
    }
}

/// A day of either rule book, often near the day on which they change.
pub fn random_day(random: &mut Random) -> i128 {
    let [first, last] = YEARS;
    let change = FIRST_YEAR_OF_TODAY;
    match random.place(6) {
        0 => random.pick(&[20111230, 20111231, 20120101, 20120102]),
        1 => day_of(random, first, last),
        2..=3 => day_of(random, first, change - 1),
        _ => day_of(random, change, last),
    }
}

/// A day of some years, often the first or the last of them, of a month or of a year.
fn day_of(random: &mut Random, first: i128, last: i128) -> i128 {
    let year = random.between_or_bound(first, last);
    let month = random_month(random);
    match random.place(6) {
        0 => date(first, 1, 1),
        1 => date(last, 12, 31),
        2 => date(year, 2, last_of_month(year, 2)),
        _ => date(
            year,
            month,
            random.between_or_bound(1, last_of_month(year, month)),
        ),
    }
}

/// A day, or a number that is none.
pub fn day_or_none(random: &mut Random, is_day: bool) -> i128 {
    if is_day {
        random_day(random)
    } else {
        no_day(random)
    }
}

/// A number that is no day, mostly by little.
pub fn no_day(random: &mut Random) -> i128 {
    let [first, last] = YEARS;
    let year = random.between_or_bound(first, last);
    let month = random_month(random);
    let day = random.between_or_bound(1, last_of_month(year, month));
    match random.place(12) {
        0 => 0,
        1 => GREATEST_NUMBER,
        2 => random.between_by_size(0, date(first, 1, 0)),
        3 => random.between_by_size(date(last, 12, 32), GREATEST_NUMBER),
        4 => date(first, 1, 1) - random.between_by_size(1, 200),
        5 => date(last, 12, 31) + random.between_by_size(1, 200),
        6 => date(year, 0, day),
        7 => date(year, random.between_by_size(13, 99), day),
        8 => date(year, month, 0),
        9 => date(
            year,
            month,
            random.between_by_size(last_of_month(year, month) + 1, 99),
        ),
        10 => date(
            random.pick(&[0, 50, 99, first - 1, last + 1, 9_999]),
            month,
            day,
        ),
        // The same day with a digit less, with a digit more, or in another order.
        _ => random.pick(&[
            date(year, month, day) / 10,
            date(year, month, day) * 10,
            date(0, day, month) * 10_000 + year,
            date(0, month, day) * 10_000 + year,
        ]),
    }
}
