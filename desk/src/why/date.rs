//! A contract date that is no day, told: refusal 22.

use std::ops::RangeInclusive;

use reference::day::is_day;
use reference::file::Contract;
use reference::limits::{rule_book, RuleBook};

use crate::language::Language;
use crate::rule_book::book_name;
use crate::text::date::with_dashes;
use crate::words::{months, why as words, Phrase};

const FIRST_DAY: i128 = 19_500_101;
const LAST_DAY: i128 = 20_991_231;
const EIGHT_DIGITS: RangeInclusive<i128> = 10_000_000..=99_999_999;

const MONTHS: [Phrase; 12] = [
    months::JANUARY,
    months::FEBRUARY,
    months::MARCH,
    months::APRIL,
    months::MAY,
    months::JUNE,
    months::JULY,
    months::AUGUST,
    months::SEPTEMBER,
    months::OCTOBER,
    months::NOVEMBER,
    months::DECEMBER,
];

/// A number as the text has it.
pub fn shown(number: i128) -> String {
    i64::try_from(number).map_or(number.to_string(), with_dashes)
}

/// Why the number is no day.
pub fn reason(number: i128, language: Language) -> String {
    let say = |phrase: Phrase, value: i128| language.say(phrase, &[&value]);
    match (number / 10_000, number / 100 % 100, number % 100) {
        _ if !EIGHT_DIGITS.contains(&number) => language.say(words::NO_DATE, &[]),
        (year @ ..=1949, _, _) => say(words::BEFORE_FIRST, year),
        (year @ 2100.., _, _) => say(words::AFTER_LAST, year),
        (_, month @ (0 | 13..), _) => say(words::NO_MONTH, month),
        (_, _, 0) => language.say(words::NO_DAY, &[]),
        (year, 2, 29) => say(words::NO_LEAP_YEAR, year),
        (year, month, _) => days_of_month(year, month, language),
    }
}

fn days_of_month(year: i128, month: i128, language: Language) -> String {
    let first = year * 10_000 + month * 100 + 1;
    let days = (first..first + 31).filter(|&day| is_day(day)).count();
    let name = language.say(MONTHS[month as usize - 1], &[]);
    match days {
        31 => language.say(words::LONG_MONTH, &[&name, &year]),
        _ => language.say(words::DAYS_OF_MONTH, &[&name, &year, &days]),
    }
}

/// The last day before a number that is no day, and the first after it.
fn around(number: i128) -> [Option<i128>; 2] {
    let mut before = (FIRST_DAY..number.min(LAST_DAY + 1)).rev();
    let mut after = number.max(FIRST_DAY)..=LAST_DAY;
    [
        before.find(|&day| is_day(day)),
        after.find(|&day| is_day(day)),
    ]
}

/// The days that the digits are in another order, each with the words for it.
fn other_orders(number: i128) -> Vec<(Phrase, i128)> {
    if number > *EIGHT_DIGITS.end() {
        return Vec::new();
    }
    let (first, second) = (number / 1_000_000, number / 10_000 % 100);
    let (third, fourth) = (number / 100 % 100, number % 100);
    let (year_first, year_last) = (number / 10_000, number % 10_000);
    let day = |year: i128, month: i128, day: i128| year * 10_000 + month * 100 + day;
    let orders = [
        (words::DAY_MONTH_YEAR, day(year_last, second, first)),
        (words::MONTH_DAY_YEAR, day(year_last, first, second)),
        (words::YEAR_DAY_MONTH, day(year_first, fourth, third)),
    ];
    let days = orders.into_iter().filter(|&(_, day)| is_day(day));
    days.collect()
}

/// Those days in words.
pub fn in_other_orders(number: i128, language: Language) -> Vec<String> {
    let orders = other_orders(number).into_iter();
    orders
        .map(|(phrase, day)| language.say(phrase, &[&shown(day)]))
        .collect()
}

/// The days that may be meant: those that the digits are in another order, else the nearest to eight digits.
fn candidates(number: i128) -> Vec<i128> {
    let mut others: Vec<i128> = other_orders(number).iter().map(|&(_, day)| day).collect();
    others.dedup();
    match others.is_empty() && EIGHT_DIGITS.contains(&number) {
        true => around(number).into_iter().flatten().collect(),
        false => others,
    }
}

fn book(day: i128) -> RuleBook {
    rule_book(Contract::Dated(day))
}

/// The days that may be meant, each with its rule book; none where the number tells nothing of a day.
pub fn passes(number: i128, language: Language) -> Option<String> {
    let days = candidates(number).into_iter().map(|day| {
        let book = language.say(book_name(book(day)), &[]);
        format!("{} ({book})", shown(day))
    });
    days.reduce(|before, after| language.say(words::OR, &[&before, &after]))
}

/// The first or the last day of the month in place of one before or beyond it, where the days on both sides have one
/// rule book.
pub fn mended(number: i128) -> Option<i128> {
    let (year, month, day) = (number / 10_000, number / 100 % 100, number % 100);
    let is_month = (1950..=2099).contains(&year) && (1..=12).contains(&month);
    if !is_month || !has_one_book(&candidates(number)) {
        return None;
    }
    let [before, after] = around(number);
    if day == 0 {
        after
    } else {
        before
    }
}

fn has_one_book(days: &[i128]) -> bool {
    days.windows(2).all(|pair| book(pair[0]) == book(pair[1]))
}

/// What the contract is asked for, where no day is put in place of the number.
pub fn asked(number: i128) -> Option<Phrase> {
    if mended(number).is_some() {
        return None;
    }
    let is_decided = has_one_book(&candidates(number)) && other_orders(number).is_empty();
    Some(match is_decided {
        true => words::CONTRACT_TELLS,
        false => words::CONTRACT_DECIDES,
    })
}

#[cfg(test)]
mod tests {
    use super::*;

    const ENGLISH: Language = Language::English;
    const EIGHT: &str =
        "a date has eight digits: four of the year, two of the month, two of the day";

    /// The reason, the days that may be meant, and the day that is put in.
    type Told<'t> = (&'t str, Option<&'t str>, Option<i128>);

    fn is_told(number: i128, told: Told, asked_for: Option<Phrase>) {
        let passes = passes(number, ENGLISH);
        let reason = reason(number, ENGLISH);
        let found = (&reason[..], passes.as_deref(), mended(number));
        assert_eq!((found, asked(number)), (told, asked_for), "{number}");
    }

    #[test]
    fn days_that_are_mended() {
        for (number, reason, passes, mended) in [
            (
                20_090_229,
                "2009 is no leap year: its February has 28 days",
                "2009-02-28 (old handbook) or 2009-03-01 (old handbook)",
                20_090_228,
            ),
            (
                20_080_230,
                "February 2008 has 29 days",
                "2008-02-29 (old handbook) or 2008-03-01 (old handbook)",
                20_080_229,
            ),
            (
                20_150_499,
                "April 2015 has 30 days",
                "2015-04-30 (today's rule book) or 2015-05-01 (today's rule book)",
                20_150_430,
            ),
            (
                20_150_400,
                "there is no day 0",
                "2015-03-31 (today's rule book) or 2015-04-01 (today's rule book)",
                20_150_401,
            ),
            (
                20_991_232,
                "December 2099 has 31 days",
                "2099-12-31 (today's rule book)",
                20_991_231,
            ),
            (
                19_500_100,
                "there is no day 0",
                "1950-01-01 (old handbook)",
                19_500_101,
            ),
        ] {
            is_told(number, (reason, Some(passes), Some(mended)), None);
        }
    }

    /// The contract decides the rule book with the day.
    #[test]
    fn days_of_two_books_or_in_another_order() {
        for (number, reason, passes) in [
            (
                20_111_232,
                "December 2011 has 31 days",
                "2011-12-31 (old handbook) or 2012-01-01 (today's rule book)",
            ),
            (
                20_120_100,
                "there is no day 0",
                "2011-12-31 (old handbook) or 2012-01-01 (today's rule book)",
            ),
            (
                31_122_011,
                "the year 3112 is after 2099",
                "2011-12-31 (old handbook)",
            ),
            (
                12_312_011,
                "the year 1231 is before 1950",
                "2011-12-31 (old handbook)",
            ),
            (
                20_091_506,
                "there is no month 15",
                "2009-06-15 (old handbook)",
            ),
            (
                20_112_009,
                "there is no month 20",
                "2009-11-20 (old handbook) or 2011-09-20 (old handbook)",
            ),
            (
                3_042_012,
                EIGHT,
                "2012-04-03 (today's rule book) or 2012-03-04 (today's rule book)",
            ),
            (3_032_012, EIGHT, "2012-03-03 (today's rule book)"),
        ] {
            let told = (reason, Some(passes), None);
            is_told(number, told, Some(words::CONTRACT_DECIDES));
        }
    }

    #[test]
    fn numbers_that_tell_no_day() {
        for (number, reason, passes) in [
            (
                20_151_313,
                "there is no month 13",
                Some("2015-12-31 (today's rule book) or 2016-01-01 (today's rule book)"),
            ),
            (
                19_491_231,
                "the year 1949 is before 1950",
                Some("1950-01-01 (old handbook)"),
            ),
            (
                21_000_101,
                "the year 2100 is after 2099",
                Some("2099-12-31 (today's rule book)"),
            ),
            (0, EIGHT, None),
            (4, EIGHT, None),
            (2_009, EIGHT, None),
            (4_294_967_295, EIGHT, None),
        ] {
            is_told(number, (reason, passes, None), Some(words::CONTRACT_TELLS));
        }
    }

    #[test]
    fn months_in_serbian() {
        let told = |number| reason(number, Language::Serbian);
        assert_eq!(told(20_090_431), "април 2009. има 30 дана");
        assert_eq!(told(20_111_232), "децембар 2011. има 31 дан");
        assert_eq!(told(20_090_230), "фебруар 2009. има 28 дана");
    }

    /// The numbers just beyond the end of a month and just before the next have both days around them.
    #[test]
    fn the_nearest_days_are_neighbours() {
        let days: Vec<i128> = (FIRST_DAY..=LAST_DAY).filter(|&day| is_day(day)).collect();
        assert_eq!(days.len(), 54_787);
        for pair in days.windows(2).filter(|pair| pair[0] + 1 < pair[1]) {
            for number in [pair[0] + 1, pair[1] - 1] {
                assert_eq!(around(number), [Some(pair[0]), Some(pair[1])]);
            }
        }
    }

    #[test]
    fn digits_in_another_order() {
        let told = |number| in_other_orders(number, ENGLISH);
        let day_first = "read as day, month, year it is ";
        let month_first = "read as month, day, year it is ";
        let day_and_month = "read as year, day, month it is ";
        assert_eq!(told(31_122_011), [format!("{day_first}2011-12-31")]);
        assert_eq!(told(12_312_011), [format!("{month_first}2011-12-31")]);
        assert_eq!(told(20_091_506), [format!("{day_and_month}2009-06-15")]);
        let both = [
            format!("{day_first}2009-11-20"),
            format!("{day_and_month}2011-09-20"),
        ];
        assert_eq!(told(20_112_009), both);
        for number in [0, 30_022_011, 20_090_229, 101_112_011, 4_294_967_295] {
            assert!(told(number).is_empty());
        }
    }
}
