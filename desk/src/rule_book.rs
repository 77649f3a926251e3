//! Class, terrain, rule book, speed and limits of a road, in words.

use reference::file::Contract;
use reference::limits::{limits_at, rule_book, speed, LeastClothoid, RuleBook};
use reference::rules::EGG_RADIUS_MAX;

use crate::language::Language;
use crate::text::date;
use crate::words::limits as words;
use crate::words::Phrase;

/// A limit's name and its value with its unit.
pub struct Line {
    pub name: String,
    pub value: String,
}

pub fn class_name(class: i128) -> Phrase {
    match class {
        1 => words::CLASS_1,
        2 => words::CLASS_2,
        3 => words::CLASS_3,
        _ => words::CLASS_4,
    }
}

pub fn terrain_name(terrain: i128) -> Phrase {
    match terrain {
        1 => words::TERRAIN_1,
        2 => words::TERRAIN_2,
        _ => words::TERRAIN_3,
    }
}

/// `access road, mountain terrain`
pub fn class_and_terrain(class: i128, terrain: i128, language: Language) -> String {
    let names = [class_name(class), terrain_name(terrain)];
    names.map(|name| language.say(name, &[])).join(", ")
}

pub fn book_name(book: RuleBook) -> Phrase {
    match book {
        RuleBook::Today => words::TODAY,
        RuleBook::OldHandbook => words::OLD_HANDBOOK,
    }
}

/// `old handbook: contracted 2009-05-14`, `today's rule book: no contract date`
pub fn book_and_day(contract: Contract, language: Language) -> String {
    let book = language.say(book_name(rule_book(contract)), &[]);
    match date::of(contract) {
        None => language.say(words::NOT_DATED, &[&book]),
        Some(day) => language.say(words::CONTRACTED, &[&book, &day]),
    }
}

/// The rule book in force, and that there is no date where none picks it.
pub fn book_line(contract: Contract, language: Language) -> Line {
    let book = language.say(book_name(rule_book(contract)), &[]);
    let value = match date::of(contract) {
        None => language.say(words::BOOK_NOT_DATED, &[&book]),
        Some(_) => book,
    };
    let name = language.say(words::BOOK, &[]);
    Line { name, value }
}

/// The last day of the old handbook.
const LAST_OLD_DAY: i128 = 20_111_231;

/// A contract that the other rule book judges.
pub fn other_contract(contract: Contract) -> Contract {
    match rule_book(contract) {
        RuleBook::Today => Contract::Dated(LAST_OLD_DAY),
        RuleBook::OldHandbook => Contract::Undated,
    }
}

/// What refusal 12 asks of a clothoid: A min, or a least length.
pub fn clothoid_limit(least: LeastClothoid) -> (Phrase, i128) {
    match least {
        LeastClothoid::Parameter(parameter) => (words::CLOTHOID_MIN, parameter),
        LeastClothoid::Length(length) => (words::CLOTHOID_LENGTH_MIN, length),
    }
}

/// A limit that is whole in metres.
pub fn metres(value: i128, language: Language) -> String {
    format!("{} m", language.number(value / 1_000))
}

/// The same where there may be none.
pub fn metres_or_none(value: Option<i128>, language: Language) -> String {
    match value {
        None => language.say(words::NO_LIMIT, &[]),
        Some(value) => metres(value, language),
    }
}

/// A lane width, with two decimals in metres.
pub fn lane(value: i128, language: Language) -> String {
    format!("{} m", language.decimals(value / 10, 2))
}

/// A limit with one decimal in percent.
pub fn percent(value: i128, language: Language) -> String {
    format!("{} %", language.decimals(value / 1_000, 1))
}

/// The greatest slope of a ramp, in ppm, by annex 2, table 8-02; the program holds a road to the file's own.
pub fn ramp_limit(class: i128, terrain: i128) -> i128 {
    match speed(class, terrain) {
        ..=70 => 15_000,
        71..=90 => 10_000,
        _ => 9_000,
    }
}

/// Speed, lane width and every limit, in the paper's order.
pub fn lines(class: i128, terrain: i128, contract: Contract, language: Language) -> Vec<Line> {
    let row = limits_at(speed(class, terrain), contract);
    let metres = |value| metres_or_none(value, language);
    let percent = |value: i128| percent(value, language);
    let crossfalls = [percent(25_000), percent(70_000)];
    let (clothoid_name, clothoid) = clothoid_limit(row.clothoid);
    let lines = [
        (words::SPEED, format!("{} km/h", speed(class, terrain))),
        (words::STRAIGHT_MAX, metres(row.straight_max)),
        (words::STRAIGHT_MIN, metres(row.straight_min)),
        (words::RADIUS_MIN, metres(Some(row.radius_min))),
        (words::RADIUS_BOTH_FALLING, metres(row.radius_both_falling)),
        (clothoid_name, metres(Some(clothoid))),
        (words::ARC_MIN, metres(Some(row.arc_min))),
        (words::GRADE_MAX, percent(row.grade_max)),
        (words::SAG_RADIUS, metres(Some(row.sag_radius))),
        (words::CREST_RADIUS, metres(Some(row.crest_radius))),
        (words::LANE, lane(row.lane_width, language)),
        (
            words::CROSSFALL,
            language.say(words::FROM_TO, &[&crossfalls[0], &crossfalls[1]]),
        ),
        (words::EGG_RADIUS_MAX, metres(Some(EGG_RADIUS_MAX))),
    ];
    let line = |(name, value)| Line {
        name: language.say(name, &[]),
        value,
    };
    lines.map(line).into()
}

#[cfg(test)]
mod tests {
    use super::*;

    /// The lines of a connecting road in mountain terrain: 70 km/h.
    fn values(contract: Contract) -> Vec<String> {
        let book = book_line(contract, Language::English);
        let lines = lines(2, 3, contract, Language::English).into_iter();
        [book]
            .into_iter()
            .chain(lines)
            .map(|line| format!("{}: {}", line.name, line.value))
            .collect()
    }

    #[test]
    fn the_date_picks_the_limits() {
        let plain = values(Contract::Undated);
        let today = values(Contract::Dated(20_120_101));
        let old = values(Contract::Dated(20_111_231));
        assert_eq!(today[0], "rule book: today's rule book");
        assert_eq!(plain[0], "rule book: today's rule book (no contract date)");
        assert_eq!(today[1..], plain[1..]);
        assert_eq!(old[0], "rule book: old handbook");
        let other = (1..old.len()).filter(|&place| old[place] != today[place]);
        let other: Vec<&String> = other.map(|place| &old[place]).collect();
        assert_eq!(other, ["R min: 180 m", "least clothoid length: 60 m"]);
    }

    #[test]
    fn books_with_their_days() {
        let said = |contract| book_and_day(contract, Language::English);
        let none = said(Contract::Undated);
        assert_eq!(none, "today's rule book: no contract date");
        let old = said(Contract::Dated(20_090_514));
        assert_eq!(old, "old handbook: contracted 2009-05-14");
        let today = said(Contract::Dated(20_120_101));
        assert_eq!(today, "today's rule book: contracted 2012-01-01");
    }

    #[test]
    fn contracts_of_the_other_book() {
        for contract in [Contract::Undated, Contract::Dated(20_111_231)] {
            let other = rule_book(other_contract(contract));
            assert_ne!(other, rule_book(contract));
        }
    }
}
