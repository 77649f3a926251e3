//! What the rules about plan, profile and cross-section have in common when they are told.

use std::fmt::Display;

use reference::file::Alignment;
use reference::limits::{limits, limits_at, rule_book, speed, Limits, RuleBook};
use reference::road;

use crate::language::Language;
use crate::rule_book::{book_and_day, class_and_terrain, other_contract};
use crate::text::date;
use crate::words::{why as words, Phrase};

/// A road in a language.
pub struct Teller<'a> {
    pub road: &'a Alignment,
    pub limits: Limits,
    pub language: Language,
}

impl Teller<'_> {
    pub fn new(road: &Alignment, language: Language) -> Teller<'_> {
        let limits = limits(road);
        Teller {
            road,
            limits,
            language,
        }
    }

    pub fn say(&self, phrase: Phrase, values: &[&dyn Display]) -> String {
        self.language.say(phrase, values)
    }

    pub fn number(&self, value: i128) -> String {
        self.language.number(value)
    }

    pub fn speed(&self) -> i128 {
        speed(self.road.class, self.road.terrain)
    }

    /// Length and stations of an element.
    pub fn element(&self, place: usize) -> String {
        self.stretch(&road::element_starts(self.road), place)
    }

    /// Length and stations of a tangent.
    pub fn tangent(&self, place: usize) -> String {
        self.stretch(&road::tangent_starts(self.road), place)
    }

    /// An arc's place and radius.
    pub fn arc(&self, place: usize) -> String {
        let radius = self.number(self.road.elements[place].radius);
        self.say(words::ARC, &[&place, &radius])
    }

    /// `a straight, an arc or a clothoid`
    pub fn one_of(&self, names: impl Iterator<Item = String>) -> String {
        let names: Vec<String> = names.collect();
        match names.split_last() {
            Some((last, before)) if !before.is_empty() => {
                self.say(words::OR, &[&before.join(", "), last])
            }
            _ => names.concat(),
        }
    }

    fn stretch(&self, starts: &[i128], place: usize) -> String {
        let (from, to) = (starts[place], starts[place + 1]);
        let numbers = [to - from, from, to].map(|value| self.number(value));
        self.say(
            words::NUMBERS_LENGTH,
            &[&numbers[0], &numbers[1], &numbers[2]],
        )
    }

    /// A limit of the road's speed that is the same in both rule books.
    pub fn limit_at_speed(&self, name: Phrase, value: String) -> String {
        let day = date::of(self.road.contract);
        let same = day.map(|day| self.say(words::SAME_IN_BOTH, &[&day]));
        self.limit_of_road(name, value, same)
    }

    /// A limit of the road's speed that the contract date decides.
    pub fn limit_of_book(&self, name: Phrase, value: String) -> String {
        let book = book_and_day(self.road.contract, self.language);
        self.limit_of_road(name, value, Some(book))
    }

    fn limit_of_road(&self, name: Phrase, value: String, book: Option<String>) -> String {
        let name = self.say(name, &[]);
        let road = class_and_terrain(self.road.class, self.road.terrain, self.language);
        let road = match book {
            None => road,
            Some(book) => format!("{road}; {book}"),
        };
        let values: [&dyn Display; 4] = [&name, &value, &self.speed(), &road];
        self.say(words::LIMIT_AT_SPEED, &values)
    }

    /// A limit that is the same for every speed.
    pub fn limit(&self, words: String) -> String {
        self.say(words::LIMIT, &[&words])
    }

    /// Where a limit of the road's speed stands.
    pub fn source_with_speed(&self, source: Phrase) -> String {
        let source = self.say(source, &[]);
        let source = self.say(words::SOURCE_SPEED, &[&source]);
        self.say(words::RULE_BOOK, &[&source])
    }

    /// Where a limit of the road's speed stands that the contract date decides.
    pub fn source_of_book(&self, today: Phrase, old: Phrase) -> String {
        match rule_book(self.road.contract) {
            RuleBook::Today => self.source_with_speed(today),
            RuleBook::OldHandbook => self.source_in_old_handbook(old),
        }
    }

    /// Where a limit of the road's speed stands in the old handbook.
    pub fn source_in_old_handbook(&self, source: Phrase) -> String {
        let source = self.say(source, &[]);
        let source = self.say(words::SOURCE_SPEED, &[&source]);
        self.say(words::OLD_HANDBOOK, &[&source])
    }

    pub fn source(&self, source: Phrase) -> String {
        self.say(words::RULE_BOOK, &[&self.say(source, &[])])
    }

    pub fn passes(&self, words: String) -> String {
        self.say(words::PASSES, &[&words])
    }

    /// The limits that the road would be held to by the other rule book.
    pub fn other_limits(&self) -> Limits {
        limits_at(self.speed(), other_contract(self.road.contract))
    }

    /// That by the other rule book, with a limit of its own, an element would keep the rule.
    pub fn kept_by_other_book(&self, name: Phrase, value: String) -> String {
        let phrase = match rule_book(self.road.contract) {
            RuleBook::Today => words::KEPT_BY_OLD,
            RuleBook::OldHandbook => words::KEPT_TODAY,
        };
        self.say(phrase, &[&self.say(name, &[]), &value])
    }

    /// A length or a radius that has to be so much.
    pub fn at_least(&self, quantity: Phrase, least: i128, now: i128) -> String {
        let (least, lack) = (self.number(least), self.number(least - now));
        self.say(words::AT_LEAST, &[&self.say(quantity, &[]), &least, &lack])
    }

    pub fn at_most(&self, quantity: Phrase, most: i128, now: i128) -> String {
        let (most, excess) = (self.number(most), self.number(now - most));
        self.say(words::AT_MOST, &[&self.say(quantity, &[]), &most, &excess])
    }
}
