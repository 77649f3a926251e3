//! The comments that a text begins with: the file's length, its refusal, rule book, speed, lane width and limits of the road.

use reference::file::Contract;

use crate::language::Language;
use crate::refusals::counted;
use crate::rule_book::{book_line, class_and_terrain, lines};
use crate::show::line::comments as put;
use crate::show::mark::rule;
use crate::text::file::{Item, Numbers};
use crate::text::lines::Part;
use crate::text::MOST_BYTES;
use crate::words::show as words;
use crate::words::text::NAMED;

pub fn comments(
    length: usize,
    refusal: Option<proved::Refusal>,
    numbers: &Numbers,
    language: Language,
) -> String {
    let mut out = String::new();
    put(&[bytes(length, language)], &mut out);
    if let Some(refusal) = refusal {
        put(&[refused(refusal, language)], &mut out);
    }
    put(&limits(numbers, language), &mut out);
    out
}

fn bytes(length: usize, language: Language) -> String {
    match length > MOST_BYTES {
        true => language.say(words::LONGER, &[&language.number(MOST_BYTES as i128)]),
        false => language.say(words::BYTES, &[&length]),
    }
}

fn refused(refusal: proved::Refusal, language: Language) -> String {
    let rule = rule(refusal, language);
    let Some(item) = counted(refusal.number()) else {
        return language.say(words::REFUSAL_NO_PLACE, &[&refusal.number(), &rule]);
    };
    let item = language.say(item, &[]);
    let values: [&dyn std::fmt::Display; 4] = [&refusal.number(), &item, &refusal.place(), &rule];
    language.say(words::REFUSAL, &values)
}

/// What contract date, class and terrain decide, once they are read and in their ranges.
fn limits(numbers: &Numbers, language: Language) -> Vec<String> {
    let class = numbers.single(Part::Class);
    let both = class.zip(numbers.single(Part::Terrain));
    let Some(((class, terrain), contract)) = both.zip(contract(numbers)) else {
        return Vec::new();
    };
    let (class, terrain) = (class.into(), terrain.into());
    let mut out = vec![class_and_terrain(class, terrain, language)];
    let book = book_line(contract, language);
    let lines = lines(class, terrain, contract, language);
    let lines = [book].into_iter().chain(lines);
    out.extend(lines.map(|line| language.say(NAMED, &[&line.name, &line.value])));
    out
}

/// None where the contract date is no day.
fn contract(numbers: &Numbers) -> Option<Contract> {
    let first = numbers.entries.first()?;
    match first.item == Item::Single(Part::Date) {
        false => Some(Contract::Undated),
        true => numbers
            .single(Part::Date)
            .map(|date| Contract::Dated(date.into())),
    }
}
