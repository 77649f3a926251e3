//! The table of all roads.

use reference::limits::rule_book;

use crate::folder::road::{Outcome, Road};
use crate::language::Language;
use crate::names::plain;
use crate::refusals;
use crate::rule_book::book_name;
use crate::text::date;
use crate::words::limits::BOOK;
use crate::words::text::DATE;
use crate::words::{folder as words, Phrase};

pub const TEXT_NAME: &str = "roads.txt";
pub const HTML_NAME: &str = "roads.html";

pub const COLUMNS: usize = 8;

/// The columns.
pub const HEAD: [Phrase; COLUMNS] = [
    words::NAME,
    DATE,
    BOOK,
    words::LENGTH,
    words::ROWS,
    words::REFUSAL,
    words::PLACE,
    words::WORDS,
];

/// Columns of numbers stand to the right.
pub const IS_NUMBER: [bool; COLUMNS] = [false, false, false, true, true, true, false, false];

/// The cells of a road: name, contract date and rule book; then what became of it.
pub fn cells(road: &Road, language: Language) -> [String; COLUMNS] {
    let book = |contract| language.say(book_name(rule_book(contract)), &[]);
    let [date, book] = [road.contract.and_then(date::of), road.contract.map(book)]
        .map(|cell| cell.unwrap_or("-".to_string()));
    let name = plain(&road.name);
    let [length, rows, refusal, place, why] = outcome(road, language);
    [name, date, book, length, rows, refusal, place, why]
}

/// Length and rows, or the refusal's number, place and words.
fn outcome(road: &Road, language: Language) -> [String; 5] {
    let empty = String::new;
    match &road.outcome {
        Outcome::Listed { length, rows } => {
            let length = language.thousandths(*length);
            let rows = language.number(*rows as i128);
            [length, rows, empty(), empty(), empty()]
        }
        Outcome::Refused(refusal) => {
            let number = refusal.number();
            let place = refusals::counted(number)
                .map(|item| format!("{} {}", language.say(item, &[]), refusal.place()));
            let rule = refusals::rule_name(number).map(|rule| language.say(rule, &[]));
            let [place, rule] = [place, rule].map(Option::unwrap_or_default);
            [empty(), empty(), number.to_string(), place, rule]
        }
        Outcome::Failed(why) => [empty(), empty(), empty(), empty(), why.clone()],
    }
}

/// How many roads are listed, refused and failed.
pub fn counts(roads: &[Road], language: Language) -> [String; 3] {
    let count = |is_kind: fn(&Outcome) -> bool| {
        let found = roads.iter().filter(|road| is_kind(&road.outcome));
        language.number(found.count() as i128)
    };
    [
        count(|outcome| matches!(outcome, Outcome::Listed { .. })),
        count(|outcome| matches!(outcome, Outcome::Refused(_))),
        count(|outcome| matches!(outcome, Outcome::Failed(_))),
    ]
}

/// The table's last line.
pub fn totals(roads: &[Road], language: Language) -> String {
    let counts = counts(roads, language);
    language.say(words::TOTALS, &counts.each_ref().map(|count| count as _))
}

/// The same, and how many stood from an earlier run.
pub fn summary(roads: &[Road], language: Language) -> String {
    let unchanged = roads.iter().filter(|road| road.is_unchanged).count();
    let unchanged = language.number(unchanged as i128);
    language.say(words::DONE, &[&totals(roads, language), &unchanged])
}
