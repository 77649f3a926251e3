//! What `marks` prints of a road.

use super::limit::broken;
use super::verdicts::{Marked, Verdict};
use crate::language::Language;
use crate::refusals::heading;
use crate::rule_book::{book_and_day, class_and_terrain};
use crate::words::marks as words;

/// The road, then a line for each speed.
pub fn table(road: &Marked, language: Language) -> String {
    let speeds = road.verdicts.map(|verdict| speed(road, verdict, language));
    let widths = speeds.iter().map(|speed| speed.chars().count());
    let width = widths.max().unwrap_or(0);
    let mut out = format!("{}\n", about(road, language));
    for (speed, verdict) in speeds.iter().zip(road.verdicts) {
        out += &format!("{speed:<width$}  {}\n", said(road, verdict, language));
    }
    out
}

/// Class, terrain and rule book.
fn about(road: &Marked, language: Language) -> String {
    let alignment = &road.alignment;
    let names = class_and_terrain(alignment.class, alignment.terrain, language);
    let book = book_and_day(alignment.contract, language);
    format!("{names}; {book}")
}

/// ` 70 km/h`, with a word at the road's own.
pub fn speed(road: &Marked, verdict: Verdict, language: Language) -> String {
    let speed = format!("{:>3} km/h", verdict.speed);
    match verdict.speed == road.design_speed() {
        true => language.say(words::OWN, &[&speed]),
        false => speed,
    }
}

/// That the road passes, or its first refusal with the speed's limit.
pub fn said(road: &Marked, verdict: Verdict, language: Language) -> String {
    let Some(refusal) = verdict.refusal else {
        return language.say(words::PASSES, &[]);
    };
    let heading = heading(refusal, language);
    match broken(&road.alignment, verdict, language) {
        None => heading,
        Some(limit) => language.say(words::AND_LIMIT, &[&heading, &limit.name, &limit.value]),
    }
}
