//! A refusal of a list in words: which peg, what is wrong with it, what would mend it.

use std::fmt::Display;

use proved::{Refusal, PEG_COUNT};

use crate::call::Call;
use crate::names::shown;
use crate::pegs::list::List;
use crate::refusals;
use crate::words::pegs as words;

/// One line about the file, or about the list where the refusal is 24.
pub fn words(call: &Call, file: &[u8], list: &List, refusal: Refusal) -> String {
    let language = call.language;
    let place = refusal.place() as usize;
    let bad = list.pegs.get(place).filter(|_| refusal.number() == 24);
    let Some(bad) = bad else {
        return refusals::words(&call.words[0], refusal, language);
    };
    let name = shown(&call.words[1], language);
    let peg = language.number(place as i128 + 1);
    let say = |phrase, more: &[&dyn Display]| {
        let values: [&dyn Display; 4] = [&name, &place, &peg, &bad.line];
        language.say(phrase, &[&values, more].concat())
    };
    let before = place.checked_sub(1).map(|before| &list.pegs[before]);
    match before.filter(|before| before.station > bad.station) {
        _ if place >= PEG_COUNT => {
            let most = language.number(PEG_COUNT as i128);
            say(words::TOO_MANY, &[&most])
        }
        Some(before) => say(words::FALLS, &[&bad.station, &before.station, &before.line]),
        None => say(words::BEYOND, &[&bad.station, &end(file, bad.station)]),
    }
}

/// The road's end, which is listed: the greatest station from which the library finds a listed one.
fn end(file: &[u8], beyond: u64) -> u64 {
    let (mut within, mut beyond) = (0, beyond);
    while beyond - within > 1 {
        let middle = within + (beyond - within) / 2;
        match proved::next_station(file, middle) {
            Ok(Some(next)) if next < beyond => within = next,
            _ => beyond = middle,
        }
    }
    within
}
