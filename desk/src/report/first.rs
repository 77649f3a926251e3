//! What has to be known first: where the blade is furthest from the design, and which step would be small enough.

use super::blade::Furthest;
use super::page::Writer;
use super::shown;
use super::side::Side;
use super::step::{greatest_step, GreatestStep, SHARE};
use super::view::View;
use crate::words::report as words;

pub fn write(page: &mut Writer, view: &View) {
    page.html += "<div class=\"first\">\n";
    if let Some(furthest) = &view.furthest {
        let words = furthest_words(view, furthest);
        page.paragraph(&words);
    }
    let words = step_words(view);
    page.paragraph(&words);
    page.html += "</div>\n";
}

fn furthest_words(view: &View, furthest: &Furthest) -> String {
    let language = view.language;
    let phrase = match (furthest.side, furthest.above.numerator < 0) {
        (Side::Left, false) => words::FURTHEST_LEFT_ABOVE,
        (Side::Left, true) => words::FURTHEST_LEFT_BELOW,
        (Side::Right, false) => words::FURTHEST_RIGHT_ABOVE,
        (Side::Right, true) => words::FURTHEST_RIGHT_BELOW,
    };
    let rows = [furthest.row, furthest.row + 1].map(|row| view.rows[row].station);
    language.say(
        phrase,
        &[
            &shown::station(furthest.station),
            &shown::hundredths(furthest.distance(), language),
            &shown::station(rows[0]),
            &shown::station(rows[1]),
            &shown::hundredths(furthest.bound, language),
        ],
    )
}

fn step_words(view: &View) -> String {
    let language = view.language;
    let own = shown::metres(view.alignment.step, language);
    match greatest_step(view.alignment) {
        GreatestStep::Every => language.say(words::EVERY_STEP, &[&SHARE, &own]),
        GreatestStep::None => language.say(words::NO_STEP, &[&SHARE, &own]),
        GreatestStep::Step(step) => {
            let step = shown::metres(step, language);
            language.say(words::GREATEST_STEP, &[&SHARE, &step, &own])
        }
    }
}
