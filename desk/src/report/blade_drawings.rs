//! Drawings of the blade between rows: where it is furthest from the design, where a vertical curve rises or sinks most,
//! and the same with a row left out.

use reference::blade::bound;
use reference::fraction::Fraction;

use super::blade::furthest_past;
use super::drawing::pair::{draw, Between};
use super::drawing::sheet::Drawing;
use super::fractions::size;
use super::reasons::Joint;
use super::shown;
use super::side::Side;
use super::view::View;
use crate::words::report as words;

/// The two rows between which the blade is furthest from the design.
pub fn furthest(view: &View) -> Option<Drawing> {
    let furthest = view.furthest?;
    let rows = [furthest.row, furthest.row + 1].map(|place| view.row(place));
    let distance = shown::hundredths(furthest.distance(), view.language);
    let between = Between {
        rows: &rows,
        side: furthest.side,
        station: furthest.station,
        above: furthest.above,
        words: view.language.say(words::APART, &[&distance]),
        bound: Some(furthest.bound),
        title: title(view, &rows, furthest.side),
    };
    Some(draw(view, &between))
}

/// The left edge between the two rows where a vertical curve rises or sinks most; then without the first of them, where
/// there is a row before.
pub fn greatest_share(view: &View) -> Vec<Drawing> {
    let mut place = 0;
    for (other, pair) in view.pairs.iter().enumerate() {
        if pair.bound > view.pairs[place].bound {
            place = other;
        }
    }
    let left_out = place
        .checked_sub(1)
        .and_then(|before| one_left_out(view, before));
    left_edge(view, place).into_iter().chain(left_out).collect()
}

fn left_edge(view: &View, place: usize) -> Option<Drawing> {
    let rows = [place, place + 1].map(|place| view.row(place));
    let (a, b) = (rows[0].row, rows[1].row);
    let (station, above) = furthest_past(view.alignment, &a, &b, Side::Left)?;
    let bound = bound(view.alignment, a.station, b.station);
    let share = bound.plus(Fraction::whole(-1));
    let values = [size(above), share].map(|value| shown::hundredths(value, view.language));
    let words = view
        .language
        .say(words::APART_AND_BOUND, &[&values[0], &values[1]]);
    let between = Between {
        rows: &rows,
        side: Side::Left,
        station,
        above,
        words,
        bound: Some(bound),
        title: title(view, &rows, Side::Left),
    };
    Some(draw(view, &between))
}

/// Three rows, of which the middle one is left out.
fn one_left_out(view: &View, before: usize) -> Option<Drawing> {
    let rows = [before, before + 1, before + 2].map(|place| view.row(place));
    let (station, above) = furthest_past(view.alignment, &rows[0].row, &rows[2].row, Side::Left)?;
    let distance = shown::hundredths(size(above), view.language);
    let [first, middle, last] = [0, 1, 2].map(|place| shown::station(rows[place].row.station));
    let between = Between {
        rows: &rows,
        side: Side::Left,
        station,
        above,
        words: view.language.say(words::APART, &[&distance]),
        bound: None,
        title: view
            .language
            .say(words::PAIR_LEFT_OUT, &[&middle, &first, &last]),
    };
    Some(draw(view, &between))
}

fn title(view: &View, rows: &[Joint; 2], side: Side) -> String {
    let phrase = match side {
        Side::Left => words::PAIR_LEFT,
        Side::Right => words::PAIR_RIGHT,
    };
    let ends = [0, 1].map(|place| shown::station(rows[place].row.station));
    view.language.say(phrase, &[&ends[0], &ends[1]])
}
