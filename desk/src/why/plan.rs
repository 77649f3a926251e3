//! The rules of the plan told, 5, 7 to 12 and 23.

use reference::file::Kind;
use reference::limits::LeastClothoid;
use reference::road;

use super::teller::Teller;
use super::{between_arcs, least};
use crate::rule_book::{clothoid_limit, metres};
use crate::words::{limits as names, why as words, Phrase};

pub fn told(teller: &Teller, number: i128, place: usize) -> Vec<String> {
    match number {
        5 => too_long(teller, place),
        7 => out_of_order(teller, place),
        8 => straight_too_long(teller, place),
        9 => straight_too_short(teller, place),
        10 => radius(teller, place),
        11 => arc_too_short(teller, place),
        23 => between_arcs::told(teller, place),
        _ => clothoid(teller, place),
    }
}

fn too_long(teller: &Teller, place: usize) -> Vec<String> {
    let numbers = [
        teller.road.elements.len() as i128,
        teller.road.total_length(),
    ];
    let [count, length] = numbers.map(|value| teller.number(value));
    let stretch = teller.element(place);
    let most = teller.number(least::LONGEST_PLAN);
    let now = teller.road.elements[place].length;
    let passes = match least::element_length(teller.road, &teller.limits, 5, place) {
        Some(length) => teller.at_most(words::LENGTH, length, now),
        None => teller.say(words::PASSES_5, &[]),
    };
    vec![
        teller.say(words::NUMBERS_5, &[&stretch, &count, &length]),
        teller.limit(teller.say(words::LIMIT_5, &[&most])),
        teller.source(words::SOURCE_NONE),
        teller.passes(passes),
    ]
}

fn kind_name(kind: Kind) -> Phrase {
    match kind {
        Kind::Straight => words::STRAIGHT,
        Kind::Arc => words::ARC_KIND,
        Kind::Clothoid => words::CLOTHOID,
    }
}

fn out_of_order(teller: &Teller, place: usize) -> Vec<String> {
    let elements = &teller.road.elements;
    let due = least::kinds_due(teller.road, place);
    let due = teller.one_of(due.iter().map(|&kind| teller.say(kind_name(kind), &[])));
    let there = elements[place.min(elements.len() - 1)].kind;
    let there = teller.say(kind_name(there), &[]);
    let numbers = match place < elements.len() {
        true => words::NUMBERS_7,
        false => words::NUMBERS_7_SHORT,
    };
    vec![
        teller.say(numbers, &[&there, &due]),
        teller.limit(teller.say(words::LIMIT_7, &[])),
        teller.source(words::SOURCE_7),
        teller.passes(teller.say(words::PASSES_7, &[&due])),
    ]
}

fn straight_too_long(teller: &Teller, place: usize) -> Vec<String> {
    let most = teller.limits.straight_max.unwrap_or(0);
    let now = teller.road.elements[place].length;
    vec![
        teller.element(place),
        teller.limit_at_speed(names::STRAIGHT_MAX, metres(most, teller.language)),
        teller.source_with_speed(words::SOURCE_8),
        teller.passes(teller.at_most(words::LENGTH, most, now)),
    ]
}

fn straight_too_short(teller: &Teller, place: usize) -> Vec<String> {
    let least = teller.limits.straight_min.unwrap_or(0);
    let now = teller.road.elements[place].length;
    let [before, after] = arcs_around(teller, place);
    let stretch = teller.element(place);
    vec![
        teller.say(words::NUMBERS_9, &[&stretch, &before, &after]),
        teller.limit_at_speed(names::STRAIGHT_MIN, metres(least, teller.language)),
        teller.source_with_speed(words::SOURCE_9),
        teller.passes(teller.at_least(words::LENGTH, least, now)),
    ]
}

/// The nearest arcs on both sides of a straight.
fn arcs_around(teller: &Teller, straight: usize) -> [String; 2] {
    let elements = &teller.road.elements;
    let is_arc = |place: &usize| elements[*place].kind == Kind::Arc;
    let before = (0..straight).rev().find(is_arc);
    let after = (straight..elements.len()).find(is_arc);
    [before, after].map(|place| place.map_or(String::new(), |place| teller.arc(place)))
}

fn radius(teller: &Teller, place: usize) -> Vec<String> {
    let least = teller.limits.radius_min;
    let radius = teller.road.elements[place].radius;
    let turn = match radius > 0 {
        true => words::RIGHT_TURN,
        false => words::LEFT_TURN,
    };
    let (turn, stretch) = (teller.say(turn, &[]), teller.element(place));
    let number = teller.number(radius.abs());
    let other = teller.other_limits().radius_min;
    let limit = metres(other, teller.language);
    let in_other_book =
        (radius.abs() >= other).then(|| teller.kept_by_other_book(names::RADIUS_MIN, limit));
    let facts = vec![
        teller.say(words::NUMBERS_10, &[&number, &turn, &stretch]),
        teller.limit_of_book(names::RADIUS_MIN, metres(least, teller.language)),
        teller.source_of_book(words::SOURCE_10, words::SOURCE_10_OLD),
        teller.passes(teller.at_least(words::RADIUS, least, radius.abs())),
    ];
    with_other_book(facts, in_other_book)
}

/// What the other rule book says stands beside the limit, before what passes and what then moves.
fn with_other_book(mut facts: Vec<String>, other: Option<String>) -> Vec<String> {
    let passes = facts.len() - 1;
    facts.splice(passes..passes, other);
    facts
}

fn arc_too_short(teller: &Teller, place: usize) -> Vec<String> {
    let least = teller.limits.arc_min;
    let now = teller.road.elements[place].length;
    vec![
        teller.element(place),
        teller.limit_at_speed(names::ARC_MIN, metres(least, teller.language)),
        teller.source_with_speed(words::SOURCE_11),
        teller.passes(teller.at_least(words::LENGTH, least, now)),
    ]
}

fn clothoid(teller: &Teller, place: usize) -> Vec<String> {
    let length = teller.road.elements[place].length;
    let facts = match teller.limits.clothoid {
        LeastClothoid::Parameter(parameter) if road::arcs_of_egg(teller.road, place).is_some() => {
            between_arcs::short_egg(teller, place, parameter)
        }
        LeastClothoid::Parameter(parameter) => clothoid_parameter(teller, place, parameter),
        LeastClothoid::Length(least) => clothoid_length(teller, place, least),
    };
    let other = teller.other_limits();
    let (name, limit) = clothoid_limit(other.clothoid);
    let limit = metres(limit, teller.language);
    let least = least::clothoid_at(teller.road, &other, place);
    let kept = least.filter(|&least| length >= least);
    let in_other_book = kept.map(|_| teller.kept_by_other_book(name, limit));
    with_other_book(facts, in_other_book)
}

/// Today's rule book: length × radius has to reach A min squared.
fn clothoid_parameter(teller: &Teller, place: usize, parameter: i128) -> Vec<String> {
    let length = teller.road.elements[place].length;
    let arc_place = least::arc_beside(teller.road, place).unwrap_or(place);
    let radius = teller.road.elements[arc_place].radius;
    let (stretch, arc) = (teller.element(place), teller.arc(arc_place));
    let product = teller.number(length * radius.abs());
    let limit = teller.limit_of_book(names::CLOTHOID_MIN, metres(parameter, teller.language));
    let squared = teller.number(parameter * parameter);
    let least = least::clothoid(&teller.limits, radius);
    let passes = [least, least - length].map(|value| teller.number(value));
    vec![
        teller.say(words::NUMBERS_12, &[&stretch, &arc, &product]),
        teller.say(words::LIMIT_12, &[&limit, &squared]),
        teller.source_with_speed(words::SOURCE_12),
        teller.passes(teller.say(words::PASSES_12, &[&passes[0], &passes[1]])),
    ]
}

/// The old handbook: the length alone has to reach a least one, whatever the radius.
fn clothoid_length(teller: &Teller, place: usize, least: i128) -> Vec<String> {
    let length = teller.road.elements[place].length;
    let limit = metres(least, teller.language);
    vec![
        teller.element(place),
        teller.limit_of_book(names::CLOTHOID_LENGTH_MIN, limit),
        teller.source_in_old_handbook(words::SOURCE_12_OLD),
        teller.passes(teller.at_least(words::LENGTH, least, length)),
    ]
}
