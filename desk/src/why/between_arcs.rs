//! Clothoids between two arcs told: refusal 23, and refusal 12 of an egg curve.

use reference::file::Element;
use reference::road;
use reference::rules::EGG_RADIUS_MAX;

use super::least;
use super::teller::Teller;
use crate::rule_book::metres;
use crate::words::{limits as names, why as words};

/// Refusal 23 of an egg curve, or of the second clothoid of a pair.
pub fn told(teller: &Teller, place: usize) -> Vec<String> {
    match road::arcs_of_egg(teller.road, place) {
        Some((before, after)) => wrong_egg(teller, place, before, after),
        None => wrong_pair(teller, place),
    }
}

fn wrong_egg(teller: &Teller, place: usize, before: Element, after: Element) -> Vec<String> {
    let (stretch, arcs) = (teller.element(place), arcs(teller, place - 1, place + 1));
    let faults = egg_faults(teller, before, after);
    let most = teller.number(EGG_RADIUS_MAX);
    vec![
        teller.say(words::NUMBERS_23_EGG, &[&stretch, &arcs, &faults]),
        teller.limit(teller.say(words::LIMIT_23_EGG, &[&most])),
        teller.source(words::SOURCE_23_EGG),
        teller.passes(egg_passes(teller, before, after)),
    ]
}

/// The arcs on both sides, with their radii.
fn arcs(teller: &Teller, before: usize, after: usize) -> String {
    let arcs = [before, after].map(|place| teller.arc(place));
    teller.say(words::ARCS, &[&arcs[0], &arcs[1]])
}

/// Everything that an egg curve may not have.
fn egg_faults(teller: &Teller, before: Element, after: Element) -> String {
    let sizes = [before, after].map(|arc| arc.radius.abs());
    let faults = [
        (!is_same_turn(before, after), words::OPPOSITE_TURNS),
        (sizes[0] == sizes[1], words::EQUAL_RADII),
        (sizes[0].max(sizes[1]) > EGG_RADIUS_MAX, words::FLAT_RADIUS),
    ];
    let faults = faults.into_iter().filter(|(is_one, _)| *is_one);
    let faults = faults.map(|(_, phrase)| teller.say(phrase, &[]));
    faults.collect::<Vec<_>>().join(", ")
}

fn is_same_turn(before: Element, after: Element) -> bool {
    before.radius.signum() == after.radius.signum()
}

/// The nearest egg curve that passes, or what takes its place.
fn egg_passes(teller: &Teller, before: Element, after: Element) -> String {
    let sizes = [before, after].map(|arc| arc.radius.abs());
    let greatest = sizes[0].max(sizes[1]);
    if !is_same_turn(before, after) {
        return teller.say(words::PASSES_23_OPPOSITE, &[]);
    }
    if greatest <= EGG_RADIUS_MAX {
        return teller.say(words::PASSES_23_EQUAL, &[&teller.number(greatest)]);
    }
    if sizes[0].min(sizes[1]) < EGG_RADIUS_MAX {
        return teller.at_most(words::RADIUS, EGG_RADIUS_MAX, greatest);
    }
    let most = [EGG_RADIUS_MAX, EGG_RADIUS_MAX - 1].map(|size| teller.number(size));
    teller.say(words::PASSES_23_BOTH, &[&most[0], &most[1]])
}

/// A pair of clothoids between arcs of the same turn, told at its second one.
fn wrong_pair(teller: &Teller, second: usize) -> Vec<String> {
    let first = second - 1;
    let (stretch, arcs) = (teller.element(second), arcs(teller, first - 1, second + 1));
    vec![
        teller.say(words::NUMBERS_23_PAIR, &[&stretch, &first, &arcs]),
        teller.limit(teller.say(words::LIMIT_23_PAIR, &[])),
        teller.source(words::SOURCE_23_PAIR),
        teller.passes(pair_passes(teller, first - 1, second + 1)),
    ]
}

/// What may stand between two arcs of the same turn: an egg curve only where it keeps this rule.
fn pair_passes(teller: &Teller, before: usize, after: usize) -> String {
    let radii = [before, after].map(|arc| teller.road.elements[arc].radius.abs());
    if radii[0] == radii[1] || radii[0].max(radii[1]) > EGG_RADIUS_MAX {
        return teller.say(words::PASSES_23_STRAIGHT, &[]);
    }
    let least = teller.number(least::egg(&teller.limits, radii[0], radii[1]));
    teller.say(words::PASSES_23_PAIR, &[&least])
}

/// Refusal 12 of an egg curve by today's rule book: length × R1 × R2 has to reach A min squared × |R1 − R2|.
pub fn short_egg(teller: &Teller, place: usize, parameter: i128) -> Vec<String> {
    let elements = &teller.road.elements;
    let length = elements[place].length;
    let radii = [place - 1, place + 1].map(|arc| elements[arc].radius.abs());
    let product = teller.number(length * radii[0] * radii[1]);
    let due = teller.number(parameter * parameter * (radii[0] - radii[1]).abs());
    let (stretch, arcs) = (teller.element(place), arcs(teller, place - 1, place + 1));
    let limit = teller.limit_of_book(names::CLOTHOID_MIN, metres(parameter, teller.language));
    let least = least::egg(&teller.limits, radii[0], radii[1]);
    let passes = [least, least - length].map(|value| teller.number(value));
    vec![
        teller.say(words::NUMBERS_12_EGG, &[&stretch, &arcs, &product]),
        teller.say(words::LIMIT_12_EGG, &[&limit, &due]),
        teller.source_with_speed(words::SOURCE_12_EGG),
        teller.passes(teller.say(words::PASSES_12_EGG, &[&passes[0], &passes[1]])),
    ]
}
