//! The rules of the profile told, 6 and 13 to 15.

use reference::road;

use super::least;
use super::teller::Teller;
use crate::rule_book::{metres, percent};
use crate::words::{limits as names, why as words};

pub fn told(teller: &Teller, number: i128, place: usize) -> Vec<String> {
    match number {
        6 => sums(teller),
        13 => grade(teller, place),
        14 => tangent(teller, place),
        _ => vertical_curve(teller, place),
    }
}

fn sums(teller: &Teller) -> Vec<String> {
    let (plan, tangents) = (teller.road.total_length(), &teller.road.tangents);
    let sum: i128 = tangents.iter().map(|tangent| tangent.length).sum();
    let too = match sum < plan {
        true => words::TOO_SHORT,
        false => words::TOO_LONG,
    };
    let last = teller.road.points.last().map_or(0, |point| point.station);
    let numbers = [plan, sum, (plan - sum).abs(), last].map(|value| teller.number(value));
    let [plan, sum, difference, last] = &numbers;
    let values: [&dyn std::fmt::Display; 7] = [
        plan,
        &teller.road.elements.len(),
        sum,
        &tangents.len(),
        difference,
        &teller.say(too, &[]),
        last,
    ];
    vec![
        teller.say(words::NUMBERS_6, &values),
        teller.limit(teller.say(words::LIMIT_6, &[])),
        teller.source(words::SOURCE_NONE),
        teller.passes(teller.say(words::PASSES_6, &[plan, sum])),
    ]
}

fn grade(teller: &Teller, place: usize) -> Vec<String> {
    let most = teller.limits.grade_max;
    let grade = teller.road.tangents[place].grade;
    let (number, stretch) = (teller.number(grade), teller.tangent(place));
    let (limit, excess) = (teller.number(most), teller.number(grade.abs() - most));
    vec![
        teller.say(words::NUMBERS_13, &[&number, &stretch]),
        teller.limit_at_speed(names::GRADE_MAX, percent(most, teller.language)),
        teller.source_with_speed(words::SOURCE_13),
        teller.passes(teller.say(words::PASSES_13, &[&limit, &excess])),
    ]
}

fn tangent(teller: &Teller, place: usize) -> Vec<String> {
    let least = least::tangent(teller.road, place);
    let tangent = &teller.road.tangents[place];
    let halves = [least - tangent.half_length, tangent.half_length, least];
    let [at_start, at_end, both] = halves.map(|value| teller.number(value));
    let stretch = teller.tangent(place);
    vec![
        teller.say(words::NUMBERS_14, &[&stretch, &at_start, &at_end, &both]),
        teller.limit(teller.say(words::LIMIT_14, &[])),
        teller.source(words::SOURCE_14),
        teller.passes(teller.at_least(words::LENGTH, least, tangent.length)),
    ]
}

fn vertical_curve(teller: &Teller, vertex: usize) -> Vec<String> {
    let tangents = &teller.road.tangents;
    let (before, after) = (tangents[vertex].grade, tangents[vertex + 1].grade);
    let (shape, name, source) = match after > before {
        true => (words::SAG, names::SAG_RADIUS, words::SOURCE_15_SAG),
        false => (words::CREST, names::CREST_RADIUS, words::SOURCE_15_CREST),
    };
    let now = tangents[vertex].half_length;
    let station = road::tangent_starts(teller.road)[vertex + 1];
    let numbers = [now, station, before, after, (after - before).abs()];
    let [half, at, from, to, change] = numbers.map(|value| teller.number(value));
    let shape = teller.say(shape, &[]);
    let values: [&dyn std::fmt::Display; 6] = [&half, &at, &from, &to, &change, &shape];
    let radius = least::vertical_radius(&teller.limits, before, after);
    let least = least::half_length(&teller.limits, before, after);
    let [radius_mm, least_mm, lack] =
        [radius, least, least - now].map(|value| teller.number(value));
    vec![
        teller.say(words::NUMBERS_15, &values),
        teller.limit_at_speed(name, metres(radius, teller.language)),
        teller.source_with_speed(source),
        teller.passes(teller.say(words::PASSES_15, &[&least_mm, &radius_mm, &lack])),
    ]
}
