//! The rules of the cross-section told, 16 to 19.

use reference::file::CrossfallPoint;
use reference::fraction::Fraction;
use reference::road;

use super::least;
use super::teller::Teller;
use crate::rule_book;
use crate::words::why as words;

pub fn told(teller: &Teller, number: i128, place: usize) -> Vec<String> {
    match number {
        16 => station(teller, place),
        17 => crossfall(teller, place),
        18 => ramp(teller, place),
        _ => arc(teller, place),
    }
}

fn station(teller: &Teller, place: usize) -> Vec<String> {
    let points = &teller.road.points;
    let here = teller.number(points[place].station);
    let end = teller.number(teller.road.total_length());
    let numbers = match place {
        0 => teller.say(words::NUMBERS_16_FIRST, &[&here]),
        _ if place + 1 == points.len() => teller.say(words::NUMBERS_16_LAST, &[&here, &end]),
        _ => {
            let before = teller.number(points[place - 1].station);
            teller.say(words::NUMBERS_16, &[&here, &(place - 1), &before])
        }
    };
    vec![
        numbers,
        teller.limit(teller.say(words::LIMIT_16, &[])),
        teller.source(words::SOURCE_NONE),
        teller.passes(station_due(teller, place)),
    ]
}

fn station_due(teller: &Teller, place: usize) -> String {
    let points = &teller.road.points;
    if place == 0 {
        return teller.say(words::PASSES_16, &[&0]);
    }
    if place + 1 == points.len() {
        let end = teller.number(teller.road.total_length());
        return teller.say(words::PASSES_16, &[&end]);
    }
    let (from, to) = (points[place - 1].station + 1, points[place + 1].station - 1);
    let numbers = [from, to].map(|value| teller.number(value));
    match from <= to {
        true => teller.say(words::PASSES_16_BETWEEN, &[&numbers[0], &numbers[1]]),
        false => teller.say(words::PASSES_16_BEYOND, &[&numbers[0]]),
    }
}

fn crossfall(teller: &Teller, place: usize) -> Vec<String> {
    let point = &teller.road.points[place];
    let limits = [least::LEAST_CROSSFALL, least::GREATEST_CROSSFALL];
    let [least, greatest] = limits.map(|value| teller.number(value));
    let numbers = [point.left, point.right, point.station];
    let [left, right, station] = numbers.map(|value| teller.number(value));
    let nearest = [point.left, point.right].map(least::crossfall);
    let [near_left, near_right] = nearest.map(|value| teller.number(value));
    vec![
        teller.say(words::NUMBERS_17, &[&left, &right, &station]),
        teller.limit(teller.say(words::LIMIT_17, &[&least, &greatest])),
        teller.source(words::SOURCE_17),
        teller.passes(teller.say(words::PASSES_17, &[&near_left, &near_right])),
    ]
}

fn ramp(teller: &Teller, first: usize) -> Vec<String> {
    let pair = &teller.road.points[first..first + 2];
    let distance = pair[1].station - pair[0].station;
    let numbers = [
        distance,
        pair[0].station,
        pair[1].station,
        (pair[1].left - pair[0].left).abs(),
        (pair[1].right - pair[0].right).abs(),
        teller.limits.lane_width,
        teller.road.ramp_limit,
    ];
    let numbers = numbers.map(|value| teller.number(value));
    let values = numbers
        .each_ref()
        .map(|number| number as &dyn std::fmt::Display);
    let twist = teller.number(least::twist(teller.road, &teller.limits, first));
    let allowed = teller.number(teller.road.ramp_limit * distance);
    vec![
        teller.say(words::NUMBERS_18, &values),
        teller.limit(teller.say(words::LIMIT_18, &[&twist, &allowed])),
        ramp_source(teller),
        teller.passes(ramp_due(teller, first, distance)),
    ]
}

fn ramp_source(teller: &Teller) -> String {
    let book = rule_book::ramp_limit(teller.road.class, teller.road.terrain);
    let book = teller.number(book);
    let source = teller.say(words::SOURCE_18, &[&book, &teller.speed()]);
    teller.say(words::RULE_BOOK, &[&source])
}

/// The least distance, and the least ramp limit where a file can have it.
fn ramp_due(teller: &Teller, first: usize, distance: i128) -> String {
    let least = least::distance(teller.road, &teller.limits, first);
    let numbers = [least, least - distance].map(|value| teller.number(value));
    let due = teller.say(words::PASSES_18, &[&numbers[0], &numbers[1]]);
    let ramp_limit = least::ramp_limit(teller.road, &teller.limits, first);
    let Some(ramp_limit) = ramp_limit.filter(|&limit| limit <= least::GREATEST_RAMP_LIMIT) else {
        return due;
    };
    let due = teller.say(words::PASSES_18_RAMP, &[&due, &teller.number(ramp_limit)]);
    match ramp_limit > rule_book::ramp_limit(teller.road.class, teller.road.terrain) {
        true => teller.say(words::PASSES_18_STEEP, &[&due]),
        false => due,
    }
}

fn arc(teller: &Teller, place: usize) -> Vec<String> {
    let radius = teller.road.elements[place].radius;
    let size = teller.number(radius.abs());
    let (turn, inner, passes) = match radius > 0 {
        true => (words::RIGHT_TURN, words::RIGHT, words::PASSES_19),
        false => (words::LEFT_TURN, words::LEFT, words::PASSES_19_LEFT),
    };
    let (turn, stretch) = (teller.say(turn, &[]), teller.element(place));
    let limit = teller.say(words::LIMIT_19, &[&teller.say(inner, &[])]);
    let limit = match teller.limits.radius_both_falling {
        None => limit,
        Some(least) => {
            let numbers = [least::LEAST_CROSSFALL, least].map(|value| teller.number(value));
            teller.say(words::LIMIT_19_RADIUS, &[&limit, &numbers[0], &numbers[1]])
        }
    };
    let crossfalls = crossfalls_on(teller, place);
    let range = [least::LEAST_CROSSFALL, least::GREATEST_CROSSFALL];
    let [least, greatest] = range.map(|value| teller.number(value));
    vec![
        teller.say(words::NUMBERS_10, &[&size, &turn, &stretch]),
        teller.say(words::NUMBERS_19, &[&crossfalls]),
        teller.limit(limit),
        teller.source_with_speed(words::SOURCE_19),
        teller.passes(teller.say(passes, &[&least, &greatest])),
    ]
}

/// The crossfalls at an arc's start, its end and the points between.
fn crossfalls_on(teller: &Teller, arc: usize) -> String {
    let starts = road::element_starts(teller.road);
    let at = |station: i128| {
        let left = road::crossfall(teller.road, station, |point| point.left);
        let right = road::crossfall(teller.road, station, |point| point.right);
        [left, right].map(|side| rounded(teller, side))
    };
    let (start, end) = (at(starts[arc]), at(starts[arc + 1]));
    let mut parts = vec![teller.say(words::AT_START, &[&start[0], &start[1]])];
    let within =
        |point: &CrossfallPoint| starts[arc] < point.station && point.station < starts[arc + 1];
    for (place, point) in teller.road.points.iter().enumerate() {
        if within(point) {
            let [left, right] = [point.left, point.right].map(|side| teller.number(side));
            parts.push(teller.say(words::AT_POINT, &[&left, &right, &place]));
        }
    }
    parts.push(teller.say(words::AT_END, &[&end[0], &end[1]]));
    parts.join(", ")
}

fn rounded(teller: &Teller, value: Fraction) -> String {
    let number = teller.number(value.rounded());
    match value.equals(Fraction::whole(value.rounded())) {
        true => number,
        false => teller.say(words::ABOUT, &[&number]),
    }
}
