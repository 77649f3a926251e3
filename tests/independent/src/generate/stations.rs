//! Stations to ask for: listed ones, those beside them, exact halves, beyond the end.

use super::random::Random;
use super::valid::bends::eggs;
use reference::file::Alignment;
use reference::{road, stations};

/// Halfway between two crossfall points, along an element or, at a vertex, in a vertical curve:
/// what changes evenly is often an exact half there.
fn halfway(random: &mut Random, road: &Alignment) -> i128 {
    let ends: Vec<i128> = match random.place(3) {
        0 => road.points.iter().map(|point| point.station).collect(),
        1 => road::element_starts(road),
        _ => return random.pick(&road::tangent_starts(road)),
    };
    let place = random.place(ends.len() - 1);
    (ends[place] + ends[place + 1]) / 2
}

/// A station where some number is often an exact half.
fn half(random: &mut Random, road: &Alignment) -> i128 {
    let on_egg = half_on_egg(random, road).filter(|_| random.chance(60));
    on_egg.unwrap_or_else(|| halfway(random, road))
}

/// A station on an egg where curvature is an exact half, if there is one near a place drawn.
fn half_on_egg(random: &mut Random, road: &Alignment) -> Option<i128> {
    let eggs = eggs(&road.elements);
    if eggs.is_empty() {
        return None;
    }
    let egg = random.pick(&eggs);
    let (first, last) = (road.elements[egg - 1].radius, road.elements[egg + 1].radius);
    let length = road.elements[egg].length;
    let is_half = |distance: &i128| {
        let numerator = 2_000_000_000 * (last * (length - distance) + first * distance);
        let denominator = first * last * length;
        numerator % denominator == 0 && numerator / denominator % 2 != 0
    };
    let from = random.between(0, length);
    let distance = (from..=length.min(from + 3_000)).find(is_half)?;
    Some(road::element_starts(road)[egg] + distance)
}

pub fn random_station(random: &mut Random, road: Option<&Alignment>) -> u64 {
    let end = road.map_or(100_000, Alignment::total_length);
    let listed = |random: &mut Random| match road {
        Some(road) => stations::next_station(road, random.between(0, end)).unwrap_or(end),
        None => random.between(0, end),
    };
    let station = match random.place(20) {
        0..=3 => listed(random),
        4..=5 => listed(random) + 1,
        6..=7 => (listed(random) - 1).max(0),
        8..=11 => random.between(0, end),
        12..=13 => road.map_or(end, |road| half(random, road)),
        14 => 0,
        15 => end,
        16 => end + 1,
        17 => end + random.between_by_size(1, 1 << 40),
        18 => random.pick(&[
            (1 << 31) - 1,
            1 << 31,
            (1 << 32) - 1,
            1 << 32,
            (1 << 63) - 1,
            1 << 63,
            (1 << 64) - 1,
            (1 << 64) - 100_000,
        ]),
        _ => i128::from(random.next() >> random.place(64)),
    };
    u64::try_from(station).expect("a station of 64 bits")
}
