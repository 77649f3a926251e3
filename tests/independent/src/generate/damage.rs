//! Damages to roads, numbers and bytes, alone or several at once.

use super::days::{no_day, random_contract};
use super::edges::bends::spoil;
use super::edges::plan::change_kind;
use super::numbers::{bytes_of, file, number_bytes, numbers, Number};
use super::random::Random;
use super::road::Road;
use super::valid::bends::{eggs, pairs, places_of};
use super::valid::random_road;
use reference::file::{Contract, Kind};

const DAMAGES: [usize; 34] = [
    0, 1, 2, 2, 2, 2, 2, 3, 3, 3, 4, 4, 5, 6, 6, 7, 7, 7, 8, 9, 10, 11, 12, 12, 13, 14, 14, 15, 16,
    16, 16, 17, 18, 18,
];

/// One rule is broken, mostly by little.
pub fn damage_road(random: &mut Random, road: &mut Road) {
    let limits = road.limits();
    let element = random.place(road.elements.len());
    let tangent = random.place(road.tangents.len());
    let point = random.place(road.points.len());
    let is_last_tangent = tangent + 1 == road.tangents.len();
    let mut arcs = places_of(&road.elements, Kind::Arc);
    arcs.push(element);
    let arc = random.pick(&arcs);
    // What leaves T alone comes more often, so that the later rules compete.
    match random.pick(&DAMAGES) {
        0 => road.elements[element].length = random.between_or_bound(1, 10_000_000),
        1 => change_kind(random, &mut road.elements[element]),
        2 => {
            // The kinds stay, the length goes from one element to another.
            let other = random.place(road.elements.len());
            let moved = random.between(0, road.elements[element].length - 1);
            if road.elements[other].length + moved <= 10_000_000 {
                road.elements[element].length -= moved;
                road.elements[other].length += moved;
            }
        }
        3 => {
            let size = random.between_or_bound(10_000, limits.radius_min);
            let radius = &mut road.elements[arc].radius;
            *radius = radius.signum() * size;
        }
        4 => {
            let radius = &mut road.elements[arc].radius;
            *radius = -*radius;
        }
        5 => road.tangents[tangent].length = random.between_or_bound(1, 10_000_000),
        6 => road.tangents[tangent].grade = random.between_or_bound(-120_000, 120_000),
        7 if !is_last_tangent => {
            road.tangents[tangent].half_length = random.between_or_bound(0, 1_000_000);
        }
        8 => road.points[point].station = random.between_or_bound(0, 100_000_000),
        9 => road.points[point].left = random.between_or_bound(-80_000, 80_000),
        10 => road.points[point].right = random.between_or_bound(-80_000, 80_000),
        11 => road.ramp_limit = random.between_or_bound(1, 20_000),
        12 => {
            road.class = random.between(1, 4);
            road.terrain = random.between(1, 3);
        }
        13 => {
            let side = random.pick(&[-1, 1]);
            let station = &mut road.points[point].station;
            *station = (*station + side).clamp(0, 100_000_000);
        }
        14 => {
            let other = random.place(road.points.len());
            road.points.swap(point, other);
        }
        16 => road.contract = random_contract(random),
        17 => road.contract = Contract::Dated(no_day(random)),
        18 => {
            let joined = [eggs(&road.elements), pairs(&road.elements)].concat();
            if !joined.is_empty() {
                let clothoid = random.pick(&joined);
                spoil(random, &mut road.elements, clothoid);
            }
        }
        _ => {
            let elements = road.elements.len();
            road.elements.truncate(random.place(elements) + 1);
        }
    }
}

/// A number gets another value, of any size.
pub fn damage_number(random: &mut Random, numbers: &mut [Number]) {
    let place = random.place(numbers.len());
    let number = &mut numbers[place];
    number.written = match random.place(5) {
        0 => number.written.saturating_sub(1),
        1 => number.written + 1,
        2 => random.between_by_size(0, 4_294_967_295) as u64,
        3 => random.between(4_294_967_290, 4_294_967_300) as u64,
        _ => random.next() >> random.place(64),
    };
}

/// Bytes are cut off, added, put in or changed.
pub fn damage_bytes(random: &mut Random, bytes: &mut Vec<u8>) {
    let place = random.place(bytes.len().max(1)).min(bytes.len());
    match random.place(8) {
        0 => bytes.truncate(place),
        1 => {
            let count = random.between_by_size(1, 9_000) as usize;
            let more = random.bytes(count);
            bytes.extend(more);
        }
        2 => bytes.insert(place, random.next() as u8),
        3 if !bytes.is_empty() => {
            bytes.remove(place);
        }
        4 if !bytes.is_empty() => bytes[place] |= 0x80,
        5 => bytes.resize(random.pick(&[8_191, 8_192, 8_193]), 0),
        6 => {
            let long = number_bytes(random.next());
            bytes.splice(place..place, long);
        }
        _ => {
            if let Some(last) = bytes.last_mut() {
                *last |= 0x80;
            }
        }
    }
}

/// Two to four damages at once.
pub fn several(random: &mut Random) -> Vec<u8> {
    let mut road = random_road(random);
    let damages = random.between(2, 4);
    let on_road = if random.chance(60) {
        damages
    } else {
        random.between(0, damages)
    };
    for _ in 0..on_road {
        damage_road(random, &mut road);
    }
    let mut numbers = numbers(&road);
    let mut late = damages - on_road;
    if late > 0 && random.chance(50) {
        damage_number(random, &mut numbers);
        late -= 1;
    }
    let mut bytes = bytes_of(&numbers);
    for _ in 0..late {
        damage_bytes(random, &mut bytes);
    }
    bytes
}

/// One damage of the bytes.
pub fn broken(random: &mut Random) -> Vec<u8> {
    let mut bytes = file(&random_road(random));
    damage_bytes(random, &mut bytes);
    bytes
}

/// A few bits of a valid file are flipped.
pub fn flipped(random: &mut Random) -> Vec<u8> {
    let mut bytes = file(&random_road(random));
    for _ in 0..random.between(1, 4) {
        let place = random.place(bytes.len());
        bytes[place] ^= 1 << random.place(8);
    }
    bytes
}
