//! Bytes that are no road, and roads that no one would build.

use super::days::{day_or_none, random_contract};
use super::numbers::{file, number_bytes};
use super::random::Random;
use super::valid::bends::{eggs, pairs, random_leads, Lead, EGG_RADIUS_MAX};
use super::valid::plan::total;
use super::valid::{divided_up, random_start_height};
use reference::file::{Alignment, CrossfallPoint, Element, Kind, Tangent};

/// Random bytes, runs of one byte, small numbers.
pub fn bytes(random: &mut Random) -> Vec<u8> {
    let length = match random.place(8) {
        0 => random.between(8_185, 8_200) as usize,
        1 => random.between(0, 9_000) as usize,
        2 => random.between(0, 3) as usize,
        _ => random.between_by_size(0, 9_000) as usize,
    };
    match random.place(4) {
        0 => random.bytes(length),
        1 => vec![random.pick(&[0x00, 0x01, 0x09, 0x7f, 0x80, 0xff]); length],
        2 => (0..length).map(|_| random.next() as u8 & 0x83).collect(),
        _ => {
            // A start that can be read, then anything.
            let mut bytes = beginning(random);
            while bytes.len() < length {
                bytes.push(random.next() as u8 & random.pick(&[0x03, 0x7f, 0xff]));
            }
            bytes
        }
    }
}

/// A date now and then, then class, terrain, step 5,000, ramp limit and plan count.
fn beginning(random: &mut Random) -> Vec<u8> {
    let mut bytes = Vec::new();
    if random.chance(60) {
        let is_day = random.chance(80);
        let date = day_or_none(random, is_day);
        bytes.push(9);
        bytes.extend(number_bytes(date as u64));
    }
    bytes.extend([
        random.between(1, 4) as u8,
        random.between(1, 3) as u8,
        0x88,
        0x27,
        random.between(1, 127) as u8,
        random.between(1, 9) as u8,
    ]);
    bytes
}

/// A file that can be read, its fields of any value; some of the rules are kept now and then.
pub fn extreme(random: &mut Random) -> Vec<u8> {
    let count = |random: &mut Random, least: i128, most: i128| {
        if random.chance(5) {
            random.between_or_bound(least, most)
        } else {
            random.between(least, most.min(6))
        }
    };
    let element_count = count(random, 1, 200);
    let kinds = if random.chance(85) {
        right_kinds(random, element_count)
    } else {
        let any = [Kind::Straight, Kind::Arc, Kind::Clothoid];
        (0..element_count).map(|_| random.pick(&any)).collect()
    };
    let gentle = random.chance(60);
    let mut elements: Vec<Element> = kinds
        .into_iter()
        .map(|kind| extreme_element(random, kind, gentle))
        .collect();
    if random.chance(80) {
        mend_eggs_and_pairs(random, &mut elements);
    }
    let mut tangents: Vec<Tangent> = (0..count(random, 1, 100))
        .map(|_| extreme_tangent(random, gentle))
        .collect();
    if random.chance(85) {
        add_up(&mut tangents, total(&elements));
    }
    tangents.last_mut().expect("a tangent").half_length = 0;
    let mut points: Vec<CrossfallPoint> = (0..count(random, 2, 200))
        .map(|_| extreme_point(random, gentle, total(&elements)))
        .collect();
    if random.chance(80) {
        points.sort_by_key(|point| point.station);
    }
    if random.chance(80) {
        points[0].station = 0;
        points.last_mut().expect("a point").station = total(&elements).min(100_000_000);
    }
    if gentle && random.chance(50) {
        let first = points[0];
        for point in &mut points {
            (point.left, point.right) = (first.left, first.right);
        }
    }
    file(&Alignment {
        contract: random_contract(random),
        class: random.between(1, 4),
        terrain: random.between(1, 3),
        step: random.between_or_bound(1_000, 100_000),
        ramp_limit: random.between_or_bound(1, 20_000),
        elements,
        start_height: random_start_height(random),
        tangents,
        points,
    })
}

/// Kinds that run as refusal 7 wants them, more of them where more are asked for.
fn right_kinds(random: &mut Random, count: i128) -> Vec<Kind> {
    let leads = random_leads(random, (count / 2) as usize);
    let mut kinds = vec![Kind::Straight];
    for (place, lead) in leads.iter().enumerate() {
        let between: &[Kind] = match lead {
            _ if place == 0 => &[Kind::Clothoid],
            Lead::Straight => &[Kind::Clothoid, Kind::Straight, Kind::Clothoid],
            Lead::Egg => &[Kind::Clothoid],
            Lead::Pair => &[Kind::Clothoid, Kind::Clothoid],
        };
        kinds.extend(between);
        kinds.push(Kind::Arc);
    }
    if !leads.is_empty() {
        kinds.extend([Kind::Clothoid, Kind::Straight]);
    }
    kinds
}

/// Gives the arcs beside eggs and pairs turns and radii that refusal 23 passes.
fn mend_eggs_and_pairs(random: &mut Random, elements: &mut [Element]) {
    let (eggs, pairs) = (eggs(elements), pairs(elements));
    for place in 1..elements.len() {
        if eggs.contains(&place) {
            let before = &mut elements[place - 1].radius;
            let (turn, size) = (before.signum(), before.abs().min(EGG_RADIUS_MAX));
            *before = turn * size;
            let least = if size < 300_000 { 10_000 } else { 300_000 };
            let other = match random.between_or_bound(least, EGG_RADIUS_MAX) {
                other if other != size => other,
                10_000 => 10_001,
                _ => size - 1,
            };
            elements[place + 1].radius = turn * other;
        }
        if pairs.contains(&place) {
            let turn = -elements[place - 2].radius.signum();
            elements[place + 1].radius = turn * elements[place + 1].radius.abs();
        }
    }
}

fn extreme_element(random: &mut Random, kind: Kind, gentle: bool) -> Element {
    let (length, size) = if gentle {
        (
            random.between(60_000, 1_200_000),
            random.between(300_000, 10_000_000),
        )
    } else {
        (
            random.between_or_bound(1, 10_000_000),
            random.between_or_bound(10_000, 10_000_000),
        )
    };
    let radius = if kind == Kind::Arc {
        random.sign() * size
    } else {
        0
    };
    Element {
        kind,
        length,
        radius,
    }
}

fn extreme_tangent(random: &mut Random, gentle: bool) -> Tangent {
    let length = random.between_or_bound(1, 10_000_000);
    if gentle {
        Tangent {
            length,
            grade: random.between(-3_000, 3_000),
            half_length: random.between(0, 30_000),
        }
    } else {
        Tangent {
            length,
            grade: random.between_or_bound(-120_000, 120_000),
            half_length: random.between_or_bound(0, 1_000_000),
        }
    }
}

fn extreme_point(random: &mut Random, gentle: bool, end: i128) -> CrossfallPoint {
    if gentle {
        let size = random.sign() * random.between_or_bound(25_000, 70_000);
        CrossfallPoint {
            station: random.between(0, end.min(100_000_000)),
            left: size,
            right: -size,
        }
    } else {
        CrossfallPoint {
            station: random.between_or_bound(0, 100_000_000),
            left: random.between_or_bound(-80_000, 80_000),
            right: random.between_or_bound(-80_000, 80_000),
        }
    }
}

/// Gives the tangents even lengths that add up to T, where that can be.
fn add_up(tangents: &mut [Tangent], total: i128) {
    let count = tangents.len() as i128;
    if divided_up(total, count) > 10_000_000 || total < count {
        return;
    }
    for (place, tangent) in tangents.iter_mut().enumerate() {
        let place = place as i128;
        tangent.length = total * (place + 1) / count - total * place / count;
    }
}
