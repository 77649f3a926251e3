//! Tangents and vertical curves that keep rules 6 and 13 to 15.

use std::collections::BTreeSet;

use super::{divided_up, LONGEST_LENGTH};
use crate::generate::random::Random;
use reference::file::Tangent;
use reference::limits::Limits;

/// Lengths of so many tangents that add up to T.
fn tangent_lengths(random: &mut Random, total: i128, wanted: usize) -> Vec<i128> {
    let least = divided_up(total, LONGEST_LENGTH);
    let count = (wanted as i128).max(least).min(total).min(100);
    let mut cuts = BTreeSet::from([0, total]);
    for _ in 0..4 * count {
        if (cuts.len() as i128) < count + 1 {
            cuts.insert(random.between(1, (total - 1).max(1)).min(total));
        }
    }
    let cuts: Vec<i128> = cuts.into_iter().collect();
    let lengths: Vec<i128> = cuts.windows(2).map(|pair| pair[1] - pair[0]).collect();
    if lengths.iter().all(|&length| length <= LONGEST_LENGTH) {
        return lengths;
    }
    (0..count)
        .map(|place| total * (place + 1) / count - total * place / count)
        .collect()
}

fn random_grade(random: &mut Random, limits: &Limits) -> i128 {
    let most = limits.grade_max;
    match random.place(6) {
        0 => most,
        1 => -most,
        2 => 0,
        _ => random.between(-most, most),
    }
}

/// The least half length for a change of grade, by rule 15.
pub fn least_half_length(limits: &Limits, change: i128) -> i128 {
    let radius = if change > 0 {
        limits.sag_radius
    } else {
        limits.crest_radius
    };
    divided_up(radius * change.abs(), 2_000_000)
}

/// Tangents that keep rules 6 and 13 to 15.
pub fn profile(random: &mut Random, limits: &Limits, total: i128, wanted: usize) -> Vec<Tangent> {
    let lengths = tangent_lengths(random, total, wanted);
    let mut tangents = Vec::new();
    let mut grade = random_grade(random, limits);
    let steady = random.chance(8);
    let mut half_before = 0;
    for (place, &length) in lengths.iter().enumerate() {
        let Some(&next_length) = lengths.get(place + 1) else {
            tangents.push(Tangent {
                length,
                grade,
                half_length: 0,
            });
            break;
        };
        let room = (length - half_before).min(next_length).min(1_000_000);
        let mut half_length = match random.place(6) {
            0 => 0,
            1 => room,
            2 => room.min(next_length / 2),
            3 => random.between(0, room),
            _ => random.between(0, room.min(next_length / 2)),
        };
        let change = if steady {
            0
        } else {
            random_change(random, limits, grade, half_length)
        };
        if change != 0 && random.chance(35) {
            half_length = least_half_length(limits, change);
        }
        tangents.push(Tangent {
            length,
            grade,
            half_length,
        });
        grade += change;
        half_before = half_length;
    }
    tangents
}

/// A change of grade that a half length allows.
fn random_change(random: &mut Random, limits: &Limits, grade: i128, half_length: i128) -> i128 {
    let rising = random.chance(50);
    let (radius, room) = if rising {
        (limits.sag_radius, limits.grade_max - grade)
    } else {
        (limits.crest_radius, limits.grade_max + grade)
    };
    let most = (2 * half_length * 1_000_000 / radius).min(room);
    let change = if random.chance(40) {
        most
    } else {
        random.between(0, most)
    };
    if rising {
        change
    } else {
        -change
    }
}
