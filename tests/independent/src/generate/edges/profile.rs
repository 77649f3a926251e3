//! Refusals 13 to 15: grades, tangents and vertical curves.

use super::{accepted_or, road_with, Made};
use crate::generate::random::Random;
use crate::generate::valid::profile::least_half_length;
use crate::generate::valid::{random_road, LONGEST_LENGTH};

pub fn grade_max(random: &mut Random, outside: bool) -> Made {
    let (mut road, place) = road_with(random, random_road, |road| {
        let most = road.limits().grade_max;
        (0..road.tangents.len())
            .filter(|&place| road.tangents[place].grade.abs() == most)
            .collect()
    });
    if outside {
        let grade = &mut road.tangents[place].grade;
        *grade += grade.signum();
    }
    accepted_or(outside, &road, 13)
}

pub fn tangent_and_halves(random: &mut Random, outside: bool) -> Made {
    let (mut road, place) = road_with(random, random_road, |road| {
        let tangents = &road.tangents;
        (0..tangents.len())
            .filter(|&place| {
                let before = place.checked_sub(1).map_or(0, |p| tangents[p].half_length);
                let length = tangents[place].length;
                tangents.len() > 1 && length > 1 && length == before + tangents[place].half_length
            })
            .collect()
    });
    if outside {
        let other = (place + 1) % road.tangents.len();
        if road.tangents[other].length == LONGEST_LENGTH {
            return tangent_and_halves(random, outside);
        }
        road.tangents[place].length -= 1;
        road.tangents[other].length += 1;
    }
    accepted_or(outside, &road, 14)
}

pub fn sag(random: &mut Random, outside: bool) -> Made {
    vertical_curve(random, outside, true)
}

pub fn crest(random: &mut Random, outside: bool) -> Made {
    vertical_curve(random, outside, false)
}

/// A half length at its least, or 1 below.
fn vertical_curve(random: &mut Random, outside: bool, sag: bool) -> Made {
    let (mut road, vertex) = road_with(random, random_road, |road| {
        let limits = road.limits();
        (0..road.tangents.len() - 1)
            .filter(|&vertex| {
                let change = road.tangents[vertex + 1].grade - road.tangents[vertex].grade;
                let least = least_half_length(&limits, change);
                change != 0 && (change > 0) == sag && road.tangents[vertex].half_length == least
            })
            .collect()
    });
    if outside {
        road.tangents[vertex].half_length -= 1;
    }
    accepted_or(outside, &road, 15)
}

/// "h = 0" passes exactly where both grades are equal.
pub fn no_vertical_curve(random: &mut Random, outside: bool) -> Made {
    let (mut road, vertex) = road_with(random, random_road, |road| {
        (0..road.tangents.len() - 1)
            .filter(|&vertex| road.tangents[vertex].half_length == 0)
            .collect()
    });
    if outside {
        let most = road.limits().grade_max;
        let grade = &mut road.tangents[vertex + 1].grade;
        *grade += if *grade == most || (*grade > -most && random.chance(50)) {
            -1
        } else {
            1
        };
    }
    accepted_or(outside, &road, 15)
}
