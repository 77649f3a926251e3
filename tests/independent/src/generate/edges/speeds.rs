//! Roads that one speed passes and another refuses: inside they are judged by the one's row, outside by the other's.

use super::{accepted, accepted_or_at, road_with, Expected, Made};
use crate::generate::head::Head;
use crate::generate::numbers::file;
use crate::generate::random::Random;
use crate::generate::road::Road;
use crate::generate::valid::bends::places_of;
use crate::generate::valid::crossfall::point;
use crate::generate::valid::plan::{plan, plan_of_radii};
use crate::generate::valid::{upon_plan, upon_plan_by, Rows, Size, LONGEST_LENGTH};
use reference::file::Kind;
use reference::limits::{limits_at, Limits, SPEEDS};

/// The least straight max of the table; 40 and 50 km/h have none.
const LEAST_STRAIGHT_MAX: i128 = 1_200_000;

/// A road that passes at its own speed; outside it is judged by the row of another, which refuses it.
fn passes_or(outside: bool, road: &Road, other: i128, number: i128) -> Made {
    if !outside {
        return accepted(road);
    }
    Made {
        bytes: file(road),
        expected: Expected::Refused(number),
        speed: other,
    }
}

fn longest_straight(limits: &Limits) -> i128 {
    limits.straight_max.unwrap_or(LONGEST_LENGTH)
}

/// "a straight of 1,500 m fails at 70 and passes at 80": it is longer than another speed's straight max.
pub fn straight_of_other_speed(random: &mut Random, outside: bool) -> Made {
    let head = Head::with(random, |row| row.straight_max != Some(LEAST_STRAIGHT_MAX));
    let limits = head.limits();
    let longest_at = |speed| longest_straight(&limits_at(speed, head.contract));
    let shorter = |&speed: &i128| longest_at(speed) < longest_straight(&limits);
    let others: Vec<i128> = SPEEDS.into_iter().filter(shorter).collect();
    let other = random.pick(&others);
    let size = Size::with_bends(random, 0, 5);
    let mut elements = plan(random, &limits, &size);
    let straight = random.pick(&places_of(&elements, Kind::Straight));
    let (low, high) = (longest_at(other) + 1, longest_straight(&limits));
    elements[straight].length = random.between_or_bound(low, high.min(3_000_000));
    let road = upon_plan(random, head, elements, &size);
    passes_or(outside, &road, other, 8)
}

/// -25,000 on both sides of every arc, which no radius allows at a speed without R'.
pub fn falling_at_other_speed(random: &mut Random, outside: bool) -> Made {
    let head = Head::with(random, |row| row.radius_both_falling.is_some());
    let limits = head.limits();
    let least = limits.radius_both_falling.expect("a row with it");
    let size = Size::with_bends(random, 1, 5);
    let radii: Vec<i128> = (0..size.bends)
        .map(|_| random.sign() * random.between_or_bound(least, LONGEST_LENGTH))
        .collect();
    let elements = plan_of_radii(random, &limits, &size, &radii);
    let straights = places_of(&elements, Kind::Straight).into_iter();
    let longest = straights.map(|place| elements[place].length).max();
    let refuses = |&speed: &i128| {
        let row = limits_at(speed, head.contract);
        row.radius_both_falling.is_none() && longest <= Some(longest_straight(&row))
    };
    let others: Vec<i128> = SPEEDS.into_iter().filter(refuses).collect();
    let other = random.pick(&others);
    let mut road = upon_plan(random, head, elements, &size);
    let (end, falling) = (road.total_length(), (-25_000, -25_000));
    road.points = vec![point(0, falling), point(end, falling)];
    passes_or(outside, &road, other, 19)
}

/// The first pair of points that is too steep at the road's speed.
fn too_steep(road: &Road) -> Option<usize> {
    let lane_width = road.limits().lane_width;
    let steep = |place: &usize| {
        let (here, next) = (road.points[*place], road.points[place + 1]);
        let left = (next.left - here.left).abs();
        let right = (next.right - here.right).abs();
        lane_width * left.max(right) > road.ramp_limit * (next.station - here.station)
    };
    (0..road.points.len() - 1).find(steep)
}

/// "lane width included": outside the crossfalls change as fast as a narrower lane of the table allows.
pub fn narrower_lane(random: &mut Random, outside: bool) -> Made {
    let head = Head::with(random, |row| row.lane_width > 2_750);
    let limits = head.limits();
    let lanes = SPEEDS.map(|speed| limits_at(speed, head.contract).lane_width);
    let narrower: Vec<i128> = (lanes.into_iter())
        .filter(|&lane| lane < limits.lane_width)
        .collect();
    let make = |random: &mut Random| {
        let size = Size::with_bends(random, 0, 5);
        let elements = plan(random, &limits, &size);
        let by_narrower = Limits {
            lane_width: random.pick(&narrower),
            ..limits
        };
        let rows = Rows {
            profile: &limits,
            crossfalls: if outside { &by_narrower } else { &limits },
        };
        upon_plan_by(random, head, elements, &size, rows)
    };
    let (road, place) = road_with(random, make, |road| match outside {
        true => too_steep(road).into_iter().collect(),
        false => vec![0],
    });
    accepted_or_at(outside, &road, 18, place)
}
