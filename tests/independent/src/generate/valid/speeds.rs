//! Roads that pass at some speeds and not at others.

use super::bends::places_of;
use super::plan::{plan, total};
use super::{upon_plan, upon_plan_by, Rows, Size, LONGEST_LENGTH, LONGEST_PLAN};
use crate::generate::head::Head;
use crate::generate::random::Random;
use crate::generate::road::Road;
use reference::file::{Element, Kind};
use reference::limits::{limits_at, SPEEDS};

/// A road that keeps every rule at one of the seven speeds, whatever its class and terrain say.
pub fn road_of_any_speed(random: &mut Random) -> Road {
    let head = Head::of_any_speed(random);
    let size = Size::random(random);
    let elements = plan_between_speeds(random, head, &size);
    upon_plan(random, head, elements, &size)
}

/// A road whose profile is designed for a speed of its own, and its crossfalls for one that is not above the plan's.
pub fn mixed_road(random: &mut Random) -> Road {
    let head = Head::of_any_speed(random);
    let size = Size::random(random);
    let elements = plan_between_speeds(random, head, &size);
    let not_above: Vec<i128> = SPEEDS.into_iter().filter(|&s| s <= head.speed).collect();
    let [profile, crossfalls] =
        [&SPEEDS[..], &not_above].map(|speeds| limits_at(random.pick(speeds), head.contract));
    let rows = Rows {
        profile: &profile,
        crossfalls: &crossfalls,
    };
    upon_plan_by(random, head, elements, &size, rows)
}

/// A plan of which a straight is now and then as long as the straight max of any speed, or 1 longer.
fn plan_between_speeds(random: &mut Random, head: Head, size: &Size) -> Vec<Element> {
    let mut elements = plan(random, &head.limits(), size);
    if random.chance(40) {
        let straight = random.pick(&places_of(&elements, Kind::Straight));
        let before = elements[straight].length;
        elements[straight].length = straight_between_speeds(random, head);
        if total(&elements) > LONGEST_PLAN {
            elements[straight].length = before;
        }
    }
    elements
}

fn straight_between_speeds(random: &mut Random, head: Head) -> i128 {
    let straight_max = |speed| limits_at(speed, head.contract).straight_max;
    let greatest: Vec<i128> = SPEEDS.into_iter().filter_map(straight_max).collect();
    let longest = head.limits().straight_max.unwrap_or(LONGEST_LENGTH);
    let length = random.pick(&greatest) + random.between(0, 1);
    length.min(longest)
}
