//! The least values that keep a rule.

use reference::file::{Alignment, CrossfallPoint, Kind};
use reference::limits::{LeastClothoid, Limits};
use reference::road;
use reference::rules::kinds_after;

/// Document 01 has these for every speed.
pub const LONGEST_PLAN: i128 = 100_000_000;
pub const LEAST_CROSSFALL: i128 = 25_000;
pub const GREATEST_CROSSFALL: i128 = 70_000;
/// A file holds no greater one.
pub const GREATEST_RAMP_LIMIT: i128 = 20_000;

/// A quotient of whole numbers that are not negative, rounded up.
fn rounded_up(dividend: i128, divisor: i128) -> i128 {
    (dividend + divisor - 1) / divisor
}

/// The length nearest to an element's that keeps a rule about it; none where there is no length.
pub fn element_length(
    alignment: &Alignment,
    limits: &Limits,
    number: i128,
    place: usize,
) -> Option<i128> {
    match number {
        5 => {
            Some(LONGEST_PLAN - road::element_starts(alignment)[place]).filter(|&length| length > 0)
        }
        8 => limits.straight_max,
        9 => limits.straight_min,
        11 => Some(limits.arc_min),
        12 => clothoid_at(alignment, limits, place),
        _ => None,
    }
}

/// The kinds that an element may have after those before it.
pub fn kinds_due(alignment: &Alignment, place: usize) -> &'static [Kind] {
    let before = alignment.elements[..place].iter();
    let kinds: Vec<Kind> = before.map(|element| element.kind).collect();
    kinds_after(&kinds)
}

/// The least length of the clothoid at a place; none where A min asks for an arc beside it and there is none.
pub fn clothoid_at(alignment: &Alignment, limits: &Limits, place: usize) -> Option<i128> {
    if let LeastClothoid::Length(length) = limits.clothoid {
        return Some(length);
    }
    if let Some((before, after)) = road::arcs_of_egg(alignment, place) {
        return Some(egg(limits, before.radius, after.radius));
    }
    let arc = arc_beside(alignment, place)?;
    Some(clothoid(limits, alignment.elements[arc].radius))
}

/// The arc of the clothoid at a place: the next element, or the one before.
pub fn arc_beside(alignment: &Alignment, place: usize) -> Option<usize> {
    let is_arc = |&place: &usize| {
        let element = alignment.elements.get(place);
        element.is_some_and(|element| element.kind == Kind::Arc)
    };
    let before = place.checked_sub(1);
    [Some(place + 1), before].into_iter().flatten().find(is_arc)
}

/// The least length of a clothoid beside an arc: A min squared / R, by the old handbook a length of its own.
pub fn clothoid(limits: &Limits, radius: i128) -> i128 {
    match limits.clothoid {
        LeastClothoid::Parameter(parameter) => rounded_up(parameter * parameter, radius.abs()),
        LeastClothoid::Length(length) => length,
    }
}

/// The least length of an egg curve: A min squared x |R1 - R2| / (R1 x R2), by the old handbook a length of its own.
pub fn egg(limits: &Limits, before: i128, after: i128) -> i128 {
    let (before, after) = (before.abs(), after.abs());
    match limits.clothoid {
        LeastClothoid::Parameter(parameter) => {
            let difference = (before - after).abs();
            rounded_up(parameter * parameter * difference, before * after)
        }
        LeastClothoid::Length(length) => length,
    }
}

/// The radius that a vertical curve between two grades has to reach.
pub fn vertical_radius(limits: &Limits, before: i128, after: i128) -> i128 {
    if after > before {
        limits.sag_radius
    } else {
        limits.crest_radius
    }
}

/// The least half length between two grades: R x |g2 - g1| / (2 x 10^6).
pub fn half_length(limits: &Limits, before: i128, after: i128) -> i128 {
    let radius = vertical_radius(limits, before, after);
    rounded_up(radius * (after - before).abs(), 2_000_000)
}

/// The half lengths at the two ends of a tangent together.
pub fn tangent(alignment: &Alignment, place: usize) -> i128 {
    let at_start = match place {
        0 => 0,
        _ => alignment.tangents[place - 1].half_length,
    };
    at_start + alignment.tangents[place].half_length
}

/// The greater of the two sides' changes between neighbouring points.
fn change(here: &CrossfallPoint, next: &CrossfallPoint) -> i128 {
    let left = (next.left - here.left).abs();
    left.max((next.right - here.right).abs())
}

/// Lane width x change of crossfall, of the side that changes more.
pub fn twist(alignment: &Alignment, limits: &Limits, first: usize) -> i128 {
    let pair = &alignment.points[first..first + 2];
    limits.lane_width * change(&pair[0], &pair[1])
}

/// The least distance from a point to the next.
pub fn distance(alignment: &Alignment, limits: &Limits, first: usize) -> i128 {
    rounded_up(twist(alignment, limits, first), alignment.ramp_limit)
}

/// The least ramp limit that allows the distance from a point to the next; none where the next is not beyond.
pub fn ramp_limit(alignment: &Alignment, limits: &Limits, first: usize) -> Option<i128> {
    let pair = &alignment.points[first..first + 2];
    let distance = pair[1].station - pair[0].station;
    (distance > 0).then(|| rounded_up(twist(alignment, limits, first), distance).max(1))
}

/// The nearest crossfall in its limits, of the same sign; 0 falls to the edge.
pub fn crossfall(value: i128) -> i128 {
    let size = value.abs().clamp(LEAST_CROSSFALL, GREATEST_CROSSFALL);
    if value > 0 {
        size
    } else {
        -size
    }
}

#[cfg(test)]
mod tests {
    use super::*;
    use reference::file::Contract;
    use reference::limits::{limits_at, LeastClothoid, SPEEDS};

    /// The starred items of document 01, at 40 km/h.
    #[test]
    fn starred_items() {
        let limits = limits_at(40, Contract::Undated);
        assert_eq!(clothoid(&limits, 45_000), 27_223);
        assert_eq!(clothoid(&limits, -45_000), 27_223);
        assert_eq!(half_length(&limits, 20_000, -20_000), 8_000);
        let file = include_bytes!("../../../examples/refusal-18.alignment");
        let road = reference::file::read(file).expect("a file that can be read");
        assert_eq!(distance(&road, &limits, 0), 27_500);
        assert_eq!(ramp_limit(&road, &limits, 0), Some(5_001));
    }

    /// The old handbook has a length for each speed, whatever the radius.
    #[test]
    fn clothoids_of_the_old_handbook() {
        let lengths = SPEEDS.map(|speed| {
            let limits = limits_at(speed, Contract::Dated(20_111_231));
            let [short, long] = [10_000, -10_000_000].map(|radius| clothoid(&limits, radius));
            assert_eq!(short, long);
            short / 1_000
        });
        assert_eq!(lengths, [30, 40, 50, 60, 70, 90, 100]);
    }

    /// The least keeps its rule and one millimetre less breaks it, at every speed.
    #[test]
    fn one_less_breaks_the_rule() {
        for speed in SPEEDS {
            let limits = limits_at(speed, Contract::Undated);
            let LeastClothoid::Parameter(parameter) = limits.clothoid else {
                panic!("today's rule book has a parameter");
            };
            let squared = parameter.pow(2);
            for radius in [limits.radius_min, 999_983, -1_234_567, 10_000_000] {
                let least = clothoid(&limits, radius);
                assert!(least * radius.abs() >= squared);
                assert!((least - 1) * radius.abs() < squared);
            }
            let smaller = limits.radius_min;
            for greater in [smaller + 1, 2 * smaller, 999_983, 1_000_000] {
                let least = egg(&limits, -smaller, -greater);
                assert_eq!(least, egg(&limits, greater, smaller));
                let due = squared * (greater - smaller);
                assert!(least * smaller * greater >= due);
                assert!((least - 1) * smaller * greater < due);
            }
            for (before, after) in [(0, 1), (1, 0), (-40_000, 31_003), (40_000, -7)] {
                let due = vertical_radius(&limits, before, after) * (after - before).abs();
                let least = half_length(&limits, before, after);
                assert!(least * 2_000_000 >= due);
                assert!((least - 1) * 2_000_000 < due);
            }
        }
    }

    #[test]
    fn nearest_crossfalls() {
        let values = [-80_000, -24_999, 0, 1, 30_000, 70_001];
        let nearest = [-70_000, -25_000, -25_000, 25_000, 30_000, 70_000];
        assert_eq!(values.map(crossfall), nearest);
    }
}
