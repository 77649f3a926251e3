//! The ranges of the file's numbers.

use reference::file::Alignment;

use crate::why::least::GREATEST_RAMP_LIMIT;

pub const LONGEST: i128 = 10_000_000;

/// Whether every number that a mending may change can be written.
pub fn are_kept(road: &Alignment) -> bool {
    let elements = road.elements.iter().all(|element| {
        let radius = element.radius.abs();
        (1..=LONGEST).contains(&element.length)
            && (radius == 0 || (10_000..=LONGEST).contains(&radius))
    });
    let tangents = road.tangents.iter().all(|tangent| {
        (1..=LONGEST).contains(&tangent.length)
            && tangent.grade.abs() <= 120_000
            && (0..=1_000_000).contains(&tangent.half_length)
    });
    let points = road.points.iter().all(|point| {
        (0..=100_000_000).contains(&point.station)
            && point.left.abs() <= 80_000
            && point.right.abs() <= 80_000
    });
    let ramp = (1..=GREATEST_RAMP_LIMIT).contains(&road.ramp_limit);
    elements && tangents && points && ramp
}
