//! Lengths of tangents that add up to a sum and have room for the vertical curves.

use reference::file::Alignment;
use reference::road;

use super::ranges::LONGEST;
use super::Case;
use crate::why::least;

pub fn sum(road: &Alignment) -> i128 {
    road.tangents.iter().map(|tangent| tangent.length).sum()
}

/// The tangent in which a station lies; the last one where they end before it.
pub fn at(road: &Alignment, station: i128) -> usize {
    let ends = &road::tangent_starts(road)[1..];
    let found = ends.iter().position(|&end| station <= end);
    found.unwrap_or(road.tangents.len() - 1)
}

/// The least length of each tangent. One that is too short already may stay so, if it is not the one to be mended.
fn least_lengths(case: &Case, candidate: &Alignment, own: Option<usize>) -> Vec<i128> {
    let lengths = case.road.tangents.iter().enumerate();
    let least = lengths.map(|(place, tangent)| {
        let least = least::tangent(candidate, place).max(1);
        match case.is_broken(14, place) && own != Some(place) {
            true => least.min(tangent.length),
            false => least,
        }
    });
    least.collect()
}

/// Lengthens tangents that are too short, then makes the sum right: by one other tangent, the nearest that can, else by
/// several. `own` is the tangent that is to be mended.
pub fn fitted(
    case: &Case,
    mut candidate: Alignment,
    sum_due: i128,
    near: usize,
    own: Option<usize>,
) -> Option<Alignment> {
    let least = least_lengths(case, &candidate, own);
    for (tangent, least) in candidate.tangents.iter_mut().zip(&least) {
        tangent.length = tangent.length.max(*least);
    }
    let mut excess = sum(&candidate) - sum_due;
    let mut order: Vec<usize> = (0..least.len()).collect();
    order.sort_by_key(|place| place.abs_diff(near));
    // what a tangent can give: less than 0 where it can take
    let share = |candidate: &Alignment, place: usize, excess: i128| {
        let length = candidate.tangents[place].length;
        excess.clamp((length - LONGEST).min(0), length - least[place])
    };
    let whole = order
        .iter()
        .position(|&place| share(&candidate, place, excess) == excess);
    let order = match whole {
        Some(first) => &order[first..first + 1],
        None => &order[..],
    };
    for &place in order {
        let share = share(&candidate, place, excess);
        candidate.tangents[place].length -= share;
        excess -= share;
    }
    (excess == 0).then_some(candidate)
}

/// The same with vertical curves shortened where they leave a tangent too short, none below its least.
pub fn fitted_with_shorter_curves(
    case: &Case,
    mut candidate: Alignment,
    sum_due: i128,
    near: usize,
    own: Option<usize>,
) -> Option<Alignment> {
    for place in 0..candidate.tangents.len() {
        shorten_curves(case, &mut candidate, place);
    }
    fitted(case, candidate, sum_due, near, own)
}

/// Shortens the curves at a tangent's end and start as far as it is too short for them.
pub fn shorten_curves(case: &Case, candidate: &mut Alignment, place: usize) {
    for vertex in [Some(place), place.checked_sub(1)].into_iter().flatten() {
        if vertex + 1 == candidate.tangents.len() {
            continue;
        }
        let lack = least::tangent(candidate, place) - candidate.tangents[place].length;
        let spare =
            candidate.tangents[vertex].half_length - least_half_length(case, candidate, vertex);
        candidate.tangents[vertex].half_length -= lack.min(spare).max(0);
    }
}

/// The least half length at a vertex.
pub fn least_half_length(case: &Case, candidate: &Alignment, vertex: usize) -> i128 {
    let grades = [vertex, vertex + 1].map(|place| candidate.tangents[place].grade);
    least::half_length(&case.limits, grades[0], grades[1])
}
