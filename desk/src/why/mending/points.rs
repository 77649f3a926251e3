//! Stations of crossfall points that leave room for the ramps and keep them off the arcs.

use reference::file::{Alignment, Kind};
use reference::road;

use super::Case;
use crate::rule_book;
use crate::why::least::{self, GREATEST_RAMP_LIMIT};

/// Points that give an arc its crossfall: the first is not beyond its start, the last not before its end.
#[derive(Clone, Copy, PartialEq, Eq)]
pub struct Hold {
    pub arc: usize,
    pub first: usize,
    pub last: usize,
}

/// Those of the arcs that have the right crossfall.
pub fn holds(case: &Case) -> Vec<Hold> {
    if !case.is_asked(19) {
        return Vec::new();
    }
    let arcs = (0..case.road.elements.len())
        .filter(|&place| case.road.elements[place].kind == Kind::Arc && !case.is_broken(19, place));
    arcs.filter_map(|arc| hold(case.road, arc)).collect()
}

/// The nearest points that are not within an arc.
pub fn hold(alignment: &Alignment, arc: usize) -> Option<Hold> {
    let starts = road::element_starts(alignment);
    let points = &alignment.points;
    let first = points
        .iter()
        .rposition(|point| point.station <= starts[arc])?;
    let last = points
        .iter()
        .position(|point| point.station >= starts[arc + 1])?;
    Some(Hold { arc, first, last })
}

/// The points from a station on moved.
pub fn moved(alignment: &Alignment, from: i128, by: i128) -> Alignment {
    let mut moved = alignment.clone();
    let points = moved.points.iter_mut();
    for point in points.filter(|point| point.station >= from) {
        point.station += by;
    }
    moved
}

/// Roads with the points moved as if one element or another had been changed after they were laid out, each with where
/// that element ended before. Those come first on which most points stand at ends of elements, as they are laid out.
pub fn moved_with_an_element(case: &Case) -> Vec<(i128, Alignment)> {
    let Some(last) = case.road.points.last() else {
        return Vec::new();
    };
    let by = case.road.total_length() - last.station;
    let starts = road::element_starts(case.road);
    let ends = starts
        .windows(2)
        .map(|stretch| (stretch[0], stretch[1] - by));
    let ends = ends.filter(|(start, end)| by != 0 && start < end);
    let moved = ends.map(|(_, end)| (end, moved(case.road, end, by)));
    let mut moved: Vec<(i128, Alignment)> = moved.collect();
    moved.sort_by_key(|(_, candidate)| {
        let points = candidate.points.iter();
        points
            .filter(|point| starts.binary_search(&point.station).is_err())
            .count()
    });
    moved
}

/// The least distance of each pair. One that is too short already may stay so, if it is not the one to be mended.
fn least_distances(case: &Case, candidate: &Alignment, own: Option<usize>) -> Vec<i128> {
    let least = case
        .road
        .points
        .windows(2)
        .enumerate()
        .map(|(first, pair)| {
            let least = least::distance(candidate, &case.limits, first).max(1);
            match case.is_broken(18, first) && own != Some(first) {
                true => least.min(pair[1].station - pair[0].station),
                false => least,
            }
        });
    least.collect()
}

/// What a candidate's points are held to.
pub struct Wanted {
    /// The pair that is to be mended.
    pub pair: Option<usize>,
    /// The arc that is to be mended.
    pub hold: Option<Hold>,
}

pub const NOTHING: Wanted = Wanted {
    pair: None,
    hold: None,
};

/// The points as near to the candidate's as the ramps and the arcs allow.
pub fn placed(case: &Case, mut candidate: Alignment, wanted: &Wanted) -> Option<Alignment> {
    let starts = road::element_starts(&candidate);
    let end = candidate.total_length();
    let count = candidate.points.len();
    let mut low = vec![0; count];
    let mut high = vec![end; count];
    low[count - 1] = end;
    high[0] = 0;
    for hold in holds(case).iter().chain(&wanted.hold) {
        high[hold.first] = high[hold.first].min(starts[hold.arc]);
        low[hold.last] = low[hold.last].max(starts[hold.arc + 1]);
    }
    let distances = least_distances(case, &candidate, wanted.pair);
    for first in (0..count - 1).rev() {
        high[first] = high[first].min(high[first + 1] - distances[first]);
    }
    for place in 0..count {
        if place > 0 {
            let before = candidate.points[place - 1].station;
            low[place] = low[place].max(before + distances[place - 1]);
        }
        if low[place] > high[place] {
            return None;
        }
        let point = &mut candidate.points[place];
        point.station = point.station.clamp(low[place], high[place]);
    }
    Some(candidate)
}

/// The least ramp limit with which no other pair is broken than before, and not the wanted one.
fn with_ramp(
    case: &Case,
    mut candidate: Alignment,
    wanted: &Wanted,
    most: i128,
) -> Option<Alignment> {
    let pairs = (0..candidate.points.len() - 1)
        .filter(|&first| !case.is_broken(18, first) || wanted.pair == Some(first));
    let least = pairs.map(|first| least::ramp_limit(&candidate, &case.limits, first));
    let least = least.collect::<Option<Vec<i128>>>()?.into_iter().max()?;
    let ramp_limit = candidate.ramp_limit.max(least);
    if ramp_limit > most {
        return None;
    }
    candidate.ramp_limit = ramp_limit;
    Some(candidate)
}

/// The candidate, then with its points moved, then with the ramp limit raised up to the rule book's value.
pub fn relaid(case: &Case, candidate: &Alignment, wanted: &Wanted) -> Vec<Alignment> {
    let book = rule_book::ramp_limit(case.road.class, case.road.terrain);
    let mut all = vec![candidate.clone()];
    all.extend(placed(case, candidate.clone(), wanted));
    all.extend(with_ramps_up_to(case, candidate, wanted, book));
    all
}

/// The same with the ramp limit raised as far as it can be written.
pub fn relaid_steeply(case: &Case, candidate: &Alignment, wanted: &Wanted) -> Vec<Alignment> {
    with_ramps_up_to(case, candidate, wanted, GREATEST_RAMP_LIMIT)
}

/// The least ramp limit with which the points may stay, then the greatest with the points moved.
fn with_ramps_up_to(
    case: &Case,
    candidate: &Alignment,
    wanted: &Wanted,
    most: i128,
) -> Vec<Alignment> {
    let mut steepest = candidate.clone();
    steepest.ramp_limit = steepest.ramp_limit.max(most);
    let both = [
        with_ramp(case, candidate.clone(), wanted, most),
        placed(case, steepest, wanted),
    ];
    both.into_iter().flatten().collect()
}
