//! Candidates for the rules of the cross-section, 16 to 19.

use reference::file::{Alignment, CrossfallPoint, Kind};
use reference::road;

use super::plan::resized;
use super::points::{
    hold, holds, moved_with_an_element, placed, relaid, relaid_steeply, Hold, Wanted, NOTHING,
};
use super::Case;
use crate::why::least;

/// The station that is due; between two points as near as the ramps allow, or with the point before moved back. The
/// last point may have to move with others, where an element was changed after they were laid out.
pub fn with_station(case: &Case, place: usize) -> Vec<Alignment> {
    let mut all = Vec::new();
    if place + 1 == case.road.points.len() {
        let moved = moved_with_an_element(case).into_iter();
        all.extend(moved.map(|(_, candidate)| candidate));
    }
    all.extend(stations(case, place).into_iter().map(|(place, station)| {
        let mut candidate = case.road.clone();
        candidate.points[place].station = station;
        candidate
    }));
    all.extend(placed(case, case.road.clone(), &NOTHING));
    all
}

/// Points with stations to try.
fn stations(case: &Case, place: usize) -> Vec<(usize, i128)> {
    let points = &case.road.points;
    if place == 0 {
        return vec![(0, 0)];
    }
    if place + 1 == points.len() {
        return vec![(place, case.road.total_length())];
    }
    let distance = |first| least::distance(case.road, &case.limits, first).max(1);
    let (before, after) = (points[place - 1].station, points[place + 1].station);
    let mut all = vec![
        (place, before + distance(place - 1)),
        (place, after - distance(place)),
        (place, (before + after) / 2),
        (place, before + 1),
        (place, after - 1),
    ];
    if place > 1 {
        let here = points[place].station;
        all.push((place - 1, here - distance(place - 1)));
        all.push((place - 1, (points[place - 2].station + here) / 2));
    }
    all
}

/// The nearest crossfalls for a point, then for all points that share an arc with it.
pub fn with_crossfalls(case: &Case, place: usize) -> Vec<Alignment> {
    let mut all = Vec::new();
    for (left, right) in crossfalls(&case.road.points[place]) {
        for (first, last) in [(place, place), sharing(case, place)] {
            let mut candidate = case.road.clone();
            for point in &mut candidate.points[first..=last] {
                (point.left, point.right) = (left, right);
            }
            all.extend(relaid(case, &candidate, &NOTHING));
            all.extend(relaid_steeply(case, &candidate, &NOTHING));
        }
    }
    all
}

/// The nearest crossfalls of both sides; 0 may become either sign's.
fn crossfalls(point: &CrossfallPoint) -> Vec<(i128, i128)> {
    let of_side = |value: i128| match value {
        0 => vec![-least::LEAST_CROSSFALL, least::LEAST_CROSSFALL],
        _ => vec![least::crossfall(value)],
    };
    let rights = of_side(point.right);
    let both = of_side(point.left).into_iter();
    both.flat_map(|left| rights.iter().map(move |&right| (left, right)))
        .collect()
}

/// The points, from the first to the last, that give arcs their crossfall together with one.
fn sharing(case: &Case, place: usize) -> (usize, usize) {
    let holds = holds(case);
    let (mut first, mut last) = (place, place);
    loop {
        let touching = holds
            .iter()
            .filter(|hold| hold.first <= last && first <= hold.last);
        let wider = touching.fold((first, last), |(first, last), hold| {
            (first.min(hold.first), last.max(hold.last))
        });
        if wider == (first, last) {
            return wider;
        }
        (first, last) = wider;
    }
}

/// A longer ramp by moving its points, by the rule book's ramp limit, by a longer element under it, by a greater ramp
/// limit, or no ramp.
pub fn with_longer_ramp(case: &Case, first: usize) -> Vec<Alignment> {
    let wanted = Wanted {
        pair: Some(first),
        hold: None,
    };
    let least = least::distance(case.road, &case.limits, first);
    let mut plain = case.road.clone();
    plain.points[first + 1].station = plain.points[first].station + least;
    let mut all = vec![plain];
    all.extend(relaid(case, case.road, &wanted));
    all.extend(with_longer_element(case, first, least));
    all.extend(relaid_steeply(case, case.road, &wanted));
    all.extend([(first, first + 1), (first + 1, first)].map(|pair| with_same(case, pair)));
    all
}

/// A clothoid or a straight under a ramp as much longer as the ramp has to be.
fn with_longer_element(case: &Case, first: usize, least: i128) -> Vec<Alignment> {
    let stations = [first, first + 1].map(|place| case.road.points[place].station);
    let [from, to] = stations;
    let starts = road::element_starts(case.road);
    let under = |kind: Kind| {
        (0..case.road.elements.len()).find(|&place| {
            let is_under = starts[place] < to && from < starts[place + 1];
            case.road.elements[place].kind == kind && is_under
        })
    };
    let places = [Kind::Clothoid, Kind::Straight]
        .into_iter()
        .filter_map(under);
    let candidates = places.flat_map(|place| {
        let length = case.road.elements[place].length + least - (to - from);
        resized(case, place, length, to)
    });
    candidates.collect()
}

/// One point's crossfalls for another.
fn with_same(case: &Case, (from, to): (usize, usize)) -> Alignment {
    let mut candidate = case.road.clone();
    let CrossfallPoint { left, right, .. } = candidate.points[from];
    (candidate.points[to].left, candidate.points[to].right) = (left, right);
    candidate
}

/// The crossfalls that an arc may have, on the points within it or around it.
pub fn with_right_arc(case: &Case, arc: usize) -> Vec<Alignment> {
    let mut all = Vec::new();
    let holds = holds_of(case, arc);
    for (left, right) in arc_crossfalls(case, arc, &holds) {
        for hold in &holds {
            let mut candidate = case.road.clone();
            for point in &mut candidate.points[hold.first..=hold.last] {
                (point.left, point.right) = (left, right);
            }
            let wanted = Wanted {
                pair: None,
                hold: Some(*hold),
            };
            all.extend(relaid(case, &candidate, &wanted));
            all.extend(relaid_steeply(case, &candidate, &wanted));
        }
    }
    all
}

/// The points that may give an arc its crossfall: the first and the last within it, or those around it.
fn holds_of(case: &Case, arc: usize) -> Vec<Hold> {
    let Some(around) = hold(case.road, arc) else {
        return Vec::new();
    };
    let starts = road::element_starts(case.road);
    let points = &case.road.points;
    let is_at = |place: usize, station: i128| points[place].station == station;
    let inner_first = around.first + usize::from(!is_at(around.first, starts[arc]));
    let inner_last = around.last - usize::from(!is_at(around.last, starts[arc + 1]));
    let pairs = [
        (inner_first, inner_last),
        (around.first, inner_last),
        (inner_first, around.last),
        (around.first, around.last),
    ];
    let pairs = pairs.into_iter().filter(|(first, last)| first < last);
    let mut holds: Vec<Hold> = pairs
        .map(|(first, last)| Hold { arc, first, last })
        .collect();
    holds.dedup();
    holds
}

/// The crossfalls that stand there, made to fall to the inner side, those of most points first; then the least, and
/// both falling where it is allowed.
fn arc_crossfalls(case: &Case, arc: usize, holds: &[Hold]) -> Vec<(i128, i128)> {
    let radius = case.road.elements[arc].radius;
    let range = holds.last().map_or(0..0, |hold| hold.first..hold.last + 1);
    let points = &case.road.points[range];
    let sides = points.iter().flat_map(|point| [point.left, point.right]);
    let sizes = sides.map(|side| least::crossfall(side).abs());
    let mut all: Vec<(i128, i128)> = Vec::new();
    for size in sizes.chain([least::LEAST_CROSSFALL]) {
        let crossfalls = (size * radius.signum(), -size * radius.signum());
        if !all.contains(&crossfalls) {
            all.push(crossfalls);
        }
    }
    let least = case.limits.radius_both_falling;
    if least.is_some_and(|least| radius.abs() >= least) {
        all.push((-least::LEAST_CROSSFALL, -least::LEAST_CROSSFALL));
    }
    let others = |crossfalls: &(i128, i128)| {
        let is_other = |point: &&CrossfallPoint| (point.left, point.right) != *crossfalls;
        points.iter().filter(is_other).count()
    };
    all.sort_by_key(others);
    all.truncate(6);
    all
}
