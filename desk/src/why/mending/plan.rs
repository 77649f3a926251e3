//! Candidates for the rules of the plan, 5, 7 to 12 and 23.

use reference::file::{Alignment, Kind};
use reference::road;
use reference::rules::{judge_all, EGG_RADIUS_MAX};

use super::cross_section::with_right_arc;
use super::points::{moved, relaid, relaid_steeply, NOTHING};
use super::{tangents, Case};
use crate::why::least;

pub fn candidates(case: &Case, number: i128, place: usize) -> Vec<Alignment> {
    match number {
        7 => with_kind(case, place),
        10 => with_radius(case, place),
        23 => with_egg(case, place),
        _ => match least::element_length(case.road, &case.limits, number, place) {
            Some(length) => with_length(case, place, length),
            None => Vec::new(),
        },
    }
}

/// A kind that is due, with the same length; an arc as sharp as is allowed, to either side.
fn with_kind(case: &Case, place: usize) -> Vec<Alignment> {
    if place >= case.road.elements.len() {
        return Vec::new();
    }
    let sharpest = case.limits.radius_min;
    let kinds = least::kinds_due(case.road, place).iter();
    let kinds = kinds.flat_map(|&kind| match kind {
        Kind::Arc => vec![(kind, sharpest), (kind, -sharpest)],
        _ => vec![(kind, 0)],
    });
    let candidate = |(kind, radius)| {
        let mut candidate = case.road.clone();
        candidate.elements[place].kind = kind;
        candidate.elements[place].radius = radius;
        candidate
    };
    kinds.map(candidate).collect()
}

/// The arc with another radius to the same side.
fn with_size(road: &Alignment, arc: usize, size: i128) -> Alignment {
    let mut candidate = road.clone();
    let radius = &mut candidate.elements[arc].radius;
    *radius = radius.signum() * size;
    candidate
}

/// R min, or a little more where an egg curve's other arc, on either side, has that radius.
fn with_radius(case: &Case, place: usize) -> Vec<Alignment> {
    let sizes = (0..=2).map(|more| case.limits.radius_min + more);
    let candidates = sizes.map(|size| with_size(case.road, place, size));
    candidates.collect()
}

/// An egg curve's arcs with radii that it may have. Arcs that turn wrongly have to be designed anew.
fn with_egg(case: &Case, place: usize) -> Vec<Alignment> {
    let Some((before, after)) = road::arcs_of_egg(case.road, place) else {
        return Vec::new();
    };
    if before.radius.signum() != after.radius.signum() {
        return Vec::new();
    }
    let sizes = egg_sizes(before.radius.abs(), after.radius.abs()).into_iter();
    let candidates = sizes.map(|[before, after]| {
        let first = with_size(case.road, place - 1, before);
        with_size(&first, place + 1, after)
    });
    let arcs = [place - 1, place + 1];
    candidates
        .flat_map(|candidate| with_crossfalls(candidate, arcs))
        .collect()
}

/// A candidate, and where it is too sharp for the crossfall of one of the arcs, with another one there.
fn with_crossfalls(candidate: Alignment, arcs: [usize; 2]) -> Vec<Alignment> {
    let judgement = judge_all(&candidate);
    let case = Case::new(&candidate, &judgement);
    let wrong = arcs.into_iter().filter(|&arc| case.is_broken(19, arc));
    let mut all = vec![candidate.clone()];
    all.extend(wrong.flat_map(|arc| with_right_arc(&case, arc)));
    all
}

/// The nearest radii that are not too great and differ, those first that leave the greater one the greater.
fn egg_sizes(before: i128, after: i128) -> Vec<[i128; 2]> {
    let [first, second] = [before, after].map(|size| size.min(EGG_RADIUS_MAX));
    if first != second {
        return vec![[first, second]];
    }
    let mut sizes = vec![
        [first + 1, second],
        [first, second + 1],
        [first - 1, second],
        [first, second - 1],
    ];
    sizes.sort_by_key(|sizes| before != after && (sizes[0] < sizes[1]) != (before < after));
    sizes
}

/// An element of another length; the points at its end and beyond move with it.
fn with_length(case: &Case, place: usize, length: i128) -> Vec<Alignment> {
    let end = road::element_starts(case.road)[place + 1];
    resized(case, place, length, end)
}

/// An element of another length; the points from a station of it on move with it, and a tangent takes the difference.
/// Where all that fails, the element alone changes: its length may be what does not agree with the rest.
pub fn resized(case: &Case, place: usize, length: i128, from: i128) -> Vec<Alignment> {
    let change = length - case.road.elements[place].length;
    let mut candidate = moved(case.road, from, change);
    candidate.elements[place].length = length;
    let end = road::element_starts(case.road)[place + 1];
    let near = tangents::at(case.road, end);
    let sum = tangents::sum(case.road) + change;
    let mut all = vec![candidate.clone()];
    all[0].tangents[near].length += change;
    let fitted = [
        tangents::fitted(case, candidate.clone(), sum, near, None),
        tangents::fitted_with_shorter_curves(case, candidate, sum, near, None),
    ];
    for candidate in fitted.iter().flatten() {
        all.extend(relaid(case, candidate, &NOTHING));
        all.extend(relaid_steeply(case, candidate, &NOTHING));
    }
    let mut alone = case.road.clone();
    alone.elements[place].length = length;
    all.push(alone);
    all
}
