//! Candidates for the rules of the profile, 6 and 13 to 15.

use reference::file::Alignment;

use super::points::moved_with_an_element;
use super::tangents::{
    at as tangent_at, fitted, fitted_with_shorter_curves, least_half_length, shorten_curves, sum,
};
use super::Case;
use crate::why::least;

/// Where tangents and crossfall points agree on another length than the plan's, one element or all that follows it is
/// changed; else a tangent that is too short, the last one, or another.
pub fn added_up(case: &Case) -> Vec<Alignment> {
    let last = case.road.tangents.len() - 1;
    let length = case.road.total_length();
    let mut all = Vec::new();
    let last_point = case.road.points.last();
    if last_point.is_some_and(|point| point.station == sum(case.road)) {
        all.extend(with_element(case));
        all.extend(with_rest_moved(case));
    }
    let too_short = (0..last).filter(|&place| case.is_broken(14, place));
    all.extend(too_short.chain([last]).map(|place| {
        let mut candidate = case.road.clone();
        candidate.tangents[place].length += length - sum(case.road);
        candidate
    }));
    let fitted = [
        fitted(case, case.road.clone(), length, last, None),
        fitted_with_shorter_curves(case, case.road.clone(), length, last, None),
    ];
    all.extend(fitted.into_iter().flatten());
    all
}

/// An element that breaks a rule about its length, as long as the rest asks for.
fn with_element(case: &Case) -> Vec<Alignment> {
    let broken = case.judgement.broken.iter();
    let places = broken.filter(|broken| [5, 8, 9, 11, 12].contains(&broken.number));
    let candidates = places.map(|broken| {
        let mut candidate = case.road.clone();
        let element = &mut candidate.elements[broken.place as usize];
        element.length += sum(case.road) - case.road.total_length();
        candidate
    });
    candidates.collect()
}

/// Tangents and crossfall points moved, as if one element or another had been changed after they were laid out.
fn with_rest_moved(case: &Case) -> Vec<Alignment> {
    let length = case.road.total_length();
    let moved = moved_with_an_element(case).into_iter();
    let fitted = moved.filter_map(|(end, candidate)| {
        let near = tangent_at(case.road, end);
        fitted(case, candidate, length, near, None)
    });
    fitted.collect()
}

/// A candidate as it is, then with tangents lengthened at the cost of others, then with curves shortened too.
fn with_room(
    case: &Case,
    candidate: &Alignment,
    near: usize,
    own: Option<usize>,
) -> Vec<Alignment> {
    let sum = sum(case.road);
    let fitted = [
        fitted(case, candidate.clone(), sum, near, own),
        fitted_with_shorter_curves(case, candidate.clone(), sum, near, own),
    ];
    let all = [candidate.clone()].into_iter();
    all.chain(fitted.into_iter().flatten()).collect()
}

/// Curves between these tangents, and at the ends of the stretch, at least as long as their grades ask for.
fn lengthen_curves(case: &Case, candidate: &mut Alignment, first: usize, last: usize) {
    let vertices = first.saturating_sub(1)..(last + 1).min(candidate.tangents.len() - 1);
    for vertex in vertices {
        let least = least_half_length(case, candidate, vertex);
        let half_length = &mut candidate.tangents[vertex].half_length;
        *half_length = least.max(*half_length);
    }
}

/// Grade max for a tangent, then for its neighbours too that are too steep with it.
pub fn with_grade(case: &Case, place: usize) -> Vec<Alignment> {
    let mut all = Vec::new();
    for (first, last) in [(place, place), steep_stretch(case, place)] {
        let mut candidate = case.road.clone();
        for tangent in &mut candidate.tangents[first..=last] {
            tangent.grade = tangent.grade.signum() * case.limits.grade_max;
        }
        all.push(candidate.clone());
        lengthen_curves(case, &mut candidate, first, last);
        all.extend(with_room(case, &candidate, place, None));
    }
    all
}

/// The tangents around one that are too steep to the same side.
fn steep_stretch(case: &Case, place: usize) -> (usize, usize) {
    let tangents = &case.road.tangents;
    let is_steep = |other: usize| {
        let same_side = tangents[other].grade.signum() == tangents[place].grade.signum();
        same_side && tangents[other].grade.abs() > case.limits.grade_max
    };
    let before = (0..place)
        .rev()
        .take_while(|&other| is_steep(other))
        .count();
    let after = (place + 1..tangents.len())
        .take_while(|&other| is_steep(other))
        .count();
    (place - before, place + after)
}

/// A longer tangent at the cost of another, or shorter curves at its ends.
pub fn with_longer_tangent(case: &Case, place: usize) -> Vec<Alignment> {
    let mut plain = case.road.clone();
    plain.tangents[place].length = least::tangent(case.road, place);
    let mut shorter_curves = case.road.clone();
    shorten_curves(case, &mut shorter_curves, place);
    let mut all = vec![plain];
    all.extend(with_room(case, case.road, place, Some(place)));
    all.extend(with_room(case, &shorter_curves, place, Some(place)));
    all
}

/// A longer vertical curve; where there is no room for it, a smaller change of grade.
pub fn with_longer_curve(case: &Case, vertex: usize) -> Vec<Alignment> {
    let mut candidate = case.road.clone();
    candidate.tangents[vertex].half_length = least_half_length(case, &candidate, vertex);
    let mut all = with_room(case, &candidate, vertex, None);
    for place in [vertex + 1, vertex] {
        let mut candidate = case.road.clone();
        candidate.tangents[place].grade = nearest_grade(case, vertex, place);
        all.push(candidate.clone());
        lengthen_curves(case, &mut candidate, place, place);
        all.extend(with_room(case, &candidate, vertex, None));
    }
    all
}

/// The grade of a tangent at a vertex whose curve is then long enough.
fn nearest_grade(case: &Case, vertex: usize, place: usize) -> i128 {
    let tangents = &case.road.tangents;
    let (before, after) = (tangents[vertex].grade, tangents[vertex + 1].grade);
    let radius = least::vertical_radius(&case.limits, before, after);
    let change = 2_000_000 * tangents[vertex].half_length / radius;
    let change = (after - before).signum() * change;
    match place == vertex {
        true => after - change,
        false => before + change,
    }
}
