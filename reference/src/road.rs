//! "The exact road", for an alignment that is not turned away and a station from 0 to T.

use crate::file::{Alignment, CrossfallPoint, Element, Kind};
use crate::fraction::Fraction;
use crate::limits::limits;

const MILLION: i128 = 1_000_000;

/// Where each item begins, and last of all where the last one ends.
fn running_sums(lengths: impl Iterator<Item = i128>) -> Vec<i128> {
    let mut sums = vec![0];
    let mut running = 0;
    for length in lengths {
        running += length;
        sums.push(running);
    }
    sums
}

/// Where each element begins, then T.
pub fn element_starts(alignment: &Alignment) -> Vec<i128> {
    running_sums(alignment.elements.iter().map(|element| element.length))
}

/// Where each tangent begins, then where the last one ends. Vertex v is where tangent v + 1 begins.
pub fn tangent_starts(alignment: &Alignment) -> Vec<i128> {
    running_sums(alignment.tangents.iter().map(|tangent| tangent.length))
}

/// An element of a kind at a place, where there is one.
fn of_kind(alignment: &Alignment, place: Option<usize>, kind: Kind) -> Option<Element> {
    let element = *alignment.elements.get(place?)?;
    (element.kind == kind).then_some(element)
}

/// The arc that an element directly follows.
pub fn arc_before(alignment: &Alignment, place: usize) -> Option<Element> {
    of_kind(alignment, place.checked_sub(1), Kind::Arc)
}

/// The arc that directly follows an element.
pub fn arc_after(alignment: &Alignment, place: usize) -> Option<Element> {
    of_kind(alignment, place.checked_add(1), Kind::Arc)
}

/// The arcs of an egg: "One clothoid may stand between two arcs"; none for any other clothoid.
pub fn arcs_of_egg(alignment: &Alignment, clothoid: usize) -> Option<(Element, Element)> {
    Some((
        arc_before(alignment, clothoid)?,
        arc_after(alignment, clothoid)?,
    ))
}

/// The first clothoid of the pair that a clothoid belongs to: "Two clothoids may now follow one another between
/// arcs"; none for any other clothoid. The second one comes directly after it.
pub fn pair_of_clothoid(alignment: &Alignment, clothoid: usize) -> Option<usize> {
    let is_clothoid = |place| of_kind(alignment, place, Kind::Clothoid).is_some();
    if is_clothoid(clothoid.checked_add(1)) {
        return Some(clothoid);
    }
    clothoid
        .checked_sub(1)
        .filter(|&first| is_clothoid(Some(first)))
}

/// The arcs around a pair of clothoids, given by its first one.
pub fn arcs_of_pair(alignment: &Alignment, first: usize) -> Option<(Element, Element)> {
    Some((
        arc_before(alignment, first)?,
        arc_after(alignment, first + 1)?,
    ))
}

/// A clothoid's own arc, directly beside it; of an egg, which has two, the one that follows.
pub fn arc_of_clothoid(alignment: &Alignment, clothoid: usize) -> Element {
    arc_after(alignment, clothoid)
        .or(arc_before(alignment, clothoid))
        .expect("an arc beside every clothoid")
}

/// The vertex whose vertical curve, of h > 0, a station lies in, ends included.
pub fn curve_at(alignment: &Alignment, station: i128) -> Option<usize> {
    let starts = tangent_starts(alignment);
    (0..alignment.tangents.len() - 1).find(|&vertex| {
        let half_length = alignment.tangents[vertex].half_length;
        let distance = (station - starts[vertex + 1]).abs();
        half_length > 0 && distance <= half_length
    })
}

/// The first tangent that does not end before a station.
fn tangent_at(alignment: &Alignment, station: i128) -> usize {
    let starts = tangent_starts(alignment);
    (0..alignment.tangents.len())
        .find(|&place| station <= starts[place + 1])
        .expect("a station not beyond T")
}

/// "On a tangent the height is its start height plus grade x distance / 10^6", in millionths;
/// "the next tangent starts at the exact height where it ends". The tangent may be prolonged.
fn height_on_tangent_in_millionths(alignment: &Alignment, place: usize, station: i128) -> i128 {
    let start_height = alignment.start_height * MILLION
        + alignment.tangents[..place]
            .iter()
            .map(|tangent| tangent.grade * tangent.length)
            .sum::<i128>();
    let distance = station - tangent_starts(alignment)[place];
    start_height + alignment.tangents[place].grade * distance
}

/// The exact axis height.
pub fn height(alignment: &Alignment, station: i128) -> Fraction {
    match curve_at(alignment, station) {
        // "the first tangent's, prolonged, plus (g2 - g1) x u^2 / (4h x 10^6)"
        Some(vertex) => {
            let h = alignment.tangents[vertex].half_length;
            let u = station - (tangent_starts(alignment)[vertex + 1] - h);
            let change = change_of_grade(alignment, vertex);
            let prolonged = height_on_tangent_in_millionths(alignment, vertex, station);
            Fraction::new(prolonged * 4 * h + change * u * u, 4 * h * MILLION)
        }
        None => {
            let tangent = tangent_at(alignment, station);
            let millionths = height_on_tangent_in_millionths(alignment, tangent, station);
            Fraction::new(millionths, MILLION)
        }
    }
}

/// The exact grade.
pub fn grade(alignment: &Alignment, station: i128) -> Fraction {
    match curve_at(alignment, station) {
        // "the grade is g1 + (g2 - g1) x u / 2h"
        Some(vertex) => {
            let h = alignment.tangents[vertex].half_length;
            let u = station - (tangent_starts(alignment)[vertex + 1] - h);
            let first = alignment.tangents[vertex].grade;
            let change = change_of_grade(alignment, vertex);
            Fraction::new(first * 2 * h + change * u, 2 * h)
        }
        // "and the grade is its own"
        None => Fraction::whole(alignment.tangents[tangent_at(alignment, station)].grade),
    }
}

/// g2 - g1 at a vertex, in parts per million.
pub fn change_of_grade(alignment: &Alignment, vertex: usize) -> i128 {
    alignment.tangents[vertex + 1].grade - alignment.tangents[vertex].grade
}

/// "Crossfall is straight between neighbouring points, each side alone."
pub fn crossfall(
    alignment: &Alignment,
    station: i128,
    side: fn(&CrossfallPoint) -> i128,
) -> Fraction {
    let pair = alignment
        .points
        .windows(2)
        .find(|pair| pair[0].station <= station && station <= pair[1].station)
        .expect("a station between the first point and the last");
    let distance = pair[1].station - pair[0].station;
    let change = side(&pair[1]) - side(&pair[0]);
    let numerator = side(&pair[0]) * distance + change * (station - pair[0].station);
    Fraction::new(numerator, distance)
}

/// "The drop is crossfall x lane width / 10^6, from the exact crossfall."
pub fn drop(alignment: &Alignment, station: i128, side: fn(&CrossfallPoint) -> i128) -> Fraction {
    let lane_width = limits(alignment).lane_width;
    crossfall(alignment, station, side).times(Fraction::new(lane_width, MILLION))
}

/// "The exact edge is the exact height plus the exact drop".
pub fn edge(alignment: &Alignment, station: i128, side: fn(&CrossfallPoint) -> i128) -> Fraction {
    let height = height(alignment, station).lowest_terms();
    let drop = drop(alignment, station, side).lowest_terms();
    height.plus(drop).lowest_terms()
}

/// "the printed edge is the rounded height plus the rounded drop"
fn printed_edge(alignment: &Alignment, station: i128, side: fn(&CrossfallPoint) -> i128) -> i128 {
    height(alignment, station).rounded() + drop(alignment, station, side).rounded()
}

/// "10^9/R on arcs", and 0 where there is none.
fn curvature_of(arc: Option<Element>) -> Fraction {
    match arc {
        Some(arc) => Fraction::new(1_000_000_000, arc.radius),
        None => Fraction::whole(0),
    }
}

/// "A clothoid therefore carries the curvature at both of its ends": that of the arc there, and 0 where it meets
/// a straight or the other clothoid of its pair. A straight and an arc have one curvature throughout.
pub fn curvature_at_ends(alignment: &Alignment, place: usize) -> (Fraction, Fraction) {
    let element = alignment.elements[place];
    let (before, after) = match element.kind {
        Kind::Straight => (None, None),
        Kind::Arc => (Some(element), Some(element)),
        Kind::Clothoid => (arc_before(alignment, place), arc_after(alignment, place)),
    };
    (curvature_of(before), curvature_of(after))
}

/// "Curvature is 0 on straights, 10^9/R on arcs", and on a clothoid it "runs evenly from one to the other" of the
/// curvatures at its ends.
pub fn curvature(alignment: &Alignment, station: i128) -> Fraction {
    let starts = element_starts(alignment);
    let place = (0..alignment.elements.len())
        .find(|&place| station <= starts[place + 1])
        .expect("a station not beyond T");
    let length = alignment.elements[place].length;
    let (from_start, to_end) = (station - starts[place], starts[place + 1] - station);
    let (first, last) = curvature_at_ends(alignment, place);
    let from_first = first.times(Fraction::new(to_end, length)).lowest_terms();
    let from_last = last.times(Fraction::new(from_start, length)).lowest_terms();
    from_first.plus(from_last).lowest_terms()
}

/// "station, axis height, grade, left and right crossfall, left and right edge height,
/// curvature, one space between, byte 10 after"
pub fn line(alignment: &Alignment, station: i128) -> String {
    let numbers = [
        station,
        height(alignment, station).rounded(),
        grade(alignment, station).rounded(),
        crossfall(alignment, station, |point| point.left).rounded(),
        crossfall(alignment, station, |point| point.right).rounded(),
        printed_edge(alignment, station, |point| point.left),
        printed_edge(alignment, station, |point| point.right),
        curvature(alignment, station).rounded(),
    ];
    let texts: Vec<String> = numbers.iter().map(|number| number.to_string()).collect();
    texts.join(" ") + "\n"
}
