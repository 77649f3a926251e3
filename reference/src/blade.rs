//! "The blade over a whole run": between neighbouring rows it stays close to the exact edge.

use crate::file::{Alignment, CrossfallPoint};
use crate::fraction::Fraction;
use crate::{road, stations};

/// A side of the road.
pub type Side = fn(&CrossfallPoint) -> i128;

/// A row's station and "its printed edge heights", read from its line.
#[derive(Clone, Copy, Debug, PartialEq, Eq)]
pub struct Row {
    pub station: i128,
    pub left_edge: i128,
    pub right_edge: i128,
}

impl Row {
    /// "its sixth and seventh numbers are its printed edge heights"
    pub fn read(line: &[u8]) -> Option<Row> {
        let text = std::str::from_utf8(line).ok()?.strip_suffix('\n')?;
        let numbers: Vec<i128> = text
            .split(' ')
            .map(|number| number.parse().ok())
            .collect::<Option<_>>()?;
        (numbers.len() == 8).then(|| Row {
            station: numbers[0],
            left_edge: numbers[5],
            right_edge: numbers[6],
        })
    }
}

/// "Two rows [..] are neighbouring where their stations a < b have no listed station strictly
/// between them."
pub fn neighbouring(alignment: &Alignment, a: i128, b: i128) -> bool {
    let next = stations::next_station(alignment, a + 1);
    a < b && next.is_some_and(|next| next >= b)
}

/// "The rows lie in one vertical curve where both are at most h from its vertex": that vertex.
pub fn common_curve(alignment: &Alignment, a: i128, b: i128) -> Option<usize> {
    let starts = road::tangent_starts(alignment);
    (0..alignment.tangents.len() - 1).find(|&vertex| {
        let h = alignment.tangents[vertex].half_length;
        let vertex = starts[vertex + 1];
        h > 0 && (a - vertex).abs() <= h && (b - vertex).abs() <= h
    })
}

/// 1 mm, and in one vertical curve also its change of grade x (b - a)^2 / (8 x its length).
pub fn bound(alignment: &Alignment, a: i128, b: i128) -> Fraction {
    match common_curve(alignment, a, b) {
        None => Fraction::whole(1),
        Some(vertex) => {
            let length = 2 * alignment.tangents[vertex].half_length;
            let change = road::change_of_grade(alignment, vertex).abs();
            let denominator = 8 * length * 1_000_000;
            Fraction::new(denominator + change * (b - a) * (b - a), denominator)
        }
    }
}

/// How far the blade lies above the exact edge at x, p and q being the printed heights of one edge
/// at stations a and b.
pub fn above_edge(
    alignment: &Alignment,
    (a, p): (i128, i128),
    (b, q): (i128, i128),
    x: i128,
    side: Side,
) -> Fraction {
    // "p + (q - p) x (x - a) / (b - a)"
    let blade = Fraction::new(p * (b - a) + (q - p) * (x - a), b - a).lowest_terms();
    let exact = road::edge(alignment, x, side);
    let common = least_multiple(blade.denominator, exact.denominator);
    Fraction::new(over(blade, common) - over(exact, common), common)
}

/// Whether one edge's blade at x is within the bound of the exact edge.
pub fn within(
    alignment: &Alignment,
    from: (i128, i128),
    to: (i128, i128),
    x: i128,
    side: Side,
) -> bool {
    let above = above_edge(alignment, from, to, x, side).lowest_terms();
    let bound = bound(alignment, from.0, to.0).lowest_terms();
    let common = least_multiple(above.denominator, bound.denominator);
    over(above, common).abs() <= over(bound, common)
}

/// The whole number that a fraction is over a denominator it divides.
fn over(fraction: Fraction, denominator: i128) -> i128 {
    assert!(denominator % fraction.denominator == 0);
    fraction.numerator * (denominator / fraction.denominator)
}

fn least_multiple(a: i128, b: i128) -> i128 {
    a / Fraction::new(a, b).common_divisor() * b
}
