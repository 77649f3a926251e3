//! The exact design between marked stations that follow each other, where nothing begins or ends: each edge is one quadratic
//! there, told by three of its values.

use reference::blade::common_curve;
use reference::file::Alignment;
use reference::fraction::Fraction;
use reference::{road, stations};

use super::quadratic::Quadratic;
use super::side::Side;
use crate::rows::Row;

pub struct Piece {
    pub from: i128,
    pub to: i128,
    left: Quadratic,
    right: Quadratic,
    /// The curve's share of the bound for rows a millimetre apart.
    pub share: f64,
}

impl Piece {
    fn new(alignment: &Alignment, from: i128, to: i128) -> Piece {
        let curve = common_curve(alignment, from, to);
        Piece {
            from,
            to,
            left: exact_edge(alignment, from, to, Side::Left),
            right: exact_edge(alignment, from, to, Side::Right),
            share: curve.map_or(0.0, |vertex| share(alignment, vertex)),
        }
    }

    fn edge(&self, side: Side) -> &Quadratic {
        match side {
            Side::Left => &self.left,
            Side::Right => &self.right,
        }
    }

    /// The blade above the exact edge, t mm past the first of two rows.
    pub fn above(&self, a: &Row, b: &Row, side: Side) -> Quadratic {
        let edge = self.edge(side);
        let past = a.station - self.from;
        let length = b.station - a.station;
        let (p, q) = (side.edge(a), side.edge(b));
        Quadratic {
            constant: length * (edge.denominator * p - edge.numerator(past)),
            slope: edge.denominator * (q - p) - length * (edge.slope + 2 * edge.square * past),
            square: -length * edge.square,
            denominator: edge.denominator * length,
        }
    }

    /// The blade above the exact edge, t mm past a station of this piece.
    pub fn above_from(&self, a: &Row, b: &Row, side: Side, start: i128) -> Quadratic {
        let above = self.above(a, b, side);
        let t = start - a.station;
        Quadratic {
            constant: above.numerator(t),
            slope: above.slope + 2 * above.square * t,
            ..above
        }
    }
}

fn share(alignment: &Alignment, vertex: usize) -> f64 {
    let length = 2 * alignment.tangents[vertex].half_length;
    let change = road::change_of_grade(alignment, vertex).abs();
    change as f64 / (8 * length * 1_000_000) as f64
}

/// One quadratic through three exact edges.
fn exact_edge(alignment: &Alignment, from: i128, to: i128, side: Side) -> Quadratic {
    let edge = |t: i128| road::edge(alignment, (from + t).min(to), side.of_point());
    let values = [edge(0), edge(1), edge(2)];
    // twice what is needed, so that half of a second difference is whole
    let denominator = 2 * values.iter().fold(1, |common, value| {
        let divisor = Fraction::new(common, value.denominator).common_divisor();
        common / divisor * value.denominator
    });
    let [first, second, third] =
        values.map(|value| value.numerator * (denominator / value.denominator));
    let square = match to - from {
        1 => 0,
        _ => (third - 2 * second + first) / 2,
    };
    Quadratic {
        constant: first,
        slope: second - first - square,
        square,
        denominator,
    }
}

/// All pieces of a listed road, in order.
pub fn pieces(alignment: &Alignment) -> Vec<Piece> {
    let mut marked: Vec<i128> = stations::marks(alignment)
        .iter()
        .map(|mark| mark.0)
        .collect();
    marked.sort_unstable();
    marked.dedup();
    let ends = marked.windows(2);
    ends.map(|pair| Piece::new(alignment, pair[0], pair[1]))
        .collect()
}
