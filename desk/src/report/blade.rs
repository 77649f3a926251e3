//! How far the blade is from the design between two rows that follow each other.

use reference::blade;
use reference::file::Alignment;
use reference::fraction::Fraction;

use super::fractions::{in_millimetres, is_greater, size};
use super::pieces::pieces;
use super::side::Side;
use crate::rows::Row;

/// The greatest distances between two rows that follow each other, in mm, for drawing.
#[derive(Clone, Copy, Debug)]
pub struct Pair {
    pub from: i128,
    pub to: i128,
    pub left: f64,
    pub right: f64,
    pub bound: f64,
}

/// Where the blade is furthest from the design.
#[derive(Clone, Copy, Debug)]
pub struct Furthest {
    /// The first of the two rows.
    pub row: usize,
    pub side: Side,
    pub station: i128,
    /// The blade above the exact edge.
    pub above: Fraction,
    pub bound: Fraction,
}

impl Furthest {
    pub fn distance(&self) -> Fraction {
        size(self.above)
    }
}

/// What holds between all rows that follow each other.
pub struct Distances {
    pub pairs: Vec<Pair>,
    pub furthest: Option<Furthest>,
}

/// The distances of all rows of a listed road.
pub fn distances(alignment: &Alignment, rows: &[Row]) -> Distances {
    let mut pairs = Vec::with_capacity(rows.len());
    let mut furthest: Option<(usize, Side, i128, Fraction)> = None;
    let mut row = 0;
    for piece in pieces(alignment) {
        while row + 1 < rows.len() && rows[row + 1].station <= piece.to {
            let (a, b) = (&rows[row], &rows[row + 1]);
            let [left, right] = Side::BOTH.map(|side| {
                let (t, above) = piece.above(a, b, side).greatest(b.station - a.station);
                if furthest.is_none_or(|known| is_greater(above, known.3)) {
                    furthest = Some((row, side, a.station + t, above));
                }
                in_millimetres(above).abs()
            });
            pairs.push(pair(a, b, left, right, piece.share));
            row += 1;
        }
    }
    Distances {
        pairs,
        furthest: furthest.map(|(row, side, station, _)| at(alignment, rows, row, side, station)),
    }
}

fn pair(a: &Row, b: &Row, left: f64, right: f64, share: f64) -> Pair {
    let length = (b.station - a.station) as f64;
    Pair {
        from: a.station,
        to: b.station,
        left,
        right,
        bound: 1.0 + share * length * length,
    }
}

/// The blade at a station between a row and the next, by the second reading of the paper.
fn at(alignment: &Alignment, rows: &[Row], row: usize, side: Side, station: i128) -> Furthest {
    let (a, b) = (side.place(&rows[row]), side.place(&rows[row + 1]));
    Furthest {
        row,
        side,
        station,
        above: blade::above_edge(alignment, a, b, station, side.of_point()),
        bound: blade::bound(alignment, a.0, b.0),
    }
}

/// Where a blade from one row to another, straight past the rows between them, is furthest from the design.
pub fn furthest_past(
    alignment: &Alignment,
    from: &Row,
    to: &Row,
    side: Side,
) -> Option<(i128, Fraction)> {
    let mut found: Option<(i128, Fraction)> = None;
    for piece in pieces(alignment) {
        let (start, end) = (piece.from.max(from.station), piece.to.min(to.station));
        if start >= end {
            continue;
        }
        let above = piece.above_from(from, to, side, start);
        let (t, above) = above.greatest(end - start);
        if found.is_none_or(|known| is_greater(above, known.1)) {
            found = Some((start + t, above));
        }
    }
    found
}

#[cfg(test)]
mod tests {
    use super::*;
    use crate::agreement::{agreed, Agreed, Listed};
    use crate::language::Language;
    use crate::report::sample::{Chance, Sample};

    fn listed(file: &[u8]) -> Listed {
        match agreed(file, Language::English) {
            Ok(Agreed::Listed(listed)) => listed,
            _ => panic!("the road is listed"),
        }
    }

    /// 9 m with two vertical curves and a crossfall that changes.
    fn small() -> Listed {
        let tangents = [
            (2_500, 20_000, 1_500),
            (4_000, 13_000, 1_801),
            (2_501, 19_000, 0),
        ];
        let mut road = Sample::straight(9_001, 1_700, &tangents);
        road.points = vec![
            (0, -25_000, -31_000),
            (4_003, -44_000, -25_000),
            (9_001, -25_000, -61_000),
        ];
        listed(&road.file())
    }

    /// The greatest distance between two rows, of every whole millimetre.
    fn by_hand(road: &Listed, row: usize, side: Side) -> (i128, Fraction) {
        let (a, b) = (side.place(&road.rows[row]), side.place(&road.rows[row + 1]));
        let mut found = (a.0, Fraction::whole(0));
        for station in a.0..=b.0 {
            let above = blade::above_edge(&road.alignment, a, b, station, side.of_point());
            if is_greater(above, found.1) {
                found = (station, above);
            }
        }
        found
    }

    #[test]
    fn the_greatest_distances_are_those_of_every_millimetre() {
        hold_against_every_millimetre(&small());
    }

    /// Vertical curves that touch, of h = 1, and without a change of grade; rows 1 mm apart.
    #[test]
    fn the_same_on_short_roads() {
        let mut chance = Chance(4);
        for _ in 0..60 {
            hold_against_every_millimetre(&short(&mut chance));
        }
    }

    fn short(chance: &mut Chance) -> Listed {
        let halves = [0, 1, chance.within(1, 3), chance.within(1, 90)];
        let halves = [(); 3].map(|()| halves[chance.within(0, 3) as usize]);
        let ends = [0, halves[0], halves[1], halves[2], 0];
        let mut grade = chance.within(-50_000, 50_000);
        let tangents = [0, 1, 2, 3].map(|place| {
            let half_length = ends[place + 1];
            let room = [0, 1, chance.within(0, 40)][chance.within(0, 2) as usize];
            let length = (ends[place] + half_length + room).max(1);
            let tangent = (length, grade, half_length);
            grade += chance.within(-3 * half_length, 3 * half_length);
            tangent
        });
        let tangents = tangents.map(|(length, grade, half)| (length as u64, grade, half as u64));
        let length = tangents.iter().map(|tangent| tangent.0).sum();
        let mut road = Sample::straight(length, 1_000, &tangents);
        let middle = chance.within(1, length as i64 - 1);
        let most = middle.min(length as i64 - middle);
        let [left, right] = [(); 2].map(|()| -25_000 - chance.within(0, most));
        road.points = vec![
            (0, -25_000, -25_000),
            (middle as u64, left, right),
            (length, -25_000, -25_000),
        ];
        listed(&road.file())
    }

    fn hold_against_every_millimetre(road: &Listed) {
        let found = distances(&road.alignment, &road.rows);
        assert_eq!(found.pairs.len(), road.rows.len() - 1);
        let mut greatest = (0, Side::Left, 0, Fraction::whole(0));
        for (row, pair) in found.pairs.iter().enumerate() {
            for (side, distance) in [(Side::Left, pair.left), (Side::Right, pair.right)] {
                let (station, above) = by_hand(road, row, side);
                assert!((in_millimetres(above).abs() - distance).abs() < 1e-9);
                if is_greater(above, greatest.3) {
                    greatest = (row, side, station, above);
                }
            }
        }
        let furthest = found.furthest.expect("rows");
        assert_eq!(
            (furthest.row, furthest.side, furthest.station),
            (greatest.0, greatest.1, greatest.2)
        );
        assert!(furthest.above.equals(greatest.3));
    }

    #[test]
    fn no_distance_is_over_its_bound() {
        let road = small();
        for (row, pair) in distances(&road.alignment, &road.rows)
            .pairs
            .iter()
            .enumerate()
        {
            let ends = [row, row + 1].map(|row| road.rows[row].station);
            let bound = in_millimetres(blade::bound(&road.alignment, ends[0], ends[1]));
            assert!((bound - pair.bound).abs() < 1e-9);
            assert!(pair.left <= bound && pair.right <= bound);
        }
    }

    #[test]
    fn the_mountain_road() {
        let road = listed(include_bytes!(
            "../../../examples/mountain-access-road.alignment"
        ));
        let furthest = distances(&road.alignment, &road.rows)
            .furthest
            .expect("rows");
        assert_eq!(road.rows[furthest.row].station, 340_000);
        assert_eq!(in_millimetres(furthest.distance()).floor(), 79.0);
    }

    #[test]
    fn a_row_left_out_of_the_crest() {
        let road = listed(include_bytes!("../../../examples/crest.alignment"));
        let rows = &road.rows;
        let (station, above) =
            furthest_past(&road.alignment, &rows[1], &rows[3], Side::Left).expect("rows");
        assert_eq!(station, 84_000);
        assert!(size(above).equals(Fraction::new(12_825, 100)));
    }
}
