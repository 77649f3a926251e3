//! What the drawings show of a road.

use reference::file::Alignment;
use reference::limits::limits;
use reference::stations::Reason;

use super::blade::{distances, Furthest, Pair};
use super::lines::{bends, Bend, Profile};
use super::marks::Mark;
use super::reasons::{joints, Joint};
use super::side::Side;
use crate::agreement::Listed;
use crate::language::Language;
use crate::rows::Row;

pub struct View<'a> {
    pub language: Language,
    pub alignment: &'a Alignment,
    pub lane_width: i128,
    pub bends: Vec<Bend>,
    pub profile: Profile,
    /// Where the longest of the three lists ends.
    pub end: i128,
    /// None of a refused road.
    pub rows: &'a [Row],
    pub joints: Vec<Joint>,
    pub pairs: Vec<Pair>,
    pub furthest: Option<Furthest>,
    /// The items that the findings of a refused road name.
    pub marks: Vec<Mark>,
}

impl<'a> View<'a> {
    pub fn of_listed(listed: &'a Listed, language: Language) -> View<'a> {
        let distances = distances(&listed.alignment, &listed.rows);
        View {
            rows: &listed.rows,
            joints: joints(&listed.alignment, &listed.rows),
            pairs: distances.pairs,
            furthest: distances.furthest,
            ..View::of_items(&listed.alignment, Vec::new(), language)
        }
    }

    /// A road that is refused: the lists may be of different length.
    pub fn of_items(alignment: &'a Alignment, marks: Vec<Mark>, language: Language) -> View<'a> {
        let tangents = alignment.tangents.iter().map(|tangent| tangent.length);
        let points = alignment.points.iter().map(|point| point.station);
        let end = points.chain([tangents.sum(), alignment.total_length()]);
        View {
            language,
            alignment,
            lane_width: limits(alignment).lane_width,
            bends: bends(alignment),
            profile: Profile::new(alignment),
            end: end.max().unwrap_or(1),
            rows: &[],
            joints: Vec::new(),
            pairs: Vec::new(),
            furthest: None,
            marks,
        }
    }

    pub fn is_listed(&self) -> bool {
        !self.rows.is_empty()
    }

    /// A row with the reasons why it is listed.
    pub fn row(&self, place: usize) -> Joint {
        let row = self.rows[place];
        let joints = &self.joints;
        match joints.binary_search_by_key(&row.station, |joint| joint.row.station) {
            Ok(found) => joints[found].clone(),
            Err(_) => Joint {
                row,
                reasons: vec![Reason::MultipleOfStep],
            },
        }
    }

    /// How far the drawings reach: a metre at least.
    pub fn reach(&self) -> i128 {
        self.end.max(1_000)
    }

    /// The steepest crossfall's drop, in mm.
    pub fn greatest_drop(&self) -> f64 {
        let points = self.alignment.points.iter();
        let crossfalls = points.map(|point| point.left.abs().max(point.right.abs()));
        let steepest = crossfalls.max().unwrap_or(0);
        (steepest * self.lane_width) as f64 / 1e6
    }

    /// The lowest and the highest that the profile shows from one station to another.
    pub fn range(&self, from: i128, to: i128) -> (f64, f64) {
        let (low, high) = self.profile.range(from as f64, to as f64);
        let drop = if self.is_listed() {
            self.greatest_drop()
        } else {
            0.0
        };
        (low - drop, high + drop)
    }

    /// How far an edge lies above the axis, in mm; on a listed road.
    pub fn drop(&self, station: f64, side: Side) -> f64 {
        let points = &self.alignment.points;
        let next = points.partition_point(|point| (point.station as f64) < station);
        let next = next.clamp(1, points.len() - 1);
        let (a, b) = (&points[next - 1], &points[next]);
        let [from, to] = [a, b].map(|point| side.of_point()(point) as f64);
        let part = (station - a.station as f64) / (b.station - a.station).max(1) as f64;
        (from + (to - from) * part) * self.lane_width as f64 / 1e6
    }
}
