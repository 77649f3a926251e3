//! The columns of the table below the drawings: joints first, then other rows where there is room.

use reference::stations::Reason;

use super::sheet::{units, Detail, LEAST_ROW_DISTANCE, LEFT, RIGHT};
use super::spread::{is_near, spread};
use crate::report::reasons::Joint;
use crate::report::view::View;
use crate::rows::Row;

/// The width of an upright number with room beside it.
const PITCH: f64 = 12.5;
/// A column stands at most so far from its station.
const MOST_SHIFT: f64 = 64.0;

pub struct Column {
    /// Where its numbers stand.
    pub x: f64,
    pub row: Row,
    pub reasons: Vec<Reason>,
}

impl Column {
    pub fn is_joint(&self) -> bool {
        self.reasons != [Reason::MultipleOfStep]
    }
}

/// The columns of a sheet from one station to another.
pub fn columns(view: &View, from: i128, to: i128, detail: Detail) -> Vec<Column> {
    if detail == Detail::Overview || !view.is_listed() {
        return Vec::new();
    }
    let seen: Vec<&Joint> = seen(&view.joints, from, to).collect();
    let wanted = |joint: &&Joint| wanted(joint.row.station, from, to);
    let chosen = chosen(&seen, wanted);
    let places = places(&chosen.iter().map(wanted).collect::<Vec<_>>());
    let columns = chosen.iter().zip(places).map(|(joint, x)| Column {
        x,
        row: joint.row,
        reasons: joint.reasons.clone(),
    });
    with_steps(view, from, to, columns.collect())
}

/// How many joints from one station to another have no column.
pub fn left_out(view: &View, from: i128, to: i128) -> usize {
    let seen: Vec<&Joint> = seen(&view.joints, from, to).collect();
    let chosen = chosen(&seen, |joint| wanted(joint.row.station, from, to));
    seen.len() - chosen.len()
}

fn seen(joints: &[Joint], from: i128, to: i128) -> impl Iterator<Item = &Joint> {
    joints
        .iter()
        .filter(move |joint| (from..=to).contains(&joint.row.station))
}

fn wanted(station: i128, from: i128, to: i128) -> f64 {
    LEFT + (station - from) as f64 * units(from, to)
}

fn places(wanted: &[f64]) -> Vec<f64> {
    spread(wanted, PITCH, LEFT + 5.0, RIGHT)
}

fn fit(wanted: &[f64]) -> bool {
    let places = places(wanted);
    let last = places.last().copied().unwrap_or(LEFT);
    last <= RIGHT + 0.01 && is_near(wanted, &places, MOST_SHIFT)
}

/// As many joints as have room: the road's ends first, then elements and vertical curves, then crossfall points.
fn chosen<'a>(seen: &[&'a Joint], wanted: impl Fn(&&'a Joint) -> f64) -> Vec<&'a Joint> {
    let all: Vec<f64> = seen.iter().map(&wanted).collect();
    if fit(&all) {
        return seen.to_vec();
    }
    let mut by_rank = seen.to_vec();
    by_rank.sort_by_key(|joint| rank(joint));
    let mut chosen: Vec<&Joint> = Vec::new();
    for joint in by_rank {
        let place = chosen.partition_point(|other| other.row.station < joint.row.station);
        chosen.insert(place, joint);
        if !fit(&chosen.iter().map(&wanted).collect::<Vec<_>>()) {
            chosen.remove(place);
        }
    }
    chosen
}

fn rank(joint: &Joint) -> usize {
    let ranks = joint.reasons.iter().map(|reason| match reason {
        Reason::Start | Reason::End => 0,
        Reason::ElementEnd(_) | Reason::CurveStart(_) | Reason::CurveEnd(_) => 1,
        Reason::Vertex(_) | Reason::CrossfallPoint(_) => 2,
        Reason::MultipleOfStep => 3,
    });
    ranks.min().unwrap_or(3)
}

/// Rows at multiples of the step where there is room at their station.
fn with_steps(view: &View, from: i128, to: i128, mut columns: Vec<Column>) -> Vec<Column> {
    if view.alignment.step as f64 * units(from, to) < LEAST_ROW_DISTANCE {
        return columns;
    }
    let first = view.rows.partition_point(|row| row.station < from);
    let beyond = view.rows.partition_point(|row| row.station <= to);
    for place in first..beyond {
        let Joint { row, reasons } = view.row(place);
        let x = wanted(row.station, from, to);
        let place = columns.partition_point(|column| column.x < x);
        let mut beside = columns[place.saturating_sub(1)..].iter().take(2);
        let has_room = beside.all(|column| (column.x - x).abs() >= PITCH);
        if has_room && reasons == [Reason::MultipleOfStep] {
            columns.insert(place, Column { x, row, reasons });
        }
    }
    columns
}
