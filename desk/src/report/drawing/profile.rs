//! The longitudinal profile: axis, tangents, edges where they can be told from the axis, rows and joints.

use super::canvas::{Anchor, Label, Size};
use super::heads::{self, Entry};
use super::panel::Panel;
use super::path::Path;
use super::sheet::{Sheet, LEFT, RIGHT};
use super::ticks::{multiples, tick_step};
use crate::report::shown::{short_station, station};
use crate::report::side::Side;
use crate::report::view::View;
use crate::rows::Row;
use crate::words::report as words;

const LEAST_HEIGHT: f64 = 76.0;
/// Above the highest and below the lowest point.
const MARGIN: f64 = 9.0;
/// How many times heights may be drawn greater than stations.
const TIMES: [i128; 16] = [1, 2, 3, 4, 5, 6, 8, 10, 15, 20, 25, 30, 40, 50, 75, 100];
/// Edges are drawn where they are at least so far from the axis.
const LEAST_EDGE: f64 = 5.0;
/// Tangents are prolonged where they are at least so long from the curve's end to the vertex.
const LEAST_TANGENT: f64 = 8.0;

/// How many times greater than stations heights can be drawn, so that the profile has room.
pub fn times(view: &View, from: i128, to: i128, units: f64, room: f64) -> i128 {
    let (low, high) = view.range(from, to);
    let fits = |times: &i128| (high - low) * units * *times as f64 <= room;
    TIMES.into_iter().rfind(fits).unwrap_or(1)
}

pub fn draw(sheet: &mut Sheet) {
    let panel = panel(sheet);
    head(sheet, &panel);
    panel.axis(sheet, 3);
    tangents(sheet, &panel);
    edges(sheet, &panel);
    let axis = line(sheet, &panel, |view, s| view.profile.height(s));
    sheet.canvas.path("axis", axis);
    rows(sheet, &panel);
    sheet.y = panel.bottom;
    station_axis(sheet);
}

fn panel(sheet: &Sheet) -> Panel {
    let (low, high) = sheet.view.range(sheet.from, sheet.to);
    let units = sheet.units() * sheet.scales.heights.factor();
    let used = (high - low) * units + 2.0 * MARGIN;
    let height = used.max(LEAST_HEIGHT);
    let below = MARGIN + (height - used) / 2.0;
    Panel {
        top: sheet.y,
        bottom: sheet.y + height,
        low: low - below / units,
        units,
    }
}

fn head(sheet: &mut Sheet, panel: &Panel) {
    let mut entries = vec![
        Entry::Words(sheet.say(words::PROFILE_HEAD)),
        Entry::Line("axis", sheet.say(words::AXIS)),
    ];
    if edges_are_seen(sheet, panel) {
        entries.push(Entry::Line("left", sheet.say(words::LEFT_EDGE)));
        entries.push(Entry::Line("right", sheet.say(words::RIGHT_EDGE)));
    }
    let times = sheet.scales.heights;
    entries.push(Entry::Words(
        times.shown(words::HEIGHTS_TIMES, sheet.view.language),
    ));
    heads::put(&mut sheet.canvas, panel.top, 76.0, &entries);
}

/// A line that is one straight or one parabola between the profile's breaks.
fn line(sheet: &Sheet, panel: &Panel, height: impl Fn(&View, f64) -> f64) -> Path {
    let view = sheet.view;
    let mut stations = view.profile.breaks(sheet.from as f64, sheet.to as f64);
    let points = view
        .alignment
        .points
        .iter()
        .filter(|point| sheet.holds(point.station));
    stations.extend(points.map(|point| point.station as f64));
    stations.sort_by(f64::total_cmp);
    stations.dedup();
    curve(&stations, |s| (sheet.x(s), panel.y(height(view, s))))
}

/// A curve of straights and parabolas, each told by its ends and its middle.
pub fn curve(stations: &[f64], place: impl Fn(f64) -> (f64, f64)) -> Path {
    let mut path = Path::default();
    for pair in stations.windows(2) {
        let (start, end) = (place(pair[0]), place(pair[1]));
        let middle = place((pair[0] + pair[1]) / 2.0);
        let chord = (start.1 + end.1) / 2.0;
        if path.is_empty() {
            path.move_to(start.0, start.1);
        }
        if (middle.1 - chord).abs() < 0.05 {
            path.line_to(end.0, end.1);
        } else {
            path.parabola_to((middle.0, 2.0 * middle.1 - chord), end);
        }
    }
    path
}

/// The tangents prolonged to the vertices.
fn tangents(sheet: &mut Sheet, panel: &Panel) {
    let mut path = Path::default();
    let (from, to) = (sheet.from as f64, sheet.to as f64);
    for vertex in &sheet.view.profile.vertices {
        let is_seen = from <= vertex.from() && vertex.to() <= to;
        if !is_seen || vertex.half_length * sheet.units() < LEAST_TANGENT {
            continue;
        }
        let (before, after) = (
            vertex.half_length * vertex.before,
            vertex.half_length * vertex.after,
        );
        path.move_to(sheet.x(vertex.from()), panel.y(vertex.height - before));
        path.line_to(sheet.x(vertex.station), panel.y(vertex.height));
        path.line_to(sheet.x(vertex.to()), panel.y(vertex.height + after));
    }
    sheet.canvas.path("polygon", path);
}

fn edges_are_seen(sheet: &Sheet, panel: &Panel) -> bool {
    sheet.view.is_listed() && sheet.view.greatest_drop() * panel.units >= LEAST_EDGE
}

fn edges(sheet: &mut Sheet, panel: &Panel) {
    if !edges_are_seen(sheet, panel) {
        return;
    }
    for (side, class) in [(Side::Left, "left"), (Side::Right, "right")] {
        let path = line(sheet, panel, |view, s| {
            view.profile.height(s) + view.drop(s, side)
        });
        sheet.canvas.path(class, path);
    }
}

fn rows(sheet: &mut Sheet, panel: &Panel) {
    let place = |row: &Row| (sheet.x(row.station as f64), panel.y(row.height as f64));
    let mut rows = Path::default();
    if sheet.shows_rows() {
        let seen = sheet
            .view
            .rows
            .iter()
            .filter(|row| sheet.holds(row.station));
        for (x, y) in seen.map(place) {
            rows.dot(x, y);
        }
    }
    let mut joints = Path::default();
    let columns = sheet.columns.iter().filter(|column| column.is_joint());
    for (x, y) in columns.map(|column| place(&column.row)) {
        joints.dot(x, y);
    }
    sheet.canvas.path("rows", rows);
    sheet.canvas.path("joints", joints);
}

/// Round stations below a panel.
pub fn station_axis(sheet: &mut Sheet) {
    let most = (RIGHT - LEFT) / 66.0;
    let step = tick_step(sheet.to - sheet.from, most as i128);
    let mut ticks = Path::default();
    for value in multiples(sheet.from, sheet.to, step) {
        let x = sheet.x(value as f64);
        ticks.upright(x, sheet.y, sheet.y + 4.0);
        let words = if step % 1_000 == 0 {
            short_station(value)
        } else {
            station(value)
        };
        let label = Label::new(x, sheet.y + 14.0, Anchor::Middle, words);
        sheet.canvas.put(&label.sized(Size::Small));
    }
    sheet.canvas.path("frame", ticks);
    let unit = Label::new(
        0.0,
        sheet.y + 14.0,
        Anchor::Start,
        sheet.say(words::STATION_UNIT),
    );
    sheet.canvas.put(&unit.sized(Size::Small).styled("y"));
    sheet.y += 20.0;
}
