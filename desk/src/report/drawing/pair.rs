//! One edge between rows: the design, the blade that runs straight from row to row, and how far they are apart.

use reference::fraction::Fraction;

use super::canvas::{Anchor, Label, Size};
use super::heads::{self, Entry};
use super::panel::Panel;
use super::path::Path;
use super::profile::{curve, station_axis};
use super::sheet::{Detail, Drawing, Scales, Sheet, LEFT};
use super::ticks::Times;
use crate::report::fractions::{in_millimetres, size};
use crate::report::reasons::{one_in_words, Joint};
use crate::report::shown;
use crate::report::side::Side;
use crate::report::view::View;
use crate::words::report as words;

const ROOM: f64 = 150.0;

/// The rows, the side, and where the blade from the first row to the last is furthest from the design.
pub struct Between<'a> {
    /// Two rows; or three, of which the middle one is left out.
    pub rows: &'a [Joint],
    pub side: Side,
    pub station: i128,
    pub above: Fraction,
    /// What is said of the distance.
    pub words: String,
    /// None where a row is left out: nothing is promised there.
    pub bound: Option<Fraction>,
    pub title: String,
}

impl Between<'_> {
    fn ends(&self) -> [(i128, i128); 2] {
        let last = self.rows.len() - 1;
        [0, last].map(|place| self.side.place(&self.rows[place].row))
    }

    /// The straight from the first row's edge to the last one's.
    fn straight(&self, station: f64) -> f64 {
        let [(a, p), (b, q)] = self.ends();
        p as f64 + (q - p) as f64 * (station - a as f64) / (b - a) as f64
    }

    fn design(&self, view: &View, station: f64) -> f64 {
        view.profile.height(station) + view.drop(station, self.side) - self.straight(station)
    }

    fn row(&self, place: usize) -> (f64, f64) {
        let (station, edge) = self.side.place(&self.rows[place].row);
        (station as f64, edge as f64 - self.straight(station as f64))
    }
}

pub fn draw(view: &View, between: &Between) -> Drawing {
    let [(from, _), (to, _)] = between.ends();
    let scales = Scales {
        heights: Times::new(1),
        distances: Times::new(1),
    };
    let mut sheet = Sheet::new(view, from, to, Detail::Overview, scales);
    let title = Label::new(0.0, 13.0, Anchor::Start, &*between.title).sized(Size::Title);
    sheet.canvas.put(&title);
    sheet.y = 22.0;
    let (panel, times) = panel(&sheet, between);
    head(&mut sheet, between, &panel, times);
    panel.axis(&mut sheet, 3);
    lines(&mut sheet, between, &panel);
    gap(&mut sheet, between, &panel);
    sheet.y = panel.bottom;
    station_axis(&mut sheet);
    rows(&mut sheet, between);
    Drawing {
        canvas: sheet.canvas,
        height: sheet.y + 8.0,
        title: between.title.clone(),
    }
}

/// In thousandths of a millimetre above the straight; and how many times greater than stations they are drawn.
fn panel(sheet: &Sheet, between: &Between) -> (Panel, Times) {
    let [(a, _), (b, _)] = between.ends();
    let design = [a, between.station, b].map(|s| between.design(sheet.view, s as f64));
    let rows = (0..between.rows.len()).map(|place| between.row(place).1);
    let bound = between.bound.map_or(0.0, in_millimetres);
    let values: Vec<f64> = design
        .into_iter()
        .chain(rows)
        .chain([bound, -bound])
        .collect();
    let low = values.iter().copied().fold(0.0, f64::min);
    let high = values.iter().copied().fold(0.0, f64::max);
    let units = sheet.units();
    let times = Times::greatest(|times| (high - low) * units * times <= ROOM);
    let units = units * times.factor();
    let panel = Panel {
        top: sheet.y,
        bottom: sheet.y + ((high - low) * units + 20.0).max(80.0),
        low: (low - 10.0 / units) * 1_000.0,
        units: units / 1_000.0,
    };
    (panel, times)
}

fn head(sheet: &mut Sheet, between: &Between, panel: &Panel, times: Times) {
    let mut entries = vec![
        Entry::Words(sheet.say(words::ABOVE_STRAIGHT)),
        Entry::Line("design", sheet.say(words::DESIGN)),
        Entry::Line("blade", sheet.say(words::BLADE)),
    ];
    match between.bound {
        Some(_) => entries.push(Entry::Line("bound", sheet.say(words::BOUND))),
        None => entries.push(Entry::Line("skipped", sheet.say(words::BLADE_SKIPPING))),
    }
    entries.push(Entry::Words(
        times.shown(words::HEIGHTS_TIMES, sheet.view.language),
    ));
    heads::put(&mut sheet.canvas, panel.top, LEFT - 40.0, &entries);
}

fn lines(sheet: &mut Sheet, between: &Between, panel: &Panel) {
    let place = |(station, above): (f64, f64)| (sheet.x(station), panel.y(above * 1_000.0));
    let [(a, _), (b, _)] = between.ends().map(|(station, edge)| (station as f64, edge));
    let straight = Path::through([(a, 0.0), (b, 0.0)].map(place));
    let points: Vec<(f64, f64)> = (0..between.rows.len()).map(|i| between.row(i)).collect();
    let blade = Path::through(points.iter().copied().map(place));
    let stations: Vec<f64> = points.iter().map(|point| point.0).collect();
    let design = curve(&stations, |s| place((s, between.design(sheet.view, s))));
    let mut dots = Path::default();
    for point in &points {
        let (x, y) = place(*point);
        dots.dot(x, y);
    }
    let mut bounds = Path::default();
    let values = between.bound.map(in_millimetres);
    for value in values.into_iter().flat_map(|bound| [bound, -bound]) {
        bounds.level(place((a, value)).1, sheet.x(a), sheet.x(b));
    }
    let is_skipping = between.bound.is_none();
    sheet.canvas.path("bound", bounds);
    sheet.canvas.path("design", design);
    if is_skipping {
        sheet.canvas.path("skipped", straight);
    }
    sheet.canvas.path("blade", blade);
    sheet.canvas.path("joints", dots);
}

/// The greatest distance.
fn gap(sheet: &mut Sheet, between: &Between, panel: &Panel) {
    let station = between.station as f64;
    let x = sheet.x(station);
    let design = panel.y(between.design(sheet.view, station) * 1_000.0);
    let blade = panel.y(0.0);
    let mut path = Path::default();
    path.upright(x, blade, design);
    sheet.canvas.path("gap", path);
    let middle = (blade + design) / 2.0 + 4.0;
    let label = Label::new(x + 8.0, middle, Anchor::Start, &*between.words);
    let below = label.at(x + 8.0, blade.max(design) + 16.0);
    let left = label.at(x - 8.0 - label.width(), middle);
    let is_far = in_millimetres(size(between.above)) * panel.units * 1_000.0 > 24.0;
    let labels = if is_far {
        [label, left]
    } else {
        [below.clone(), below]
    };
    sheet.put_within(&labels);
}

/// Each row's station, edge and reasons below the axis.
fn rows(sheet: &mut Sheet, between: &Between) {
    let top = sheet.y;
    let last = between.rows.len() - 1;
    let mut bottom = top + 40.0;
    for (place, joint) in between.rows.iter().enumerate() {
        let anchor = match place {
            0 => Anchor::Start,
            _ if place == last => Anchor::End,
            _ => Anchor::Middle,
        };
        let x = sheet.x(joint.row.station as f64);
        for (index, line) in row_lines(sheet, between, joint).into_iter().enumerate() {
            let y = top + 12.0 + 13.0 * index as f64;
            sheet.canvas.put(&Label::new(x, y, anchor, line));
            bottom = bottom.max(y);
        }
    }
    let names = [words::ROW_STATION, words::ROW_EDGE, words::ROW_REASONS];
    let names = names.map(|phrase| Entry::Words(sheet.say(phrase)));
    heads::put(&mut sheet.canvas, top + 1.0, LEFT - 4.0, &names);
    sheet.y = bottom;
}

fn row_lines(sheet: &Sheet, between: &Between, joint: &Joint) -> Vec<String> {
    let language = sheet.view.language;
    let edge = language.thousandths(between.side.edge(&joint.row));
    let mut lines = vec![shown::station(joint.row.station), format!("{edge} m")];
    let reasons = joint.reasons.iter();
    let alignment = sheet.view.alignment;
    lines.extend(reasons.map(|&reason| one_in_words(reason, alignment, language)));
    lines
}
