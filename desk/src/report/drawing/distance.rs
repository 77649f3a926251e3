//! How far the blade is from the design at most between each two rows, against its bound.

use super::canvas::{Anchor, Label, Size};
use super::heads::{self, Entry};
use super::panel::Panel;
use super::path::Path;
use super::sheet::{Sheet, LEFT};
use super::ticks::Times;
use crate::report::blade::Pair;
use crate::report::shown;
use crate::report::view::View;
use crate::words::report as words;

const LEAST_HEIGHT: f64 = 64.0;
/// Pairs of rows that are drawn narrower are drawn together, by the greatest of them.
const LEAST_WIDTH: f64 = 8.0;

/// How many times greater than stations the distances can be drawn, so that their bounds have room.
pub fn times(view: &View, units: f64, room: f64) -> Times {
    let bounds = view.pairs.iter().map(|pair| pair.bound);
    let greatest = bounds.fold(1.0, f64::max);
    Times::greatest(|times| greatest * units * times <= room)
}

pub fn draw(sheet: &mut Sheet) {
    if !sheet.view.is_listed() {
        return;
    }
    sheet.y += 8.0;
    let panel = panel(sheet);
    head(sheet, &panel);
    panel.axis(sheet, 3);
    let stretches = stretches(sheet);
    let bounds = steps(sheet, &panel, &stretches, |pair| pair.bound);
    let shade = bounds.clone().down_to(panel.bottom, LEFT);
    sheet.canvas.path("shade", shade);
    sheet.canvas.path("bound", bounds);
    let left = steps(sheet, &panel, &stretches, |pair| pair.left);
    sheet.canvas.path("left", left);
    let right = steps(sheet, &panel, &stretches, |pair| pair.right);
    sheet.canvas.path("right", right);
    furthest(sheet, &panel);
    sheet.y = panel.bottom;
}

fn steps(sheet: &Sheet, panel: &Panel, pairs: &[Pair], value: fn(&Pair) -> f64) -> Path {
    Path::steps(pairs.iter().map(|pair| {
        let ends = [pair.from, pair.to].map(|s| sheet.x(s.clamp(sheet.from, sheet.to) as f64));
        (ends[0], ends[1], panel.y(value(pair) * 1_000.0))
    }))
}

/// In thousandths of a millimetre.
fn panel(sheet: &Sheet) -> Panel {
    let units = sheet.units() * sheet.scales.distances.factor() / 1_000.0;
    let greatest = sheet
        .view
        .pairs
        .iter()
        .map(|pair| pair.bound)
        .fold(1.0, f64::max);
    let height = (greatest * 1_000.0 * units + 6.0).max(LEAST_HEIGHT);
    Panel {
        top: sheet.y,
        bottom: sheet.y + height,
        low: 0.0,
        units,
    }
}

fn head(sheet: &mut Sheet, panel: &Panel) {
    let times = sheet.scales.distances;
    let entries = [
        Entry::Words(sheet.say(words::DISTANCE_HEAD)),
        Entry::Line("bound", sheet.say(words::BOUND)),
        Entry::Words(times.shown(words::DISTANCES_TIMES, sheet.view.language)),
    ];
    heads::put(&mut sheet.canvas, panel.top, LEFT - 36.0, &entries);
}

/// The pairs that are seen, narrow ones together.
fn stretches(sheet: &Sheet) -> Vec<Pair> {
    let pairs = &sheet.view.pairs;
    let first = pairs.partition_point(|pair| pair.to <= sheet.from);
    let seen = pairs[first..]
        .iter()
        .take_while(|pair| pair.from < sheet.to);
    let mut stretches: Vec<Pair> = Vec::new();
    for pair in seen {
        match stretches.last_mut() {
            Some(last) if (last.to - last.from) as f64 * sheet.units() < LEAST_WIDTH => {
                last.to = pair.to;
                last.left = last.left.max(pair.left);
                last.right = last.right.max(pair.right);
                last.bound = last.bound.max(pair.bound);
            }
            _ => stretches.push(*pair),
        }
    }
    stretches
}

/// The greatest distance of all, where it is on this sheet.
fn furthest(sheet: &mut Sheet, panel: &Panel) {
    let Some(furthest) = sheet.view.furthest.filter(|f| sheet.holds(f.station)) else {
        return;
    };
    let language = sheet.view.language;
    let distance = shown::hundredths(furthest.distance(), language);
    let x = sheet.x(furthest.station as f64);
    let label = Label::new(x, panel.top + 8.0, Anchor::Start, format!("{distance} mm"));
    let label = label.sized(Size::Small);
    let left = label.at(x - 6.0 - label.width(), label.y);
    sheet.put_within(&[label.at(x + 6.0, label.y), left]);
}
