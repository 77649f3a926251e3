//! The crossfall of both sides, and how far their edges lie above the axis.

use super::canvas::{Anchor, Label, Size};
use super::heads::{self, Entry};
use super::marking;
use super::panel::Panel;
use super::path::Path;
use super::sheet::{Sheet, RIGHT};
use super::ticks::multiples;
use crate::report::marks::Item;
use crate::report::shown;
use crate::report::side::Side;
use crate::words::report as words;

/// In ppm above and below 0.
const RANGE: f64 = 82_000.0;
const HEIGHT: f64 = 92.0;

pub fn draw(sheet: &mut Sheet) {
    sheet.y += 6.0;
    marking::row(sheet, |item| matches!(item, Item::Point(_)));
    let panel = Panel {
        top: sheet.y,
        bottom: sheet.y + HEIGHT,
        low: -RANGE,
        units: HEIGHT / (2.0 * RANGE),
    };
    head(sheet, &panel);
    panel.level_lines(sheet, &multiples(-75_000, 75_000, 25_000), 1_000, 4);
    edge_axis(sheet, &panel);
    for (side, class) in [(Side::Left, "left"), (Side::Right, "right")] {
        let path = line(sheet, &panel, side);
        sheet.canvas.path(class, path);
    }
    values(sheet, &panel);
    sheet.y = panel.bottom;
}

fn head(sheet: &mut Sheet, panel: &Panel) {
    let entries = [
        Entry::Words(sheet.say(words::CROSSFALL_HEAD)),
        Entry::Line("left", sheet.say(words::LEFT)),
        Entry::Line("right", sheet.say(words::RIGHT)),
        Entry::Words(sheet.say(words::EDGE_SCALE)),
    ];
    heads::put(&mut sheet.canvas, panel.top, 90.0, &entries);
}

/// The same heights as millimetres of the edge above the axis, at the right.
fn edge_axis(sheet: &mut Sheet, panel: &Panel) {
    let lane_width = sheet.view.lane_width as f64;
    let mut ticks = Path::default();
    for value in multiples(-200, 200, 100) {
        let y = panel.y(value as f64 * 1e6 / lane_width);
        ticks.level(y, RIGHT, RIGHT + 4.0);
        let words = sheet.view.language.number(value);
        let label = Label::new(RIGHT + 6.0, y + 3.5, Anchor::Start, words);
        sheet.canvas.put(&label.sized(Size::Small));
    }
    ticks.upright(RIGHT, panel.top, panel.bottom);
    sheet.canvas.path("frame", ticks);
}

/// A side's crossfall, straight from point to point, as far as it is seen.
fn line(sheet: &Sheet, panel: &Panel, side: Side) -> Path {
    let points = &sheet.view.alignment.points;
    let mut path = Path::default();
    let mut last = None;
    for pair in points.windows(2) {
        let [a, b] = [&pair[0], &pair[1]].map(|point| (point.station, side.of_point()(point)));
        let low = a.0.min(b.0);
        let high = a.0.max(b.0);
        if high < sheet.from || sheet.to < low {
            continue;
        }
        let ends = [a, b].map(|end| cut(a, b, end.0.clamp(sheet.from, sheet.to)));
        let [start, end] = ends.map(|(station, value)| (sheet.x(station), panel.y(value)));
        if last != Some(start) {
            path.move_to(start.0, start.1);
        }
        path.line_to(end.0, end.1);
        last = Some(end);
    }
    path
}

/// The crossfall at a station between two points.
fn cut(a: (i128, i128), b: (i128, i128), station: i128) -> (f64, f64) {
    let part = match b.0 - a.0 {
        0 => 0.0,
        length => (station - a.0) as f64 / length as f64,
    };
    (station as f64, a.1 as f64 + (b.1 - a.1) as f64 * part)
}

/// Where the value of a crossfall is written: away from 0, but not over the lower edge of the panel.
fn beside_line(panel: &Panel, value: i128) -> f64 {
    let (above, below) = (-4.0, 12.0);
    let y = panel.y(value as f64);
    match value > 0 || y + below + 2.0 > panel.bottom {
        true => y + above,
        false => y + below,
    }
}

/// The values where a crossfall does not change.
fn values(sheet: &mut Sheet, panel: &Panel) {
    let language = sheet.view.language;
    for pair in sheet.view.alignment.points.windows(2) {
        let seen = sheet.seen(pair[0].station as f64, pair[1].station as f64);
        let Some((left, right)) = seen else { continue };
        for side in Side::BOTH {
            let value = side.of_point()(&pair[0]);
            if value != side.of_point()(&pair[1]) {
                continue;
            }
            let y = beside_line(panel, value);
            let words = shown::percent(value, language);
            let label = Label::new((left + right) / 2.0, y, Anchor::Middle, words);
            let label = label.sized(Size::Small);
            if label.width() <= right - left + 8.0 {
                sheet.put_within(&[label]);
            }
        }
    }
}
