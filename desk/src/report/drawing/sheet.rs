//! Bands below each other on one station axis: profile, grades, curvature, crossfall, blade, and the table of the joints.

use super::canvas::{Anchor, Canvas, Label, Size};
use super::columns::{columns, Column};
use super::ticks::Times;
use super::{crossfall, distance, grades, joints, plan, profile};
use crate::report::shown::short_station;
use crate::report::view::View;
use crate::words::{report as words, Phrase};

/// Drawing units: a sheet is as wide as A4 paper without its margins, 190 mm.
pub const WIDTH: f64 = 920.0;
pub const LEFT: f64 = 128.0;
pub const RIGHT: f64 = 872.0;

/// Rows nearer to each other are not drawn.
pub const LEAST_ROW_DISTANCE: f64 = 4.0;

/// How much of the road a sheet shows.
#[derive(Clone, Copy, Debug, PartialEq, Eq)]
pub enum Detail {
    /// All of a short road, with all that is told of its joints.
    Whole,
    /// All of a long road, without its joints.
    Overview,
    /// A part of a long road.
    Strip,
    /// The profile alone with its joints.
    ProfileOnly,
}

/// How many times heights and distances are drawn greater than stations.
#[derive(Clone, Copy, Debug, PartialEq, Eq)]
pub struct Scales {
    pub heights: Times,
    pub distances: Times,
}

pub struct Sheet<'a> {
    pub view: &'a View<'a>,
    pub canvas: Canvas,
    pub from: i128,
    pub to: i128,
    pub detail: Detail,
    pub scales: Scales,
    /// The rows that are told of in the table below.
    pub columns: Vec<Column>,
    /// Where the drawings begin, and where the next band does.
    pub top: f64,
    pub y: f64,
}

/// A drawing that is done.
pub struct Drawing {
    pub canvas: Canvas,
    pub height: f64,
    pub title: String,
}

impl Drawing {
    pub fn svg(&self) -> String {
        self.canvas.svg(WIDTH, self.height, &self.title)
    }
}

/// Drawing units for a millimetre of the station axis.
pub fn units(from: i128, to: i128) -> f64 {
    (RIGHT - LEFT) / (to - from).max(1) as f64
}

/// Draws the road from one station to another.
pub fn draw(view: &View, from: i128, to: i128, detail: Detail, scales: Scales) -> Drawing {
    let mut sheet = Sheet::new(view, from, to, detail, scales);
    let title = sheet.title();
    profile::draw(&mut sheet);
    grades::draw(&mut sheet);
    if detail != Detail::ProfileOnly {
        plan::draw(&mut sheet);
        crossfall::draw(&mut sheet);
        distance::draw(&mut sheet);
    }
    joints::draw(&mut sheet);
    Drawing {
        canvas: sheet.canvas,
        height: sheet.y + 8.0,
        title,
    }
}

impl<'a> Sheet<'a> {
    pub fn new(
        view: &'a View<'a>,
        from: i128,
        to: i128,
        detail: Detail,
        scales: Scales,
    ) -> Sheet<'a> {
        Sheet {
            view,
            canvas: Canvas::default(),
            from,
            to,
            detail,
            scales,
            columns: columns(view, from, to, detail),
            top: 0.0,
            y: 0.0,
        }
    }

    pub fn units(&self) -> f64 {
        units(self.from, self.to)
    }

    pub fn x(&self, station: f64) -> f64 {
        LEFT + (station - self.from as f64) * self.units()
    }

    /// Where an item from one station to another is seen on this sheet, if it is.
    pub fn seen(&self, from: f64, to: f64) -> Option<(f64, f64)> {
        let (low, high) = (from.max(self.from as f64), to.min(self.to as f64));
        (low < high).then(|| (self.x(low), self.x(high)))
    }

    pub fn holds(&self, station: i128) -> bool {
        self.from <= station && station <= self.to
    }

    pub fn say(&self, phrase: Phrase) -> String {
        self.view.language.say(phrase, &[])
    }

    fn title(&mut self) -> String {
        let ends = [self.from, self.to.min(self.view.end)].map(short_station);
        let phrase = match self.detail {
            Detail::Overview => words::SHEET_OVERVIEW,
            Detail::Whole | Detail::Strip | Detail::ProfileOnly => words::SHEET_FROM_TO,
        };
        let title = self.view.language.say(phrase, &[&ends[0], &ends[1]]);
        let label = Label::new(0.0, 13.0, Anchor::Start, title.clone());
        self.canvas.put(&label.sized(Size::Title));
        self.top = 20.0;
        self.y = self.top;
        title
    }

    /// Whether each row is drawn.
    pub fn shows_rows(&self) -> bool {
        let distance = self.view.alignment.step as f64 * self.units();
        self.view.is_listed() && distance >= LEAST_ROW_DISTANCE
    }

    /// Puts the first of some texts that has room, moved inwards at the ends of the drawing.
    pub fn put_within(&mut self, labels: &[Label]) -> bool {
        labels.iter().any(|label| {
            let area = label.area();
            let shift = (LEFT - area.left).max(0.0) - (area.right - RIGHT).max(0.0);
            self.canvas.put(&label.at(label.x + shift, label.y))
        })
    }
}
