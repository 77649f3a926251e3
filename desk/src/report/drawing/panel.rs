//! A part of a sheet with a scale of its own in height.

use super::canvas::{Anchor, Label, Size};
use super::path::Path;
use super::sheet::{Sheet, LEFT, RIGHT};
use super::ticks::{multiples, shown, tick_step};

pub struct Panel {
    pub top: f64,
    pub bottom: f64,
    /// The value at the bottom.
    pub low: f64,
    /// Drawing units for one of the values.
    pub units: f64,
}

impl Panel {
    pub fn y(&self, value: f64) -> f64 {
        self.bottom - (value - self.low) * self.units
    }

    fn high(&self) -> f64 {
        self.low + (self.bottom - self.top) / self.units
    }

    /// The frame, and level lines at round values, given in parts of ten to a power.
    pub fn axis(&self, sheet: &mut Sheet, power: u32) {
        let (low, high) = (self.low.ceil() as i128, self.high().floor() as i128);
        let most = ((self.bottom - self.top) / 20.0) as i128;
        let step = tick_step((high - low).max(0), most.max(1));
        self.level_lines(sheet, &multiples(low, high, step), step, power);
    }

    /// The frame, and level lines at multiples of a step.
    pub fn level_lines(&self, sheet: &mut Sheet, values: &[i128], step: i128, power: u32) {
        let language = sheet.view.language;
        let mut lines = Path::default();
        for &value in values {
            let y = self.y(value as f64);
            lines.level(y, LEFT, RIGHT);
            let words = shown(value, step, power, language);
            let label = Label::new(LEFT - 4.0, y + 3.5, Anchor::End, words);
            sheet.canvas.put(&label.sized(Size::Small));
        }
        sheet.canvas.path("grid", lines);
        self.frame(sheet);
    }

    pub fn frame(&self, sheet: &mut Sheet) {
        let mut frame = Path::default();
        frame.level(self.bottom, LEFT, RIGHT);
        frame.upright(LEFT, self.top, self.bottom);
        sheet.canvas.path("frame", frame);
    }
}
