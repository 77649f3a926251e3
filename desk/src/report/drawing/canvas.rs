//! A drawing in SVG. No text is put where another one stands.

use std::collections::BTreeMap;
use std::fmt::Write;

use super::path::Path;
use super::text_width;
use crate::report::html::escaped;

/// How a text stands beside its place.
#[derive(Clone, Copy, Debug, PartialEq)]
pub enum Anchor {
    Start,
    Middle,
    End,
}

/// The sizes of letters.
#[derive(Clone, Copy, Debug, PartialEq)]
pub enum Size {
    Title,
    Plain,
    Small,
}

impl Size {
    pub fn units(self) -> f64 {
        match self {
            Size::Title => 13.0,
            Size::Plain => 11.0,
            Size::Small => 10.0,
        }
    }

    fn class(self) -> &'static str {
        match self {
            Size::Title => "t",
            Size::Plain => "n",
            Size::Small => "s",
        }
    }

    /// Titles are bold.
    fn widening(self) -> f64 {
        match self {
            Size::Title => 1.1,
            Size::Plain | Size::Small => 1.0,
        }
    }
}

/// A text and the place of its base line.
#[derive(Clone, Debug)]
pub struct Label {
    pub x: f64,
    pub y: f64,
    pub anchor: Anchor,
    pub size: Size,
    /// A further class of its style, or nothing.
    pub style: &'static str,
    pub words: String,
}

impl Label {
    pub fn new(x: f64, y: f64, anchor: Anchor, words: impl Into<String>) -> Label {
        Label {
            x,
            y,
            anchor,
            size: Size::Plain,
            style: "",
            words: words.into(),
        }
    }

    pub fn sized(self, size: Size) -> Label {
        Label { size, ..self }
    }

    pub fn styled(self, style: &'static str) -> Label {
        Label { style, ..self }
    }

    pub fn at(&self, x: f64, y: f64) -> Label {
        Label {
            x,
            y,
            ..self.clone()
        }
    }

    pub fn width(&self) -> f64 {
        text_width::width(&self.words) * self.size.units() * self.size.widening()
    }

    pub fn area(&self) -> Area {
        let width = self.width();
        let left = match self.anchor {
            Anchor::Start => self.x,
            Anchor::Middle => self.x - width / 2.0,
            Anchor::End => self.x - width,
        };
        Area {
            left,
            top: self.y - self.size.units() * 0.8,
            right: left + width,
            bottom: self.y + self.size.units() * 0.22,
        }
    }
}

/// A rectangle.
#[derive(Clone, Copy, Debug, PartialEq)]
pub struct Area {
    pub left: f64,
    pub top: f64,
    pub right: f64,
    pub bottom: f64,
}

impl Area {
    pub fn meets(&self, other: &Area) -> bool {
        self.left < other.right
            && other.left < self.right
            && self.top < other.bottom
            && other.top < self.bottom
    }
}

/// What is drawn so far, and where its texts stand.
#[derive(Default)]
pub struct Canvas {
    body: String,
    /// Texts by their style; they stand over the lines.
    groups: BTreeMap<String, String>,
    pub texts: Vec<Area>,
}

impl Canvas {
    pub fn path(&mut self, class: &str, path: Path) {
        if !path.is_empty() {
            let _ = write!(self.body, "<path class=\"{class}\" d=\"{}\"/>", path.data);
        }
    }

    /// A path behind all that is drawn so far.
    pub fn path_behind(&mut self, class: &str, path: Path) {
        let front = std::mem::take(&mut self.body);
        self.path(class, path);
        self.body += &front;
    }

    pub fn is_free(&self, area: &Area) -> bool {
        !self.texts.iter().any(|taken| taken.meets(area))
    }

    /// Puts a text where none stands; says whether it did.
    pub fn put(&mut self, label: &Label) -> bool {
        let area = label.area();
        if label.words.is_empty() || !self.is_free(&area) {
            return false;
        }
        self.texts.push(area);
        self.write_text(label);
        true
    }

    /// Puts the first of some texts that has room; says whether one had.
    pub fn put_one_of(&mut self, labels: &[Label]) -> bool {
        labels.iter().any(|label| self.put(label))
    }

    fn write_text(&mut self, label: &Label) {
        let anchor = match label.anchor {
            Anchor::Start => "",
            Anchor::Middle => " m",
            Anchor::End => " e",
        };
        let blank = if label.style.is_empty() { "" } else { " " };
        let class = format!("{}{anchor}{blank}{}", label.size.class(), label.style);
        let group = self.groups.entry(format!("class=\"{class}\"")).or_default();
        let (x, y, words) = (shown(label.x), shown(label.y), escaped(&label.words));
        let _ = write!(group, "<text x=\"{x}\" y=\"{y}\">{words}</text>");
    }

    /// Puts a small text that reads upwards where none stands, its end or its middle at a height.
    pub fn put_upright(&mut self, x: f64, y: f64, anchor: Anchor, words: &str) {
        let size = Size::Small.units();
        let width = text_width::width(words) * size;
        let (class, top) = match anchor {
            Anchor::Middle => ("s m", y - width / 2.0),
            Anchor::Start | Anchor::End => ("s e", y),
        };
        let area = Area {
            left: x - 0.45 * size,
            top,
            right: x + 0.57 * size,
            bottom: top + width,
        };
        if !self.is_free(&area) {
            return;
        }
        self.texts.push(area);
        let turned = format!("transform=\"translate(0 {}) rotate(-90)\"", shown(y));
        let group = format!("class=\"{class}\" {turned}");
        let base = shown(x + 0.35 * size);
        let text = format!("<text y=\"{base}\">{}</text>", escaped(words));
        *self.groups.entry(group).or_default() += &text;
    }

    /// The drawing's elements.
    pub fn elements(&self) -> String {
        let mut out = self.body.clone();
        for (attributes, texts) in &self.groups {
            let _ = write!(out, "<g {attributes}>{texts}</g>");
        }
        out
    }

    /// The whole drawing.
    pub fn svg(&self, width: f64, height: f64, title: &str) -> String {
        format!(
            "<svg xmlns=\"http://www.w3.org/2000/svg\" viewBox=\"0 0 {} {}\" role=\"img\"><title>{}</title>{}</svg>\n",
            shown(width),
            shown(height),
            escaped(title),
            self.elements(),
        )
    }
}

/// A coordinate with one decimal at most.
pub fn shown(value: f64) -> String {
    tenths_shown(tenths(value))
}

/// A coordinate in tenths.
pub fn tenths(value: f64) -> i64 {
    (value * 10.0).round().clamp(-1e9, 1e9) as i64
}

pub fn tenths_shown(tenths: i64) -> String {
    let sign = if tenths < 0 { "-" } else { "" };
    let (whole, part) = (tenths.abs() / 10, tenths.abs() % 10);
    match (whole, part) {
        (_, 0) => format!("{sign}{whole}"),
        (0, _) => format!("{sign}.{part}"),
        _ => format!("{sign}{whole}.{part}"),
    }
}
