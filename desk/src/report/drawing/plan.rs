//! The curvature band: straights, clothoids, and arcs with radius and turn. Right turns stand above the line.

use reference::file::Kind;

use super::canvas::{Anchor, Label, Size};
use super::heads::{self, Entry};
use super::marking;
use super::path::Path;
use super::sheet::{Sheet, LEFT, RIGHT};
use crate::between_arcs::BetweenArcs;
use crate::report::lines::Bend;
use crate::report::marks::Item;
use crate::report::shown;
use crate::words::report as words;

const HEIGHT: f64 = 58.0;
const GREATEST: f64 = 24.0;
const LEAST: f64 = 9.0;

pub fn draw(sheet: &mut Sheet) {
    sheet.y += 4.0;
    marking::row(sheet, |item| matches!(item, Item::Element(_)));
    let entries =
        [words::PLAN_HEAD, words::PLAN_SIGNS].map(|phrase| Entry::Words(sheet.say(phrase)));
    heads::put(&mut sheet.canvas, sheet.y, LEFT - 4.0, &entries);
    let middle = sheet.y + HEIGHT / 2.0;
    let bends = sheet.view.bends.iter();
    let seen: Vec<&Bend> = bends.filter(|bend| is_seen(sheet, bend)).collect();
    shapes(sheet, &seen, middle);
    // an arc's label may be shorter and still tell its radius
    for bend in &seen {
        label(sheet, bend, middle, names(sheet, bend));
    }
    for kind in [Kind::Arc, Kind::Straight, Kind::Clothoid] {
        for bend in seen.iter().filter(|bend| bend.kind == kind) {
            label(sheet, bend, middle, texts(sheet, bend));
        }
    }
    sheet.y += HEIGHT;
}

fn shapes(sheet: &mut Sheet, seen: &[&Bend], middle: f64) {
    let bends = sheet.view.bends.iter();
    let sharpest = bends.map(|bend| bend.at_start.abs().max(bend.at_end.abs()));
    let sharpest = sharpest.fold(f64::MIN_POSITIVE, f64::max);
    let mut shapes = Path::default();
    for bend in seen {
        shape(sheet, bend, middle, sharpest, &mut shapes);
    }
    sheet.canvas.path("bend", shapes);
    let mut line = Path::default();
    line.level(middle, LEFT, RIGHT);
    sheet.canvas.path("frame", line);
}

fn is_seen(sheet: &Sheet, bend: &Bend) -> bool {
    sheet.seen(bend.from as f64, bend.to as f64).is_some()
}

/// How high the band stands: sharper bends higher, not to scale.
fn height(curvature: f64, sharpest: f64) -> f64 {
    match curvature {
        0.0 => 0.0,
        _ => ((curvature.abs() / sharpest).sqrt() * GREATEST).max(LEAST) * curvature.signum(),
    }
}

fn shape(sheet: &Sheet, bend: &Bend, middle: f64, sharpest: f64, shapes: &mut Path) {
    let (start, end) = (
        height(bend.at_start, sharpest),
        height(bend.at_end, sharpest),
    );
    let Some((left, right)) = sheet.seen(bend.from as f64, bend.to as f64) else {
        return;
    };
    if start == 0.0 && end == 0.0 {
        return;
    }
    let length = (bend.to - bend.from).max(1) as f64;
    let at = |x: f64| {
        let station = sheet.from as f64 + (x - LEFT) / sheet.units();
        middle - (start + (end - start) * (station - bend.from as f64) / length)
    };
    shapes.move_to(left, middle);
    shapes.line_to(left, at(left));
    shapes.line_to(right, at(right));
    shapes.line_to(right, middle);
    shapes.close();
}

/// Puts the first of the texts that has room.
fn label(sheet: &mut Sheet, bend: &Bend, middle: f64, texts: Vec<String>) {
    let Some((left, right)) = sheet.seen(bend.from as f64, bend.to as f64) else {
        return;
    };
    let is_right = bend.at_start + bend.at_end > 0.0;
    let (above, below) = (middle - 6.0, middle + 13.0);
    // on the other side of the line, where the band does not stand
    let y = if is_right { below } else { above };
    let label = |words| Label::new((left + right) / 2.0, y, Anchor::Middle, words);
    let labels = texts.into_iter();
    let mut labels: Vec<Label> = labels
        .map(|words| label(words).sized(Size::Small))
        .collect();
    let room = match bend.kind {
        Kind::Arc => room_beside_arcs(sheet, bend),
        Kind::Straight | Kind::Clothoid => right - left,
    };
    labels.retain(|label| label.width() <= room);
    sheet.put_within(&labels);
}

/// From the end of the arc before to the start of the one after.
fn room_beside_arcs(sheet: &Sheet, bend: &Bend) -> f64 {
    let arcs = || {
        sheet
            .view
            .bends
            .iter()
            .filter(|bend| bend.kind == Kind::Arc)
    };
    let before = arcs().rfind(|arc| arc.to <= bend.from);
    let after = arcs().find(|arc| bend.to <= arc.from);
    let from = before.map_or(sheet.from, |arc| arc.to.max(sheet.from));
    let to = after.map_or(sheet.to, |arc| arc.from.min(sheet.to));
    (to - from) as f64 * sheet.units()
}

/// What a clothoid between two arcs is called, the longest first; nothing of any other element.
fn names(sheet: &Sheet, bend: &Bend) -> Vec<String> {
    let phrases = match bend.between_arcs {
        None => &[][..],
        Some(BetweenArcs::Egg) => &[words::EGG_LENGTH, words::EGG, words::EGG_SHORT],
        Some(_) => &[
            words::REVERSING_LENGTH,
            words::REVERSING,
            words::REVERSING_SHORT,
        ],
    };
    let language = sheet.view.language;
    let length = shown::metres(bend.to - bend.from, language);
    let names = phrases.iter();
    names
        .map(|phrase| language.say(*phrase, &[&length]))
        .collect()
}

/// What is said of an element, the longest first.
fn texts(sheet: &Sheet, bend: &Bend) -> Vec<String> {
    let language = sheet.view.language;
    let length = shown::metres(bend.to - bend.from, language);
    let phrase = match (bend.kind, bend.radius > 0) {
        (Kind::Straight, _) => words::STRAIGHT,
        (Kind::Clothoid, _) => words::CLOTHOID,
        (Kind::Arc, true) => words::ARC_RIGHT,
        (Kind::Arc, false) => words::ARC_LEFT,
    };
    if bend.kind != Kind::Arc {
        return vec![language.say(phrase, &[&length]), length];
    }
    let radius = shown::metres(bend.radius.abs(), language);
    let turn = language.say(phrase, &[&radius]);
    vec![format!("{turn}, {length}"), turn, format!("R {radius}")]
}
