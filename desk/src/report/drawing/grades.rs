//! The grades of the tangents, and the vertical curves with their radius.

use std::cmp::Ordering;

use reference::fraction::Fraction;
use reference::road::{change_of_grade, tangent_starts};

use super::canvas::{Anchor, Label, Size};
use super::heads::{self, Entry};
use super::marking;
use super::path::Path;
use super::sheet::{Sheet, LEFT, RIGHT};
use crate::report::marks::Item;
use crate::report::shown;
use crate::words::report as words;

const GRADES: f64 = 18.0;
const CURVES: f64 = 34.0;

pub fn draw(sheet: &mut Sheet) {
    marking::row(sheet, |item| {
        matches!(item, Item::Tangent(_) | Item::ProfileEnd)
    });
    grades(sheet);
    marking::row(sheet, |item| matches!(item, Item::Vertex(_)));
    curves(sheet);
}

fn grades(sheet: &mut Sheet) {
    let (top, bottom) = (sheet.y, sheet.y + GRADES);
    let entry = Entry::Words(sheet.say(words::GRADE_HEAD));
    heads::put(&mut sheet.canvas, top + 3.0, LEFT - 4.0, &[entry]);
    let mut cells = Path::default();
    cells.level(top, LEFT, RIGHT);
    cells.level(bottom, LEFT, RIGHT);
    let starts = tangent_starts(sheet.view.alignment);
    for place in 0..sheet.view.alignment.tangents.len() {
        let ends = (starts[place] as f64, starts[place + 1] as f64);
        if let Some((left, right)) = sheet.seen(ends.0, ends.1) {
            cells.upright(left, top, bottom);
            cells.upright(right, top, bottom);
            cell(sheet, place, left, right);
        }
    }
    sheet.canvas.path("frame", cells);
    sheet.y = bottom;
}

fn cell(sheet: &mut Sheet, place: usize, left: f64, right: f64) {
    let language = sheet.view.language;
    let tangent = sheet.view.alignment.tangents[place];
    let grade = shown::grade(tangent.grade, language);
    let length = shown::metres(tangent.length, language);
    let label = Label::new((left + right) / 2.0, sheet.y + 13.0, Anchor::Middle, "");
    let labels = [format!("{grade}, {length}"), grade].map(|words| Label {
        words,
        ..label.clone()
    });
    let fitting: Vec<Label> = labels
        .into_iter()
        .filter(|l| l.width() <= right - left)
        .collect();
    sheet.canvas.put_one_of(&fitting);
}

fn curves(sheet: &mut Sheet) {
    let entry = Entry::Words(sheet.say(words::CURVES_HEAD));
    heads::put(&mut sheet.canvas, sheet.y + 5.0, LEFT - 4.0, &[entry]);
    let (top, bottom) = (sheet.y, sheet.y + CURVES);
    let mut arches = Path::default();
    for place in 0..sheet.view.profile.vertices.len() {
        let vertex = sheet.view.profile.vertices[place];
        let Some((left, right)) = sheet.seen(vertex.from(), vertex.to()) else {
            continue;
        };
        let (ends, middle) = match change_of_grade(sheet.view.alignment, place).cmp(&0) {
            Ordering::Less => (9.0, -1.0),
            Ordering::Equal => (5.5, 5.5),
            Ordering::Greater => (2.0, 12.0),
        };
        arches.move_to(left, top + ends);
        arches.parabola_to(((left + right) / 2.0, top + middle), (right, top + ends));
        curve_label(sheet, place, (left + right) / 2.0);
    }
    sheet.canvas.path("axis", arches);
    sheet.y = bottom;
}

fn curve_label(sheet: &mut Sheet, place: usize, x: f64) {
    let mut labels = Vec::new();
    for words in curve_words(sheet, place) {
        for line in [20.0, 31.0] {
            let label = Label::new(x, sheet.y + line, Anchor::Middle, words.clone());
            labels.push(label.sized(Size::Small));
        }
    }
    sheet.put_within(&labels);
}

/// The radius, or the half length where the grade does not change; the longest first.
fn curve_words(sheet: &Sheet, place: usize) -> Vec<String> {
    let language = sheet.view.language;
    let half_length = sheet.view.alignment.tangents[place].half_length;
    let change = change_of_grade(sheet.view.alignment, place);
    if change == 0 {
        let half_length = shown::metres(half_length, language);
        return vec![language.say(words::HALF_LENGTH, &[&half_length])];
    }
    let radius = Fraction::new(2 * half_length * 1_000_000, change.abs());
    let radius = shown::radius(radius, language);
    let phrase = if change < 0 { words::CREST } else { words::SAG };
    vec![language.say(phrase, &[&radius]), format!("R {radius}")]
}
