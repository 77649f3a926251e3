//! The page of a road that is listed.

use super::drawing::sheet::{self, Detail, Drawing, LEAST_ROW_DISTANCE};
use super::page::Writer;
use super::strips::{scales, strips, Strip};
use super::view::View;
use super::{blade_drawings, first, head, list, speeds};
use crate::agreement::Listed;
use crate::language::Language;
use crate::marks::verdicts::Marked;
use crate::words::report as words;

/// The room of the profile on a sheet of its own, and on one of several.
const WHOLE_ROOM: f64 = 190.0;
const STRIP_ROOM: f64 = 130.0;

pub fn html(name: &str, listed: &Listed, marked: Option<&Marked>, language: Language) -> String {
    let view = View::of_listed(listed, language);
    let strips = strips(&view);
    let mut page = Writer::begin(name, language);
    page.html.reserve(listed.list.len() * 5 / 4);
    head::write(&mut page, &listed.alignment, &listed.rows);
    first::write(&mut page, &view);
    page.heading(words::DRAWINGS_HEADING);
    explain(&mut page, &view, strips[0]);
    for drawing in drawings(&view, &strips) {
        page.html += &drawing.svg();
    }
    if let Some(drawing) = blade_drawings::furthest(&view) {
        page.heading(words::PAIR_HEADING);
        page.html += &drawing.svg();
    }
    speeds::write(&mut page, marked);
    list::write(&mut page, listed, &view);
    page.end()
}

/// What the drawings show, and what they leave out.
fn explain(page: &mut Writer, view: &View, (from, to): Strip) {
    let distance = view.alignment.step as f64 * sheet::units(from, to);
    let rows = match distance >= LEAST_ROW_DISTANCE {
        true => words::ROWS_DRAWN,
        false => words::ROWS_NOT_DRAWN,
    };
    for phrase in [words::DRAWINGS_EXPLAINED, rows] {
        let words = page.say(phrase);
        page.paragraph(&words);
    }
}

/// The whole road on one sheet, or an overview and strips.
fn drawings(view: &View, strips: &[Strip]) -> Vec<Drawing> {
    let whole = [(0, view.reach())];
    if strips.len() == 1 {
        let scales = scales(view, &whole, WHOLE_ROOM);
        return vec![sheet::draw(view, 0, view.reach(), Detail::Whole, scales)];
    }
    let overview = scales(view, &whole, STRIP_ROOM);
    let overview = sheet::draw(view, 0, view.reach(), Detail::Overview, overview);
    let scales = scales(view, strips, STRIP_ROOM);
    let strips = strips.iter();
    let strips = strips.map(|&(from, to)| sheet::draw(view, from, to, Detail::Strip, scales));
    [overview].into_iter().chain(strips).collect()
}
