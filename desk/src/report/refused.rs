//! The page of a file that is refused: what is wrong with it, and where.

use super::bytes;
use super::drawing::marking::span;
use super::drawing::sheet::{self, Detail, Drawing};
use super::head;
use super::html::escaped;
use super::marks::marks;
use super::page::Writer;
use super::speeds;
use super::strips::{scales, strips};
use super::view::View;
use crate::agreement::Refused;
use crate::language::Language;
use crate::marks::verdicts::Marked;
use crate::refusals;
use crate::why::{ending, findings, heading, Finding};
use crate::words::report as words;

const ROOM: f64 = 130.0;

pub fn html(
    name: &str,
    file: &[u8],
    refused: &Refused,
    marked: Option<&Marked>,
    language: Language,
) -> String {
    let found = findings(refused, language);
    let mut page = Writer::begin(name, language);
    refusal(&mut page, refused);
    if let Some((alignment, _)) = &refused.read {
        head::write(&mut page, alignment, &[]);
    }
    page.heading(words::FINDINGS_HEADING);
    for (index, finding) in found.iter().enumerate() {
        write_finding(&mut page, index + 1, finding);
    }
    let ending = ending(refused, &found, language);
    if !ending.is_empty() {
        let ending = escaped(&ending);
        page.html += &format!("<div class=\"finding\">\n<pre>{ending}</pre>\n</div>\n");
    }
    speeds::write(&mut page, marked);
    match &refused.read {
        None => {
            page.heading(words::BYTES_HEADING);
            let place = refused.refusal.place() as usize;
            page.html += &bytes::around(file, place, language);
        }
        Some((alignment, _)) => {
            let view = View::of_items(alignment, marks(&found), language);
            page.heading(words::DRAWINGS_HEADING);
            let words = page.say(words::MARKS_EXPLAINED);
            page.paragraph(&words);
            for drawing in drawings(&view) {
                page.html += &drawing.svg();
            }
        }
    }
    page.end()
}

/// The refusal's number and place, as the listing program prints them.
fn refusal(page: &mut Writer, refused: &Refused) {
    let line = refused.refusal;
    let words = match refusals::counted(line.number()) {
        None => page.language.say(words::REFUSED_WITHOUT_PLACE, &[&line]),
        Some(item) => {
            let item = page.say(item);
            page.language
                .say(words::REFUSED, &[&line, &item, &line.place()])
        }
    };
    page.html += "<div class=\"refused\">\n";
    page.paragraph(&words);
    page.html += "</div>\n";
}

fn write_finding(page: &mut Writer, number: usize, finding: &Finding) {
    let title = escaped(&heading(finding, page.language));
    page.html += &format!(
        "<div class=\"finding\">\n<h3><span class=\"number\">{number}</span> {title}</h3>\n<ul>\n"
    );
    for fact in &finding.facts {
        page.html += &format!("<li>{}</li>\n", escaped(fact));
    }
    page.html += "</ul>\n";
    if !finding.changes.is_empty() {
        let words = page.say(words::CHANGES);
        page.paragraph(&words);
        page.html += "<pre>";
        for (item, line) in &finding.changes {
            page.html += &format!("{}: {}\n", escaped(item), escaped(line));
        }
        page.html += "</pre>\n";
    }
    page.html += "</div>\n";
}

/// The whole road, and where it is long the strips that have a marked item.
pub fn drawings(view: &View) -> Vec<Drawing> {
    let strips = strips(view);
    let whole = [(0, view.reach())];
    let overview = scales(view, &whole, ROOM);
    let mut drawings = vec![sheet::draw(view, 0, view.reach(), Detail::Whole, overview)];
    if strips.len() == 1 {
        return drawings;
    }
    let scales = scales(view, &strips, ROOM);
    for (from, to) in strips {
        let spans = view.marks.iter().map(|mark| span(view, mark.item));
        if spans.into_iter().any(|span| span.0 <= to && from <= span.1) {
            drawings.push(sheet::draw(view, from, to, Detail::Strip, scales));
        }
    }
    drawings
}
