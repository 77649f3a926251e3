//! The list, each row with the reasons why its station is listed.

use super::html::escaped;
use super::page::Writer;
use super::reasons::in_words;
use super::view::View;
use crate::agreement::Listed;
use crate::words::report as words;

/// Longer lists are plain text.
const MOST_TABLE_ROWS: usize = 5_000;

pub fn write(page: &mut Writer, listed: &Listed, view: &View) {
    page.heading(words::LIST_HEADING);
    let words = page.say(words::LIST_NUMBERS);
    page.paragraph(&words);
    if listed.rows.len() <= MOST_TABLE_ROWS {
        table(page, listed, view);
    } else {
        plain(page, listed, view);
    }
}

/// The lines of the list, and the reasons of the joints among them.
fn lines<'a>(listed: &'a Listed, view: &'a View) -> impl Iterator<Item = (&'a str, String)> {
    let text = std::str::from_utf8(&listed.list).unwrap_or("");
    let mut joints = view.joints.iter().peekable();
    text.lines().zip(&listed.rows).map(move |(line, row)| {
        let joint = joints.next_if(|joint| joint.row.station == row.station);
        let reasons = joint.map(|joint| in_words(&joint.reasons, view.alignment, view.language));
        (line, reasons.unwrap_or_default())
    })
}

fn table(page: &mut Writer, listed: &Listed, view: &View) {
    page.html += "<table class=\"list\">\n<thead><tr>";
    for name in words::COLUMNS {
        let name = escaped(&page.say(name));
        page.html += &format!("<th>{name}</th>");
    }
    page.html += "</tr></thead>\n<tbody>\n";
    for (line, reasons) in lines(listed, view) {
        page.html += "<tr>";
        for number in line.split(' ') {
            page.html += "<td>";
            page.html += number;
        }
        page.html += "<td>";
        page.html += &escaped(&reasons);
        page.html.push('\n');
    }
    page.html += "</tbody>\n</table>\n";
}

fn plain(page: &mut Writer, listed: &Listed, view: &View) {
    let names = words::COLUMNS.map(|name| page.say(name));
    page.paragraph(&names.join(" · "));
    page.html += "<pre>\n";
    for (line, reasons) in lines(listed, view) {
        page.html += line;
        if !reasons.is_empty() {
            page.html += "  ";
            page.html += &escaped(&reasons);
        }
        page.html.push('\n');
    }
    page.html += "</pre>\n";
}
