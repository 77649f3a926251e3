//! At which of the seven speeds the road would pass.

use super::html::escaped;
use super::page::Writer;
use crate::marks::text::{said, speed};
use crate::marks::verdicts::Marked;
use crate::words::report as words;

/// A table, the row of the design speed in bold; none of a file that cannot be read.
pub fn write(page: &mut Writer, road: Option<&Marked>) {
    let Some(road) = road else { return };
    page.heading(words::SPEEDS_HEADING);
    let explained = page.say(words::SPEEDS_EXPLAINED);
    page.paragraph(&explained);
    page.html += "<table class=\"speeds\">\n";
    for verdict in road.verdicts {
        let own = match verdict.speed == road.design_speed() {
            true => " class=\"own\"",
            false => "",
        };
        let fails = match verdict.refusal {
            None => "",
            Some(_) => " class=\"fails\"",
        };
        let speed = escaped(speed(road, verdict, page.language).trim_start());
        let said = escaped(&said(road, verdict, page.language));
        page.html += &format!("<tr{own}><th>{speed}</th><td{fails}>{said}</td></tr>\n");
    }
    page.html += "</table>\n";
}
