//! The items that the findings of a refused road name, marked by colour and number.

use reference::road::{element_starts, tangent_starts};

use super::canvas::{Anchor, Label};
use super::path::Path;
use super::sheet::Sheet;
use crate::report::marks::{Item, Mark};
use crate::report::view::View;

const ROW: f64 = 16.0;

/// Where an item lies.
pub fn span(view: &View, item: Item) -> (i128, i128) {
    let alignment = view.alignment;
    let elements = element_starts(alignment);
    let tangents = tangent_starts(alignment);
    let between = |stations: &[i128], place: usize| {
        let last = stations.len() - 1;
        (stations[place.min(last)], stations[(place + 1).min(last)])
    };
    match item {
        Item::Element(place) => between(&elements, place),
        Item::Tangent(place) => between(&tangents, place),
        Item::Vertex(place) => {
            let vertex = tangents[(place + 1).min(tangents.len() - 1)];
            let half_length = alignment.tangents.get(place).map_or(0, |t| t.half_length);
            (vertex - half_length, vertex + half_length)
        }
        Item::Point(place) => {
            let station = alignment.points.get(place).map_or(0, |point| point.station);
            (station, station)
        }
        Item::ProfileEnd => {
            let ends = [elements[elements.len() - 1], tangents[tangents.len() - 1]];
            (ends[0].min(ends[1]), ends[0].max(ends[1]))
        }
    }
}

/// A row above a band with the numbers of the marked items, each over a bar as long as the item.
pub fn row(sheet: &mut Sheet, is_here: impl Fn(Item) -> bool) {
    let marks = sheet.view.marks.iter();
    let marks: Vec<&Mark> = marks.filter(|mark| is_here(mark.item)).collect();
    if marks.is_empty() {
        return;
    }
    let mut bars = Path::default();
    for mark in marks {
        let (from, to) = span(sheet.view, mark.item);
        if from <= sheet.to && sheet.from <= to {
            bar(sheet, mark, from, to, &mut bars);
        }
    }
    sheet.canvas.path("mark", bars);
    sheet.y += ROW;
}

fn bar(sheet: &mut Sheet, mark: &Mark, from: i128, to: i128, bars: &mut Path) {
    let y = sheet.y + ROW - 2.0;
    let [left, right] = [from, to].map(|s| sheet.x(s.clamp(sheet.from, sheet.to) as f64));
    // an item without length is seen too
    let (left, right) = (left - 1.0, right.max(left + 2.0) + 1.0);
    bars.level(y, left, right);
    let middle = (left + right) / 2.0;
    let label = Label::new(middle, y - 4.0, Anchor::Middle, &*mark.numbers).styled("mark");
    let beside = [0.0, 14.0, -14.0, 28.0, -28.0].map(|shift| label.at(middle + shift, label.y));
    sheet.put_within(&beside);
}
