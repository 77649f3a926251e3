//! The lines of the text, and those that differ between two roads of as many items.

use reference::file::{Alignment, Element, Kind, Tangent};

/// The items with their lines: `element 1`, `clothoid 27223`.
fn lines(road: &Alignment) -> Vec<(String, String)> {
    let mut lines = vec![("ramp".to_string(), format!("ramp {}", road.ramp_limit))];
    for (place, item) in road.elements.iter().enumerate() {
        lines.push((format!("element {place}"), element(item)));
    }
    for (place, item) in road.tangents.iter().enumerate() {
        let is_last = place + 1 == road.tangents.len();
        lines.push((format!("tangent {place}"), tangent(item, is_last)));
    }
    for (place, item) in road.points.iter().enumerate() {
        let line = format!("crossfall {} {} {}", item.station, item.left, item.right);
        lines.push((format!("point {place}"), line));
    }
    lines
}

fn element(item: &Element) -> String {
    match item.kind {
        Kind::Straight => format!("straight {}", item.length),
        Kind::Arc => format!("arc {} {}", item.length, item.radius),
        Kind::Clothoid => format!("clothoid {}", item.length),
    }
}

/// A vertex's half length stands in the line of the tangent before it.
fn tangent(item: &Tangent, is_last: bool) -> String {
    match is_last {
        true => format!("tangent {} {}", item.length, item.grade),
        false => format!(
            "tangent {} {} curve {}",
            item.length, item.grade, item.half_length
        ),
    }
}

/// The new road's lines that are other than the old one's, each with its item.
pub fn changes(old: &Alignment, new: &Alignment) -> Vec<(String, String)> {
    let old = lines(old);
    let new = lines(new).into_iter();
    let other = new.zip(old).filter(|(new, old)| new != old);
    other.map(|(new, _)| new).collect()
}
