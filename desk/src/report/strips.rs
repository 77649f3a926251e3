//! How a road is divided into sheets: short enough that its joints can be told apart.

use super::drawing::columns::left_out;
use super::drawing::sheet::{units, Scales};
use super::drawing::ticks::{round_numbers, Times};
use super::drawing::{distance, profile};
use super::view::View;

/// The stations where a strip begins and ends.
pub type Strip = (i128, i128);

const MOST_STRIPS: i128 = 25;
/// Longer strips only where there would be too many.
const LONGEST: i128 = 2_000_000;
const SHORTEST: i128 = 50_000;

/// The longest strips that leave out the fewest joints; one where the whole road can be told on one sheet.
pub fn strips(view: &View) -> Vec<Strip> {
    let end = view.reach();
    let is_allowed = |length: &i128| *length >= SHORTEST && count(end, *length) <= MOST_STRIPS;
    let shortest = round_numbers().find(is_allowed).unwrap_or(end);
    let longest = LONGEST.max(shortest);
    let lengths = round_numbers()
        .filter(is_allowed)
        .take_while(|length| *length <= longest);
    let divisions = lengths.map(|length| divided(end, count(end, length)));
    let found = divisions.min_by_key(|strips| (left_out_of(view, strips), strips.len()));
    found.unwrap_or_else(|| vec![(0, end)])
}

fn left_out_of(view: &View, strips: &[Strip]) -> usize {
    let each = strips.iter().map(|strip| left_out(view, strip.0, strip.1));
    each.sum()
}

fn count(end: i128, length: i128) -> i128 {
    (end + length - 1) / length
}

/// So many strips of one round length; the road may end before the last one does.
fn divided(end: i128, count: i128) -> Vec<Strip> {
    if count == 1 {
        return vec![(0, end)];
    }
    let least = (end + count - 1) / count;
    let unit = if least >= 500_000 { 100_000 } else { 10_000 };
    let length = (least + unit - 1) / unit * unit;
    let starts = (0..count).map(|index| index * length);
    let strips = starts.filter(|&start| start < end);
    strips.map(|start| (start, start + length)).collect()
}

/// One scale for all strips of a road.
pub fn scales(view: &View, strips: &[Strip], room: f64) -> Scales {
    let units = strips.first().map_or(1.0, |strip| units(strip.0, strip.1));
    let heights = strips
        .iter()
        .map(|strip| profile::times(view, strip.0, strip.1, units, room));
    Scales {
        heights: Times::new(heights.min().unwrap_or(1)),
        distances: distance::times(view, units, 62.0),
    }
}
