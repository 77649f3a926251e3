//! The blade between neighbouring rows, held to the bound at some places.

use crate::generate::random::Random;
use reference::blade::{within, Row};
use reference::file::Alignment;

/// Checks both edges at some whole millimetres from a to b; how many places, or the bad one.
pub fn check(random: &mut Random, alignment: &Alignment, a: Row, b: Row) -> Result<u64, String> {
    let middle = (a.station + b.station) / 2;
    let anywhere = random.between(a.station, b.station);
    let places = [a.station, anywhere, middle, b.station];
    for x in places {
        let left = ((a.station, a.left_edge), (b.station, b.left_edge));
        let right = ((a.station, a.right_edge), (b.station, b.right_edge));
        if !within(alignment, left.0, left.1, x, |point| point.left)
            || !within(alignment, right.0, right.1, x, |point| point.right)
        {
            return Err(format!(
                "the blade at {x} between {a:?} and {b:?} is too far"
            ));
        }
    }
    Ok(2 * places.len() as u64)
}
