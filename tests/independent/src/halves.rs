//! Which rounded numbers were exact halves, below zero and above it.

use std::fmt;

use crate::generate::valid::bends::eggs;
use reference::file::Alignment;
use reference::fraction::Fraction;
use reference::road;

type Rounded = (&'static str, fn(&Alignment, i128) -> Fraction);

const ROUNDED: [Rounded; 8] = [
    ("height", road::height),
    ("grade", road::grade),
    ("left crossfall", |r, s| road::crossfall(r, s, |p| p.left)),
    ("right crossfall", |r, s| road::crossfall(r, s, |p| p.right)),
    ("left drop", |r, s| road::drop(r, s, |p| p.left)),
    ("right drop", |r, s| road::drop(r, s, |p| p.right)),
    ("curvature", road::curvature),
    ("curvature of an egg", curvature_of_egg),
];

/// The curvature between the ends of an egg, elsewhere 0.
fn curvature_of_egg(road: &Alignment, station: i128) -> Fraction {
    let starts = road::element_starts(road);
    let within = |&egg: &usize| starts[egg] < station && station < starts[egg + 1];
    if eggs(&road.elements).iter().any(within) {
        road::curvature(road, station)
    } else {
        Fraction::whole(0)
    }
}

#[derive(Default)]
pub struct Halves {
    below: [u64; ROUNDED.len()],
    above: [u64; ROUNDED.len()],
}

impl Halves {
    /// Counts the exact halves of a row.
    pub fn count(&mut self, road: &Alignment, station: i128) {
        for (place, (_, value)) in ROUNDED.iter().enumerate() {
            let value = value(road, station).lowest_terms();
            let counts = if value.numerator < 0 {
                &mut self.below
            } else {
                &mut self.above
            };
            counts[place] += u64::from(value.denominator == 2);
        }
    }
}

impl fmt::Display for Halves {
    fn fmt(&self, to: &mut fmt::Formatter<'_>) -> fmt::Result {
        writeln!(to, "exact halves in rows asked for: below 0   above 0")?;
        for (place, (name, _)) in ROUNDED.iter().enumerate() {
            let (below, above) = (self.below[place], self.above[place]);
            writeln!(to, "  {name:<28} {below:>9} {above:>9}")?;
        }
        Ok(())
    }
}
