//! The clothoids between two arcs without a straight: egg curves and reversing bends.

use reference::file::{Alignment, Kind};
use reference::road;

#[derive(Clone, Copy, Debug, PartialEq, Eq)]
pub enum BetweenArcs {
    /// One clothoid between two arcs.
    Egg,
    /// The clothoids of a pair between arcs of opposite turn; the curvature is 0 where they meet.
    FirstOfReversing,
    SecondOfReversing,
}

/// What a clothoid between two arcs is; none for any other element.
pub fn between_arcs(alignment: &Alignment, place: usize) -> Option<BetweenArcs> {
    let element = alignment.elements.get(place)?;
    if element.kind != Kind::Clothoid {
        return None;
    }
    if road::arcs_of_egg(alignment, place).is_some() {
        return Some(BetweenArcs::Egg);
    }
    let first = road::pair_of_clothoid(alignment, place)?;
    let (before, after) = road::arcs_of_pair(alignment, first)?;
    let is_reversing = before.radius.signum() != after.radius.signum();
    is_reversing.then_some(match first == place {
        true => BetweenArcs::FirstOfReversing,
        false => BetweenArcs::SecondOfReversing,
    })
}

#[cfg(test)]
mod tests {
    use super::*;

    fn named(file: &[u8]) -> Vec<(usize, BetweenArcs)> {
        let road = reference::file::read(file).expect("a file that can be read");
        let places = 0..=road.elements.len();
        let named = places.filter_map(|place| Some((place, between_arcs(&road, place)?)));
        named.collect()
    }

    #[test]
    fn eggs_and_reversing_bends() {
        let egg = named(include_bytes!("../../examples/egg.alignment"));
        assert_eq!(egg, [(3, BetweenArcs::Egg)]);
        let hairpin = named(include_bytes!("../../examples/hairpin.alignment"));
        let (first, second) = (
            BetweenArcs::FirstOfReversing,
            BetweenArcs::SecondOfReversing,
        );
        assert_eq!(hairpin, [(3, first), (4, second), (6, first), (7, second)]);
        let bends = include_bytes!("../../examples/mountain-access-road.alignment");
        assert_eq!(named(bends), []);
    }

    /// A pair between arcs of the same turn is no reversing bend.
    #[test]
    fn pairs_of_the_same_turn() {
        let file = include_bytes!("../../examples/hairpin.alignment");
        let mut road = reference::file::read(file).expect("a file that can be read");
        road.elements[5].radius = 45_000;
        assert_eq!(
            [3, 4, 6, 7].map(|place| between_arcs(&road, place)),
            [None; 4]
        );
    }
}
