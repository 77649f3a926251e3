//! The greatest step that keeps the vertical curves' share of the bound small.

use reference::file::Alignment;
use reference::road;

/// Under so many mm.
pub const SHARE: i128 = 10;

/// "step 1,000 to 100,000"
const LEAST_STEP: i128 = 1_000;
const GREATEST_STEP: i128 = 100_000;

#[derive(Clone, Copy, Debug, PartialEq, Eq)]
pub enum GreatestStep {
    Every,
    None,
    Step(i128),
}

/// The greatest step d for which d² × |change of grade| / (8 × curve length) is under the share in every vertical curve.
pub fn greatest_step(alignment: &Alignment) -> GreatestStep {
    let vertices = 0..alignment.tangents.len() - 1;
    let least = vertices
        .filter_map(|vertex| longest(alignment, vertex))
        .min();
    match least {
        None => GreatestStep::Every,
        Some(step) if step >= GREATEST_STEP => GreatestStep::Every,
        Some(step) if step < LEAST_STEP => GreatestStep::None,
        Some(step) => GreatestStep::Step(step),
    }
}

/// The greatest distance of two rows in a curve with less than the share; none where all of the curve has less.
fn longest(alignment: &Alignment, vertex: usize) -> Option<i128> {
    let length = 2 * alignment.tangents[vertex].half_length;
    let change = road::change_of_grade(alignment, vertex).abs();
    let too_much = SHARE * 8 * length * 1_000_000;
    (length * length * change >= too_much && change > 0).then(|| ((too_much - 1) / change).isqrt())
}

#[cfg(test)]
mod tests {
    use super::*;
    use crate::report::sample::Sample;

    fn greatest(tangents: &[(u64, i64, u64)]) -> (GreatestStep, Alignment) {
        let length = tangents.iter().map(|tangent| tangent.0).sum();
        let file = Sample::straight(length, 20_000, tangents).file();
        let alignment = reference::file::read(&file).expect("a file");
        (greatest_step(&alignment), alignment)
    }

    /// Whether rows so far apart have less than the share in every curve.
    fn is_under(alignment: &Alignment, distance: i128) -> bool {
        let vertices = 0..alignment.tangents.len() - 1;
        vertices.into_iter().all(|vertex| {
            let length = 2 * alignment.tangents[vertex].half_length;
            let change = road::change_of_grade(alignment, vertex).abs();
            let within = distance.min(length);
            within * within * change < SHARE * 8 * length * 1_000_000
        })
    }

    #[test]
    fn under_the_share_and_not_with_a_millimetre_more() {
        let roads: [&[(u64, i64, u64)]; 3] = [
            &[(100_000, 20_000, 20_000), (100_000, -20_000, 0)],
            &[
                (300_000, 62_500, 100_000),
                (400_000, -9_999, 123_457),
                (300_000, 1, 0),
            ],
            &[
                (30_000, 1_000, 100),
                (70_000, -20_000, 60_000),
                (80_000, 30_000, 0),
            ],
        ];
        for tangents in roads {
            let (found, alignment) = greatest(tangents);
            let GreatestStep::Step(step) = found else {
                panic!("{found:?}")
            };
            assert!(
                is_under(&alignment, step) && !is_under(&alignment, step + 1),
                "{step}"
            );
        }
    }

    #[test]
    fn every_step_and_none() {
        let flat = [(100_000, 20_000, 0), (100_000, 20_000, 0)];
        assert_eq!(greatest(&flat).0, GreatestStep::Every);
        let short = [(100_000, 20_000, 400), (100_000, 0, 0)];
        assert_eq!(greatest(&short).0, GreatestStep::Every);
        // no road may have it, but the words must be there
        let sharp = [(100_000, 120_000, 400), (100_000, -120_000, 0)];
        assert_eq!(greatest(&sharp).0, GreatestStep::None);
    }
}
