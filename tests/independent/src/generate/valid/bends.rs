//! Bends: arcs, and what leads from one arc to the next.

use self::Lead::{Egg, Pair, Straight};
use crate::generate::random::Random;
use crate::generate::valid::LONGEST_LENGTH;
use reference::file::{Element, Kind};
use reference::limits::Limits;

/// "a radius, unsigned, over 1,000,000 mm" is not allowed beside an egg.
pub const EGG_RADIUS_MAX: i128 = 1_000_000;

/// "plan count 1 to 200"
const MOST_ELEMENTS: usize = 200;

/// The points that each arc needs, and both ends of the road, are at most 200.
const MOST_ARCS: usize = 98;

/// What leads to an arc from the arc before it.
#[derive(Clone, Copy, Debug, PartialEq, Eq)]
pub enum Lead {
    /// Clothoid, straight, clothoid; to the first arc of a road the last of these.
    Straight,
    /// One clothoid.
    Egg,
    /// Two clothoids: a reversing bend.
    Pair,
}

/// An arc of a plan to be.
#[derive(Clone, Copy, Debug)]
pub struct Bend {
    pub lead: Lead,
    pub radius: i128,
}

/// How many elements a plan with such arcs has.
pub fn element_count(leads: &[Lead]) -> usize {
    let elements = |lead: &Lead| match lead {
        Straight => 4,
        Egg => 2,
        Pair => 3,
    };
    1 + leads.iter().map(elements).sum::<usize>()
}

/// What leads to so many arcs; more of them where the count is that of a full road of straights and bends.
pub fn random_leads(random: &mut Random, count: usize) -> Vec<Lead> {
    let choices: &[Lead] = random.pick(&[
        &[Straight][..],
        &[Straight],
        &[Straight, Egg, Pair],
        &[Straight, Straight, Egg, Pair],
        &[Egg, Pair],
        &[Egg],
        &[Pair],
    ]);
    let mut leads: Vec<Lead> = (0..count).map(|_| random.pick(choices)).collect();
    if let Some(first) = leads.first_mut() {
        *first = Straight;
    }
    while count >= 49 && element_count(&leads) <= MOST_ELEMENTS && leads.len() <= MOST_ARCS {
        leads.push(random.pick(choices));
    }
    while element_count(&leads) > MOST_ELEMENTS || leads.len() > MOST_ARCS {
        leads.pop();
    }
    leads
}

/// Arcs for what leads to them, keeping refusals 10 and 23.
pub fn bends_of_leads(random: &mut Random, limits: &Limits, leads: &[Lead]) -> Vec<Bend> {
    let one_turn = random.chance(30);
    let turn = random.sign();
    let mut turns = Vec::new();
    let mut before = turn;
    for &lead in leads {
        before = match lead {
            Straight if one_turn => turn,
            Straight => random.sign(),
            Egg => before,
            Pair => -before,
        };
        turns.push((lead, before));
    }
    bends_of_turns(random, limits, &turns)
}

/// Arcs that turn as given, with radii that fit what leads to them.
pub fn bends_of_turns(random: &mut Random, limits: &Limits, turns: &[(Lead, i128)]) -> Vec<Bend> {
    let is_round = random.chance(40);
    let mut bends: Vec<Bend> = Vec::new();
    for (place, &(lead, turn)) in turns.iter().enumerate() {
        let before = bends.last().map(|bend| bend.radius.abs());
        let egg_follows = turns.get(place + 1).is_some_and(|next| next.0 == Egg);
        let size = match (lead, egg_follows) {
            (Egg, _) => egg_radius(random, limits, is_round, before),
            (_, true) => egg_radius(random, limits, is_round, None),
            (_, false) => random_radius(random, limits),
        };
        let radius = turn * size;
        bends.push(Bend { lead, radius });
    }
    bends
}

fn random_radius(random: &mut Random, limits: &Limits) -> i128 {
    let least = limits.radius_min;
    let both_falling = limits.radius_both_falling.unwrap_or(least);
    match random.place(10) {
        0..=2 => least,
        3 => both_falling,
        4 => (both_falling - 1).max(least),
        5 => random.between(both_falling, LONGEST_LENGTH),
        6 => LONGEST_LENGTH,
        7 => random.between_by_size(least, LONGEST_LENGTH),
        _ => random.between(least, 4 * least),
    }
}

/// The size of a radius beside an egg, other than that on the egg's other side.
pub fn egg_radius(
    random: &mut Random,
    limits: &Limits,
    is_round: bool,
    other: Option<i128>,
) -> i128 {
    let least = limits.radius_min;
    loop {
        let beside = other.unwrap_or(least);
        let size = match random.place(10) {
            _ if is_round => random.pick(&round_radii(least)),
            0 => least,
            1 => EGG_RADIUS_MAX,
            2 => EGG_RADIUS_MAX - 1,
            3..=4 => beside + random.sign(),
            5 => random.between_by_size(least, EGG_RADIUS_MAX),
            6 => random.between(least, EGG_RADIUS_MAX),
            _ => random.between(least, 4 * least),
        };
        if Some(size) != other && (least..=EGG_RADIUS_MAX).contains(&size) {
            return size;
        }
    }
}

/// Radii that divide 10^9: curvature is a whole number on their arcs, and often an exact half on an egg.
fn round_radii(least: i128) -> Vec<i128> {
    let powers = |base: i128| (0..=9).map(move |power| base.pow(power));
    powers(2)
        .flat_map(|two| powers(5).map(move |five| two * five))
        .filter(|radius| (least..=EGG_RADIUS_MAX).contains(radius))
        .collect()
}

/// The places of a kind of element.
pub fn places_of(elements: &[Element], kind: Kind) -> Vec<usize> {
    (0..elements.len())
        .filter(|&place| elements[place].kind == kind)
        .collect()
}

/// Where elements of these kinds follow one another: the places of the first ones.
fn places_of_kinds(elements: &[Element], kinds: &[Kind]) -> Vec<usize> {
    let same = |window: &[Element]| {
        window
            .iter()
            .map(|element| element.kind)
            .eq(kinds.iter().copied())
    };
    let windows = elements.windows(kinds.len()).enumerate();
    windows
        .filter(|(_, window)| same(window))
        .map(|(place, _)| place)
        .collect()
}

/// The places of eggs.
pub fn eggs(elements: &[Element]) -> Vec<usize> {
    let arcs = places_of_kinds(elements, &[Kind::Arc, Kind::Clothoid, Kind::Arc]);
    arcs.iter().map(|arc| arc + 1).collect()
}

/// The places of the second clothoids of pairs.
pub fn pairs(elements: &[Element]) -> Vec<usize> {
    let kinds = [Kind::Arc, Kind::Clothoid, Kind::Clothoid, Kind::Arc];
    let arcs = places_of_kinds(elements, &kinds);
    arcs.iter().map(|arc| arc + 2).collect()
}

/// The places of arcs that no egg is beside.
pub fn arcs_without_egg(elements: &[Element]) -> Vec<usize> {
    let eggs = eggs(elements);
    let mut arcs = places_of(elements, Kind::Arc);
    arcs.retain(|arc| !eggs.contains(&(arc - 1)) && !eggs.contains(&(arc + 1)));
    arcs
}

/// Whether the kinds run as refusal 7 wants them: what stands between two arcs of one bend is left out until each
/// bend has one arc, then the bends are left out.
pub fn kinds_run(elements: &[Element]) -> bool {
    let digit = |element: &Element| match element.kind {
        Kind::Straight => '0',
        Kind::Arc => '1',
        Kind::Clothoid => '2',
    };
    let mut kinds: String = elements.iter().map(digit).collect();
    for (longer, shorter) in [("1221", "1"), ("121", "1"), ("02120", "0")] {
        while kinds.contains(longer) {
            kinds = kinds.replacen(longer, shorter, 1);
        }
    }
    kinds == "0"
}
