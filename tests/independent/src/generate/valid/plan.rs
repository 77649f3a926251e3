//! Plans that keep rules 5, 7, 23 and 8 to 12.

use super::bends::{bends_of_leads, random_leads, Bend, Lead};
use super::{divided_up, Size, LONGEST_LENGTH, LONGEST_PLAN};
use crate::generate::random::Random;
use reference::file::{Element, Kind};
use reference::limits::{LeastClothoid, Limits};

/// A product of a length and two radii that a signed number of 64 bits cannot hold.
pub const BEYOND_64_BITS: i128 = 1 << 63;

/// A length not below a least one.
fn length_from(random: &mut Random, least: i128, spread: i128) -> i128 {
    let more = match random.place(4) {
        0 => 0,
        1 => random.between_by_size(0, spread),
        _ => random.between(0, spread),
    };
    (least + more).min(LONGEST_LENGTH)
}

/// "A clothoid's length times its arc's unsigned radius" reaches A min squared, or its length the least length.
pub fn least_clothoid(limits: &Limits, radius: i128) -> i128 {
    match limits.clothoid {
        LeastClothoid::Parameter(parameter) => divided_up(parameter * parameter, radius.abs()),
        LeastClothoid::Length(length) => length,
    }
}

/// "For the egg, A squared is length x R1 x R2 / |R1 - R2|, unsigned": the length with which it reaches A min squared,
/// or the least length.
pub fn least_egg(limits: &Limits, first: i128, second: i128) -> i128 {
    let (first, second) = (first.abs(), second.abs());
    match limits.clothoid {
        LeastClothoid::Parameter(parameter) => {
            let least = parameter * parameter * (first - second).abs();
            divided_up(least, first * second).max(1)
        }
        LeastClothoid::Length(length) => length,
    }
}

/// The least length of the clothoid at a place.
pub fn least_clothoid_at(limits: &Limits, elements: &[Element], place: usize) -> i128 {
    let (before, after) = (elements[place - 1], elements[place + 1]);
    match (before.kind, after.kind) {
        (Kind::Arc, Kind::Arc) => least_egg(limits, before.radius, after.radius),
        (Kind::Arc, _) => least_clothoid(limits, before.radius),
        _ => least_clothoid(limits, after.radius),
    }
}

/// From arc to arc a crossfall can swing from 25,000 to -25,000 at the greatest ramp limit.
pub fn least_swing(limits: &Limits) -> i128 {
    divided_up(limits.lane_width * 50_000, 20_000)
}

fn straight(length: i128) -> Element {
    Element {
        kind: Kind::Straight,
        length,
        radius: 0,
    }
}

fn clothoid(length: i128) -> Element {
    Element {
        kind: Kind::Clothoid,
        length,
        radius: 0,
    }
}

/// A plan that keeps rules 5, 7, 23 and 8 to 12.
pub fn plan(random: &mut Random, limits: &Limits, size: &Size) -> Vec<Element> {
    let leads = random_leads(random, size.bends);
    let bends = bends_of_leads(random, limits, &leads);
    plan_of(random, limits, size, &bends)
}

/// A plan whose arcs have the radii given, each with a straight before and after its clothoids.
pub fn plan_of_radii(
    random: &mut Random,
    limits: &Limits,
    size: &Size,
    radii: &[i128],
) -> Vec<Element> {
    let lead = Lead::Straight;
    let bends: Vec<Bend> = radii.iter().map(|&radius| Bend { lead, radius }).collect();
    plan_of(random, limits, size, &bends)
}

/// A plan of the arcs given.
pub fn plan_of(random: &mut Random, limits: &Limits, size: &Size, bends: &[Bend]) -> Vec<Element> {
    let longest = limits.straight_max.unwrap_or(LONGEST_LENGTH);
    let mut elements = vec![straight(length_from(random, 1, size.spread).min(longest))];
    for (place, bend) in bends.iter().enumerate() {
        let before = place.checked_sub(1).map(|before| &bends[before]);
        let leading = Leading {
            limits,
            spread: size.spread,
            few: bends.len() < 8,
        };
        elements.extend(leading.to(random, before, bend));
        elements.push(Element {
            kind: Kind::Arc,
            length: length_from(random, limits.arc_min, size.spread),
            radius: bend.radius,
        });
    }
    if let Some(last) = bends.last() {
        let least = least_clothoid(limits, last.radius);
        elements.push(clothoid(length_from(random, least, size.spread)));
        elements.push(straight(length_from(random, 1, size.spread).min(longest)));
    }
    if total(&elements) > LONGEST_PLAN {
        let smaller = Size {
            spread: size.spread / 2,
            ..*size
        };
        return plan_of(random, limits, &smaller, bends);
    }
    elements
}

/// What lengths the elements between two arcs are to have.
struct Leading<'l> {
    limits: &'l Limits,
    spread: i128,
    /// There are few arcs, so that a straight may be very long.
    few: bool,
}

impl Leading<'_> {
    /// The elements from the arc before, or from the road's first straight, to an arc.
    fn to(&self, random: &mut Random, before: Option<&Bend>, bend: &Bend) -> Vec<Element> {
        let mut last = self.clothoid(random, bend);
        let Some(before) = before else {
            return vec![clothoid(last)];
        };
        let first = self.clothoid(random, before);
        let swing = least_swing(self.limits);
        match bend.lead {
            Lead::Straight => {
                if last < swing {
                    last += swing;
                }
                let straight = straight(self.straight(random, before, bend));
                vec![clothoid(first), straight, clothoid(last)]
            }
            Lead::Egg => vec![clothoid(self.egg(random, before, bend))],
            Lead::Pair => {
                if first + last < swing {
                    last += swing;
                }
                vec![clothoid(first), clothoid(last)]
            }
        }
    }

    fn clothoid(&self, random: &mut Random, bend: &Bend) -> i128 {
        let least = least_clothoid(self.limits, bend.radius);
        length_from(random, least, self.spread)
    }

    fn straight(&self, random: &mut Random, before: &Bend, bend: &Bend) -> i128 {
        let longest = self.limits.straight_max.unwrap_or(LONGEST_LENGTH);
        if random.chance(3) && self.few {
            return longest.min(2_000_000);
        }
        let same_turn = before.radius.signum() == bend.radius.signum();
        let shortest = self.limits.straight_min.filter(|_| same_turn);
        length_from(random, shortest.unwrap_or(1), self.spread).min(longest)
    }

    /// An egg's length; where both arcs have whole curvatures, often one on which exact halves lie.
    fn egg(&self, random: &mut Random, before: &Bend, bend: &Bend) -> i128 {
        let least = least_egg(self.limits, before.radius, bend.radius);
        let radii = [before.radius.abs(), bend.radius.abs()];
        let widest = BEYOND_64_BITS / (radii[0] * radii[1]) + 1;
        if self.few && widest <= LONGEST_LENGTH && random.chance(20) {
            return random.between_or_bound(widest, LONGEST_LENGTH);
        }
        let whole = radii.iter().all(|radius| 1_000_000_000 % radius == 0);
        if whole && radii[0] != radii[1] && random.chance(60) {
            // Along twice the change of curvature every odd millimetre has an exact half.
            let [first, second] = radii.map(|radius| 1_000_000_000 / radius);
            let unit = 2 * (first - second).abs();
            return unit * (divided_up(least, unit) + random.between(0, 2));
        }
        length_from(random, least, self.spread)
    }
}

pub fn total(elements: &[Element]) -> i128 {
    elements.iter().map(|element| element.length).sum()
}

/// Lengthens arcs and clothoids until the plan is as long as wanted, where there is room.
pub fn stretch(random: &mut Random, elements: &mut [Element], wanted: i128) {
    let bent: Vec<usize> = (0..elements.len())
        .filter(|&place| elements[place].kind != Kind::Straight)
        .collect();
    let mut missing = wanted - total(elements);
    for attempt in 0.. {
        if missing <= 0 || attempt > 2_000 {
            return;
        }
        let place = bent[random.place(bent.len())];
        let room = (LONGEST_LENGTH - elements[place].length).min(missing);
        let more = if random.chance(50) {
            room
        } else {
            random.between(0, room)
        };
        elements[place].length += more;
        missing -= more;
    }
}
