//! Roads that one rule book passes and the other refuses: inside they stand under the one, outside under the other.

use super::bends::egg_below;
use super::plan::{changed_plan, random_arc, set_clothoid};
use super::{accepted_or, Made};
use crate::generate::days::contract_under;
use crate::generate::head::Head;
use crate::generate::random::Random;
use crate::generate::valid::books::{least_clothoid_under, limits_under, other_book};
use crate::generate::valid::plan::plan_of_radii;
use crate::generate::valid::{upon_plan, Size};
use reference::file::Contract;
use reference::limits::RuleBook::{self, OldHandbook, Today};

/// A contract under the rule book that passes the road, outside under the other one.
fn contract(random: &mut Random, outside: bool, passing: RuleBook) -> Contract {
    let book = if outside {
        other_book(passing)
    } else {
        passing
    };
    contract_under(random, book)
}

/// "R min at 70 km/h is 180 m", today 175 m.
pub fn radius_at_70(random: &mut Random, outside: bool) -> Made {
    let contract = contract(random, outside, Today);
    let head = Head::designed_for(random, 70, contract);
    let size = Size::with_bends(random, 1, 5);
    let mut radii: Vec<i128> = (0..size.bends)
        .map(|_| random.sign() * random.between_or_bound(180_000, 720_000))
        .collect();
    let place = random.place(radii.len());
    radii[place] = random.sign() * random.between_or_bound(175_000, 179_999);
    let elements = plan_of_radii(random, &head.limits(), &size, &radii);
    let road = upon_plan(random, head, elements, &size);
    accepted_or(outside, &road, 10)
}

/// A clothoid that is long enough for A min, and too short for the old handbook.
pub fn clothoid_of_today(random: &mut Random, outside: bool) -> Made {
    let head = Head {
        contract: contract(random, outside, Today),
        ..Head::random(random)
    };
    changed_plan(random, outside, 12, head, 1, |random, _, elements, _| {
        let arc = random_arc(random, elements)?;
        let radius = &mut elements[arc].radius;
        let least = |book, radius| least_clothoid_under(book, head.speed, radius);
        let longest = least(OldHandbook, *radius) - 1;
        // At 50 km/h the sharpest bends need more by A min.
        while least(Today, *radius) > longest {
            *radius *= 2;
        }
        let length = random.between_or_bound(least(Today, *radius), longest);
        Some(set_clothoid(random, elements, arc, length))
    })
}

/// An egg that is long enough for A min, and too short for the old handbook.
pub fn egg_of_today(random: &mut Random, outside: bool) -> Made {
    let head = Head {
        contract: contract(random, outside, Today),
        ..Head::random(random)
    };
    let [today, old] = [Today, OldHandbook].map(|book| limits_under(book, head.speed));
    egg_below(random, outside, head, &today, &old)
}

/// A clothoid that is long enough for the old handbook, and too short for A min: at 50 km/h alone, and there
/// beside the sharpest bends, below 55 m x 55 m / 40 m = 75.625 m.
pub fn clothoid_of_old_handbook(random: &mut Random, outside: bool) -> Made {
    let contract = contract(random, outside, OldHandbook);
    let head = Head::designed_for(random, 50, contract);
    changed_plan(random, outside, 12, head, 1, |random, _, elements, _| {
        let arc = random_arc(random, elements)?;
        let radius = &mut elements[arc].radius;
        *radius = radius.signum() * random.between_or_bound(75_000, 75_624);
        let least = |book| least_clothoid_under(book, 50, *radius);
        let (shortest, longest) = (least(OldHandbook), least(Today) - 1);
        for clothoid in [arc - 1, arc + 1] {
            elements[clothoid].length = elements[clothoid].length.max(longest + 1);
        }
        let length = random.between_or_bound(shortest, longest);
        Some(set_clothoid(random, elements, arc, length))
    })
}
