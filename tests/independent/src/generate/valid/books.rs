//! Plans near the limits in which the two rule books differ.

use super::bends::{arcs_without_egg, places_of};
use super::plan::{least_clothoid, least_clothoid_at, total};
use super::LONGEST_PLAN;
use crate::generate::head::Head;
use crate::generate::random::Random;
use reference::file::{Contract, Element, Kind};
use reference::limits::{limits_at, rule_book, Limits, RuleBook};

pub fn limits_under(book: RuleBook, speed: i128) -> Limits {
    match book {
        RuleBook::Today => limits_at(speed, Contract::Undated),
        RuleBook::OldHandbook => limits_at(speed, Contract::Dated(20111231)),
    }
}

pub fn least_clothoid_under(book: RuleBook, speed: i128, radius: i128) -> i128 {
    least_clothoid(&limits_under(book, speed), radius)
}

pub fn other_book(book: RuleBook) -> RuleBook {
    match book {
        RuleBook::Today => RuleBook::OldHandbook,
        RuleBook::OldHandbook => RuleBook::Today,
    }
}

/// A plan with some radii and clothoids at the other rule book's least or 1 beside it, where its own allows them.
pub fn near_other_book(random: &mut Random, head: Head, plan: &[Element]) -> Vec<Element> {
    let own = head.limits();
    let other = limits_under(other_book(rule_book(head.contract)), head.speed);
    let mut elements = plan.to_vec();
    for arc in arcs_without_egg(plan) {
        let radius = &mut elements[arc].radius;
        if random.chance(40) {
            let near = other.radius_min + random.between(-1, 1);
            *radius = radius.signum() * near.max(own.radius_min);
        }
    }
    for clothoid in places_of(plan, Kind::Clothoid) {
        let [least, other_least] =
            [&own, &other].map(|limits| least_clothoid_at(limits, &elements, clothoid));
        let length = &mut elements[clothoid].length;
        if random.chance(40) {
            *length = other_least + random.between(-1, 1);
        }
        *length = (*length).max(least);
    }
    if total(&elements) > LONGEST_PLAN {
        return plan.to_vec();
    }
    elements
}
