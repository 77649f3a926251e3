//! Refusals 5 to 12: lengths, kinds, straights, arcs and clothoids.

use super::{accepted, accepted_or, accepted_or_at, refused, road_with, Made};
use crate::generate::days::contract_under;
use crate::generate::head::Head;
use crate::generate::random::Random;
use crate::generate::road::Road;
use crate::generate::valid::bends::{
    arcs_without_egg, bends_of_leads, element_count, kinds_run, places_of, random_leads, Lead,
};
use crate::generate::valid::plan::{least_clothoid, plan, plan_of, plan_of_radii, stretch, total};
use crate::generate::valid::{
    random_road, road_of_size, upon_plan, Size, LONGEST_LENGTH, LONGEST_PLAN,
};
use reference::file::{Element, Kind};
use reference::limits::{LeastClothoid, Limits, RuleBook};

/// A road as long as a plan may be.
fn longest_road(random: &mut Random) -> Road {
    let head = Head::random(random);
    let size = Size::with_bends(random, 4, 49);
    let limits = head.limits();
    let mut elements = plan(random, &limits, &size);
    stretch(random, &mut elements, LONGEST_PLAN);
    upon_plan(random, head, elements, &size)
}

pub fn plan_length(random: &mut Random, outside: bool) -> Made {
    let (mut road, _) = road_with(random, longest_road, |road| {
        let full = road.total_length() == LONGEST_PLAN;
        full.then_some(()).into_iter().collect()
    });
    if !outside {
        return accepted(&road);
    }
    for element in &mut road.elements {
        if element.length < LONGEST_LENGTH {
            element.length += 1;
            break;
        }
    }
    for tangent in &mut road.tangents {
        if tangent.length < LONGEST_LENGTH {
            tangent.length += 1;
            break;
        }
    }
    refused(&road, 5)
}

/// The plan length is passed, or just reached, before the last element.
pub fn plan_length_early(random: &mut Random, outside: bool) -> Made {
    let (mut road, _) = road_with(random, longest_road, |road| {
        let full = road.total_length() == LONGEST_PLAN;
        full.then_some(()).into_iter().collect()
    });
    if !outside {
        return accepted(&road);
    }
    let count = road.elements.len();
    let last = road.elements[count - 1].length;
    let place = random.place(count - 1);
    let element = &mut road.elements[place];
    element.length = (element.length + last + 1).min(LONGEST_LENGTH);
    if road.total_length() <= LONGEST_PLAN {
        return plan_length(random, outside);
    }
    refused(&road, 5)
}

pub fn tangents_sum(random: &mut Random, outside: bool) -> Made {
    let mut road = random_road(random);
    if outside {
        let place = random.place(road.tangents.len());
        let length = &mut road.tangents[place].length;
        let shorter = *length > 1 && random.chance(50) || *length == LONGEST_LENGTH;
        *length += if shorter { -1 } else { 1 };
    }
    accepted_or(outside, &road, 6)
}

pub fn wrong_kind(random: &mut Random, outside: bool) -> Made {
    let mut road = random_road(random);
    if outside {
        wrong_kinds(random, &mut road.elements);
    }
    accepted_or(outside, &road, 7)
}

/// Changes the kind of an element so that the kinds do not run as refusal 7 wants them.
pub fn wrong_kinds(random: &mut Random, elements: &mut [Element]) {
    let before = elements.to_vec();
    while kinds_run(elements) {
        elements.copy_from_slice(&before);
        let place = random.place(elements.len());
        change_kind(random, &mut elements[place]);
    }
}

pub fn change_kind(random: &mut Random, element: &mut Element) {
    let kinds: Vec<Kind> = [Kind::Straight, Kind::Arc, Kind::Clothoid]
        .into_iter()
        .filter(|&kind| kind != element.kind)
        .collect();
    element.kind = random.pick(&kinds);
    element.radius = random.sign() * random.between_or_bound(10_000, 10_000_000);
}

pub fn stops_short(random: &mut Random, outside: bool) -> Made {
    let head = Head::random(random);
    let size = Size::with_bends(random, 1, 49);
    let mut road = road_of_size(random, head, &size);
    let kept = road.elements.len() - random.between(1, 3) as usize;
    if outside && !cut_off(&mut road.elements, kept) {
        return stops_short(random, outside);
    }
    accepted_or_at(outside, &road, 7, kept)
}

/// Leaves out the last elements and gives their length to others; whether there was room for it.
pub fn cut_off(elements: &mut Vec<Element>, kept: usize) -> bool {
    let end = total(elements);
    elements.truncate(kept);
    let mut missing = end - total(elements);
    for element in elements {
        let more = missing.min(LONGEST_LENGTH - element.length);
        element.length += more;
        missing -= more;
    }
    missing == 0
}

/// 200 elements pass where an odd count of pairs is among them; or up to three more, 200 at most, stop short.
pub fn most_elements(random: &mut Random, outside: bool) -> Made {
    let head = Head::random(random);
    let size = Size::with_bends(random, 49, 49);
    let limits = head.limits();
    let more = if outside { random.between(1, 3) } else { 0 } as usize;
    let leads = leads_of_count(random, 200 - more);
    let bends = bends_of_leads(random, &limits, &leads);
    let elements = plan_of(random, &limits, &size, &bends);
    let mut road = upon_plan(random, head, elements, &size);
    if outside {
        let shortened = road.elements.last_mut().expect("an element");
        if shortened.length <= more as i128 {
            return most_elements(random, outside);
        }
        shortened.length -= more as i128;
        let kinds = [Kind::Clothoid, Kind::Arc, Kind::Clothoid];
        for kind in kinds.into_iter().take(more) {
            road.elements.push(Element {
                kind,
                length: 1,
                radius: 10_000,
            });
        }
    }
    accepted_or_at(outside, &road, 7, 200)
}

/// What leads to the arcs of a plan of so many elements.
fn leads_of_count(random: &mut Random, elements: usize) -> Vec<Lead> {
    loop {
        let mut leads = random_leads(random, 49);
        let place = 1 + random.place(leads.len() - 1);
        leads[place] = Lead::Pair;
        while element_count(&leads) > elements {
            leads.pop();
        }
        if element_count(&leads) == elements {
            return leads;
        }
    }
}

/// A plan with one thing changed, then profile and crossfalls upon it. The change tells the place of what it
/// changed, or that the plan has none.
pub fn changed_plan(
    random: &mut Random,
    outside: bool,
    number: i128,
    head: Head,
    least_bends: i128,
    change: impl Fn(&mut Random, &Limits, &mut Vec<Element>, i128) -> Option<usize>,
) -> Made {
    let size = Size::with_bends(random, least_bends, 5);
    let limits = head.limits();
    let beyond = if outside { 1 } else { 0 };
    loop {
        let mut elements = plan(random, &limits, &size);
        if let Some(place) = change(random, &limits, &mut elements, beyond) {
            let road = upon_plan(random, head, elements, &size);
            return accepted_or_at(outside, &road, number, place);
        }
    }
}

/// An arc without an egg beside it.
pub fn random_arc(random: &mut Random, elements: &[Element]) -> Option<usize> {
    let arcs = arcs_without_egg(elements);
    (!arcs.is_empty()).then(|| random.pick(&arcs))
}

pub fn straight_max(random: &mut Random, outside: bool) -> Made {
    let head = Head::with(random, |limits| limits.straight_max.is_some());
    changed_plan(
        random,
        outside,
        8,
        head,
        0,
        |random, limits, elements, beyond| {
            let place = random.pick(&places_of(elements, Kind::Straight));
            elements[place].length = limits.straight_max.expect("a row with it") + beyond;
            Some(place)
        },
    )
}

pub fn straight_min(random: &mut Random, outside: bool) -> Made {
    let head = Head::with(random, |limits| limits.straight_min.is_some());
    let mut size = Size::with_bends(random, 2, 5);
    size.spread = size.spread.min(100_000);
    let limits = head.limits();
    let turn = random.sign();
    let radii: Vec<i128> = (0..size.bends)
        .map(|_| turn * random.between(limits.radius_min, 4 * limits.radius_min))
        .collect();
    let mut elements = plan_of_radii(random, &limits, &size, &radii);
    let place = 4 * (1 + random.place(size.bends - 1));
    let beyond = if outside { 1 } else { 0 };
    elements[place].length = limits.straight_min.expect("a row with it") - beyond;
    let road = upon_plan(random, head, elements, &size);
    accepted_or(outside, &road, 9)
}

/// A straight too short for one turn is long enough between opposite turns and at the ends.
pub fn turns(random: &mut Random, outside: bool) -> Made {
    let head = Head::with(random, |limits| limits.straight_min.is_some());
    let size = Size::with_bends(random, 2, 2);
    let limits = head.limits();
    let radius = random.sign() * random.between(limits.radius_min, 4 * limits.radius_min);
    let other = if outside { radius } else { -radius };
    let mut elements = plan_of_radii(random, &limits, &size, &[radius, other]);
    let straight_min = limits.straight_min.expect("a row with it");
    elements[4].length = random.between(1, straight_min - 1);
    let road = upon_plan(random, head, elements, &size);
    accepted_or(outside, &road, 9)
}

pub fn radius_min(random: &mut Random, outside: bool) -> Made {
    let head = Head::of_either_book(random);
    changed_plan(
        random,
        outside,
        10,
        head,
        1,
        |random, limits, elements, beyond| {
            let place = random_arc(random, elements)?;
            let sign = elements[place].radius.signum();
            elements[place].radius = sign * (limits.radius_min - beyond);
            for clothoid in [place - 1, place + 1] {
                let least = least_clothoid(limits, elements[place].radius);
                elements[clothoid].length = elements[clothoid].length.max(least);
            }
            Some(place)
        },
    )
}

pub fn arc_min(random: &mut Random, outside: bool) -> Made {
    let head = Head::random(random);
    changed_plan(
        random,
        outside,
        11,
        head,
        1,
        |random, limits, elements, beyond| {
            let place = random.pick(&places_of(elements, Kind::Arc));
            elements[place].length = limits.arc_min - beyond;
            Some(place)
        },
    )
}

pub fn clothoid_min(random: &mut Random, outside: bool) -> Made {
    let head = Head::of_either_book(random);
    changed_plan(
        random,
        outside,
        12,
        head,
        1,
        |random, limits, elements, beyond| {
            let arc = random_arc(random, elements)?;
            let length = least_clothoid(limits, elements[arc].radius) - beyond;
            Some(set_clothoid(random, elements, arc, length))
        },
    )
}

/// Gives a clothoid beside an arc its length; the clothoid's place.
pub fn set_clothoid(
    random: &mut Random,
    elements: &mut [Element],
    arc: usize,
    length: i128,
) -> usize {
    let clothoid = random.pick(&[arc - 1, arc + 1]);
    let before = elements[clothoid].length;
    elements[clothoid].length = length;
    // The clothoid beyond the straight, or the other one of a pair, keeps the room that the crossfall needs.
    let is_clothoid = |place: &usize| {
        let element = elements.get(*place);
        element.is_some_and(|element| element.kind == Kind::Clothoid)
    };
    let beyond = if clothoid < arc {
        [clothoid.checked_sub(1), clothoid.checked_sub(2)]
    } else {
        [Some(clothoid + 1), Some(clothoid + 2)]
    };
    if let Some(fellow) = beyond.into_iter().flatten().find(is_clothoid) {
        elements[fellow].length = (elements[fellow].length + before).min(LONGEST_LENGTH);
    }
    clothoid
}

/// Length times radius is A min squared, or 1 below.
pub fn clothoid_square(random: &mut Random, outside: bool) -> Made {
    let head = Head {
        contract: contract_under(random, RuleBook::Today),
        ..Head::random(random)
    };
    let limits = head.limits();
    let LeastClothoid::Parameter(parameter) = limits.clothoid else {
        unreachable!("today's rule book has A min")
    };
    let square = parameter * parameter;
    let product = if outside { square - 1 } else { square };
    let (least, most) = (product / LONGEST_LENGTH + 1, product / limits.radius_min);
    let from = random.between(least, most);
    let Some(length) = (from..=most).find(|length| product % length == 0) else {
        return clothoid_square(random, outside);
    };
    let size = Size::with_bends(random, 1, 1);
    let radius = random.sign() * (product / length);
    let mut elements = plan_of_radii(random, &limits, &size, &[radius]);
    elements[random.pick(&[1, 3])].length = length;
    let road = upon_plan(random, head, elements, &size);
    accepted_or(outside, &road, 12)
}
