//! Eggs and reversing bends: refusals 7 and 23, and what 9 and 12 ask of them.

use super::plan::{cut_off, wrong_kinds};
use super::{accepted_or_at, refused, refused_at, Made};
use crate::generate::days::contract_under;
use crate::generate::head::Head;
use crate::generate::random::Random;
use crate::generate::road::Road;
use crate::generate::valid::bends::{
    bends_of_leads, bends_of_turns, egg_radius, eggs, pairs, places_of, random_leads, Bend, Lead,
    EGG_RADIUS_MAX,
};
use crate::generate::valid::plan::{
    least_clothoid, least_clothoid_at, least_egg, least_swing, plan_of,
};
use crate::generate::valid::{upon_plan, Size, LONGEST_LENGTH};
use reference::file::{Element, Kind};
use reference::limits::{LeastClothoid, Limits, RuleBook};

/// The sizes of roads with eggs and pairs: not so long that a clothoid could not be made longer.
fn random_size(random: &mut Random) -> Size {
    let mut size = Size::random(random);
    size.spread = size.spread.min(60_000);
    size
}

/// Two to six arcs, to one of which an egg or a pair leads; that one's number, counted from 0.
fn bends_with(random: &mut Random, limits: &Limits, lead: Lead) -> (Vec<Bend>, usize) {
    let count = random.between(2, 6) as usize;
    let mut leads = random_leads(random, count);
    let bend = 1 + random.place(count - 1);
    leads[bend] = lead;
    (bends_of_leads(random, limits, &leads), bend)
}

/// A plan of arcs, and the place of the clothoid that leads to one of them.
fn plan_and_clothoid(
    random: &mut Random,
    limits: &Limits,
    bends: &[Bend],
    bend: usize,
) -> (Vec<Element>, usize) {
    let size = random_size(random);
    let elements = plan_of(random, limits, &size, bends);
    let clothoid = places_of(&elements, Kind::Arc)[bend] - 1;
    (elements, clothoid)
}

fn road_upon(random: &mut Random, head: Head, elements: Vec<Element>) -> Road {
    let size = random_size(random);
    upon_plan(random, head, elements, &size)
}

/// A road with an egg or a pair, and the place of the egg or of the pair's second clothoid.
fn road_with_lead(random: &mut Random, lead: Lead) -> (Road, usize) {
    let head = Head::random(random);
    let limits = head.limits();
    let (bends, bend) = bends_with(random, &limits, lead);
    let (elements, clothoid) = plan_and_clothoid(random, &limits, &bends, bend);
    (road_upon(random, head, elements), clothoid)
}

fn egg_or_pair(random: &mut Random) -> Lead {
    random.pick(&[Lead::Egg, Lead::Pair])
}

/// Makes two clothoids of one; whether it is long enough.
fn make_two(random: &mut Random, elements: &mut Vec<Element>, clothoid: usize) -> bool {
    let whole = elements[clothoid];
    if whole.length < 2 {
        return false;
    }
    let first = random.between_or_bound(1, whole.length - 1);
    elements[clothoid].length = whole.length - first;
    elements.insert(
        clothoid,
        Element {
            length: first,
            ..whole
        },
    );
    true
}

/// The clothoid after a straight is followed by an arc, or by another clothoid.
pub fn pair_after_straight(random: &mut Random, outside: bool) -> Made {
    let lead = egg_or_pair(random);
    let (mut road, _) = road_with_lead(random, lead);
    let mut straights = places_of(&road.elements, Kind::Straight);
    straights.pop();
    let clothoid = random.pick(&straights) + 1;
    if outside && !make_two(random, &mut road.elements, clothoid) {
        return pair_after_straight(random, outside);
    }
    accepted_or_at(outside, &road, 7, clothoid + 1)
}

/// One clothoid stands between an arc and a straight, or two.
pub fn pair_before_straight(random: &mut Random, outside: bool) -> Made {
    let lead = egg_or_pair(random);
    let (mut road, _) = road_with_lead(random, lead);
    let straights = places_of(&road.elements, Kind::Straight);
    let clothoid = random.pick(&straights[1..]) - 1;
    if outside && !make_two(random, &mut road.elements, clothoid) {
        return pair_before_straight(random, outside);
    }
    accepted_or_at(outside, &road, 7, clothoid + 2)
}

/// Two clothoids stand between two arcs, or three.
pub fn three_clothoids(random: &mut Random, outside: bool) -> Made {
    let (mut road, second) = road_with_lead(random, Lead::Pair);
    let cut = second - random.place(2);
    if outside && !make_two(random, &mut road.elements, cut) {
        return three_clothoids(random, outside);
    }
    accepted_or_at(outside, &road, 7, second + 1)
}

pub fn short_after_egg(random: &mut Random, outside: bool) -> Made {
    short_after(random, outside, Lead::Egg)
}

pub fn short_after_pair(random: &mut Random, outside: bool) -> Made {
    short_after(random, outside, Lead::Pair)
}

/// The plan ends after the clothoid that leads to an arc, after the arc, or after the next clothoid.
fn short_after(random: &mut Random, outside: bool, lead: Lead) -> Made {
    let (mut road, clothoid) = road_with_lead(random, lead);
    let kept = clothoid + 1 + random.place(3);
    if outside && !cut_off(&mut road.elements, kept) {
        return short_after(random, outside, lead);
    }
    accepted_or_at(outside, &road, 7, kept)
}

/// Breaks refusal 23 by the arc after an egg or after the second clothoid of a pair.
pub fn spoil(random: &mut Random, elements: &mut [Element], clothoid: usize) {
    let after = elements[clothoid + 1].radius;
    let before = elements[clothoid - 1];
    let too_wide = random.between_or_bound(EGG_RADIUS_MAX + 1, LONGEST_LENGTH);
    let wrong = [
        before.radius,
        -before.radius,
        -after,
        after.signum() * too_wide,
    ];
    elements[clothoid + 1].radius = match before.kind {
        Kind::Arc => random.pick(&wrong),
        _ => -after,
    };
}

/// Two arcs of such radii, with an egg or a pair from one to the other, among others; the second one's number.
fn bends_of_radii(
    random: &mut Random,
    limits: &Limits,
    lead: Lead,
    radii: [i128; 2],
) -> (Vec<Bend>, usize) {
    let others = |random: &mut Random| {
        let count = random.between(0, 2) as usize;
        let leads = random_leads(random, count);
        bends_of_leads(random, limits, &leads)
    };
    let mut bends = others(random);
    let [first, second] = radii;
    bends.push(Bend {
        lead: Lead::Straight,
        radius: first,
    });
    bends.push(Bend {
        lead,
        radius: second,
    });
    let bend = bends.len() - 1;
    bends.extend(others(random));
    (bends, bend)
}

fn lengthen(element: &mut Element, more: i128) {
    element.length = (element.length + more).min(LONGEST_LENGTH);
}

/// A road with an egg or a pair between such radii, its clothoids long enough for any crossfall.
fn road_of_radii(random: &mut Random, head: Head, lead: Lead, radii: [i128; 2]) -> (Road, usize) {
    let limits = head.limits();
    let (bends, bend) = bends_of_radii(random, &limits, lead, radii);
    let (mut elements, clothoid) = plan_and_clothoid(random, &limits, &bends, bend);
    if radii[0] * radii[1] < 0 {
        lengthen(&mut elements[clothoid], least_swing(&limits));
    }
    (road_upon(random, head, elements), clothoid)
}

/// Radii 1 apart, or equal.
pub fn equal_radii(random: &mut Random, outside: bool) -> Made {
    let head = Head::random(random);
    let limits = head.limits();
    let size = egg_radius(random, &limits, false, None);
    let beside = random.pick(&[size - 1, size + 1]);
    let beside = beside.clamp(limits.radius_min, EGG_RADIUS_MAX);
    if beside == size {
        return equal_radii(random, outside);
    }
    let turn = random.sign();
    let other = if outside { size } else { beside };
    let (road, egg) = road_of_radii(random, head, Lead::Egg, [turn * size, turn * other]);
    accepted_or_at(outside, &road, 23, egg)
}

pub fn turns_of_egg(random: &mut Random, outside: bool) -> Made {
    let head = Head::random(random);
    let limits = head.limits();
    let first = egg_radius(random, &limits, false, None);
    let second = egg_radius(random, &limits, false, Some(first));
    let turn = random.sign();
    let other_turn = if outside { -turn } else { turn };
    let radii = [turn * first, other_turn * second];
    let (road, egg) = road_of_radii(random, head, Lead::Egg, radii);
    accepted_or_at(outside, &road, 23, egg)
}

pub fn radius_before_egg(random: &mut Random, outside: bool) -> Made {
    egg_radius_max(random, outside, |greatest, other| [greatest, other])
}

pub fn radius_after_egg(random: &mut Random, outside: bool) -> Made {
    egg_radius_max(random, outside, |greatest, other| [other, greatest])
}

/// "a radius, unsigned, over 1,000,000 mm"
fn egg_radius_max(random: &mut Random, outside: bool, order: fn(i128, i128) -> [i128; 2]) -> Made {
    let head = Head::random(random);
    let greatest = if outside {
        EGG_RADIUS_MAX + 1
    } else {
        EGG_RADIUS_MAX
    };
    let other = egg_radius(random, &head.limits(), false, Some(greatest));
    let turn = random.sign();
    let radii = order(turn * greatest, turn * other);
    let (road, egg) = road_of_radii(random, head, Lead::Egg, radii);
    accepted_or_at(outside, &road, 23, egg)
}

pub fn turns_of_pair(random: &mut Random, outside: bool) -> Made {
    let head = Head::random(random);
    let limits = head.limits();
    let first = random.sign() * random.between_or_bound(limits.radius_min, LONGEST_LENGTH);
    let size = match random.place(3) {
        0 => first.abs(),
        _ => random.between_or_bound(limits.radius_min, LONGEST_LENGTH),
    };
    let turn = if outside { 1 } else { -1 } * first.signum();
    let (road, second) = road_of_radii(random, head, Lead::Pair, [first, turn * size]);
    accepted_or_at(outside, &road, 23, second)
}

/// A pair becomes one clothoid between opposite turns.
pub fn pair_made_one(random: &mut Random, outside: bool) -> Made {
    let (mut road, second) = road_with_lead(random, Lead::Pair);
    if outside {
        let removed = road.elements.remove(second);
        road.elements[second - 1].length += removed.length;
    }
    accepted_or_at(outside, &road, 23, second - 1)
}

/// An egg becomes two clothoids between arcs of the same turn.
pub fn egg_made_two(random: &mut Random, outside: bool) -> Made {
    let (mut road, egg) = road_with_lead(random, Lead::Egg);
    if outside && !make_two(random, &mut road.elements, egg) {
        return egg_made_two(random, outside);
    }
    accepted_or_at(outside, &road, 23, egg + 1)
}

/// Two eggs or pairs or more are wrong, and the first one is the place.
pub fn first_of_several(random: &mut Random, outside: bool) -> Made {
    let lead = egg_or_pair(random);
    let (mut road, _) = road_with_lead(random, lead);
    let mut joined = [eggs(&road.elements), pairs(&road.elements)].concat();
    joined.sort();
    if joined.len() < 2 {
        return first_of_several(random, outside);
    }
    let first = random.place(joined.len() - 1);
    let second = random.between(first as i128 + 1, joined.len() as i128 - 1) as usize;
    if outside {
        for place in [first, second] {
            spoil(random, &mut road.elements, joined[place]);
        }
    }
    accepted_or_at(outside, &road, 23, joined[first])
}

/// A straight is too long; outside an egg or a pair is wrong as well.
pub fn before_8(random: &mut Random, outside: bool) -> Made {
    let head = Head::with(random, |limits| limits.straight_max.is_some());
    let limits = head.limits();
    let lead = egg_or_pair(random);
    let (bends, bend) = bends_with(random, &limits, lead);
    let (mut elements, clothoid) = plan_and_clothoid(random, &limits, &bends, bend);
    let straight = random.pick(&places_of(&elements, Kind::Straight));
    elements[straight].length = limits.straight_max.expect("a row with it") + 1;
    let mut road = road_upon(random, head, elements);
    if outside {
        spoil(random, &mut road.elements, clothoid);
        return refused_at(&road, 23, clothoid);
    }
    refused_at(&road, 8, straight)
}

/// An egg or a pair is wrong; outside the kinds are wrong as well.
pub fn after_7(random: &mut Random, outside: bool) -> Made {
    let lead = egg_or_pair(random);
    let (mut road, clothoid) = road_with_lead(random, lead);
    spoil(random, &mut road.elements, clothoid);
    if outside {
        wrong_kinds(random, &mut road.elements);
        return refused(&road, 7);
    }
    refused_at(&road, 23, clothoid)
}

/// A straight between two arcs of one turn or of opposite turns, with an egg, a pair or a straight beyond each.
fn plan_around_straight(
    random: &mut Random,
    limits: &Limits,
    same_turn: bool,
    beyond: [Lead; 2],
) -> (Vec<Element>, usize) {
    let turn = random.sign();
    let next = if same_turn { turn } else { -turn };
    let mut turn_beyond = |lead: Lead, turn: i128| match lead {
        Lead::Straight => random.sign(),
        Lead::Egg => turn,
        Lead::Pair => -turn,
    };
    let [before, after] = beyond;
    let turns = [
        (Lead::Straight, turn_beyond(before, turn)),
        (before, turn),
        (Lead::Straight, next),
        (after, turn_beyond(after, next)),
    ];
    let bends = bends_of_turns(random, limits, &turns);
    let (elements, clothoid) = plan_and_clothoid(random, limits, &bends, 2);
    (elements, clothoid - 1)
}

/// The arcs nearest to a straight turn the same way, whatever lies beyond them.
pub fn nearest_arcs(random: &mut Random, outside: bool) -> Made {
    let head = Head::with(random, |limits| limits.straight_min.is_some());
    let limits = head.limits();
    let leads = [Lead::Straight, Lead::Egg, Lead::Pair, Lead::Pair];
    let beyond = [random.pick(&leads), random.pick(&leads)];
    let (mut elements, straight) = plan_around_straight(random, &limits, true, beyond);
    let shorter = if outside { 1 } else { 0 };
    elements[straight].length = limits.straight_min.expect("a row with it") - shorter;
    let road = road_upon(random, head, elements);
    accepted_or_at(outside, &road, 9, straight)
}

/// A straight too short for one turn: the nearest arcs turn opposite ways and those beyond a pair the same way, or
/// the other way round.
pub fn nearest_turns(random: &mut Random, outside: bool) -> Made {
    let head = Head::with(random, |limits| limits.straight_min.is_some());
    let limits = head.limits();
    let leads = [Lead::Straight, Lead::Egg, Lead::Pair];
    let other = random.pick(&leads);
    let beyond = random.pick(&[[Lead::Pair, other], [other, Lead::Pair]]);
    let (mut elements, straight) = plan_around_straight(random, &limits, outside, beyond);
    let straight_min = limits.straight_min.expect("a row with it");
    elements[straight].length = random.between_or_bound(1, straight_min - 1);
    let road = road_upon(random, head, elements);
    accepted_or_at(outside, &road, 9, straight)
}

/// An egg at its least length by either rule book, or 1 below.
pub fn egg_min(random: &mut Random, outside: bool) -> Made {
    let head = Head::of_either_book(random);
    let limits = head.limits();
    let (bends, bend) = bends_with(random, &limits, Lead::Egg);
    let (mut elements, egg) = plan_and_clothoid(random, &limits, &bends, bend);
    let least = least_clothoid_at(&limits, &elements, egg);
    let shorter = if outside { 1 } else { 0 };
    if least <= shorter {
        return egg_min(random, outside);
    }
    elements[egg].length = least - shorter;
    let road = road_upon(random, head, elements);
    accepted_or_at(outside, &road, 12, egg)
}

fn head_of_today(random: &mut Random) -> Head {
    Head {
        contract: contract_under(random, RuleBook::Today),
        ..Head::random(random)
    }
}

/// Length x R1 x R2 is A min squared x |R1 - R2|; outside the length or a radius is 1 off.
pub fn egg_square(random: &mut Random, outside: bool) -> Made {
    let head = head_of_today(random);
    egg_square_of(random, outside, head)
}

fn egg_square_of(random: &mut Random, outside: bool, head: Head) -> Made {
    let limits = head.limits();
    let LeastClothoid::Parameter(parameter) = limits.clothoid else {
        unreachable!("today's rule book has A min")
    };
    let least = parameter * parameter;
    let low = random.between(limits.radius_min, EGG_RADIUS_MAX - 1_000) / 500 * 500;
    let exact = |high: &i128| least * (high - low) % (low * high) == 0;
    let highs: Vec<i128> = (low + 500..=EGG_RADIUS_MAX)
        .step_by(500)
        .filter(exact)
        .collect();
    if low < limits.radius_min || highs.is_empty() {
        return egg_square_of(random, outside, head);
    }
    let high = random.pick(&highs);
    let length = least * (high - low) / (low * high);
    let changes = [(1, 0, 0), (0, 1, 0), (0, 0, 1)];
    let (shorter, lower, higher) = match outside {
        true => random.pick(&changes),
        false => (0, 0, 0),
    };
    let (low, high, length) = (low - lower, high + higher, length - shorter);
    if low < limits.radius_min || high > EGG_RADIUS_MAX || length < 1 {
        return egg_square_of(random, outside, head);
    }
    let turn = random.sign();
    let radii = random.pick(&[[turn * low, turn * high], [turn * high, turn * low]]);
    let (bends, bend) = bends_of_radii(random, &limits, Lead::Egg, radii);
    let (mut elements, egg) = plan_and_clothoid(random, &limits, &bends, bend);
    elements[egg].length = length;
    let road = road_upon(random, head, elements);
    accepted_or_at(outside, &road, 12, egg)
}

/// An egg of a length from the least by A min to what the old handbook does not allow, under such a head.
pub fn egg_below(
    random: &mut Random,
    outside: bool,
    head: Head,
    today: &Limits,
    old: &Limits,
) -> Made {
    let limits = head.limits();
    let (bends, bend) = bends_with(random, &limits, Lead::Egg);
    let (mut elements, egg) = plan_and_clothoid(random, &limits, &bends, bend);
    let least =
        |limits: &Limits| least_egg(limits, elements[egg - 1].radius, elements[egg + 1].radius);
    elements[egg].length = random.between_or_bound(least(today), least(old) - 1);
    let road = road_upon(random, head, elements);
    accepted_or_at(outside, &road, 12, egg)
}

pub fn first_of_pair(random: &mut Random, outside: bool) -> Made {
    clothoid_of_pair(random, outside, 1)
}

pub fn second_of_pair(random: &mut Random, outside: bool) -> Made {
    clothoid_of_pair(random, outside, 0)
}

/// A clothoid of a pair, so many elements before the second one, at its least length or 1 below.
fn clothoid_of_pair(random: &mut Random, outside: bool, before: usize) -> Made {
    let head = Head::of_either_book(random);
    let limits = head.limits();
    let (bends, bend) = bends_with(random, &limits, Lead::Pair);
    let (mut elements, second) = plan_and_clothoid(random, &limits, &bends, bend);
    let (clothoid, other) = (second - before, second - 1 + before);
    let shorter = if outside { 1 } else { 0 };
    elements[clothoid].length = least_clothoid_at(&limits, &elements, clothoid) - shorter;
    lengthen(&mut elements[other], least_swing(&limits));
    let road = road_upon(random, head, elements);
    accepted_or_at(outside, &road, 12, clothoid)
}

/// Each clothoid of a pair is long enough for its own arc alone; outside they stand in the other's place.
pub fn own_arc_of_pair(random: &mut Random, outside: bool) -> Made {
    let head = head_of_today(random);
    let limits = head.limits();
    let sharp = random.between_or_bound(limits.radius_min, 4 * limits.radius_min);
    let wide = random.between_or_bound(2 * sharp, LONGEST_LENGTH);
    let [longer, shorter] = [sharp, wide].map(|radius| least_clothoid(&limits, radius));
    let short = random.between_or_bound(shorter, longer - 1);
    let long = longer + least_swing(&limits);
    let turn = random.sign();
    let sharp_first = random.chance(50);
    let radii = match sharp_first {
        true => [turn * sharp, -turn * wide],
        false => [turn * wide, -turn * sharp],
    };
    let (bends, bend) = bends_of_radii(random, &limits, Lead::Pair, radii);
    let (mut elements, second) = plan_and_clothoid(random, &limits, &bends, bend);
    let lengths = match sharp_first != outside {
        true => [long, short],
        false => [short, long],
    };
    elements[second - 1].length = lengths[0];
    elements[second].length = lengths[1];
    let road = road_upon(random, head, elements);
    let of_sharp = if sharp_first { second - 1 } else { second };
    accepted_or_at(outside, &road, 12, of_sharp)
}
