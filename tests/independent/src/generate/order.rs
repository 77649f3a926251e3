//! Roads that break two rules, so that "the lowest refusal wins" is seen for every pair; 23 comes between 7 and 8.

use super::edges::bends::spoil;
use super::head::Head;
use super::numbers::file;
use super::random::Random;
use super::valid::bends::{egg_radius, eggs, pairs, places_of, Bend, Lead};
use super::valid::plan::{least_clothoid_at, plan_of};
use super::valid::{upon_plan, Size, LONGEST_LENGTH};
use reference::file::{Alignment, Element, Kind};
use reference::limits::Limits;

const RULES: [i128; 17] = [
    5, 6, 7, 23, 23, 8, 9, 10, 11, 12, 13, 14, 15, 16, 17, 18, 19,
];

/// A road whose straights lie between arcs of one turn, that breaks two or three of the rules 5 to 19 and 23.
pub fn rules_broken_together(random: &mut Random) -> Vec<u8> {
    let head = Head::with(random, |limits| limits.straight_max.is_some());
    let limits = head.limits();
    let count = random.between(2, 3);
    let broken: Vec<i128> = (0..count).map(|_| random.pick(&RULES)).collect();
    let size = Size::with_bends(random, 3, 6);
    let bends = bends_of_one_turn(random, &limits, size.bends);
    let mut elements = plan_of(random, &limits, &size, &bends);
    for &rule in &broken {
        break_plan(random, &limits, &mut elements, rule);
    }
    let mut road = upon_plan(random, head, elements, &size);
    for &rule in &broken {
        break_road(random, &limits, &mut road, rule);
    }
    file(&road)
}

/// Arcs of which a pair alone changes the turn; there is a straight between two of them, and an egg or a pair
/// mostly.
fn bends_of_one_turn(random: &mut Random, limits: &Limits, count: usize) -> Vec<Bend> {
    let inner_straight = 1 + random.place(count - 1);
    let mut turn = random.sign();
    let mut bends: Vec<Bend> = Vec::new();
    for place in 0..count {
        let lead = match place {
            0 => Lead::Straight,
            _ if place == inner_straight => Lead::Straight,
            _ => random.pick(&[Lead::Straight, Lead::Egg, Lead::Pair]),
        };
        if lead == Lead::Pair {
            turn = -turn;
        }
        let before = bends.last().map(|bend| bend.radius.abs());
        let radius = turn * egg_radius(random, limits, false, before);
        bends.push(Bend { lead, radius });
    }
    bends
}

/// Rules 8 to 12, before profile and crossfalls are laid upon the plan.
fn break_plan(random: &mut Random, limits: &Limits, elements: &mut [Element], rule: i128) {
    let arc = random.pick(&places_of(elements, Kind::Arc));
    let straights = places_of(elements, Kind::Straight);
    let inner_straight = random.pick(&straights[1..straights.len() - 1]);
    match rule {
        8 => {
            let straight = random.pick(&straights);
            elements[straight].length = limits.straight_max.expect("a row with it") + 1;
        }
        9 => elements[inner_straight].length = limits.straight_min.expect("a row with it") - 1,
        10 => {
            let radius = &mut elements[arc].radius;
            *radius = radius.signum() * (limits.radius_min - 1);
        }
        11 => elements[arc].length = limits.arc_min - 1,
        12 => {
            let clothoid = random.pick(&[arc - 1, arc + 1]);
            let least = least_clothoid_at(limits, elements, clothoid);
            elements[clothoid].length = (least - 1).max(1);
        }
        _ => {}
    }
}

/// The other rules.
fn break_road(random: &mut Random, limits: &Limits, road: &mut Alignment, rule: i128) {
    let tangent = random.place(road.tangents.len());
    let vertices = road.tangents.len() - 1;
    let point = random.place(road.points.len());
    match rule {
        5 => {
            let bent = road
                .elements
                .iter_mut()
                .filter(|e| e.kind != Kind::Straight);
            bent.for_each(|element| element.length = LONGEST_LENGTH);
        }
        6 => road.tangents[tangent].length += 1,
        7 => {
            let place = random.place(road.elements.len());
            road.elements[place].kind = Kind::Straight;
        }
        23 => {
            let joined = [eggs(&road.elements), pairs(&road.elements)].concat();
            if !joined.is_empty() {
                let clothoid = random.pick(&joined);
                spoil(random, &mut road.elements, clothoid);
            }
        }
        13 => road.tangents[tangent].grade = random.sign() * (limits.grade_max + 1),
        14 if vertices > 0 => {
            let vertex = random.place(vertices);
            road.tangents[vertex].half_length = (road.tangents[vertex].length + 1).min(1_000_000);
        }
        15 if vertices > 0 => road.tangents[random.place(vertices)].half_length = 0,
        16 => road.points[point].station += random.sign().max(-road.points[point].station),
        17 => road.points[point].left = random.pick(&[24_999, -24_999, 70_001, -70_001]),
        18 => {
            road.ramp_limit = 1;
            road.points[point].right = -road.points[point].right;
        }
        19 => {
            for point in &mut road.points {
                (point.left, point.right) = (point.right, point.left);
            }
        }
        _ => {}
    }
}
