//! Refusals 16 to 19: crossfall points, ramps, crossfall on arcs.

use super::{accepted_or, road_with, Made};
use crate::generate::head::Head;
use crate::generate::random::Random;
use crate::generate::road::Road;
use crate::generate::valid::bends::{bends_of_turns, Bend, Lead};
use crate::generate::valid::crossfall::{arcs, point, superelevation, Crossfall};
use crate::generate::valid::plan::plan_of;
use crate::generate::valid::{
    random_road, road_of_size, upon_plan, Size, LONGEST_LENGTH, LONGEST_PLAN,
};
use reference::file::{Element, Kind};
use reference::limits::Limits;

pub fn first_point(random: &mut Random, outside: bool) -> Made {
    let (mut road, _) = road_with(random, random_road, |road| {
        let room = road.points[1].station > 1;
        room.then_some(()).into_iter().collect()
    });
    if outside {
        road.points[0].station = 1;
    }
    accepted_or(outside, &road, 16)
}

pub fn beyond_forerunner(random: &mut Random, outside: bool) -> Made {
    let (mut road, place) = road_with(random, random_road, |road| {
        (0..road.points.len() - 1)
            .filter(|&place| {
                let (here, next) = (road.points[place], road.points[place + 1]);
                let even = here.left == next.left && here.right == next.right;
                even && next.station - here.station > 1 && road.points.len() < 200
            })
            .collect()
    });
    let here = road.points[place];
    let station = here.station + if outside { 0 } else { 1 };
    let added = point(station, (here.left, here.right));
    road.points.insert(place + 1, added);
    accepted_or(outside, &road, 16)
}

pub fn last_point(random: &mut Random, outside: bool) -> Made {
    let mut road = random_road(random);
    if outside {
        let last = road.points.len() - 1;
        let station = &mut road.points[last].station;
        let before = *station == LONGEST_PLAN || random.chance(50);
        *station += if before { -1 } else { 1 };
    }
    accepted_or(outside, &road, 16)
}

pub fn least_crossfall(random: &mut Random, outside: bool) -> Made {
    crossfall_bound(random, outside, 25_000, -1)
}

pub fn greatest_crossfall(random: &mut Random, outside: bool) -> Made {
    crossfall_bound(random, outside, 70_000, 1)
}

fn crossfall_bound(random: &mut Random, outside: bool, size: i128, beyond: i128) -> Made {
    let (mut road, (place, is_left)) = road_with(random, random_road, |road| {
        let mut sides = Vec::new();
        for (place, point) in road.points.iter().enumerate() {
            if point.left.abs() == size {
                sides.push((place, true));
            }
            if point.right.abs() == size {
                sides.push((place, false));
            }
        }
        sides
    });
    if outside {
        let point = &mut road.points[place];
        let side = if is_left {
            &mut point.left
        } else {
            &mut point.right
        };
        *side += side.signum() * beyond;
    }
    accepted_or(outside, &road, 17)
}

/// Pairs of points that are as near as the ramp limit allows.
fn tight_pairs(road: &Road) -> Vec<usize> {
    let lane_width = road.limits().lane_width;
    (0..road.points.len() - 1)
        .filter(|&place| {
            let (here, next) = (road.points[place], road.points[place + 1]);
            let change = (next.left - here.left)
                .abs()
                .max((next.right - here.right).abs());
            let distance = next.station - here.station;
            lane_width * change > road.ramp_limit * (distance - 1) && distance > 1
        })
        .collect()
}

pub fn ramp_distance(random: &mut Random, outside: bool) -> Made {
    let (mut road, place) = road_with(random, random_road, |road| {
        let last = road.points.len() - 1;
        let movable = |&place: &usize| place > 0 || place + 1 < last;
        tight_pairs(road).into_iter().filter(movable).collect()
    });
    if outside {
        let last = road.points.len() - 1;
        if place + 1 < last && (place == 0 || random.chance(50)) {
            road.points[place + 1].station -= 1;
        } else {
            road.points[place].station += 1;
        }
    }
    accepted_or(outside, &road, 18)
}

pub fn ramp_limit(random: &mut Random, outside: bool) -> Made {
    let (mut road, _) = road_with(random, random_road, |road| {
        let lane_width = road.limits().lane_width;
        let steepest = road
            .points
            .windows(2)
            .map(|pair| {
                let change = (pair[1].left - pair[0].left)
                    .abs()
                    .max((pair[1].right - pair[0].right).abs());
                let distance = pair[1].station - pair[0].station;
                (lane_width * change + distance - 1) / distance
            })
            .max()
            .unwrap_or(0);
        let tight = steepest == road.ramp_limit && steepest > 1;
        tight.then_some(()).into_iter().collect()
    });
    if outside {
        road.ramp_limit -= 1;
    }
    accepted_or(outside, &road, 18)
}

/// Lane width times change is ramp limit times distance, or 1 above.
pub fn ramp_product(random: &mut Random, outside: bool) -> Made {
    let head = Head::random(random);
    let limits = head.limits();
    let ramp_limit = random.between_by_size(1, 20_000);
    let beyond = if outside { 1 } else { 0 };
    let from = random.between_by_size(1, 45_000);
    let fits = |change: &i128| {
        let product = limits.lane_width * change - beyond;
        product % ramp_limit == 0 && product / ramp_limit <= 1_000_000
    };
    let Some(change) = (from..=45_000).find(fits) else {
        return ramp_product(random, outside);
    };
    let length = (limits.lane_width * change - beyond) / ramp_limit;
    let straight = Element {
        kind: Kind::Straight,
        length,
        radius: 0,
    };
    let size = Size::with_bends(random, 0, 0);
    let mut road = upon_plan(random, head, vec![straight], &size);
    let low = random.between_or_bound(25_000, 70_000 - change);
    let (first, last) = random.pick(&[(low, low + change), (low + change, low)]);
    let (one, other) = (random.sign(), random.sign());
    let level = random.between_or_bound(25_000, 70_000);
    let ends = random.pick(&[
        ((one * first, level), (one * last, level)),
        ((level, one * first), (level, one * last)),
        ((one * first, other * first), (one * last, other * last)),
    ]);
    road.ramp_limit = ramp_limit;
    road.points = vec![point(0, ends.0), point(length, ends.1)];
    accepted_or(outside, &road, 18)
}

fn road_with_bends(random: &mut Random) -> Road {
    let head = Head::random(random);
    let size = Size::with_bends(random, 1, 5);
    road_of_size(random, head, &size)
}

/// Points where a ramp meets an end of an arc exactly; the place of the point.
fn ramps_at_arcs(road: &Road, at_start: bool) -> Vec<usize> {
    let stations: Vec<i128> = arcs(&road.elements)
        .iter()
        .map(|arc| if at_start { arc.start } else { arc.end })
        .collect();
    (1..road.points.len() - 1)
        .filter(|&place| {
            let here = road.points[place];
            let (ramp, level) = if at_start {
                (road.points[place - 1], road.points[place + 1])
            } else {
                (road.points[place + 1], road.points[place - 1])
            };
            let ramped = ramp.left != here.left || ramp.right != here.right;
            let room = (level.station - here.station).abs() > 1;
            ramped && room && stations.contains(&here.station)
        })
        .collect()
}

pub fn ramp_ends_at_arc(random: &mut Random, outside: bool) -> Made {
    let find = |road: &Road| ramps_at_arcs(road, true);
    let (mut road, place) = road_with(random, road_with_bends, find);
    if outside {
        road.points[place].station += 1;
    }
    accepted_or(outside, &road, 19)
}

pub fn ramp_begins_at_arc(random: &mut Random, outside: bool) -> Made {
    let find = |road: &Road| ramps_at_arcs(road, false);
    let (mut road, place) = road_with(random, road_with_bends, find);
    if outside {
        road.points[place].station -= 1;
    }
    accepted_or(outside, &road, 19)
}

/// A point on an arc, ends included, that keeps the arc's crossfall or is 1 ppm off.
pub fn change_on_arc(random: &mut Random, outside: bool) -> Made {
    let lone = |random: &mut Random| level_road(random, |arc| superelevation(arc, 30_000));
    let mut road = lone(random);
    road.ramp_limit = 20_000;
    let arcs = arcs(&road.elements);
    let arc = arcs[random.place(arcs.len())];
    let station = random.between_or_bound(arc.start, arc.end);
    let (left, right) = superelevation(arc.radius, 30_000);
    let (off_left, off_right) = if outside {
        random.pick(&[(1, 0), (-1, 0), (0, 1), (0, -1), (1, -1)])
    } else {
        (0, 0)
    };
    let added = point(station, (left + off_left, right + off_right));
    road.points.insert(1, added);
    accepted_or(outside, &road, 19)
}

/// A road whose bends turn one way, with one crossfall from start to end.
fn level_road(random: &mut Random, crossfall: impl Fn(i128) -> Crossfall) -> Road {
    let head = Head::random(random);
    let size = Size::with_bends(random, 1, 5);
    let limits = head.limits();
    let turn = random.sign();
    let mut turns: Vec<(Lead, i128)> = (0..size.bends)
        .map(|_| (random.pick(&[Lead::Straight, Lead::Egg]), turn))
        .collect();
    turns[0].0 = Lead::Straight;
    let bends = bends_of_turns(random, &limits, &turns);
    let elements = plan_of(random, &limits, &size, &bends);
    let mut road = upon_plan(random, head, elements, &size);
    let end = road.total_length();
    let everywhere = crossfall(turn);
    road.points = vec![point(0, everywhere), point(end, everywhere)];
    road
}

pub fn inner_side(random: &mut Random, outside: bool) -> Made {
    let size = random.between_or_bound(25_000, 70_000);
    let road = level_road(random, |turn| {
        superelevation(if outside { -turn } else { turn }, size)
    });
    accepted_or(outside, &road, 19)
}

/// "left = -right", or 1 ppm off.
pub fn left_and_right(random: &mut Random, outside: bool) -> Made {
    let size = random.between_or_bound(25_001, 69_999);
    let off = if outside {
        random.pick(&[(1, 0), (-1, 0), (0, 1), (0, -1)])
    } else {
        (0, 0)
    };
    let road = level_road(random, |turn| {
        let (left, right) = superelevation(turn, size);
        (left + off.0, right + off.1)
    });
    accepted_or(outside, &road, 19)
}

/// -25,000 on both sides: from R' on; never where there is no R', nor any other value.
pub fn both_falling(random: &mut Random, outside: bool) -> Made {
    let fast = |limits: &Limits| limits.radius_both_falling.is_some();
    let slow = |limits: &Limits| limits.radius_both_falling.is_none();
    let has_none = outside && random.chance(30);
    let head = Head::with(random, if has_none { slow } else { fast });
    let limits = head.limits();
    let least = limits.radius_both_falling.unwrap_or(LONGEST_LENGTH);
    let size = Size::with_bends(random, 1, 5);
    let mut radii: Vec<i128> = (0..size.bends)
        .map(|_| random.sign() * random.between_or_bound(least, LONGEST_LENGTH))
        .collect();
    let place = random.place(radii.len());
    radii[place] = random.sign() * least;
    let mut crossfall = (-25_000, -25_000);
    if outside && !has_none {
        if random.chance(70) {
            radii[place] -= radii[place].signum();
        } else {
            crossfall = random.pick(&[
                (-25_001, -25_000),
                (-25_000, -25_001),
                (-25_001, -25_001),
                (25_000, 25_000),
            ]);
        }
    }
    let mut bends: Vec<Bend> = Vec::new();
    for radius in radii {
        let reverses = bends
            .last()
            .is_some_and(|before| before.radius * radius < 0);
        let lead = match reverses {
            true => random.pick(&[Lead::Straight, Lead::Pair]),
            false => Lead::Straight,
        };
        bends.push(Bend { lead, radius });
    }
    let elements = plan_of(random, &limits, &size, &bends);
    let mut road = upon_plan(random, head, elements, &size);
    let end = road.total_length();
    road.points = vec![point(0, crossfall), point(end, crossfall)];
    accepted_or(outside, &road, 19)
}
