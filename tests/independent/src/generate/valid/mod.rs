//! Roads that keep every rule, often exactly at a limit.

pub mod bends;
pub mod books;
pub mod crossfall;
pub mod plan;
pub mod profile;
pub mod speeds;

use super::head::Head;
use super::random::Random;
use super::road::Road;
use books::near_other_book;
use crossfall::crossfalls;
use plan::{plan, stretch, total};
use profile::profile;
use reference::file::{Alignment, Element};
use reference::limits::Limits;

pub const LONGEST_PLAN: i128 = 100_000_000;
pub const LONGEST_LENGTH: i128 = 10_000_000;

/// How large a road is to be.
#[derive(Clone, Copy)]
pub struct Size {
    pub bends: usize,
    pub tangents: usize,
    pub points: usize,
    /// How far a length goes beyond its least.
    pub spread: i128,
}

impl Size {
    /// Most roads are small, some full.
    pub fn random(random: &mut Random) -> Size {
        let (bends, tangents, points, spread) = match random.place(100) {
            0..=34 => (2, 3, 6, random.pick(&[3, 100, 2_000])),
            35..=84 => (4, 6, 12, 60_000),
            85..=94 => (12, 25, 50, 400_000),
            95..=97 => (49, 100, 200, 100_000),
            _ => (20, 40, 80, 1_500_000),
        };
        let full = random.chance(20);
        let count = |random: &mut Random, least: i128, most: i128| {
            if full && most > 20 {
                most as usize
            } else {
                random.between(least, most) as usize
            }
        };
        Size {
            bends: count(random, 0, bends),
            tangents: count(random, 1, tangents),
            points: count(random, 2, points),
            spread,
        }
    }

    pub fn with_bends(random: &mut Random, least: i128, most: i128) -> Size {
        let mut size = Size::random(random);
        if (size.bends as i128) < least || (size.bends as i128) > most {
            size.bends = random.between(least, most) as usize;
        }
        size
    }
}

pub fn divided_up(numerator: i128, denominator: i128) -> i128 {
    (numerator + denominator - 1) / denominator
}

/// A step: round or not, often at a bound, coarse on long roads.
pub fn random_step(random: &mut Random, total: i128) -> i128 {
    let finest = if random.chance(10) {
        1_000
    } else {
        (total / 300).clamp(1_000, 100_000)
    };
    if let Some(step) = step_of_end(random, total).filter(|_| random.chance(20)) {
        return step;
    }
    match random.place(6) {
        0 => finest,
        1 => 100_000,
        2 => random
            .pick(&[1_000, 5_000, 10_000, 20_000, 25_000, 50_000])
            .max(finest),
        _ => random.between(finest, 100_000),
    }
}

/// A step of which a multiple is T, 1 before it or 1 past it.
fn step_of_end(random: &mut Random, total: i128) -> Option<i128> {
    let multiple = total + random.between(-1, 1);
    let (least, most) = (divided_up(multiple, 100_000), multiple / 1_000);
    let from = random.between(least, most.max(least));
    (from..=most.min(from + 100))
        .find(|&count| count > 0 && multiple % count == 0)
        .map(|count| multiple / count)
}

pub fn random_start_height(random: &mut Random) -> i128 {
    match random.place(5) {
        0 => random.between(-100, 100),
        1 => random.between(-500_000, 0),
        _ => random.between_or_bound(-500_000, 3_000_000),
    }
}

/// Builds profile and crossfalls upon a plan.
pub fn upon_plan(random: &mut Random, head: Head, elements: Vec<Element>, size: &Size) -> Road {
    let limits = head.limits();
    let rows = Rows {
        profile: &limits,
        crossfalls: &limits,
    };
    upon_plan_by(random, head, elements, size, rows)
}

/// The rows that decide what is built upon a plan.
pub struct Rows<'l> {
    pub profile: &'l Limits,
    pub crossfalls: &'l Limits,
}

/// Builds profile and crossfalls upon a plan, each by a row of its own.
pub fn upon_plan_by(
    random: &mut Random,
    head: Head,
    elements: Vec<Element>,
    size: &Size,
    rows: Rows,
) -> Road {
    let end = total(&elements);
    let (ramp_limit, points) = crossfalls(random, rows.crossfalls, &elements, size.points);
    let alignment = Alignment {
        contract: head.contract,
        class: head.class,
        terrain: head.terrain,
        step: random_step(random, end),
        ramp_limit,
        tangents: profile(random, rows.profile, end, size.tangents),
        elements,
        start_height: random_start_height(random),
        points,
    };
    Road {
        alignment,
        speed: head.speed,
    }
}

/// A road that keeps every rule at the speed that it is designed for.
pub fn random_road(random: &mut Random) -> Road {
    let head = Head::random(random);
    road_of(random, head)
}

/// A road of any size that keeps every rule.
pub fn road_of(random: &mut Random, head: Head) -> Road {
    let size = Size::random(random);
    road_of_size(random, head, &size)
}

pub fn road_of_size(random: &mut Random, head: Head, size: &Size) -> Road {
    let limits = head.limits();
    let mut elements = plan(random, &limits, size);
    if random.chance(20) {
        elements = near_other_book(random, head, &elements);
    }
    if size.bends >= 4 && random.chance(6) {
        let wanted = random.between_or_bound(total(&elements), LONGEST_PLAN);
        stretch(random, &mut elements, wanted);
    }
    upon_plan(random, head, elements, size)
}
