//! Files at both sides of each limit: just inside, and just outside.

pub mod bends;
mod books;
mod crossfall;
mod date;
pub mod plan;
mod profile;
mod shape;
mod speeds;

use std::ops::Range;

use super::numbers::{file, Field};
use super::random::Random;
use super::road::Road;
use reference::file::Refusal;
use shape::Bound;

/// What the paper must say of a file.
#[derive(Clone, Copy, Debug, PartialEq, Eq)]
pub enum Expected {
    Accepted,
    Refused(i128),
    RefusedAt(i128, usize),
    /// Only that this number is not refused with 3 at its first byte.
    NotOutsideRangeAt(usize),
}

impl Expected {
    /// Whether a verdict is what was expected.
    pub fn holds(self, refusal: Option<Refusal>) -> bool {
        let is = |number: i128| refusal.is_some_and(|refusal| refusal.number == number);
        let at = |place: usize| refusal.is_some_and(|refusal| refusal.place == place as i128);
        match self {
            Expected::Accepted => refusal.is_none(),
            Expected::Refused(number) => is(number),
            Expected::RefusedAt(number, place) => is(number) && at(place),
            Expected::NotOutsideRangeAt(place) => !(is(3) && at(place)),
        }
    }
}

/// A file at a limit, and what the papers must say of it with the row of the speed that its road is designed for.
pub struct Made {
    pub bytes: Vec<u8>,
    pub expected: Expected,
    pub speed: i128,
}

/// A limit: its name, and what makes files inside and outside of it.
pub struct Edge {
    pub name: &'static str,
    /// "The row of the speed decides" it.
    pub of_row: bool,
    maker: Maker,
}

#[derive(Clone, Copy)]
enum Maker {
    Bound(Bound),
    Road(fn(&mut Random, bool) -> Made),
}

impl Edge {
    pub fn make(&self, random: &mut Random, outside: bool) -> Made {
        match self.maker {
            Maker::Bound(bound) => shape::at_bound(random, outside, bound),
            Maker::Road(make) => make(random, outside),
        }
    }
}

const fn edge(name: &'static str, make: fn(&mut Random, bool) -> Made) -> Edge {
    Edge {
        name,
        of_row: false,
        maker: Maker::Road(make),
    }
}

const fn of_row(name: &'static str, make: fn(&mut Random, bool) -> Made) -> Edge {
    Edge {
        of_row: true,
        ..edge(name, make)
    }
}

const fn bound(name: &'static str, field: Field, value: i128, beyond: i128) -> Edge {
    let maker = Maker::Bound(Bound {
        field,
        value,
        beyond,
    });
    Edge {
        name,
        of_row: false,
        maker,
    }
}

/// Where the limits of the contract date are.
pub const DATES: Range<usize> = 6..18;

/// Where the limits of refusals 5 to 19 and 23 begin.
pub const FIRST_RULE: usize = 52;

pub const EDGES: [Edge; 113] = [
    edge("1 longest file", shape::longest_file),
    edge("2 breaks off", shape::breaks_off),
    edge("2 shortest form", shape::shortest_form),
    edge("2 greatest number", shape::greatest_number),
    edge("2 five bytes", shape::five_bytes),
    edge("2 top bit at the end", shape::top_bit_at_end),
    edge("2 date", date::shape_of_date),
    edge("22 first day", date::first_day),
    edge("22 last day", date::last_day),
    edge("22 month low", date::first_month),
    edge("22 month high", date::last_month),
    edge("22 day low", date::first_of_month),
    edge("22 day high", date::end_of_month),
    edge("22 leap day", date::leap_day),
    edge("22 any number", date::any_number),
    edge("22 before the class", date::before_class),
    edge("3 beside 9", date::layout),
    edge("3 second date", date::second_date),
    bound("3 class low", Field::Class, 1, -1),
    bound("3 class high", Field::Class, 4, 1),
    bound("3 terrain low", Field::Terrain, 1, -1),
    bound("3 terrain high", Field::Terrain, 3, 1),
    bound("3 step low", Field::Step, 1_000, -1),
    bound("3 step high", Field::Step, 100_000, 1),
    bound("3 ramp limit low", Field::RampLimit, 1, -1),
    bound("3 ramp limit high", Field::RampLimit, 20_000, 1),
    bound("3 plan count low", Field::PlanCount, 1, -1),
    bound("3 plan count high", Field::PlanCount, 200, 1),
    bound("3 kind high", Field::Kind, 2, 1),
    bound("3 length low", Field::Length, 1, -1),
    bound("3 length high", Field::Length, 10_000_000, 1),
    bound("3 radius low, right", Field::Radius, 10_000, -1),
    bound("3 radius low, left", Field::Radius, -10_000, 1),
    bound("3 radius high, right", Field::Radius, 10_000_000, 1),
    bound("3 radius high, left", Field::Radius, -10_000_000, -1),
    bound("3 start height low", Field::StartHeight, -500_000, -1),
    bound("3 start height high", Field::StartHeight, 3_000_000, 1),
    bound("3 tangent count low", Field::TangentCount, 1, -1),
    bound("3 tangent count high", Field::TangentCount, 100, 1),
    bound("3 tangent length low", Field::TangentLength, 1, -1),
    bound("3 tangent length high", Field::TangentLength, 10_000_000, 1),
    bound("3 grade low", Field::Grade, -120_000, -1),
    bound("3 grade high", Field::Grade, 120_000, 1),
    bound("3 half length high", Field::HalfLength, 1_000_000, 1),
    bound("3 crossfall count low", Field::CrossfallCount, 2, -1),
    bound("3 crossfall count high", Field::CrossfallCount, 200, 1),
    bound("3 point station high", Field::Station, 100_000_000, 1),
    bound("3 left low", Field::Left, -80_000, -1),
    bound("3 left high", Field::Left, 80_000, 1),
    bound("3 right low", Field::Right, -80_000, -1),
    bound("3 right high", Field::Right, 80_000, 1),
    edge("4 bytes follow", shape::bytes_follow),
    edge("5 plan length", plan::plan_length),
    edge("5 plan length, early", plan::plan_length_early),
    edge("6 tangents' sum", plan::tangents_sum),
    edge("7 kind", plan::wrong_kind),
    edge("7 stops short", plan::stops_short),
    edge("7 most elements", plan::most_elements),
    edge("7 pair after a straight", bends::pair_after_straight),
    edge("7 pair before a straight", bends::pair_before_straight),
    edge("7 three clothoids", bends::three_clothoids),
    edge("7 short after an egg", bends::short_after_egg),
    edge("7 short after a pair", bends::short_after_pair),
    edge("23 equal radii", bends::equal_radii),
    edge("23 turns of an egg", bends::turns_of_egg),
    edge("23 radius before egg", bends::radius_before_egg),
    edge("23 radius after egg", bends::radius_after_egg),
    edge("23 turns of a pair", bends::turns_of_pair),
    edge("23 pair made one", bends::pair_made_one),
    edge("23 egg made two", bends::egg_made_two),
    edge("23 first of several", bends::first_of_several),
    edge("23 before 8", bends::before_8),
    edge("23 after 7", bends::after_7),
    of_row("8 straight max", plan::straight_max),
    of_row("8 at another speed", speeds::straight_of_other_speed),
    of_row("9 straight min", plan::straight_min),
    edge("9 turns", plan::turns),
    of_row("9 nearest arcs", bends::nearest_arcs),
    edge("9 nearest turns", bends::nearest_turns),
    of_row("10 R min", plan::radius_min),
    of_row("10 at 70 of one book", books::radius_at_70),
    of_row("11 arc min", plan::arc_min),
    of_row("12 clothoid min", plan::clothoid_min),
    of_row("12 just the square", plan::clothoid_square),
    of_row("12 by A min alone", books::clothoid_of_today),
    of_row("12 by length alone", books::clothoid_of_old_handbook),
    of_row("12 egg min", bends::egg_min),
    of_row("12 egg, just the square", bends::egg_square),
    of_row("12 egg by A min alone", books::egg_of_today),
    of_row("12 first of a pair", bends::first_of_pair),
    of_row("12 second of a pair", bends::second_of_pair),
    edge("12 own arc of a pair", bends::own_arc_of_pair),
    of_row("13 grade max", profile::grade_max),
    edge("14 tangent and halves", profile::tangent_and_halves),
    of_row("15 sag", profile::sag),
    of_row("15 crest", profile::crest),
    edge("15 h = 0", profile::no_vertical_curve),
    edge("16 first point", crossfall::first_point),
    edge("16 beyond forerunner", crossfall::beyond_forerunner),
    edge("16 last point", crossfall::last_point),
    edge("17 low", crossfall::least_crossfall),
    edge("17 high", crossfall::greatest_crossfall),
    of_row("18 distance", crossfall::ramp_distance),
    of_row("18 ramp limit", crossfall::ramp_limit),
    of_row("18 just the product", crossfall::ramp_product),
    of_row("18 narrower lane", speeds::narrower_lane),
    edge("19 at arc start", crossfall::ramp_ends_at_arc),
    edge("19 at arc end", crossfall::ramp_begins_at_arc),
    edge("19 change on arc", crossfall::change_on_arc),
    edge("19 inner side", crossfall::inner_side),
    edge("19 left and right", crossfall::left_and_right),
    of_row("19 R'", crossfall::both_falling),
    of_row("19 at another speed", speeds::falling_at_other_speed),
];

/// Bytes made of a road.
fn made(road: &Road, bytes: Vec<u8>, expected: Expected) -> Made {
    Made {
        bytes,
        expected,
        speed: road.speed,
    }
}

fn accepted(road: &Road) -> Made {
    made(road, file(road), Expected::Accepted)
}

fn refused(road: &Road, number: i128) -> Made {
    made(road, file(road), Expected::Refused(number))
}

fn accepted_or(outside: bool, road: &Road, number: i128) -> Made {
    if outside {
        refused(road, number)
    } else {
        accepted(road)
    }
}

fn refused_at(road: &Road, number: i128, place: usize) -> Made {
    made(road, file(road), Expected::RefusedAt(number, place))
}

fn accepted_or_at(outside: bool, road: &Road, number: i128, place: usize) -> Made {
    if outside {
        refused_at(road, number, place)
    } else {
        accepted(road)
    }
}

/// Tries roads until one has the place asked for.
fn road_with<P>(
    random: &mut Random,
    mut make: impl FnMut(&mut Random) -> Road,
    find: impl Fn(&Road) -> Vec<P>,
) -> (Road, P) {
    loop {
        let road = make(random);
        let mut places = find(&road);
        if !places.is_empty() {
            let place = places.swap_remove(random.place(places.len()));
            return (road, place);
        }
    }
}
