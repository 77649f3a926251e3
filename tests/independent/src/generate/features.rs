//! What is special about a road that is not turned away, to see what the files reach.

use super::valid::bends::{eggs, pairs, places_of, EGG_RADIUS_MAX};
use super::valid::books::{limits_under, other_book};
use super::valid::crossfall::arcs;
use super::valid::plan::{least_clothoid_at, BEYOND_64_BITS};
use super::valid::profile::least_half_length;
use reference::file::{Alignment, Contract, CrossfallPoint, Element, Kind};
use reference::limits::{limits, rule_book, speed, LeastClothoid, Limits, RuleBook};
use reference::road;

type Feature = (&'static str, fn(&Alignment, &Limits) -> bool);

pub const FEATURES: [Feature; 100] = [
    ("no contract date", |r, _| r.contract == Contract::Undated),
    ("a date under today's book", |r, _| {
        dated(r, |date| date >= 20120101)
    }),
    ("a date under the old handbook", |r, _| {
        dated(r, |date| date < 20120101)
    }),
    ("19500101", |r, _| dated(r, |date| date == 19500101)),
    ("20111231", |r, _| dated(r, |date| date == 20111231)),
    ("20120101", |r, _| dated(r, |date| date == 20120101)),
    ("20991231", |r, _| dated(r, |date| date == 20991231)),
    ("29 February", |r, _| dated(r, |date| date % 10_000 == 229)),
    ("70 km/h, radius below 180,000", |r, _| {
        speed(r.class, r.terrain) == 70
            && any(r, |e| e.kind == Kind::Arc && e.radius.abs() < 180_000)
    }),
    ("70 km/h, R min 180,000", |r, l| {
        speed(r.class, r.terrain) == 70
            && l.radius_min == 180_000
            && any(r, |e| e.radius.abs() == 180_000)
    }),
    ("clothoid at the least length", |r, l| {
        matches!(l.clothoid, LeastClothoid::Length(_)) && clothoid_at_min(r, l)
    }),
    ("clothoid by A min alone", |r, _| {
        clothoid_of_one_book(r, RuleBook::Today)
    }),
    ("clothoid by length alone", |r, _| {
        clothoid_of_one_book(r, RuleBook::OldHandbook)
    }),
    ("an egg", |r, _| egg(r, |_, _, _| true)),
    ("an egg, right turn", |r, _| {
        egg(r, |_, a, b| a > 0 && b > 0)
    }),
    ("an egg, left turn", |r, _| egg(r, |_, a, b| a < 0 && b < 0)),
    ("an egg, sharper", |r, _| {
        egg(r, |_, a, b| a.abs() > b.abs())
    }),
    ("an egg, wider", |r, _| egg(r, |_, a, b| a.abs() < b.abs())),
    ("an egg, radius 1,000,000 first", |r, _| {
        egg(r, |_, a, _| a.abs() == EGG_RADIUS_MAX)
    }),
    ("an egg, radius 1,000,000 last", |r, _| {
        egg(r, |_, _, b| b.abs() == EGG_RADIUS_MAX)
    }),
    ("an egg, radii 1 apart", |r, _| {
        egg(r, |_, a, b| (a - b).abs() == 1)
    }),
    ("an egg, radius at R min", |r, l| {
        egg(r, |_, a, b| a.abs().min(b.abs()) == l.radius_min)
    }),
    ("an egg of 1", |r, _| egg(r, |length, _, _| length == 1)),
    ("an egg of 10,000,000", |r, _| {
        egg(r, |length, _, _| length == 10_000_000)
    }),
    ("an egg, product over 64 bits", |r, _| {
        egg(r, |length, a, b| length * a * b >= BEYOND_64_BITS)
    }),
    ("an egg at its min", |r, l| {
        at_least_length(r, l, &eggs(&r.elements))
    }),
    ("an egg, just A min squared", egg_just_square),
    ("two eggs in a row", |r, _| in_a_row(r, eggs, eggs, 2)),
    ("a pair", |r, _| pair_of_clothoids(r, |_, _| true)),
    ("a pair, right to left", |r, _| {
        pair_of_clothoids(r, |a, b| a > 0 && b < 0)
    }),
    ("a pair, left to right", |r, _| {
        pair_of_clothoids(r, |a, b| a < 0 && b > 0)
    }),
    ("a pair, equal radii", |r, _| {
        pair_of_clothoids(r, |a, b| a == -b)
    }),
    ("a pair, radius over 1,000,000", |r, _| {
        pair_of_clothoids(r, |a, b| a.abs().max(b.abs()) > EGG_RADIUS_MAX)
    }),
    ("a pair, first at its min", |r, l| {
        at_least_length(
            r,
            l,
            &pairs(&r.elements).iter().map(|p| p - 1).collect::<Vec<_>>(),
        )
    }),
    ("a pair, second at its min", |r, l| {
        at_least_length(r, l, &pairs(&r.elements))
    }),
    ("two pairs in a row", |r, _| in_a_row(r, pairs, pairs, 3)),
    ("a pair after an egg", |r, _| in_a_row(r, eggs, pairs, 3)),
    ("an egg after a pair", |r, _| in_a_row(r, pairs, eggs, 2)),
    ("short straight beside a pair", short_straight_beside_pair),
    ("crossfall changes on an egg", |r, _| {
        crossfall_on_egg(r, |change| change != 0)
    }),
    ("crossfall stays on an egg", |r, _| {
        crossfall_on_egg(r, |change| change == 0)
    }),
    ("40 km/h", |r, _| speed(r.class, r.terrain) == 40),
    ("50 km/h", |r, _| speed(r.class, r.terrain) == 50),
    ("60 km/h", |r, _| speed(r.class, r.terrain) == 60),
    ("70 km/h", |r, _| speed(r.class, r.terrain) == 70),
    ("80 km/h", |r, _| speed(r.class, r.terrain) == 80),
    ("100 km/h", |r, _| speed(r.class, r.terrain) == 100),
    ("step 1,000", |r, _| r.step == 1_000),
    ("step 100,000", |r, _| r.step == 100_000),
    ("T a multiple of step", |r, _| {
        r.total_length() % r.step == 0
    }),
    ("T 1 past a multiple of step", |r, _| {
        r.total_length() % r.step == 1
    }),
    ("T 1 before a multiple of step", |r, _| {
        (r.total_length() + 1) % r.step == 0
    }),
    ("ramp limit 1", |r, _| r.ramp_limit == 1),
    ("ramp limit 20,000", |r, _| r.ramp_limit == 20_000),
    ("1 element", |r, _| r.elements.len() == 1),
    ("5 elements", |r, _| r.elements.len() == 5),
    ("197 elements", |r, _| r.elements.len() == 197),
    ("200 elements", |r, _| r.elements.len() == 200),
    ("T = 100,000,000", |r, _| r.total_length() == 100_000_000),
    ("T below step", |r, _| r.total_length() < r.step),
    ("an element of 1", |r, _| any(r, |e| e.length == 1)),
    ("an element of 10,000,000", |r, _| {
        any(r, |e| e.length == 10_000_000)
    }),
    ("a right turn", |r, _| any(r, |e| e.radius > 0)),
    ("a left turn", |r, _| any(r, |e| e.radius < 0)),
    ("radius 10,000,000", |r, _| {
        any(r, |e| e.radius == 10_000_000)
    }),
    ("radius -10,000,000", |r, _| {
        any(r, |e| e.radius == -10_000_000)
    }),
    ("straight at its max", |r, l| straight(r, l.straight_max)),
    ("straight at its min", |r, l| straight(r, l.straight_min)),
    ("radius at R min", |r, l| {
        any(r, |e| e.radius.abs() == l.radius_min)
    }),
    ("arc at its min", |r, l| {
        any(r, |e| e.kind == Kind::Arc && e.length == l.arc_min)
    }),
    ("clothoid at its min", clothoid_at_min),
    ("start height -500,000", |r, _| r.start_height == -500_000),
    ("start height 3,000,000", |r, _| r.start_height == 3_000_000),
    ("start height below 0", |r, _| r.start_height < 0),
    ("ends above 5,000,000", |r, _| end_height(r) > 5_000_000),
    ("ends below -5,000,000", |r, _| end_height(r) < -5_000_000),
    ("1 tangent", |r, _| r.tangents.len() == 1),
    ("100 tangents", |r, _| r.tangents.len() == 100),
    ("a tangent of 1", |r, _| {
        r.tangents.iter().any(|t| t.length == 1)
    }),
    ("a tangent of 10,000,000", |r, _| {
        r.tangents.iter().any(|t| t.length == 10_000_000)
    }),
    ("grade at its max", |r, l| {
        r.tangents.iter().any(|t| t.grade == l.grade_max)
    }),
    ("grade at minus its max", |r, l| {
        r.tangents.iter().any(|t| t.grade == -l.grade_max)
    }),
    ("vertex with h = 0", |r, _| vertex(r, |h, _| h == 0)),
    ("h = 1", |r, _| vertex(r, |h, _| h == 1)),
    ("h = 1,000,000", |r, _| vertex(r, |h, _| h == 1_000_000)),
    ("h > 0, equal grades", |r, _| {
        vertex(r, |h, change| h > 0 && change == 0)
    }),
    ("sag at its min", |r, l| {
        vertex(r, |h, c| c > 0 && h == least_half_length(l, c))
    }),
    ("crest at its min", |r, l| {
        vertex(r, |h, c| c < 0 && h == least_half_length(l, c))
    }),
    ("2h x 10^6 just the product", exact_vertical_radius),
    ("curves that touch", touching_curves),
    ("2 crossfall points", |r, _| r.points.len() == 2),
    ("200 crossfall points", |r, _| r.points.len() == 200),
    ("points 1 apart", |r, _| {
        pair(r, |a, b| b.station - a.station == 1)
    }),
    ("crossfall 70,000", |r, _| {
        r.points.iter().any(|p| p.left == 70_000)
    }),
    ("crossfall through 0", |r, _| {
        pair(r, |a, b| a.left.signum() != b.left.signum())
    }),
    ("ramp just at the limit", exact_ramp),
    ("arc superelevated", |r, _| {
        on_arc(r, |left, right| left == -right)
    }),
    ("arc with both sides falling", |r, _| {
        on_arc(r, |left, right| left == right)
    }),
    ("... at radius R'", falling_at_least_radius),
    ("ramp ends where an arc starts", ramp_meets_arc),
];

/// Whether a road has each of the features.
pub fn features(road: &Alignment) -> [bool; FEATURES.len()] {
    let limits = limits(road);
    FEATURES.map(|(_, has)| has(road, &limits))
}

fn dated(road: &Alignment, has: impl Fn(i128) -> bool) -> bool {
    match road.contract {
        Contract::Undated => false,
        Contract::Dated(date) => has(date),
    }
}

fn any(road: &Alignment, has: impl Fn(&Element) -> bool) -> bool {
    road.elements.iter().any(has)
}

fn straight(road: &Alignment, length: Option<i128>) -> bool {
    any(road, |element| {
        element.kind == Kind::Straight && Some(element.length) == length
    })
}

fn clothoid_at_min(road: &Alignment, limits: &Limits) -> bool {
    at_least_length(road, limits, &places_of(&road.elements, Kind::Clothoid))
}

/// One of the clothoids at these places is as short as it may be.
fn at_least_length(road: &Alignment, limits: &Limits, clothoids: &[usize]) -> bool {
    clothoids.iter().any(|&place| {
        road.elements[place].length == least_clothoid_at(limits, &road.elements, place)
    })
}

/// An egg of such a length between such radii.
fn egg(road: &Alignment, has: impl Fn(i128, i128, i128) -> bool) -> bool {
    let elements = &road.elements;
    eggs(elements).iter().any(|&place| {
        let (before, after) = (elements[place - 1].radius, elements[place + 1].radius);
        has(elements[place].length, before, after)
    })
}

fn egg_just_square(road: &Alignment, limits: &Limits) -> bool {
    let LeastClothoid::Parameter(parameter) = limits.clothoid else {
        return false;
    };
    egg(road, |length, before, after| {
        length * before * after == parameter * parameter * (before - after).abs()
    })
}

/// A pair between such radii.
fn pair_of_clothoids(road: &Alignment, has: impl Fn(i128, i128) -> bool) -> bool {
    let elements = &road.elements;
    pairs(elements)
        .iter()
        .any(|&second| has(elements[second - 2].radius, elements[second + 1].radius))
}

/// A place of one list and, so many elements later, one of another.
fn in_a_row(
    road: &Alignment,
    first: fn(&[Element]) -> Vec<usize>,
    then: fn(&[Element]) -> Vec<usize>,
    distance: usize,
) -> bool {
    let later = then(&road.elements);
    let mut places = first(&road.elements).into_iter();
    places.any(|place| later.contains(&(place + distance)))
}

/// A straight that is too short between arcs of one turn, with a reversing bend directly before or after it.
fn short_straight_beside_pair(road: &Alignment, limits: &Limits) -> bool {
    let elements = &road.elements;
    let pairs = pairs(elements);
    let is_short = |straight: &usize| {
        let length = elements[*straight].length;
        limits.straight_min.is_some_and(|least| length < least)
    };
    let inner = 1..elements.len() - 1;
    let mut straights = places_of(elements, Kind::Straight).into_iter();
    straights.any(|straight| {
        // From a pair's second clothoid on: arc, clothoid, straight, clothoid, arc, clothoid, clothoid.
        let before = straight.checked_sub(3).is_some_and(|p| pairs.contains(&p));
        let after = pairs.contains(&(straight + 4));
        inner.contains(&straight) && is_short(&straight) && (before || after)
    })
}

/// An egg along which the left crossfall changes by so much.
fn crossfall_on_egg(road: &Alignment, has: impl Fn(i128) -> bool) -> bool {
    let starts = road::element_starts(road);
    let left = |station| road::crossfall(road, station, |point| point.left).rounded();
    eggs(&road.elements)
        .iter()
        .any(|&egg| has(left(starts[egg + 1]) - left(starts[egg])))
}

/// A road of a rule book with a clothoid that the other one would refuse.
fn clothoid_of_one_book(road: &Alignment, book: RuleBook) -> bool {
    let other = limits_under(other_book(book), speed(road.class, road.terrain));
    let too_short = |&place: &usize| {
        road.elements[place].length < least_clothoid_at(&other, &road.elements, place)
    };
    let clothoids = places_of(&road.elements, Kind::Clothoid);
    rule_book(road.contract) == book && clothoids.iter().any(too_short)
}

fn end_height(road: &Alignment) -> i128 {
    road::height(road, road.total_length()).rounded()
}

/// A vertex with such a half length and change of grade.
fn vertex(road: &Alignment, has: impl Fn(i128, i128) -> bool) -> bool {
    (0..road.tangents.len() - 1).any(|vertex| {
        let change = road::change_of_grade(road, vertex);
        has(road.tangents[vertex].half_length, change)
    })
}

fn exact_vertical_radius(road: &Alignment, limits: &Limits) -> bool {
    vertex(road, |h, change| {
        let radius = if change > 0 {
            limits.sag_radius
        } else {
            limits.crest_radius
        };
        change != 0 && 2 * h * 1_000_000 == radius * change.abs()
    })
}

fn touching_curves(road: &Alignment, _: &Limits) -> bool {
    road.tangents.windows(2).any(|pair| {
        let (before, after) = (pair[0].half_length, pair[1].half_length);
        before > 0 && after > 0 && pair[1].length == before + after
    })
}

fn pair(road: &Alignment, has: impl Fn(&CrossfallPoint, &CrossfallPoint) -> bool) -> bool {
    road.points.windows(2).any(|pair| has(&pair[0], &pair[1]))
}

fn exact_ramp(road: &Alignment, limits: &Limits) -> bool {
    pair(road, |a, b| {
        let change = (b.left - a.left).abs().max((b.right - a.right).abs());
        change > 0 && limits.lane_width * change == road.ramp_limit * (b.station - a.station)
    })
}

fn on_arc(road: &Alignment, has: impl Fn(i128, i128) -> bool) -> bool {
    arcs(&road.elements).iter().any(|arc| {
        let left = road::crossfall(road, arc.start, |point| point.left).rounded();
        let right = road::crossfall(road, arc.start, |point| point.right).rounded();
        has(left, right)
    })
}

fn falling_at_least_radius(road: &Alignment, limits: &Limits) -> bool {
    arcs(&road.elements).iter().any(|arc| {
        let left = road::crossfall(road, arc.start, |point| point.left).rounded();
        let right = road::crossfall(road, arc.start, |point| point.right).rounded();
        left == right && Some(arc.radius.abs()) == limits.radius_both_falling
    })
}

fn ramp_meets_arc(road: &Alignment, _: &Limits) -> bool {
    arcs(&road.elements)
        .iter()
        .any(|arc| pair(road, |a, b| b.station == arc.start && a.left != b.left))
}
