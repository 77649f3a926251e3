//! "Numbers that turn a file away", refusals 5 to 19 and 23.
//!
//! Each function gives the items that break its rule, in order. "The lowest refusal wins", so a
//! rule is only asked where those that it takes for granted hold.

use crate::file::{Alignment, CrossfallPoint, Element, Kind, Refusal};
use crate::fraction::Fraction;
use crate::limits::{limits, LeastClothoid, Limits};
use crate::road;

/// The greatest radius of an arc beside an egg, unsigned.
pub const EGG_RADIUS_MAX: i128 = 1_000_000;

struct Rule {
    number: i128,
    /// The rules without which this one has no meaning, by today's rule book.
    rests_on: &'static [i128],
    broken_at: fn(&Alignment, &Limits) -> Vec<usize>,
}

const fn rule(
    number: i128,
    rests_on: &'static [i128],
    broken_at: fn(&Alignment, &Limits) -> Vec<usize>,
) -> Rule {
    Rule {
        number,
        rests_on,
        broken_at,
    }
}

/// In the order in which they are asked: 23 comes "right after 7".
const RULES: [Rule; 16] = [
    rule(5, &[], plan_too_long),
    rule(6, &[], tangents_do_not_add_up),
    rule(7, &[], wrong_kind),
    rule(23, &[7], wrong_egg_or_pair),
    rule(8, &[], straight_too_long),
    rule(9, &[7], straight_too_short),
    rule(10, &[], radius_too_small),
    rule(11, &[], arc_too_short),
    rule(12, &[7], clothoid_too_short),
    rule(13, &[], grade_too_steep),
    rule(14, &[], tangent_too_short),
    rule(15, &[], vertical_curve_too_sharp),
    rule(16, &[], point_misplaced),
    rule(17, &[], crossfall_outside_limits),
    rule(18, &[16], ramp_too_steep),
    rule(19, &[7, 16], wrong_crossfall_on_arc),
];

/// The rules from 5 on, with the row of the road's own class and terrain.
pub fn judge(alignment: &Alignment) -> Result<(), Refusal> {
    judge_with(alignment, &limits(alignment))
}

/// "from 5 on, the lowest refusal wins, then the first item"; 23 is asked between 7 and 8. The row decides every
/// limit, the lane width of refusal 18 too.
pub fn judge_with(alignment: &Alignment, limits: &Limits) -> Result<(), Refusal> {
    for rule in &RULES {
        if let Some(&place) = (rule.broken_at)(alignment, limits).first() {
            return Err(refusal(rule.number, place));
        }
    }
    Ok(())
}

fn refusal(number: i128, place: usize) -> Refusal {
    let place = place as i128;
    Refusal { number, place }
}

/// Every rule from 5 on, asked of every item.
#[derive(Clone, Debug, Default)]
pub struct Judgement {
    /// Each broken rule with each item that breaks it, in the order of the rules, then of the items.
    pub broken: Vec<Refusal>,
    /// The rules that could not be asked, since one that they rest on is broken.
    pub not_asked: Vec<i128>,
}

/// A least clothoid length needs no arc, so it can be asked of elements in any order.
fn rests_on(rule: &Rule, limits: &Limits) -> &'static [i128] {
    match (rule.number, limits.clothoid) {
        (12, LeastClothoid::Length(_)) => &[],
        _ => rule.rests_on,
    }
}

/// Every broken rule at once; the first of them is the one that turns the file away.
pub fn judge_all(alignment: &Alignment) -> Judgement {
    let limits = limits(alignment);
    let mut judgement = Judgement::default();
    for rule in &RULES {
        let is_broken = |number: &i128| judgement.broken.iter().any(|r| r.number == *number);
        if rests_on(rule, &limits).iter().any(is_broken) {
            judgement.not_asked.push(rule.number);
            continue;
        }
        let places = (rule.broken_at)(alignment, &limits);
        let refusals = places.iter().map(|&place| refusal(rule.number, place));
        judgement.broken.extend(refusals);
    }
    judgement
}

/// The elements of a kind that have a fault.
fn all_of_kind(
    alignment: &Alignment,
    kind: Kind,
    faulty: impl Fn(usize, &Element) -> bool,
) -> Vec<usize> {
    places(alignment.elements.len(), |place| {
        let element = &alignment.elements[place];
        element.kind == kind && faulty(place, element)
    })
}

/// The places, of so many, that have a fault.
fn places(count: usize, faulty: impl Fn(usize) -> bool) -> Vec<usize> {
    (0..count).filter(|&place| faulty(place)).collect()
}

/// Refusal 5: "The running plan length passes 100,000,000 (place: element)."
fn plan_too_long(alignment: &Alignment, _: &Limits) -> Vec<usize> {
    let mut running = 0;
    for (place, element) in alignment.elements.iter().enumerate() {
        running += element.length;
        if running > 100_000_000 {
            return vec![place];
        }
    }
    Vec::new()
}

/// Refusal 6: "The tangents do not add up to T (place 0)."
fn tangents_do_not_add_up(alignment: &Alignment, _: &Limits) -> Vec<usize> {
    let sum: i128 = alignment
        .tangents
        .iter()
        .map(|tangent| tangent.length)
        .sum();
    places(1, |_| sum != alignment.total_length())
}

/// Refusal 7 "takes the wider pattern, still beginning and ending with a straight; its place is the first element
/// whose kind no allowed order, however long, can have after the kinds before it, or the plan count where it stops
/// short."
fn wrong_kind(alignment: &Alignment, _: &Limits) -> Vec<usize> {
    let kinds: Vec<Kind> = alignment.elements.iter().map(|e| e.kind).collect();
    let wrong = |&place: &usize| !kinds_after(&kinds[..place]).contains(&kinds[place]);
    let first_wrong = (0..kinds.len()).find(wrong);
    let stops_short = (kinds.last() != Some(&Kind::Straight)).then_some(kinds.len());
    first_wrong.or(stops_short).into_iter().collect()
}

/// The kinds that may come next. Any order of these can be brought to an end with a straight.
pub fn kinds_after(kinds: &[Kind]) -> &'static [Kind] {
    match kinds {
        // "beginning [..] with a straight"
        [] => &[Kind::Straight],
        [.., Kind::Straight | Kind::Arc] => &[Kind::Clothoid],
        // A bend ends, "One clothoid may stand between two arcs", "Two clothoids may now follow one another".
        [.., Kind::Arc, Kind::Clothoid] => &[Kind::Straight, Kind::Arc, Kind::Clothoid],
        // The clothoid after a straight, and the second one of a pair: both lead to an arc.
        [.., Kind::Clothoid] => &[Kind::Arc],
    }
}

/// Refusal 23: "An egg with equal radii, opposite turns or a radius, unsigned, over 1,000,000 mm, or a pair of
/// clothoids between arcs of the same turn, is refused with 23 right after 7, its place being the clothoid, the
/// second one of a pair."
fn wrong_egg_or_pair(alignment: &Alignment, _: &Limits) -> Vec<usize> {
    all_of_kind(alignment, Kind::Clothoid, |place, _| {
        wrong_egg(alignment, place) || ends_wrong_pair(alignment, place)
    })
}

/// "An egg with equal radii, opposite turns or a radius, unsigned, over 1,000,000 mm"
fn wrong_egg(alignment: &Alignment, clothoid: usize) -> bool {
    let Some((before, after)) = road::arcs_of_egg(alignment, clothoid) else {
        return false;
    };
    let (first, second) = (before.radius.abs(), after.radius.abs());
    first == second || !same_turn(&before, &after) || first.max(second) > EGG_RADIUS_MAX
}

/// The second clothoid of a pair "between arcs of the same turn".
fn ends_wrong_pair(alignment: &Alignment, clothoid: usize) -> bool {
    let is_second = |first: &usize| first + 1 == clothoid;
    let pair = road::pair_of_clothoid(alignment, clothoid).filter(is_second);
    let arcs = pair.and_then(|first| road::arcs_of_pair(alignment, first));
    arcs.is_some_and(|(before, after)| same_turn(&before, &after))
}

fn same_turn(arc: &Element, other: &Element) -> bool {
    arc.radius.signum() == other.radius.signum()
}

/// Refusal 8: "A straight is longer than straight max (place: element)."
fn straight_too_long(alignment: &Alignment, limits: &Limits) -> Vec<usize> {
    let Some(straight_max) = limits.straight_max else {
        return Vec::new();
    };
    all_of_kind(alignment, Kind::Straight, |_, straight| {
        straight.length > straight_max
    })
}

/// Refusal 9: "A straight between bends of the same turn is shorter than straight min (place:
/// element)"; it "looks at the nearest arc on either side of a straight".
fn straight_too_short(alignment: &Alignment, limits: &Limits) -> Vec<usize> {
    let Some(straight_min) = limits.straight_min else {
        return Vec::new();
    };
    all_of_kind(alignment, Kind::Straight, |place, straight| {
        between_same_turns(alignment, place) && straight.length < straight_min
    })
}

/// An arc on both sides, however far, the nearest ones of the same turn.
fn between_same_turns(alignment: &Alignment, straight: usize) -> bool {
    let is_arc = |element: &&Element| element.kind == Kind::Arc;
    let before = alignment.elements[..straight].iter().rfind(is_arc);
    let after = alignment.elements[straight..].iter().find(is_arc);
    match (before, after) {
        (Some(before), Some(after)) => same_turn(before, after),
        _ => false,
    }
}

/// Refusal 10: "An arc's radius, unsigned, is below R min (place: element)."
fn radius_too_small(alignment: &Alignment, limits: &Limits) -> Vec<usize> {
    all_of_kind(alignment, Kind::Arc, |_, arc| {
        arc.radius.abs() < limits.radius_min
    })
}

/// Refusal 11: "An arc is shorter than arc min (place: element)."
fn arc_too_short(alignment: &Alignment, limits: &Limits) -> Vec<usize> {
    all_of_kind(alignment, Kind::Arc, |_, arc| arc.length < limits.arc_min)
}

/// Refusal 12: "A clothoid's length times its arc's unsigned radius is below A min squared (place:
/// element)"; by the old handbook its length alone is below the least clothoid length.
fn clothoid_too_short(alignment: &Alignment, limits: &Limits) -> Vec<usize> {
    all_of_kind(alignment, Kind::Clothoid, |place, clothoid| {
        match limits.clothoid {
            LeastClothoid::Parameter(parameter) => below_parameter(alignment, place, parameter),
            LeastClothoid::Length(length) => clothoid.length < length,
        }
    })
}

/// A squared is below A min squared: length x radius, each clothoid of a pair with its own arc. "For the egg, A
/// squared is length x R1 x R2 / |R1 - R2|, unsigned".
fn below_parameter(alignment: &Alignment, clothoid: usize, parameter: i128) -> bool {
    let length = alignment.elements[clothoid].length;
    let least = parameter * parameter;
    match road::arcs_of_egg(alignment, clothoid) {
        Some((before, after)) => {
            let (first, second) = (before.radius.abs(), after.radius.abs());
            length * first * second < least * (first - second).abs()
        }
        None => {
            let radius = road::arc_of_clothoid(alignment, clothoid).radius;
            length * radius.abs() < least
        }
    }
}

/// Refusal 13: "A grade, unsigned, is over grade max (place: tangent)."
fn grade_too_steep(alignment: &Alignment, limits: &Limits) -> Vec<usize> {
    let tangents = &alignment.tangents;
    places(tangents.len(), |place| {
        tangents[place].grade.abs() > limits.grade_max
    })
}

/// Refusal 14: "A tangent is shorter than the half lengths at its ends together (place: tangent)."
fn tangent_too_short(alignment: &Alignment, _: &Limits) -> Vec<usize> {
    let tangents = &alignment.tangents;
    places(tangents.len(), |place| {
        let half_at_start = if place == 0 {
            0
        } else {
            tangents[place - 1].half_length
        };
        let half_at_end = tangents[place].half_length;
        tangents[place].length < half_at_start + half_at_end
    })
}

/// Refusal 15: "2h x 10^6 is below the vertical radius x |g2 - g1|, sag R where g2 > g1, else
/// crest R (place: vertex)."
fn vertical_curve_too_sharp(alignment: &Alignment, limits: &Limits) -> Vec<usize> {
    let tangents = &alignment.tangents;
    places(tangents.len() - 1, |vertex| {
        let (before, after) = (tangents[vertex].grade, tangents[vertex + 1].grade);
        let radius = if after > before {
            limits.sag_radius
        } else {
            limits.crest_radius
        };
        2 * tangents[vertex].half_length * 1_000_000 < radius * (after - before).abs()
    })
}

/// Refusal 16: "Point 0 is not at 0, a point is not beyond its forerunner, or the last is not at T
/// (place: point)."
fn point_misplaced(alignment: &Alignment, _: &Limits) -> Vec<usize> {
    let points = &alignment.points;
    places(points.len(), |place| {
        let station = points[place].station;
        let start_wrong = place == 0 && station != 0;
        let not_beyond = place > 0 && station <= points[place - 1].station;
        let end_wrong = place == points.len() - 1 && station != alignment.total_length();
        start_wrong || not_beyond || end_wrong
    })
}

/// Refusal 17: "A crossfall, unsigned, is below 25,000 or above 70,000 (place: point)."
fn crossfall_outside_limits(alignment: &Alignment, _: &Limits) -> Vec<usize> {
    let outside = |crossfall: i128| crossfall.abs() < 25_000 || crossfall.abs() > 70_000;
    let points = &alignment.points;
    places(points.len(), |place| {
        outside(points[place].left) || outside(points[place].right)
    })
}

/// Refusal 18: "Lane width x change of crossfall of a side, unsigned, exceeds ramp limit x distance
/// to the next point (place: first point of the pair)."
fn ramp_too_steep(alignment: &Alignment, limits: &Limits) -> Vec<usize> {
    let points = &alignment.points;
    places(points.len() - 1, |place| {
        let (here, next) = (&points[place], &points[place + 1]);
        let allowed = alignment.ramp_limit * (next.station - here.station);
        let left = limits.lane_width * (next.left - here.left).abs();
        let right = limits.lane_width * (next.right - here.right).abs();
        left > allowed || right > allowed
    })
}

/// Refusal 19: "On an arc a crossfall changes, or it is neither left = -right with the inner side
/// negative, nor -25,000 on both sides with radius, unsigned, at least R' (place: element)."
fn wrong_crossfall_on_arc(alignment: &Alignment, limits: &Limits) -> Vec<usize> {
    let starts = road::element_starts(alignment);
    all_of_kind(alignment, Kind::Arc, |place, arc| {
        let start = starts[place];
        let left = constant_between(alignment, start, start + arc.length, |point| point.left);
        let right = constant_between(alignment, start, start + arc.length, |point| point.right);
        match (left, right) {
            (Some(left), Some(right)) => {
                !superelevated(arc, left, right) && !both_falling(arc, left, right, limits)
            }
            _ => true,
        }
    })
}

/// A side's crossfall from one station to another, ends included, or none where it changes.
/// It is straight between neighbouring points, so the ends and the points between tell.
fn constant_between(
    alignment: &Alignment,
    from: i128,
    to: i128,
    side: fn(&CrossfallPoint) -> i128,
) -> Option<Fraction> {
    let at_start = road::crossfall(alignment, from, side);
    let at_end = road::crossfall(alignment, to, side);
    let points_agree = alignment
        .points
        .iter()
        .filter(|point| from < point.station && point.station < to)
        .all(|point| at_start.equals(Fraction::whole(side(point))));
    (at_start.equals(at_end) && points_agree).then_some(at_start)
}

/// "left = -right with the inner side negative"; the inner side is the right one for a right turn.
fn superelevated(arc: &Element, left: Fraction, right: Fraction) -> bool {
    let inner = if arc.radius > 0 { right } else { left };
    let opposite = Fraction::new(-right.numerator, right.denominator);
    left.equals(opposite) && inner.numerator < 0
}

/// "-25,000 on both sides with radius, unsigned, at least R'"
fn both_falling(arc: &Element, left: Fraction, right: Fraction, limits: &Limits) -> bool {
    let falling = Fraction::whole(-25_000);
    match limits.radius_both_falling {
        Some(least) => left.equals(falling) && right.equals(falling) && arc.radius.abs() >= least,
        None => false,
    }
}
