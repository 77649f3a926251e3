//! The limit of a speed that a road breaks there.

use reference::file::{Alignment, Refusal};
use reference::limits::limits_at;
use reference::road::change_of_grade;

use super::verdicts::Verdict;
use crate::language::Language;
use crate::rule_book::{clothoid_limit, lane, metres, metres_or_none, percent, Line};
use crate::words::limits as words;

/// The limit that a refusal names an item for; none of a rule that is the same at every speed.
pub fn broken(road: &Alignment, verdict: Verdict, language: Language) -> Option<Line> {
    let row = limits_at(verdict.speed.into(), road.contract);
    let metres = |value| metres(value, language);
    let metres_or_none = |value| metres_or_none(value, language);
    let refusal = verdict.refusal?;
    let (name, value) = match refusal.number {
        8 => (words::STRAIGHT_MAX, metres_or_none(row.straight_max)),
        9 => (words::STRAIGHT_MIN, metres_or_none(row.straight_min)),
        10 => (words::RADIUS_MIN, metres(row.radius_min)),
        11 => (words::ARC_MIN, metres(row.arc_min)),
        12 => {
            let (name, least) = clothoid_limit(row.clothoid);
            (name, metres(least))
        }
        13 => (words::GRADE_MAX, percent(row.grade_max, language)),
        15 if is_sag(road, refusal) => (words::SAG_RADIUS, metres(row.sag_radius)),
        15 => (words::CREST_RADIUS, metres(row.crest_radius)),
        18 => (words::LANE, lane(row.lane_width, language)),
        19 => {
            let least = metres_or_none(row.radius_both_falling);
            (words::RADIUS_BOTH_FALLING, least)
        }
        _ => return None,
    };
    let name = language.say(name, &[]);
    Some(Line { name, value })
}

/// "sag R where g2 > g1, else crest R"
fn is_sag(road: &Alignment, refusal: Refusal) -> bool {
    change_of_grade(road, refusal.place as usize) > 0
}
