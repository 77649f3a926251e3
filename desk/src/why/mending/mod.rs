//! A road that no longer breaks a rule: candidates in a sensible order, judged by the second reading of the paper; the
//! one that is taken is held against the library.

mod cross_section;
mod file;
mod plan;
mod points;
mod profile;
mod ranges;
mod tangents;

#[cfg(test)]
mod tests;

use reference::file::{Alignment, Kind, Refusal};
use reference::limits::{limits, Limits};
use reference::rules::{judge_all, Judgement};

/// A road with the rules that it breaks.
struct Case<'a> {
    road: &'a Alignment,
    judgement: &'a Judgement,
    limits: Limits,
}

impl<'a> Case<'a> {
    fn new(road: &'a Alignment, judgement: &'a Judgement) -> Case<'a> {
        let limits = limits(road);
        Case {
            road,
            judgement,
            limits,
        }
    }

    fn is_broken(&self, number: i128, place: usize) -> bool {
        let place = place as i128;
        is_among(&self.judgement.broken, Refusal { number, place })
    }

    fn is_asked(&self, number: i128) -> bool {
        !self.judgement.not_asked.contains(&number)
    }

    /// Whether a rule was asked of the item; 12 is asked of clothoids alone.
    fn is_asked_of(&self, refusal: Refusal) -> bool {
        let element = self.road.elements.get(refusal.place as usize);
        let is_clothoid = element.is_some_and(|element| element.kind == Kind::Clothoid);
        self.is_asked(refusal.number) && (refusal.number != 12 || is_clothoid)
    }
}

/// The broken rules stand in the order in which they are asked, then of their items.
fn is_among(broken: &[Refusal], refusal: Refusal) -> bool {
    let order = |refusal: &Refusal| (asked_as(refusal.number), refusal.place);
    broken.binary_search_by_key(&order(&refusal), order).is_ok()
}

/// Rules are asked in the order of their numbers, but 23 right after 7.
fn asked_as(number: i128) -> (i128, bool) {
    match number {
        23 => (7, true),
        _ => (number, false),
    }
}

/// What a search for a road comes to.
pub enum Mending {
    Found(Alignment),
    /// None, and why the first candidate is none.
    Obstacle(Obstacle),
}

#[derive(Clone, Copy, Debug, PartialEq, Eq)]
pub enum Obstacle {
    /// It breaks a rule at an item where it was not broken before.
    Breaks(Refusal),
    /// A number of it is outside its range.
    Unwritable,
    /// The library and the second reading differ about it.
    Disputed,
    /// Lines would have to be added or taken away.
    NoCandidate,
}

/// The first candidate after which the rule is not broken at this item, and none where it was not before.
pub fn mended(road: &Alignment, judgement: &Judgement, broken: Refusal) -> Mending {
    let case = Case::new(road, judgement);
    let mut obstacle = None;
    let mut next_best = None;
    for candidate in candidates(&case, broken) {
        match verdict(&case, broken, &candidate) {
            Verdict::Mended => return Mending::Found(candidate),
            Verdict::MendedSoFar => next_best = next_best.or(Some(candidate)),
            Verdict::Not(why) => obstacle = obstacle.or(Some(why)),
        }
    }
    match (next_best, obstacle) {
        (Some(candidate), _) => Mending::Found(candidate),
        // another element is out of order then
        (None, None | Some(Obstacle::Breaks(Refusal { number: 7, .. }))) => {
            Mending::Obstacle(Obstacle::NoCandidate)
        }
        (None, Some(obstacle)) => Mending::Obstacle(obstacle),
    }
}

enum Verdict {
    Mended,
    /// It breaks rules that could not be asked before.
    MendedSoFar,
    Not(Obstacle),
}

fn verdict(case: &Case, broken: Refusal, candidate: &Alignment) -> Verdict {
    if !ranges::are_kept(candidate) {
        return Verdict::Not(Obstacle::Unwritable);
    }
    let after = judge_all(candidate).broken;
    if is_among(&after, broken) {
        return Verdict::Not(Obstacle::Breaks(broken));
    }
    let before = &case.judgement.broken;
    let new = after.iter().filter(|&&refusal| !is_among(before, refusal));
    let (asked, not_asked): (Vec<_>, Vec<_>) = new.partition(|&&refusal| case.is_asked_of(refusal));
    match (asked.first(), not_asked.first()) {
        (Some(&&refusal), _) => Verdict::Not(Obstacle::Breaks(refusal)),
        _ if !is_agreed(candidate, after.first()) => Verdict::Not(Obstacle::Disputed),
        (None, Some(_)) => Verdict::MendedSoFar,
        (None, None) => Verdict::Mended,
    }
}

/// Whether the library answers a road with the same refusal, or with none.
fn is_agreed(candidate: &Alignment, refusal: Option<&Refusal>) -> bool {
    let answer = proved::next_station(&file::file(candidate), 0).err();
    let answer = answer.map(|refusal| (refusal.number().into(), refusal.place().into()));
    answer == refusal.map(|refusal| (refusal.number, refusal.place))
}

fn candidates(case: &Case, broken: Refusal) -> Vec<Alignment> {
    let place = broken.place as usize;
    match broken.number {
        6 => profile::added_up(case),
        5 | 7..=12 | 23 => plan::candidates(case, broken.number, place),
        13 => profile::with_grade(case, place),
        14 => profile::with_longer_tangent(case, place),
        15 => profile::with_longer_curve(case, place),
        16 => cross_section::with_station(case, place),
        17 => cross_section::with_crossfalls(case, place),
        18 => cross_section::with_longer_ramp(case, place),
        _ => cross_section::with_right_arc(case, place),
    }
}

/// How many times the rules are gone through.
const ROUNDS: usize = 4;

/// One rule after another mended, and what is still broken then.
pub fn all_mended(road: &Alignment, judgement: &Judgement) -> (Alignment, Judgement) {
    let mut now = (road.clone(), judgement.clone());
    for _ in 0..ROUNDS {
        let before = now.1.broken.clone();
        for &broken in &before {
            if !is_among(&now.1.broken, broken) {
                continue;
            }
            if let Mending::Found(road) = mended(&now.0, &now.1, broken) {
                let judgement = judge_all(&road);
                now = (road, judgement);
            }
        }
        if now.1.broken.is_empty() || now.1.broken == before {
            break;
        }
    }
    now
}
