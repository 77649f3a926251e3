//! What is wrong with a file, rule by rule, in words.

use reference::file::{Alignment, Refusal};
use reference::rules::Judgement;

use super::mending::{mended, Mending, Obstacle};
use super::teller::Teller;
use super::{cross_section, lines, moves, plan, profile, unread};
use crate::agreement::{as_read, Refused};
use crate::language::Language;
use crate::refusals::title;
use crate::words::why as words;

/// A broken rule at an item.
pub struct Finding {
    /// The refusal's number and place, counted from 0.
    pub number: i128,
    pub place: i128,
    /// The rule and the item, on one line.
    pub title: String,
    /// The item's numbers, the limit, where it stands, the nearest value that passes, what else has to move.
    pub facts: Vec<String>,
    /// The lines of the text that mend it, in place of those that are there: each an item, `element 1`, and its new line.
    pub changes: Vec<(String, String)>,
}

/// Every finding of a refused file, in the order of the rules; the first is the one that turns it away.
pub fn findings(refused: &Refused, language: Language) -> Vec<Finding> {
    let Some((road, judgement)) = &refused.read else {
        return vec![unread(refused, language)];
    };
    let broken = judgement.broken.iter();
    broken
        .map(|&broken| finding(road, judgement, broken, language))
        .collect()
}

fn unread(refused: &Refused, language: Language) -> Finding {
    let refusal = as_read(refused.refusal);
    Finding {
        number: refusal.number,
        place: refusal.place,
        title: title(refusal, language),
        facts: unread::told(refused, language),
        changes: unread::changes(refused),
    }
}

fn finding(
    road: &Alignment,
    judgement: &Judgement,
    broken: Refusal,
    language: Language,
) -> Finding {
    let teller = Teller::new(road, language);
    let place = broken.place as usize;
    let mut facts = match broken.number {
        5 | 7..=12 | 23 => plan::told(&teller, broken.number, place),
        6 | 13..=15 => profile::told(&teller, broken.number, place),
        _ => cross_section::told(&teller, broken.number, place),
    };
    let changes = match mended(road, judgement, broken) {
        Mending::Found(new) => {
            facts.push(moves::moves(road, &new, broken, language));
            lines::changes(road, &new)
        }
        Mending::Obstacle(obstacle) => {
            facts.push(unmended(obstacle, language));
            Vec::new()
        }
    };
    Finding {
        number: broken.number,
        place: broken.place,
        title: title(broken, language),
        facts,
        changes,
    }
}

fn unmended(obstacle: Obstacle, language: Language) -> String {
    let why = match obstacle {
        Obstacle::NoCandidate => language.say(words::OBSTACLE_LINES, &[]),
        Obstacle::Disputed => language.say(words::OBSTACLE_DISPUTED, &[]),
        Obstacle::Unwritable => language.say(words::OBSTACLE_RANGE, &[]),
        Obstacle::Breaks(refusal) => {
            let values: [&dyn std::fmt::Display; 3] =
                [&refusal.number, &refusal.place, &title(refusal, language)];
            language.say(words::OBSTACLE_RULE, &values)
        }
    };
    language.say(words::UNMENDED, &[&why])
}
