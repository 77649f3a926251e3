//! What each of the seven speeds says of a road: the library's marks, and where one does not stand the first refusal, as
//! the library and the second reading of the papers have it.

use proved::{Marks, SPEEDS};
use reference::file::{read, Alignment, Refusal};
use reference::limits::speed;
use reference::marks::first_refusal_at;

use super::by_class::judged_at;
use crate::agreement::{as_read, line};
use crate::language::Language;
use crate::words::{common, marks as words, show};

/// What a speed says of a road.
#[derive(Clone, Copy, Debug, PartialEq, Eq)]
pub struct Verdict {
    pub speed: u32,
    /// None where the mark stands.
    pub refusal: Option<Refusal>,
}

/// A road that can be read.
pub struct Marked {
    pub alignment: Alignment,
    /// Of each of the seven speeds, ascending.
    pub verdicts: [Verdict; SPEEDS.len()],
}

impl Marked {
    /// The speed of the road's class and terrain.
    pub fn design_speed(&self) -> u32 {
        speed(self.alignment.class, self.alignment.terrain) as u32
    }
}

/// What both say of a file.
pub enum Agreed {
    Marked(Box<Marked>),
    /// Refused with 1 to 4 or 22.
    Unread(proved::Refusal),
}

/// What both say of a file; words where they differ.
pub fn agreed(file: &[u8], language: Language) -> Result<Agreed, String> {
    match (proved::marks(file), read(file)) {
        (Err(refusal), Err(second)) if as_read(refusal) == second => Ok(Agreed::Unread(refusal)),
        (Ok(marks), Ok(alignment)) => {
            let verdicts = SPEEDS.map(|speed| Verdict {
                speed,
                refusal: first_refusal_at(&alignment, speed.into()),
            });
            let road = Marked {
                alignment,
                verdicts,
            };
            let judged = SPEEDS.map(|speed| judged_at(file, speed));
            hold_against(marks, judged, &road, language)?;
            Ok(Agreed::Marked(Box::new(road)))
        }
        (marks, alignment) => {
            let first = reading(marks.err().map(as_read), language);
            let second = reading(alignment.err(), language);
            Err(language.say(common::DIFFERENT_REFUSALS, &[&first, &second]))
        }
    }
}

fn reading(refusal: Option<Refusal>, language: Language) -> String {
    refusal.map_or_else(|| language.say(show::READ, &[]), line)
}

/// The library's marks at every speed, and its refusals at those that a class has; words where the second reading differs.
pub(super) fn hold_against(
    marks: Marks,
    judged: [Option<Option<Refusal>>; SPEEDS.len()],
    road: &Marked,
    language: Language,
) -> Result<(), String> {
    for (verdict, judged) in road.verdicts.iter().zip(judged) {
        let stands = marks.stands_at(verdict.speed);
        let first = match judged {
            Some(refusal) if refusal != verdict.refusal => passing(refusal, language),
            _ if stands == verdict.refusal.is_none() => continue,
            _ if stands => language.say(words::PASSES, &[]),
            _ => language.say(words::FAILS, &[]),
        };
        let values: [&dyn std::fmt::Display; 3] =
            [&verdict.speed, &first, &passing(verdict.refusal, language)];
        return Err(language.say(words::DIFFERENT_AT, &values));
    }
    Ok(())
}

fn passing(refusal: Option<Refusal>, language: Language) -> String {
    refusal.map_or_else(|| language.say(words::PASSES, &[]), line)
}
