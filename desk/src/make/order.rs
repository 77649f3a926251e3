//! Whether a text is a whole alignment, in the file's order.

use crate::language::Language;
use crate::text::lines::{Line, Role};
use crate::text::lines::{Part, CURVE, WHOLE};
use crate::words::{common, make as words, Phrase};

/// What was seen of a text so far, and the first thing that is wrong with its order.
pub struct Order {
    language: Language,
    last: Option<Part>,
    seen: Vec<Part>,
    /// The line of the last tangent, and whether a curve follows it.
    tangent: Option<(usize, bool)>,
    wrong: Option<String>,
}

impl Order {
    pub fn new(language: Language) -> Order {
        Order {
            language,
            last: None,
            seen: Vec::new(),
            tangent: None,
            wrong: None,
        }
    }

    /// Takes the next line of a part into account.
    pub fn add(&mut self, at: usize, line: &Line, part: Part, has_curve: bool) {
        if self.last.is_some_and(|last| part < last) {
            self.note(at, words::TOO_LATE, &[&line.keyword, &order()]);
        }
        if self.last == Some(part) && part.count().is_none() {
            self.note(at, words::TWICE, &[&line.keyword]);
        }
        if part == Part::Tangents {
            if let Some((before, false)) = self.tangent {
                self.note(before, words::NEEDS_CURVE, &[&CURVE]);
            }
            self.tangent = Some((at, has_curve));
        }
        self.last = Some(part);
        if !self.seen.contains(&part) {
            self.seen.push(part);
        }
    }

    /// The first fault stays.
    fn note(&mut self, at: usize, phrase: Phrase, values: &[&dyn std::fmt::Display]) {
        let words = self.language.say(phrase, values);
        let words = self.language.say(common::AT_LINE, &[&at, &words]);
        self.wrong.get_or_insert(words);
    }

    /// What is wrong with the order of the whole text.
    pub fn fault(mut self) -> Result<(), String> {
        let is_missing = |part: &&Part| !part.is_optional() && !self.seen.contains(part);
        let missing = Part::ALL.iter().find(is_missing);
        if let Some(part) = missing {
            let keywords = keywords(*part);
            let words = self.language.say(words::NO_PART, &[&keywords, &order()]);
            self.wrong.get_or_insert(words);
        }
        if let Some((at, true)) = self.tangent {
            self.note(at, words::CURVE_AFTER_LAST, &[&CURVE]);
        }
        self.wrong.map_or(Ok(()), Err)
    }
}

/// The words that the lines of a part begin with.
fn keywords(part: Part) -> String {
    let lines = WHOLE.iter().filter(|line| line.role == Role::Of(part));
    let keywords: Vec<&str> = lines.map(|line| line.keyword).collect();
    keywords.join("/")
}

/// The words of a whole alignment, in the file's order; one that may be left out in brackets.
fn order() -> String {
    let named = Part::ALL.map(|part| match part.is_optional() {
        true => format!("[{}]", keywords(part)),
        false => keywords(part),
    });
    named.join(", ")
}
