//! A refusal in words: its rule, and what its place counts.

use std::ffi::OsStr;

use reference::file::Refusal;

use crate::language::Language;
use crate::names::shown;
use crate::words::{common, rules, Phrase};

/// What the place of a refusal of the file counts; none where the place says nothing.
pub fn counted(number: u32) -> Option<Phrase> {
    match number {
        1..=4 | 22 => Some(common::BYTE),
        5 | 7..=12 | 19 | 23 => Some(common::ELEMENT),
        13 | 14 => Some(common::TANGENT),
        15 => Some(common::VERTEX),
        16..=18 => Some(common::POINT),
        _ => None,
    }
}

/// The rule that a refusal of the file speaks of, in a short clause.
pub fn rule_name(number: u32) -> Option<Phrase> {
    let name = format!("RULE_{number}");
    let found = rules::ALL.iter().find(|(known, _)| *known == name);
    found.map(|(_, phrase)| *phrase)
}

/// The rule, and the item that breaks it.
pub fn title(broken: Refusal, language: Language) -> String {
    let number = broken.number as u32;
    let rule = rule_name(number).map_or(String::new(), |rule| language.say(rule, &[]));
    match counted(number) {
        None => rule,
        Some(item) => {
            let item = language.say(item, &[]);
            language.say(common::RULE_AND_ITEM, &[&rule, &item, &broken.place])
        }
    }
}

/// The same after the line that would refuse the file for it.
pub fn heading(broken: Refusal, language: Language) -> String {
    let title = title(broken, language);
    let values: [&dyn std::fmt::Display; 3] = [&broken.number, &broken.place, &title];
    language.say(common::HEADING, &values)
}

/// One line about a refused file.
pub fn words(name: &OsStr, refusal: proved::Refusal, language: Language) -> String {
    let (name, number) = (shown(name, language), refusal.number());
    let rule = rule_name(number).map_or(String::new(), |rule| language.say(rule, &[]));
    match counted(number) {
        None => language.say(common::REFUSED_NO_PLACE, &[&name, &number, &rule]),
        Some(item) => {
            let item = language.say(item, &[]);
            let place = refusal.place();
            language.say(common::REFUSED, &[&name, &number, &rule, &item, &place])
        }
    }
}

#[cfg(test)]
mod tests {
    use super::*;

    #[test]
    fn each_rule_by_its_number() {
        assert!((1..=19).all(|number| rule_name(number).is_some()));
        assert_eq!(rule_name(12), Some(rules::RULE_12));
        assert_eq!(rule_name(22), Some(rules::RULE_22));
        assert_eq!(rule_name(23), Some(rules::RULE_23));
        assert_eq!([0, 20, 21, 24].map(rule_name), [None; 4]);
    }

    #[test]
    fn what_a_place_counts() {
        assert_eq!([4, 22].map(counted), [Some(common::BYTE); 2]);
        assert_eq!([7, 23].map(counted), [Some(common::ELEMENT); 2]);
        assert_eq!([6, 20, 21].map(counted), [None; 3]);
    }
}
