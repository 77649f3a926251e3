//! The mark at the item that a refusal names.

use crate::language::Language;
use crate::refusals::rule_name;
use crate::show::line::Line;
use crate::text::file::Item;
use crate::text::lines::Part;
use crate::words::show as words;

/// The byte that a refusal of reading names; none of any other.
pub fn byte(refusal: proved::Refusal) -> Option<usize> {
    let is_reading = matches!(refusal.number(), 1..=4 | 22);
    usize::try_from(refusal.place()).ok().filter(|_| is_reading)
}

/// The list and the item that a refusal from 5 to 19 or 23 names; refusal 6 is about all tangents.
fn item(refusal: proved::Refusal) -> (Part, Option<usize>) {
    let index = usize::try_from(refusal.place()).ok();
    match refusal.number() {
        6 => (Part::Tangents, None),
        // vertex v stands on the line of tangent v
        13..=15 => (Part::Tangents, index),
        16..=18 => (Part::Crossfalls, index),
        _ => (Part::Elements, index),
    }
}

/// Marks the line that a refusal names, or the end of the list that it is about.
pub fn mark(lines: &mut [Line], refusal: proved::Refusal, language: Language) {
    let here = language.say(words::HERE, &[&refusal.number(), &rule(refusal, language)]);
    if let Some(line) = named(lines, refusal) {
        return line.above.insert(0, here);
    }
    let (list, _) = item(refusal);
    let is_of_list =
        |line: &&mut Line| matches!(line.item, Some(Item::Listed(of, _)) if of == list);
    if let Some(line) = lines.iter_mut().rfind(is_of_list) {
        line.below.push(here);
    }
}

/// The line that a refusal names: that of the byte, or that of the item.
fn named(lines: &mut [Line], refusal: proved::Refusal) -> Option<&mut Line> {
    if let Some(byte) = byte(refusal) {
        return lines.iter_mut().rfind(|line| line.from <= byte);
    }
    let (list, index) = item(refusal);
    let item = Item::Listed(list, index?);
    lines.iter_mut().find(|line| line.item == Some(item))
}

/// The refusal's rule in few words.
pub fn rule(refusal: proved::Refusal, language: Language) -> String {
    let name = rule_name(refusal.number());
    name.map_or(String::new(), |phrase| language.say(phrase, &[]))
}
