//! The text format as `--help` shows it: a table of the lines with their ranges, and what holds of all of them.

use crate::language::Language;
use crate::rule_book::{class_name, terrain_name};
use crate::text::fields::Field;
use crate::text::lines::{Line, Part, Role, ESCAPES, WHOLE};
use crate::words::text as words;
use crate::words::Phrase;

/// Where the second column begins.
const COLUMN: usize = 37;

/// The format of the text, in words.
pub fn format(language: Language) -> String {
    let say = |phrase| language.say(phrase, &[]);
    [
        say(words::FORMAT),
        rows(WHOLE, language),
        say(words::DATES),
        say(words::SIGNS),
        say(words::UNITS),
        say(words::ESCAPES),
        rows(ESCAPES, language),
    ]
    .join("\n\n")
}

fn rows(lines: &[Line], language: Language) -> String {
    let rows = lines.iter().flat_map(|line| {
        let meanings = meanings(line, language).into_iter().enumerate();
        meanings.map(|(place, meaning)| {
            let example = if place == 0 { line.example } else { "" };
            format!("    {example:<COLUMN$}{meaning}")
        })
    });
    rows.collect::<Vec<_>>().join("\n")
}

/// What stands in a line, field by field.
fn meanings(line: &Line, language: Language) -> Vec<String> {
    match line.role {
        Role::Of(Part::Class) => vec![named(class_name, 4, language)],
        Role::Of(Part::Terrain) => vec![named(terrain_name, 3, language)],
        Role::Of(_) => {
            let fields = line.fields.iter().chain(line.ending.iter().map(|(_, f)| f));
            fields.map(|field| with_range(field, language)).collect()
        }
        Role::Count(Part::Elements) => vec![language.say(words::COUNT_LINE, &[])],
        Role::Count(_) => vec![language.say(words::SAME_LINE, &[])],
        Role::Number if line.fields.iter().any(|field| field.is_signed) => {
            vec![language.say(words::SIGNED_LINE, &[])]
        }
        Role::Number => vec![language.say(words::NUMBER_LINE, &[])],
        Role::Bytes => vec![language.say(words::BYTES_LINE, &[])],
    }
}

/// `1 flat terrain, 2 hilly terrain, 3 mountain terrain`
fn named(name: fn(i128) -> Phrase, count: i128, language: Language) -> String {
    let names = (1..=count).map(|number| format!("{number} {}", language.say(name(number), &[])));
    names.collect::<Vec<_>>().join(", ")
}

fn with_range(field: &Field, language: Language) -> String {
    let name = language.say(field.name, &[]);
    format!("{name}, {}", field.range(language))
}

#[cfg(test)]
mod tests {
    use super::*;

    #[test]
    fn each_line_has_a_row() {
        let format = format(Language::English);
        for line in WHOLE.iter().chain(ESCAPES) {
            assert!(
                format.contains(&format!("\n    {} ", line.example)),
                "{}",
                line.keyword
            );
        }
        assert!(format.contains("radius, 10,000 to 10,000,000 mm in size"));
        let date = "contract date, a day from 1950-01-01 to 2099-12-31";
        assert!(format.contains(&format!("    date 2011-12-31{}{date}\n", " ".repeat(22))));
    }
}
