//! The differences as plain text.

use crate::compare::changes::{Change, Changes};
use crate::language::Language;
use crate::rows::Row;
use crate::words::{compare as words, Phrase};

/// A row's numbers after its station, with how a change of each is said.
const NUMBERS: [Phrase; 7] = [
    words::HEIGHT,
    words::GRADE,
    words::LEFT_CROSSFALL,
    words::RIGHT_CROSSFALL,
    words::LEFT_EDGE,
    words::RIGHT_EDGE,
    words::CURVATURE,
];

/// The heads' differences, then `- ROW` gone, `+ ROW` new, `< ROW` and `> ROW` changed, then the counts.
pub fn answer(heads: &[String], changes: &Changes, counts: &str, language: Language) -> String {
    let mut out = String::new();
    for line in heads {
        out += &format!("{line}\n");
    }
    for change in &changes.rows {
        out += &match change {
            Change::Gone(row) => format!("- {}\n", printed(row)),
            Change::New(row) => format!("+ {}\n", printed(row)),
            Change::Changed { old, new } => {
                let words = changed_numbers(old, new, language);
                format!("< {}\n> {}\n  {words}\n", printed(old), printed(new))
            }
        };
    }
    out + counts + "\n"
}

/// How many rows are gone, new, changed and the same.
pub fn counts(
    changes: &Changes,
    is_same_head: bool,
    is_same_file: bool,
    language: Language,
) -> String {
    let same = language.number(changes.same as i128);
    if changes.rows.is_empty() {
        let phrase = match (is_same_file, is_same_head) {
            (true, _) => words::SAME_FILE,
            (false, true) => words::SAME_ROWS_OTHER_FILE,
            (false, false) => words::SAME_ROWS,
        };
        return language.say(phrase, &[&same]);
    }
    let count = |is_kind: fn(&Change) -> bool| {
        let found = changes.rows.iter().filter(|change| is_kind(change));
        language.number(found.count() as i128)
    };
    let values = [
        count(|change| matches!(change, Change::Gone(_))),
        count(|change| matches!(change, Change::New(_))),
        count(|change| matches!(change, Change::Changed { .. })),
        same,
    ];
    language.say(words::COUNTS, &values.each_ref().map(|value| value as _))
}

/// A row as the list has it.
fn printed(row: &Row) -> String {
    row.numbers().map(|number| number.to_string()).join(" ")
}

/// Which numbers of a row changed, and by how much.
fn changed_numbers(old: &Row, new: &Row, language: Language) -> String {
    let changes = old.numbers()[1..]
        .iter()
        .zip(&new.numbers()[1..])
        .map(|(before, after)| after - before)
        .collect::<Vec<_>>();
    let said = NUMBERS
        .iter()
        .zip(changes)
        .filter(|(_, change)| *change != 0)
        .map(|(phrase, change)| language.say(*phrase, &[&signed(change, language)]));
    said.collect::<Vec<_>>().join(", ")
}

fn signed(change: i128, language: Language) -> String {
    let plus = if change > 0 { "+" } else { "" };
    format!("{plus}{}", language.number(change))
}

#[cfg(test)]
mod tests {
    use super::*;
    use crate::compare::changes::between;
    use crate::rows::rows;

    const OLD: &[u8] = b"0 500 20 -25 -25 431 431 0\n50 501 20 -25 -25 432 432 0\n";
    const NEW: &[u8] = b"0 500 20 -26 -25 400 431 7\n60 501 20 -25 -25 432 432 0\n";

    #[test]
    fn each_kind_and_what_changed() {
        let language = Language::English;
        let changes = between(&rows(OLD), &rows(NEW));
        let counts = counts(&changes, true, false, language);
        let expected = "< 0 500 20 -25 -25 431 431 0\n> 0 500 20 -26 -25 400 431 7\n  \
            left crossfall −1 ppm, left edge −31 mm, curvature +7 millionths per metre\n\
            - 50 501 20 -25 -25 432 432 0\n+ 60 501 20 -25 -25 432 432 0\n\
            rows: 1 gone, 1 new, 1 changed, 0 the same\n";
        assert_eq!(answer(&[], &changes, &counts, language), expected);
    }

    #[test]
    fn nothing_changed_is_said() {
        let language = Language::English;
        let changes = between(&rows(OLD), &rows(OLD));
        let said = |is_same_head, is_same_file| {
            let counts = counts(&changes, is_same_head, is_same_file, language);
            counts.split(',').next().unwrap_or_default().to_string()
        };
        assert_eq!(said(true, true), "nothing changed: both files are the same");
        assert_eq!(said(false, false), "no row changed");
        assert_eq!(said(true, false), "no row changed");
    }
}
