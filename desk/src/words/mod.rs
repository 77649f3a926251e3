//! Every word that the command says, in English and in Serbian; the Latin script is made from the Cyrillic.

pub mod common;
pub mod compare;
pub mod folder;
pub mod help;
pub mod limits;
pub mod make;
pub mod marks;
pub mod months;
pub mod pegs;
pub mod report;
pub mod rules;
pub mod show;
pub mod text;
pub mod why;

/// A phrase in both languages; `{0}`, `{1}` .. stand for values.
#[derive(Clone, Copy, Debug, PartialEq, Eq)]
pub struct Phrase {
    pub english: &'static str,
    pub serbian: &'static str,
}

/// A table of phrases: each a constant, and all of them in `ALL`.
#[macro_export]
macro_rules! phrases {
    ($($name:ident: $english:literal, $serbian:literal;)*) => {
        $(pub const $name: $crate::words::Phrase = $crate::words::Phrase {
            english: $english,
            serbian: $serbian,
        };)*
        /// Every phrase of this table with its name.
        pub const ALL: &[(&str, $crate::words::Phrase)] = &[$((stringify!($name), $name)),*];
    };
}

/// The tables.
pub const TABLES: &[&[(&str, Phrase)]] = &[
    common::ALL,
    compare::ALL,
    folder::ALL,
    help::ALL,
    limits::ALL,
    make::ALL,
    marks::ALL,
    months::ALL,
    pegs::ALL,
    report::ALL,
    rules::ALL,
    show::ALL,
    text::ALL,
    why::ALL,
];

#[cfg(test)]
mod tests {
    use super::*;

    fn values(words: &str) -> Vec<&str> {
        let mut found: Vec<&str> = words
            .split('{')
            .skip(1)
            .filter_map(|rest| rest.split('}').next())
            .collect();
        found.sort_unstable();
        found.dedup();
        found
    }

    #[test]
    fn both_languages_name_the_same_values() {
        for (name, phrase) in TABLES.concat() {
            assert_eq!(values(phrase.english), values(phrase.serbian), "{name}");
            assert!(
                !phrase.serbian.is_empty() || phrase.english.is_empty(),
                "{name}"
            );
        }
    }
}
