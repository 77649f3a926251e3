//! The language of the command's words: English, or Serbian in either script.

use std::fmt::Display;

use crate::words::Phrase;

#[derive(Clone, Copy, Debug, PartialEq, Eq)]
pub enum Language {
    English,
    /// In Cyrillic.
    Serbian,
    SerbianLatin,
}

impl Language {
    /// The languages that `--language` takes.
    pub const NAMES: [(&'static str, Language); 3] = [
        ("en", Language::English),
        ("sr", Language::Serbian),
        ("sr-Latn", Language::SerbianLatin),
    ];

    pub fn named(name: &str) -> Option<Language> {
        let found = Self::NAMES.iter().find(|(known, _)| *known == name);
        found.map(|(_, language)| *language)
    }

    /// The environment's: the first of LC_ALL, LC_MESSAGES and LANG that is set.
    pub fn of_environment() -> Language {
        let set = ["LC_ALL", "LC_MESSAGES", "LANG"]
            .iter()
            .filter_map(std::env::var_os)
            .find(|value| !value.is_empty());
        set.map_or(Language::English, |locale| {
            Self::of_locale(&locale.to_string_lossy())
        })
    }

    /// `sr_RS.UTF-8` is Cyrillic, `sr_RS@latin` and `sr_Latn_RS` are Latin.
    fn of_locale(locale: &str) -> Language {
        let is_serbian = locale.split(['_', '-', '.', '@']).next() == Some("sr");
        let is_latin = locale.contains("latin") || locale.contains("Latn");
        match (is_serbian, is_latin) {
            (false, _) => Language::English,
            (true, false) => Language::Serbian,
            (true, true) => Language::SerbianLatin,
        }
    }

    /// The language's code, as HTML asks for it.
    pub fn code(self) -> &'static str {
        let found = Self::NAMES.iter().find(|(_, language)| *language == self);
        found.map_or("en", |(name, _)| name)
    }

    /// A phrase, with `{0}`, `{1}` .. replaced by the values.
    pub fn say(self, phrase: Phrase, values: &[&dyn Display]) -> String {
        let words = match self {
            Language::English => phrase.english.to_string(),
            Language::Serbian => phrase.serbian.to_string(),
            Language::SerbianLatin => latin(phrase.serbian),
        };
        fill(&words, values)
    }

    /// A whole number in groups of three, as the language writes it.
    pub fn number(self, value: i128) -> String {
        let separator = match self {
            Language::English => ',',
            Language::Serbian | Language::SerbianLatin => '.',
        };
        grouped(value, separator)
    }

    /// Thousandths as a whole number and three decimals: millimetres in metres.
    pub fn thousandths(self, value: i128) -> String {
        self.decimals(value, 3)
    }

    /// A number with so many decimals, given without its point.
    pub fn decimals(self, value: i128, places: u32) -> String {
        let unit = 10_i128.pow(places);
        let sign = if value < 0 { "−" } else { "" };
        let whole = self.number((value / unit).abs());
        let part = (value % unit).abs();
        let point = match self {
            Language::English => '.',
            Language::Serbian | Language::SerbianLatin => ',',
        };
        format!(
            "{sign}{whole}{point}{part:0width$}",
            width = places as usize
        )
    }
}

fn grouped(value: i128, separator: char) -> String {
    let digits = value.unsigned_abs().to_string();
    let mut out = String::from(if value < 0 { "−" } else { "" });
    for (place, digit) in digits.chars().enumerate() {
        if place > 0 && (digits.len() - place).is_multiple_of(3) {
            out.push(separator);
        }
        out.push(digit);
    }
    out
}

/// One pass, so that braces in a value stay as they are.
fn fill(words: &str, values: &[&dyn Display]) -> String {
    let mut out = String::new();
    let mut rest = words;
    while let Some(open) = rest.find('{') {
        let (before, from) = rest.split_at(open);
        out.push_str(before);
        let close = from.find('}').expect("a closing brace in every phrase");
        let index: usize = from[1..close].parse().expect("a number between braces");
        out.push_str(&values[index].to_string());
        rest = &from[close + 1..];
    }
    out + rest
}

/// Serbian Cyrillic in Latin letters, one sound for one.
pub fn latin(words: &str) -> String {
    let mut out = String::new();
    let mut letters = words.chars().peekable();
    while let Some(letter) = letters.next() {
        let pair = latin_letter(letter);
        let next_is_capital = letters.peek().is_some_and(|next| next.is_uppercase());
        // Љ is LJ within capitals and Lj before small letters
        if pair.chars().count() == 2 && letter.is_uppercase() && next_is_capital {
            out.push_str(&pair.to_uppercase());
        } else {
            out.push_str(&pair);
        }
    }
    out
}

fn latin_letter(letter: char) -> String {
    const SMALL: [(char, &str); 30] = [
        ('а', "a"),
        ('б', "b"),
        ('в', "v"),
        ('г', "g"),
        ('д', "d"),
        ('ђ', "đ"),
        ('е', "e"),
        ('ж', "ž"),
        ('з', "z"),
        ('и', "i"),
        ('ј', "j"),
        ('к', "k"),
        ('л', "l"),
        ('љ', "lj"),
        ('м', "m"),
        ('н', "n"),
        ('њ', "nj"),
        ('о', "o"),
        ('п', "p"),
        ('р', "r"),
        ('с', "s"),
        ('т', "t"),
        ('ћ', "ć"),
        ('у', "u"),
        ('ф', "f"),
        ('х', "h"),
        ('ц', "c"),
        ('ч', "č"),
        ('џ', "dž"),
        ('ш', "š"),
    ];
    let small = letter.to_lowercase().next();
    let found = SMALL.iter().find(|(cyrillic, _)| small == Some(*cyrillic));
    match found {
        None => letter.to_string(),
        Some((_, latin)) if letter.is_lowercase() => latin.to_string(),
        Some((_, latin)) => capitalised(latin),
    }
}

/// The first letter large.
pub fn capitalised(words: &str) -> String {
    let mut letters = words.chars();
    match letters.next() {
        None => String::new(),
        Some(first) => first.to_uppercase().collect::<String>() + letters.as_str(),
    }
}

#[cfg(test)]
mod tests {
    use super::*;

    #[test]
    fn locales() {
        assert_eq!(Language::of_locale("sr_RS.UTF-8"), Language::Serbian);
        assert_eq!(Language::of_locale("sr_RS@latin"), Language::SerbianLatin);
        assert_eq!(Language::of_locale("sr_Latn_RS"), Language::SerbianLatin);
        assert_eq!(Language::of_locale("sr@latin"), Language::SerbianLatin);
        assert_eq!(Language::of_locale("sr.UTF-8"), Language::Serbian);
        assert_eq!(Language::of_locale("srx_XX"), Language::English);
        assert_eq!(Language::of_locale("C.UTF-8"), Language::English);
    }

    #[test]
    fn both_scripts() {
        assert_eq!(
            latin("Џак љубави, ЊЕГОШ, Њива"),
            "Džak ljubavi, NJEGOŠ, Njiva"
        );
    }

    #[test]
    fn numbers() {
        assert_eq!(Language::English.number(-1_234_567), "−1,234,567");
        assert_eq!(Language::Serbian.thousandths(-500), "−0,500");
        assert_eq!(Language::English.thousandths(1_234_567), "1,234.567");
    }
}
