//! A value of a line: digits, or a decimal number with its unit.

use std::iter::Peekable;
use std::str::SplitWhitespace;

use crate::language::Language;
use crate::quantity::{is_ambiguous, nearest, unscaled, whole};
use crate::source::visible;
use crate::text::date;
use crate::text::fields::{Field, Measure};
use crate::words::{common, make as words};

pub type Words<'t> = Peekable<SplitWhitespace<'t>>;

/// A unit, what it measures, and the decimals that are exact in mm or ppm.
struct Unit {
    name: &'static str,
    measure: Measure,
    decimals: u32,
}

const fn unit(name: &'static str, measure: Measure, decimals: u32) -> Unit {
    Unit {
        name,
        measure,
        decimals,
    }
}

/// The unit of a plain number comes first.
const UNITS: [Unit; 4] = [
    unit("mm", Measure::Length, 0),
    unit("m", Measure::Length, 3),
    unit("ppm", Measure::Share, 0),
    unit("%", Measure::Share, 4),
];

fn units_of(field: &Field) -> impl Iterator<Item = &'static Unit> + '_ {
    UNITS.iter().filter(|unit| unit.measure == field.measure)
}

/// The next value, in mm or ppm; none where the line has no more words.
pub fn next(words: &mut Words, field: &Field, language: Language) -> Result<Option<i64>, String> {
    let Some(word) = words.next() else {
        return Ok(None);
    };
    let end = word.find(|letter: char| !is_of_number(letter));
    let (number, unit) = word.split_at(end.unwrap_or(word.len()));
    let after = words.next_if(|next| unit.is_empty() && is_unit(next));
    let value = Written {
        number,
        unit: after.unwrap_or(unit),
        words: [word, after.unwrap_or("")].join(" "),
        field,
        language,
    };
    value.read().map(Some)
}

fn is_of_number(letter: char) -> bool {
    letter.is_ascii_digit() || "+-\u{2212}.,".contains(letter)
}

/// A number without a sign, and without a 0 before it.
fn plain_digits(word: &str) -> Option<i128> {
    let is_plain = |number: &i128| *number >= 0 && number.to_string() == word;
    whole(word).filter(is_plain)
}

fn is_unit(word: &str) -> bool {
    UNITS.iter().any(|unit| unit.name == word)
}

/// A value as it is written.
struct Written<'t> {
    number: &'t str,
    unit: &'t str,
    words: String,
    field: &'t Field,
    language: Language,
}

impl Written<'_> {
    fn read(&self) -> Result<i64, String> {
        let value = match (self.field.measure, self.unit) {
            (Measure::Day, _) => self.date()?,
            (_, "") => self.plain()?,
            (_, _) => self.with_unit()?,
        };
        let (least, most) = self.field.writable();
        let written = i64::try_from(value).ok();
        let written = written.filter(|value| (least..=most).contains(value));
        written.ok_or_else(|| {
            let range = [least, most].map(|end| self.language.number(end.into()));
            let unit = units_of(self.field).next();
            let unit = unit.map_or(String::new(), |unit| format!(" {}", unit.name));
            self.wrong(words::UNWRITABLE, &[&range[0], &range[1], &unit])
        })
    }

    /// `2011-12-31` or `20111231`
    fn date(&self) -> Result<i128, String> {
        let with_dashes = date::number(self.number).map(i128::from);
        let number = with_dashes.or_else(|| plain_digits(self.number));
        let alone = number.filter(|_| self.unit.is_empty());
        alone.ok_or_else(|| self.wrong(words::NO_DATE, &[]))
    }

    fn plain(&self) -> Result<i128, String> {
        let phrase = match nearest(self.number, 0) {
            None => words::NO_NUMBER,
            Some(_) => words::NO_WHOLE_NUMBER,
        };
        whole(self.number).ok_or_else(|| self.wrong(phrase, &[]))
    }

    fn with_unit(&self) -> Result<i128, String> {
        let unit = units_of(self.field).find(|unit| unit.name == self.unit);
        let decimals = unit.map_or(0, |unit| unit.decimals);
        if unit.is_some_and(|unit| unit.decimals == 0) {
            return self.in_whole_units();
        }
        if is_ambiguous(self.number) {
            return Err(self.wrong(common::AMBIGUOUS, &[]));
        }
        let (below, above) =
            nearest(self.number, decimals).ok_or_else(|| self.wrong(words::NO_NUMBER, &[]))?;
        let unit = unit.ok_or_else(|| self.wrong_unit())?;
        if below == above {
            return Ok(below);
        }
        let exact = [below, above].map(|value| unscaled(value, decimals));
        let base = units_of(self.field).next().map_or("", |unit| unit.name);
        Err(self.wrong(words::NOT_EXACT, &[&base, &exact[0], &exact[1], &unit.name]))
    }

    /// Millimetres and ppm have no decimals, so that `27.223 mm`, as Serbian writes thousands, is not 27 mm.
    fn in_whole_units(&self) -> Result<i128, String> {
        whole(self.number).ok_or_else(|| self.wrong(words::WITHOUT_DECIMALS, &[&self.unit]))
    }

    fn wrong_unit(&self) -> String {
        let units: Vec<&str> = units_of(self.field).map(|unit| unit.name).collect();
        match units[..] {
            [first, second] => self.wrong(words::WRONG_UNIT, &[&first, &second]),
            _ if is_unit(self.unit) => self.wrong(words::NO_UNIT, &[]),
            _ => self.wrong(words::NO_NUMBER, &[]),
        }
    }

    /// A phrase whose first value is what is written.
    fn wrong(&self, phrase: crate::words::Phrase, values: &[&dyn std::fmt::Display]) -> String {
        let written = visible(self.words.trim_end());
        let mut all: Vec<&dyn std::fmt::Display> = vec![&written];
        all.extend(values);
        self.language.say(phrase, &all)
    }
}

#[cfg(test)]
mod tests {
    use super::*;
    use crate::text::fields::{CLASS, DATE, GRADE, LENGTH, RADIUS};

    fn value(line: &str, field: &Field) -> Result<Option<i64>, String> {
        next(
            &mut line.split_whitespace().peekable(),
            field,
            Language::English,
        )
    }

    #[test]
    fn values_with_and_without_units() {
        for line in [
            "120500",
            "120.5 m",
            "120,5m",
            "120500 mm",
            "+120.500\u{A0}m",
        ] {
            assert_eq!(value(line, &LENGTH), Ok(Some(120_500)), "{line}");
        }
        for line in ["-25000", "-2.5 %", "\u{2212}2,5%", "-25000ppm"] {
            assert_eq!(value(line, &GRADE), Ok(Some(-25_000)), "{line}");
        }
        assert_eq!(value("", &LENGTH), Ok(None));
        assert_eq!(value("-0", &LENGTH), Ok(Some(0)));
    }

    #[test]
    fn dates() {
        assert_eq!(value("2011-12-31", &DATE), Ok(Some(20_111_231)));
        assert_eq!(value("20111231", &DATE), Ok(Some(20_111_231)));
        assert_eq!(value("2011-02-30", &DATE), Ok(Some(20_110_230)));
        assert_eq!(value("0", &DATE), Ok(Some(0)));
        assert_eq!(value("4294967295", &DATE), Ok(Some(4_294_967_295)));
        for word in [
            "31.12.2011.",
            "2011-2-3",
            "2011-12-31x",
            "20111231 m",
            "+20090615",
            "020090615",
            "-5",
            "-0",
            "00",
            "soon",
        ] {
            let wrong = value(word, &DATE).expect_err(word);
            let no_date = "is no date; a date is written as `2011-12-31` or `20111231`";
            assert_eq!(wrong, format!("`{word}` {no_date}"));
        }
        let beyond = value("4294967296", &DATE).expect_err("too great");
        assert!(beyond.ends_with("the numbers here go from 0 to 4,294,967,295"));
    }

    #[test]
    fn what_is_no_value() {
        let wrong = |line, field: &Field| value(line, field).expect_err(line);
        assert_eq!(wrong("abc", &LENGTH), "`abc` is no number");
        assert_eq!(wrong("1.200,5 m", &LENGTH), "`1.200,5 m` is no number");
        assert!(wrong("120.5", &LENGTH).starts_with("`120.5` is no whole number;"));
        assert_eq!(wrong("5 %", &RADIUS), "`5 %`: the unit here is mm or m");
        assert_eq!(wrong("5km", &RADIUS), "`5km`: the unit here is mm or m");
        assert_eq!(wrong("4 m", &CLASS), "`4 m`: there is no unit here");
        assert_eq!(wrong("4x", &CLASS), "`4x` is no number");
        for written in ["200.000 mm", "200,000mm", "200.5 mm", "1.200.000 mm"] {
            assert!(
                wrong(written, &LENGTH).ends_with("mm are a whole number, without point or comma")
            );
        }
        assert!(
            wrong("25,000 ppm", &GRADE).ends_with("ppm are a whole number, without point or comma")
        );
        let inexact = "`2.50005 %` is no whole number of ppm; the nearest are 2.5 % and 2.5001 %";
        assert_eq!(wrong("2.50005 %", &GRADE), inexact);
        let beyond = "cannot be written: the numbers here go from 0 to 4,294,967,295 mm";
        assert_eq!(
            wrong("4294967296", &LENGTH),
            format!("`4294967296` {beyond}")
        );
        assert_eq!(
            wrong("4294967.296 m", &LENGTH),
            format!("`4294967.296 m` {beyond}")
        );
        assert_eq!(wrong("-1", &LENGTH), format!("`-1` {beyond}"));
    }
}
