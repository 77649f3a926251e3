//! The fields of a file: what each measures, and its range by document 01.

use reference::day::is_day;

use crate::language::Language;
use crate::text::date;
use crate::text::lines::DATED;
use crate::text::numbers::GREATEST;
use crate::words::text as words;
use crate::words::Phrase;

/// What a value measures, and so the units it may be given in.
#[derive(Clone, Copy, Debug, PartialEq, Eq)]
pub enum Measure {
    /// No unit.
    Plain,
    /// Millimetres, or metres.
    Length,
    /// Parts per million, or percent.
    Share,
    /// Year × 10,000 + month × 100 + day.
    Day,
}

#[derive(Clone, Copy, Debug)]
pub struct Field {
    pub name: Phrase,
    pub measure: Measure,
    pub is_signed: bool,
    least: i64,
    most: i64,
    /// Whether the range is one of the value's size.
    in_size: bool,
}

const fn unsigned(name: Phrase, measure: Measure, least: i64, most: i64) -> Field {
    Field {
        name,
        measure,
        is_signed: false,
        least,
        most,
        in_size: false,
    }
}

const fn signed(name: Phrase, measure: Measure, least: i64, most: i64) -> Field {
    Field {
        is_signed: true,
        ..unsigned(name, measure, least, most)
    }
}

/// The number that a file with a contract date begins with.
pub const LAYOUT: Field = unsigned(words::LAYOUT, Measure::Plain, DATED, DATED);
pub const DATE: Field = unsigned(words::DATE, Measure::Day, 19_500_101, 20_991_231);
pub const CLASS: Field = unsigned(words::CLASS, Measure::Plain, 1, 4);
pub const TERRAIN: Field = unsigned(words::TERRAIN, Measure::Plain, 1, 3);
pub const STEP: Field = unsigned(words::STEP, Measure::Length, 1_000, 100_000);
pub const RAMP: Field = unsigned(words::RAMP, Measure::Share, 1, 20_000);
pub const ELEMENT_COUNT: Field = unsigned(words::ELEMENT_COUNT, Measure::Plain, 1, 200);
pub const KIND: Field = unsigned(words::KIND, Measure::Plain, 0, 2);
pub const LENGTH: Field = unsigned(words::LENGTH, Measure::Length, 1, 10_000_000);
pub const RADIUS: Field = Field {
    in_size: true,
    ..signed(words::RADIUS, Measure::Length, 10_000, 10_000_000)
};
pub const START: Field = signed(words::START, Measure::Length, -500_000, 3_000_000);
pub const TANGENT_COUNT: Field = unsigned(words::TANGENT_COUNT, Measure::Plain, 1, 100);
pub const GRADE: Field = signed(words::GRADE, Measure::Share, -120_000, 120_000);
pub const HALF_LENGTH: Field = unsigned(words::HALF_LENGTH, Measure::Length, 0, 1_000_000);
pub const POINT_COUNT: Field = unsigned(words::POINT_COUNT, Measure::Plain, 2, 200);
pub const STATION: Field = unsigned(words::STATION, Measure::Length, 0, 100_000_000);
pub const LEFT: Field = signed(words::LEFT, Measure::Share, -80_000, 80_000);
pub const RIGHT: Field = signed(words::RIGHT, Measure::Share, -80_000, 80_000);
/// A number and a signed value that stand for themselves.
pub const NUMBER: Field = unsigned(words::NUMBER, Measure::Plain, 0, GREATEST);
pub const SIGNED: Field = signed(
    words::SIGNED,
    Measure::Plain,
    -GREATEST / 2 - 1,
    GREATEST / 2,
);

impl Field {
    /// The least and the greatest value that can be written.
    pub fn writable(&self) -> (i64, i64) {
        match self.is_signed {
            false => (NUMBER.least, NUMBER.most),
            true => (SIGNED.least, SIGNED.most),
        }
    }

    pub fn is_within(&self, value: i64) -> bool {
        let compared = if self.in_size { value.abs() } else { value };
        match self.measure {
            Measure::Day => is_day(value.into()),
            _ => (self.least..=self.most).contains(&compared),
        }
    }

    /// The refusal of a value that is not in the range.
    pub fn refusal(&self) -> u32 {
        match self.measure {
            Measure::Day => 22,
            _ => 3,
        }
    }

    /// A value as a line of the text has it.
    pub fn in_text(&self, value: i64) -> String {
        match self.measure {
            Measure::Day => date::with_dashes(value),
            _ => value.to_string(),
        }
    }

    /// The nearest value in the range, of the same sign where the range is one of the size; not for days.
    pub fn nearest(&self, value: i64) -> i64 {
        match self.in_size && value < 0 {
            true => -(-value).clamp(self.least, self.most),
            false => value.clamp(self.least, self.most),
        }
    }

    /// `1,000 to 100,000 mm`, `a day from 1950-01-01 to 2099-12-31`
    pub fn range(&self, language: Language) -> String {
        let phrase = match self.measure {
            Measure::Day => words::DAY_FROM_TO,
            _ => words::FROM_TO,
        };
        let ends = [self.least, self.most].map(|end| self.end(end, language));
        let range = language.say(phrase, &[&ends[0], &ends[1]]);
        let range = match self.measure {
            Measure::Plain | Measure::Day => range,
            Measure::Length => range + " mm",
            Measure::Share => range + " ppm",
        };
        match self.in_size {
            false => range,
            true => language.say(words::IN_SIZE, &[&range]),
        }
    }

    fn end(&self, value: i64, language: Language) -> String {
        match self.measure {
            Measure::Day => date::with_dashes(value),
            _ => language.number(value.into()),
        }
    }

    /// `5 is outside 1,000 to 100,000 mm`, `2011-02-30 is not a day from 1950-01-01 to 2099-12-31`
    pub fn outside(&self, value: i64, language: Language) -> String {
        let phrase = match self.measure {
            Measure::Day => words::IS_NOT,
            _ => words::OUTSIDE,
        };
        language.say(phrase, &[&self.in_text(value), &self.range(language)])
    }
}

#[cfg(test)]
mod tests {
    use super::*;

    #[test]
    fn ranges() {
        assert_eq!(
            RADIUS.range(Language::English),
            "10,000 to 10,000,000 mm in size"
        );
        assert!(RADIUS.is_within(-10_000) && !RADIUS.is_within(9_999));
        assert_eq!(
            [-1, 0].map(|value| RADIUS.nearest(value)),
            [-10_000, 10_000]
        );
        assert!(CLASS.is_within(4) && !CLASS.is_within(0));
        assert_eq!(SIGNED.writable(), (-2_147_483_648, 2_147_483_647));
    }

    #[test]
    fn days() {
        assert!(DATE.is_within(20_000_229) && !DATE.is_within(20_110_229));
        assert!(!DATE.is_within(19_491_231) && !DATE.is_within(21_000_101));
        assert_eq!((DATE.refusal(), CLASS.refusal()), (22, 3));
        assert_eq!(
            DATE.outside(20_110_230, Language::English),
            "2011-02-30 is not a day from 1950-01-01 to 2099-12-31"
        );
    }
}
