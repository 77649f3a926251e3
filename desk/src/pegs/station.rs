//! The station of a peg, as a cell has it. A number of metres is never taken for one of millimetres.

use crate::quantity;
use crate::words::{common, pegs as words, Phrase};

/// What a head calls the station's column, in small letters.
const NAMES: [&str; 5] = [
    "station",
    "chainage",
    "stacionaža",
    "stacionaza",
    "стационажа",
];

/// What may stand before a station, as in `km 95,850`.
const KILOMETRE: [&str; 2] = ["km", "км"];

/// The unit that a head names; a number without any is in millimetres.
#[derive(Clone, Copy, Debug, PartialEq, Eq)]
pub enum Unit {
    Unnamed,
    Millimetre,
    Metre,
}

/// The unit of a head that is a station's: `Station`, `station_mm`, `Chainage [m]`.
pub fn unit(head: &[u8]) -> Option<Unit> {
    let head = String::from_utf8_lossy(head).to_lowercase();
    let words = head.split(|letter: char| !letter.is_alphanumeric());
    let words: Vec<&str> = words.filter(|word| !word.is_empty()).collect();
    let (name, unit) = words.split_first()?;
    match unit {
        _ if !NAMES.contains(name) => None,
        [] => Some(Unit::Unnamed),
        ["mm" | "мм"] => Some(Unit::Millimetre),
        ["m" | "м"] => Some(Unit::Metre),
        _ => None,
    }
}

/// Whether a cell may be meant as a number, well written or not: a line with such a cell is no head line.
pub fn may_be_number(cell: &[u8]) -> bool {
    let cell = String::from_utf8_lossy(cell).to_lowercase();
    let kilometre = KILOMETRE.iter().find_map(|unit| cell.strip_prefix(unit));
    let unsigned = kilometre.unwrap_or(&cell).trim_start_matches(is_of_number);
    let has_plus = cell.contains('+') && cell.contains(char::is_numeric);
    has_plus || unsigned.starts_with(char::is_numeric)
}

/// Whether a cell is words and a whole number behind them, as `St. 95` of `St. 95,850`: the comma may begin decimals.
pub fn ends_in_number(cell: &[u8]) -> bool {
    let cell = String::from_utf8_lossy(cell);
    let last = cell.split_whitespace().skip(1).last();
    last.is_some_and(|word| word.chars().all(char::is_numeric))
}

/// A cell as `row` takes a station; in a column of metres as if m stood behind a number that has no unit.
pub fn station(cell: &[u8], unit: Unit) -> Option<u64> {
    let word = std::str::from_utf8(cell).ok()?.trim();
    let is_bare = ends_in_digit(word) && !word.contains('+');
    match unit {
        Unit::Metre if is_bare => quantity::station(&format!("{word}m")),
        _ => quantity::station(word),
    }
}

/// What is wrong with a cell that is no station.
pub fn why_none(cell: &[u8], unit: Unit) -> Phrase {
    let word = String::from_utf8_lossy(cell);
    let word = word.trim();
    let is_decimal = word.contains(['.', ',']) && quantity::nearest(word, 0).is_some();
    match unit {
        Unit::Metre if quantity::is_ambiguous(word) => common::AMBIGUOUS,
        Unit::Unnamed | Unit::Millimetre if is_decimal => words::DECIMALS,
        _ => common::NO_STATION,
    }
}

/// Two cells with the comma between them, where a digit behind it may go on with the number: `95,850`, `0+095,850` or
/// `1,234.500`. Digits under a head that names millimetres are whole.
pub fn with_decimal_comma(whole: &[u8], part: &[u8], unit: Unit) -> Option<String> {
    let whole = std::str::from_utf8(whole).ok()?.trim_start();
    let is_whole = unit == Unit::Millimetre && whole.bytes().all(|byte| byte.is_ascii_digit());
    let may_go_on = ends_in_digit(whole) && !whole.contains('.') && !is_whole;
    let is_part = part.first().is_some_and(u8::is_ascii_digit);
    let part = String::from_utf8_lossy(part);
    (may_go_on && is_part).then(|| format!("{whole},{}", part.trim_end()))
}

/// What may stand before the first digit of a number.
fn is_of_number(letter: char) -> bool {
    letter.is_whitespace() || "+-\u{2212}.,".contains(letter)
}

fn ends_in_digit(word: &str) -> bool {
    word.ends_with(|last: char| last.is_ascii_digit())
}

#[cfg(test)]
mod tests {
    use super::*;

    #[test]
    fn heads() {
        let unit = |head: &str| unit(head.as_bytes());
        for head in [
            "station",
            " Station: ",
            "CHAINAGE",
            "Stacionaža",
            "стационажа",
        ] {
            assert_eq!(unit(head), Some(Unit::Unnamed), "{head}");
        }
        for head in ["station_mm", "Station [mm]", "Стационажа (мм)"] {
            assert_eq!(unit(head), Some(Unit::Millimetre), "{head}");
        }
        for head in ["station_m", "chainage/m", "Stacionaža, m"] {
            assert_eq!(unit(head), Some(Unit::Metre), "{head}");
        }
        for head in [
            "",
            "station_km",
            "station 5",
            "stations",
            "name",
            "station name",
        ] {
            assert_eq!(unit(head), None, "{head}");
        }
    }

    #[test]
    fn cells_that_may_be_numbers() {
        for cell in [
            "0", "-5", "95.850", "12a", " .5", "km 0+095", "KM 95", "\u{A0}5", "+7", "95'850",
        ] {
            assert!(may_be_number(cell.as_bytes()), "{cell}");
        }
        for cell in ["", "P1", "left", "K-3", "km", "offset +/-", "#1"] {
            assert!(!may_be_number(cell.as_bytes()), "{cell}");
        }
    }

    #[test]
    fn words_before_a_number() {
        assert!(["St. 95", "St 95", "left peg 12"]
            .map(str::as_bytes)
            .into_iter()
            .all(ends_in_number));
        assert!(!["", "95", "P1", "St", "12 left", "St 95a"]
            .map(str::as_bytes)
            .into_iter()
            .any(ends_in_number));
    }

    #[test]
    fn stations_in_metres() {
        let metres = |cell: &str| station(cell.as_bytes(), Unit::Metre);
        assert_eq!(metres("95.850"), Some(95_850));
        assert_eq!(metres("95"), Some(95_000));
        assert_eq!(metres("95,85"), Some(95_850));
        assert_eq!(metres("95,850"), None);
        assert_eq!(metres("0+095,850"), Some(95_850));
        assert_eq!(metres("95.850 m"), Some(95_850));
        assert_eq!(metres("95.8505"), None);
        assert_eq!(station(b" 95850 ", Unit::Unnamed), Some(95_850));
        assert_eq!(station(b"95.850", Unit::Unnamed), None);
    }

    #[test]
    fn decimal_commas() {
        let joined = |whole: &str, part: &str, unit| {
            with_decimal_comma(whole.as_bytes(), part.as_bytes(), unit)
        };
        for (whole, part) in [
            ("95", "850"),
            ("0+095", "85"),
            ("120", "5 m"),
            ("0", "742315"),
            ("1", "234.500"),
        ] {
            let expected = Some(format!("{whole},{part}"));
            assert_eq!(joined(whole, part, Unit::Unnamed), expected);
            assert_eq!(joined(whole, part, Unit::Metre), expected);
        }
        assert_eq!(joined("95850", "742", Unit::Millimetre), None);
        assert!(joined("0+095", "850", Unit::Millimetre).is_some());
        for (whole, part) in [
            ("95850", ""),
            ("95850", "m"),
            ("95850", " 2"),
            ("95850", "P1"),
            ("0+095.850", "2"),
            ("95m", "2"),
            ("\"95850\"", "2"),
            ("", "2"),
        ] {
            assert_eq!(joined(whole, part, Unit::Unnamed), None, "{whole},{part}");
        }
    }
}
