//! A contract date in the text: `2011-12-31` for the number 20111231.

use reference::file::Contract;

/// The numbers of eight digits.
const WITH_DASHES: std::ops::RangeInclusive<i64> = 10_000_000..=99_999_999;

/// How many digits year, month and day have.
const DIGITS: [usize; 3] = [4, 2, 2];

/// A number of eight digits with two dashes, also where it is no day; any other plainly.
pub fn with_dashes(number: i64) -> String {
    if !WITH_DASHES.contains(&number) {
        return number.to_string();
    }
    let (year, month, day) = (number / 10_000, number / 100 % 100, number % 100);
    format!("{year}-{month:02}-{day:02}")
}

/// The date of a contract that has one.
pub fn of(contract: Contract) -> Option<String> {
    match contract {
        Contract::Undated => None,
        Contract::Dated(date) => i64::try_from(date).ok().map(with_dashes),
    }
}

/// The number of a date with dashes; none of any other word.
pub fn number(word: &str) -> Option<i64> {
    let parts: Vec<&str> = word.split('-').collect();
    let is_digits = |part: &str| part.bytes().all(|byte| byte.is_ascii_digit());
    let has_shape = parts.iter().map(|part| part.len()).eq(DIGITS);
    let is_date = has_shape && parts.iter().all(|part| is_digits(part));
    is_date.then(|| parts.concat().parse().ok()).flatten()
}

#[cfg(test)]
mod tests {
    use super::*;

    #[test]
    fn eight_digits_have_dashes() {
        for (written, date) in [
            ("2011-12-31", 20_111_231),
            ("2011-02-30", 20_110_230),
            ("1000-00-00", 10_000_000),
            ("9999-99-99", 99_999_999),
        ] {
            assert_eq!(with_dashes(date), written);
            assert_eq!(number(written), Some(date));
        }
        for plain in [0, 9, 9_999_999, 100_000_000, 4_294_967_295] {
            assert_eq!(with_dashes(plain), plain.to_string());
        }
    }

    #[test]
    fn words_that_are_no_date() {
        for word in [
            "",
            "20111231",
            "2011-12",
            "2011-1-31",
            "-011-12-31",
            "2011-12-31-",
            "2011-12-3x",
            "31-12-2011",
            "2011\u{2212}12\u{2212}31",
            "+011-12-31",
        ] {
            assert_eq!(number(word), None, "{word}");
        }
    }
}
