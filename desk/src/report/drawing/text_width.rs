//! How wide a text is drawn at most, in parts of its size: the widths of a wide sans serif, since the reader's is not known.

/// The width of a text of size 1.
pub fn width(text: &str) -> f64 {
    text.chars().map(letter_width).sum()
}

fn letter_width(letter: char) -> f64 {
    const NARROW: &str = " \u{a0}.,:;·'|!()ijlfrtјІіг";
    const WIDE: &str = "mwMWжмшщюфЖМШЩЮФЂЉЊљњђ%—";
    if NARROW.contains(letter) {
        0.42
    } else if WIDE.contains(letter) {
        1.05
    } else if letter.is_uppercase() || "+−=".contains(letter) {
        0.84
    } else {
        0.66
    }
}

#[cfg(test)]
mod tests {
    use super::*;

    #[test]
    fn digits_are_as_wide_as_those_of_a_wide_letter() {
        assert!(width("0+095.850") > 9.0 * 0.6);
        assert!(width("км") > width("lj"));
    }
}
