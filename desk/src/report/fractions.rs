//! Fractions by their size.

use std::cmp::Ordering;

use reference::fraction::Fraction;

/// A fraction without its sign.
pub fn size(value: Fraction) -> Fraction {
    Fraction::new(value.numerator.abs(), value.denominator)
}

/// A fraction for drawing.
pub fn in_millimetres(value: Fraction) -> f64 {
    value.numerator as f64 / value.denominator as f64
}

/// Whether one is greater in size than another.
pub fn is_greater(one: Fraction, other: Fraction) -> bool {
    let [one, other] = [one, other].map(|value| (value.numerator.abs(), value.denominator));
    compared(one, other) == Ordering::Greater
}

/// Two fractions of no sign, by their whole parts, then by what remains; their products would be too wide.
fn compared(one: (i128, i128), other: (i128, i128)) -> Ordering {
    let (whole, other_whole) = (one.0 / one.1, other.0 / other.1);
    let (rest, other_rest) = (one.0 % one.1, other.0 % other.1);
    match (whole.cmp(&other_whole), rest, other_rest) {
        (Ordering::Equal, 0, _) | (Ordering::Equal, _, 0) => rest.cmp(&other_rest),
        (Ordering::Equal, _, _) => compared((other.1, other_rest), (one.1, rest)),
        (different, _, _) => different,
    }
}

#[cfg(test)]
mod tests {
    use super::*;

    #[test]
    fn fractions_by_size() {
        assert!(is_greater(Fraction::new(-7, 3), Fraction::new(9, 4)));
        assert!(!is_greater(Fraction::new(6, 4), Fraction::new(-3, 2)));
        assert!(!is_greater(
            Fraction::new(i128::MAX / 2, i128::MAX),
            Fraction::new(1, 2)
        ));
    }
}
