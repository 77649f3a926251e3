//! "Exact values are fractions of whole numbers", their denominators multiplied out.

/// A fraction with a positive denominator.
#[derive(Clone, Copy, Debug)]
pub struct Fraction {
    pub numerator: i128,
    pub denominator: i128,
}

impl Fraction {
    /// Numerator over denominator, the sign moved to the numerator.
    pub fn new(numerator: i128, denominator: i128) -> Fraction {
        assert!(denominator != 0, "a fraction over zero");
        let sign = denominator.signum();
        Fraction {
            numerator: numerator * sign,
            denominator: denominator * sign,
        }
    }

    pub fn whole(value: i128) -> Fraction {
        Fraction::new(value, 1)
    }

    pub fn plus(self, other: Fraction) -> Fraction {
        let denominator = self.denominator * other.denominator;
        Fraction::new(
            self.numerator * other.denominator + other.numerator * self.denominator,
            denominator,
        )
    }

    pub fn times(self, other: Fraction) -> Fraction {
        Fraction::new(
            self.numerator * other.numerator,
            self.denominator * other.denominator,
        )
    }

    /// The same value in lowest terms, where products would grow too wide.
    pub fn lowest_terms(self) -> Fraction {
        let divisor = self.common_divisor();
        Fraction::new(self.numerator / divisor, self.denominator / divisor)
    }

    /// The greatest whole number that divides numerator and denominator.
    pub fn common_divisor(self) -> i128 {
        common_divisor(self.numerator.abs(), self.denominator)
    }

    pub fn equals(self, other: Fraction) -> bool {
        self.numerator * other.denominator == other.numerator * self.denominator
    }

    /// "rounded to the nearest whole", and by request A.2 "an exact half away from zero"
    pub fn rounded(self) -> i128 {
        // The floor of the unsigned value + 1/2, with the sign put back; the denominator is positive.
        let unsigned = (2 * self.numerator.abs() + self.denominator) / (2 * self.denominator);
        self.numerator.signum() * unsigned
    }
}

fn common_divisor(a: i128, b: i128) -> i128 {
    if b == 0 {
        a
    } else {
        common_divisor(b, a % b)
    }
}
