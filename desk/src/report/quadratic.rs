//! Exact values that are quadratic in the distance from a station.

use reference::fraction::Fraction;

/// (constant + slope × t + square × t²) / denominator, t mm past a station.
#[derive(Clone, Copy, Debug)]
pub struct Quadratic {
    pub constant: i128,
    pub slope: i128,
    pub square: i128,
    pub denominator: i128,
}

impl Quadratic {
    pub fn numerator(&self, t: i128) -> i128 {
        self.constant + self.slope * t + self.square * t * t
    }

    /// Where from 0 to a length, in whole mm, the value is greatest in size: at an end or beside the summit.
    pub fn greatest(&self, length: i128) -> (i128, Fraction) {
        let summit = match self.square {
            0 => 0,
            square => (-self.slope * square.signum()).div_euclid(2 * square.abs()),
        };
        let places = [0, length, summit, summit + 1].map(|t| t.clamp(0, length));
        let found = places
            .into_iter()
            .max_by_key(|&t| (self.numerator(t).abs(), -t));
        let t = found.unwrap_or(0);
        (t, Fraction::new(self.numerator(t), self.denominator))
    }
}
