//! Round numbers along an axis.

use crate::language::Language;
use crate::words::Phrase;

/// 1, 2, 5, 10, 20, 50 ..
pub fn round_numbers() -> impl Iterator<Item = i128> {
    (0..30).flat_map(|power| [1, 2, 5].map(|digit| digit * 10_i128.pow(power)))
}

/// How heights are drawn against stations: 10 : 1, or 1 : 10 where they would have no room.
#[derive(Clone, Copy, Debug, PartialEq, Eq)]
pub struct Times {
    pub height: i128,
    pub station: i128,
}

impl Times {
    pub fn new(height: i128) -> Times {
        Times { height, station: 1 }
    }

    pub fn factor(self) -> f64 {
        self.height as f64 / self.station as f64
    }

    /// The greatest of round numbers that fits.
    pub fn greatest(fits: impl Fn(f64) -> bool) -> Times {
        let fitting = round_numbers().take_while(|&times| fits(times as f64));
        if let Some(times) = fitting.last() {
            return Times::new(times);
        }
        let smaller = round_numbers().find(|&times| fits(1.0 / times as f64));
        Times {
            height: 1,
            station: smaller.unwrap_or(1),
        }
    }

    pub fn shown(self, phrase: Phrase, language: Language) -> String {
        let values = [self.height, self.station].map(|value| language.number(value));
        language.say(phrase, &[&values[0], &values[1]])
    }
}

/// The least round number such that at most so many of its multiples lie within a span.
pub fn tick_step(span: i128, most: i128) -> i128 {
    let fits = |step: &i128| span / step <= most;
    round_numbers().find(fits).unwrap_or(span.max(1))
}

/// The multiples of a step from one value to another.
pub fn multiples(from: i128, to: i128, step: i128) -> Vec<i128> {
    let first = from.div_euclid(step) + i128::from(from.rem_euclid(step) > 0);
    let last = to.div_euclid(step);
    (first..=last).map(|count| count * step).collect()
}

/// A multiple of a step, given in parts of ten to a power, with as many decimals as the step has.
pub fn shown(value: i128, step: i128, power: u32, language: Language) -> String {
    let mut places = power;
    let mut unit = 1;
    while places > 0 && step % (unit * 10) == 0 {
        unit *= 10;
        places -= 1;
    }
    with_places(value / unit, places, language)
}

/// A number in parts of ten to a power, without the zeros at its end.
pub fn trimmed(value: i128, power: u32, language: Language) -> String {
    shown(
        value,
        if value == 0 {
            10_i128.pow(power)
        } else {
            value.abs()
        },
        power,
        language,
    )
}

fn with_places(value: i128, places: u32, language: Language) -> String {
    match places {
        0 => language.number(value),
        _ => language.decimals(value, places),
    }
}

#[cfg(test)]
mod tests {
    use super::*;

    #[test]
    fn round_steps() {
        assert_eq!(tick_step(820_000, 10), 100_000);
        assert_eq!(tick_step(0, 10), 1);
        assert_eq!(multiples(-7, 11, 5), vec![-5, 0, 5, 10]);
    }

    #[test]
    fn times_that_fit() {
        let times = Times::greatest(|times| 3.0 * times <= 100.0);
        assert_eq!(times, Times::new(20));
        let times = Times::greatest(|times| 3.0 * times <= 1.0);
        assert_eq!((times.height, times.station), (1, 5));
    }

    #[test]
    fn decimals_of_the_step() {
        assert_eq!(shown(501_500, 500, 3, Language::English), "501.5");
        assert_eq!(shown(501_000, 1_000, 3, Language::English), "501");
        assert_eq!(trimmed(62_500, 4, Language::Serbian), "6,25");
        assert_eq!(trimmed(-20_000, 4, Language::English), "−2");
        assert_eq!(trimmed(0, 4, Language::English), "0");
    }
}
