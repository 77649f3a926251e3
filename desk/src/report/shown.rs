//! Stations and lengths as a surveyor writes them.

use reference::fraction::Fraction;

use super::drawing::ticks::trimmed;
use crate::language::Language;

/// Kilometres, a plus sign, metres and millimetres: 0+095.850.
pub fn station(value: i128) -> String {
    let (metres, millimetres) = (value / 1_000, value % 1_000);
    format!("{}+{:03}.{millimetres:03}", metres / 1_000, metres % 1_000)
}

/// The same without millimetres where they are none.
pub fn short_station(value: i128) -> String {
    let whole = station(value);
    match whole.strip_suffix(".000") {
        Some(metres) => metres.to_string(),
        None => whole,
    }
}

/// Millimetres in metres, without the zeros at the end.
pub fn metres(value: i128, language: Language) -> String {
    format!("{} m", trimmed(value, 3, language))
}

/// Parts per million in percent.
pub fn percent(value: i128, language: Language) -> String {
    format!("{} %", trimmed(value, 4, language))
}

/// The same with a plus sign uphill.
pub fn grade(value: i128, language: Language) -> String {
    let plus = if value > 0 { "+" } else { "" };
    plus.to_string() + &percent(value, language)
}

/// Millimetres with two decimals, rounded once.
pub fn hundredths(value: Fraction, language: Language) -> String {
    let value = value.lowest_terms();
    let rounded = Fraction::new(value.numerator * 100, value.denominator).rounded();
    language.decimals(rounded, 2)
}

/// A radius in metres: whole from 100 m on, else with one decimal.
pub fn radius(millimetres: Fraction, language: Language) -> String {
    let metres = Fraction::new(millimetres.numerator, millimetres.denominator * 1_000);
    if metres.rounded() >= 100 {
        return format!("{} m", language.number(metres.rounded()));
    }
    let tenths = Fraction::new(metres.numerator * 10, metres.denominator).rounded();
    format!("{} m", language.decimals(tenths, 1))
}

#[cfg(test)]
mod tests {
    use super::*;

    #[test]
    fn stations() {
        assert_eq!(station(50_000), "0+050.000");
        assert_eq!(station(100_000_000), "100+000.000");
        assert_eq!(short_station(1_250_000), "1+250");
        assert_eq!(short_station(1_250_001), "1+250.001");
    }

    #[test]
    fn values() {
        assert_eq!(metres(119_870, Language::English), "119.87 m");
        assert_eq!(grade(62_500, Language::Serbian), "+6,25 %");
        assert_eq!(
            radius(Fraction::new(2_028_169, 2), Language::English),
            "1,014 m"
        );
        assert_eq!(
            hundredths(Fraction::new(201, 4), Language::English),
            "50.25"
        );
    }
}
