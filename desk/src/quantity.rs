//! Whole millimetres and parts per million, from digits, metres or percent.

/// A number of millimetres: `120500`, or metres that are exact in millimetres, as `120.5m`, `120,5 m` or `0+120.500`.
pub fn station(word: &str) -> Option<u64> {
    if !word.starts_with(|first: char| first.is_ascii_digit()) {
        return None;
    }
    if let Some((kilometres, metres)) = word.split_once('+') {
        return u64::try_from(chainage(kilometres, metres)?).ok();
    }
    let value = match word.strip_suffix('m') {
        None => whole(word)?,
        Some(metres) if is_ambiguous(metres.trim_end()) => return None,
        Some(metres) => scaled(metres.trim_end(), 3)?,
    };
    u64::try_from(value).ok()
}

/// Kilometres and three digits of metres, as pages write a station.
fn chainage(kilometres: &str, metres: &str) -> Option<i128> {
    let before_point = metres.split(['.', ',']).next()?;
    if before_point.len() != 3 || !is_plain(before_point) {
        return None;
    }
    Some(whole(kilometres)? * 1_000_000 + scaled(metres, 3)?)
}

/// Whether a comma may as well separate thousands: `1,200`.
pub fn is_ambiguous(word: &str) -> bool {
    let part = word.split_once(',').map(|(_, part)| part);
    part.is_some_and(|part| part.len() == 3 && is_plain(part))
}

/// A whole number, signed or not.
pub fn whole(word: &str) -> Option<i128> {
    let (sign, digits) = signed(word);
    is_plain(digits).then(|| sign * value(digits))
}

/// A decimal number times ten to a power, where that is whole.
pub fn scaled(word: &str, power: u32) -> Option<i128> {
    let (below, above) = nearest(word, power)?;
    (below == above).then_some(below)
}

/// The whole numbers on either side of a decimal number times ten to a power: one and the same where that is whole.
pub fn nearest(word: &str, power: u32) -> Option<(i128, i128)> {
    let (sign, digits) = signed(word);
    let (whole, part) = digits.split_once(['.', ',']).unwrap_or((digits, "0"));
    if !is_plain(whole) || !is_plain(part) {
        return None;
    }
    let part = part.trim_end_matches('0');
    let kept = &part[..part.len().min(power as usize)];
    let missing = power - kept.len() as u32;
    let inner = value(whole) * 10_i128.pow(power) + value(kept) * 10_i128.pow(missing);
    let outer = inner + i128::from(kept.len() < part.len());
    Some(match sign {
        1 => (inner, outer),
        _ => (-outer, -inner),
    })
}

/// A decimal number in as few digits as tell it: `120.5` of 120,500 and 3.
pub fn unscaled(value: i128, power: u32) -> String {
    let unit = 10_i128.pow(power);
    let sign = if value < 0 { "-" } else { "" };
    let whole = (value / unit).abs();
    let part = format!("{:0width$}", (value % unit).abs(), width = power as usize);
    match part.trim_end_matches('0') {
        "" => format!("{sign}{whole}"),
        part => format!("{sign}{whole}.{part}"),
    }
}

/// The sign of a number, and the rest of it. Typesetting has a minus sign of its own, U+2212.
fn signed(word: &str) -> (i128, &str) {
    match word.strip_prefix(['-', '\u{2212}']) {
        Some(rest) => (-1, rest),
        None => (1, word.strip_prefix('+').unwrap_or(word)),
    }
}

fn is_plain(word: &str) -> bool {
    !word.is_empty() && word.bytes().all(|byte| byte.is_ascii_digit())
}

/// The number that digits write; one of more than thirty digits is greater than any that is asked for.
fn value(digits: &str) -> i128 {
    let digits = digits.trim_start_matches('0');
    match digits.len() {
        0 => 0,
        1..=30 => digits.parse().unwrap_or(0),
        _ => 10_i128.pow(30),
    }
}

#[cfg(test)]
mod tests {
    use super::*;

    #[test]
    fn stations() {
        assert_eq!(station("120500"), Some(120_500));
        assert_eq!(station("120.5m"), Some(120_500));
        assert_eq!(station("120,5 m"), Some(120_500));
        assert_eq!(station("0.0005m"), None);
        assert_eq!(station("120,5"), None);
        assert_eq!(station("1,200 m"), None);
        assert_eq!(station("1,2 m"), Some(1_200));
        assert_eq!(station("-1"), None);
        assert_eq!(station("+1"), None);
        assert_eq!(station("1.m"), None);
        assert_eq!(station("18446744073709551615"), Some(u64::MAX));
        assert_eq!(station("18446744073709551616"), None);
    }

    #[test]
    fn stations_of_pages() {
        assert_eq!(station("0+120.500"), Some(120_500));
        assert_eq!(station("12+005,5"), Some(12_005_500));
        assert_eq!(station("1+200"), Some(1_200_000));
        assert_eq!(station("1+20"), None);
        assert_eq!(station("1+0000"), None);
        assert_eq!(station("1++20"), None);
        assert_eq!(station("0+120.0005"), None);
        assert_eq!(station("1.5+120"), None);
        assert_eq!(station(&format!("{}+000", "9".repeat(100))), None);
    }

    #[test]
    fn decimals() {
        assert_eq!(scaled("2.5", 4), Some(25_000));
        assert_eq!(scaled("-2,50000", 4), Some(-25_000));
        assert_eq!(scaled("\u{2212}2,5", 4), Some(-25_000));
        assert_eq!(scaled("2.00005", 4), None);
        assert_eq!(scaled("", 4), None);
        assert_eq!(scaled(".5", 4), None);
        assert_eq!(scaled("1.200,5", 3), None);
        assert_eq!(scaled(&"9".repeat(1_000), 4), Some(10_i128.pow(34)));
    }

    #[test]
    fn nearest_whole_numbers() {
        assert_eq!(nearest("120.0005", 3), Some((120_000, 120_001)));
        assert_eq!(nearest("-0.00001", 4), Some((-1, 0)));
        assert_eq!(nearest("7", 0), Some((7, 7)));
        assert_eq!(nearest("7.5", 0), Some((7, 8)));
    }

    #[test]
    fn few_digits() {
        assert_eq!(unscaled(120_500, 3), "120.5");
        assert_eq!(unscaled(-1, 4), "-0.0001");
        assert_eq!(unscaled(-30_000, 4), "-3");
        assert_eq!(unscaled(7, 0), "7");
    }
}
