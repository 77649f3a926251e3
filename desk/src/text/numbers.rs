//! Numbers as the file writes them.

/// "The greatest number is 4,294,967,295."
pub const GREATEST: i64 = 4_294_967_295;

/// Five bytes write every number up to the greatest.
const MOST_BYTES: usize = 5;

/// Why there is no number at a place: refusal 2.
#[derive(Clone, Copy, Debug, PartialEq, Eq)]
pub enum Faulty {
    /// The file ends where the number is due.
    Missing,
    BreaksOff,
    NotShortest,
    TooGreat,
}

/// "A signed value v is written as 2v if v >= 0, else as -2v - 1."
pub fn written(value: i64) -> i64 {
    if value >= 0 {
        2 * value
    } else {
        -2 * value - 1
    }
}

/// The signed value that a number stands for.
pub fn signed_value(number: i64) -> i64 {
    if number % 2 == 0 {
        number / 2
    } else {
        -(number + 1) / 2
    }
}

/// "seven bits to a byte, lowest group first; the top bit is set on every byte but the last"
pub fn put(number: i64, out: &mut Vec<u8>) {
    let mut rest = number;
    while rest >= 128 {
        out.push(128 + (rest % 128) as u8);
        rest /= 128;
    }
    out.push(rest as u8);
}

/// The number at a place, and the place after it.
pub fn number_at(bytes: &[u8], place: usize) -> Result<(i64, usize), Faulty> {
    let from = bytes.get(place..).unwrap_or(&[]);
    if from.is_empty() {
        return Err(Faulty::Missing);
    }
    let last = from.iter().position(|&byte| byte < 128);
    let last = last.ok_or(Faulty::BreaksOff)?;
    if last > 0 && from[last] == 0 {
        return Err(Faulty::NotShortest);
    }
    if last >= MOST_BYTES {
        return Err(Faulty::TooGreat);
    }
    let groups = from[..=last].iter().rev();
    let number = groups.fold(0, |number, byte| number * 128 + i64::from(byte % 128));
    if number > GREATEST {
        return Err(Faulty::TooGreat);
    }
    Ok((number, place + last + 1))
}

#[cfg(test)]
mod tests {
    use super::*;

    #[test]
    fn numbers_and_back() {
        for number in [0, 1, 127, 128, 300, 16_383, 16_384, GREATEST] {
            let mut bytes = vec![7];
            put(number, &mut bytes);
            assert_eq!(number_at(&bytes, 1), Ok((number, bytes.len())));
            assert_eq!(written(signed_value(number)), number);
        }
        assert_eq!(number_at(&[0xAC, 0x02], 0), Ok((300, 2)));
        assert_eq!(signed_value(GREATEST), -2_147_483_648);
    }

    #[test]
    fn faulty_numbers() {
        assert_eq!(number_at(&[], 0), Err(Faulty::Missing));
        assert_eq!(number_at(&[1], 9), Err(Faulty::Missing));
        assert_eq!(number_at(&[0x80], 0), Err(Faulty::BreaksOff));
        assert_eq!(number_at(&[0x80, 0], 0), Err(Faulty::NotShortest));
        assert_eq!(
            number_at(&[255, 255, 255, 255, 16], 0),
            Err(Faulty::TooGreat)
        );
        assert_eq!(
            number_at(&[128, 128, 128, 128, 128, 1], 0),
            Err(Faulty::TooGreat)
        );
    }
}
