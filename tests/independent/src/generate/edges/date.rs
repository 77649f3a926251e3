//! The contract date: refusal 22, and 2 and 3 beside it.

use super::{accepted, made, Expected, Made};
use crate::generate::days::{
    date, day_or_none, last_of_month, no_day, random_day, random_month, YEARS,
};
use crate::generate::head::Head;
use crate::generate::numbers::{bytes_of, file, first_byte, number_bytes, numbers, Field, Number};
use crate::generate::random::Random;
use crate::generate::road::Road;
use crate::generate::valid::road_of;
use reference::file::Contract;

/// The date's first byte comes after the one byte of 9.
const PLACE: usize = 1;

/// A road with a date, which may be no day: its numbers are 9, the date, the class and what follows.
fn dated_road(random: &mut Random, date: i128) -> Road {
    let head = Head {
        contract: Contract::Dated(date),
        ..Head::random(random)
    };
    road_of(random, head)
}

fn day_or(outside: bool, random: &mut Random, date: i128) -> Made {
    let expected = if outside {
        Expected::RefusedAt(22, PLACE)
    } else {
        Expected::Accepted
    };
    let road = dated_road(random, date);
    made(&road, file(&road), expected)
}

fn random_year(random: &mut Random) -> i128 {
    let [first, last] = YEARS;
    random.between_or_bound(first, last)
}

pub fn first_day(random: &mut Random, outside: bool) -> Made {
    let before = random.pick(&[19491231, 19500001, 19500100]);
    day_or(outside, random, if outside { before } else { 19500101 })
}

pub fn last_day(random: &mut Random, outside: bool) -> Made {
    let after = random.pick(&[20991232, 20991301, 21000101]);
    day_or(outside, random, if outside { after } else { 20991231 })
}

pub fn first_month(random: &mut Random, outside: bool) -> Made {
    let month = if outside { 0 } else { 1 };
    let (year, day) = (random_year(random), random.between_or_bound(1, 31));
    day_or(outside, random, date(year, month, day))
}

pub fn last_month(random: &mut Random, outside: bool) -> Made {
    let month = if outside { 13 } else { 12 };
    let (year, day) = (random_year(random), random.between_or_bound(1, 31));
    day_or(outside, random, date(year, month, day))
}

pub fn first_of_month(random: &mut Random, outside: bool) -> Made {
    let day = if outside { 0 } else { 1 };
    let (year, month) = (random_year(random), random.between(1, 12));
    day_or(outside, random, date(year, month, day))
}

pub fn end_of_month(random: &mut Random, outside: bool) -> Made {
    let (year, month) = (random_year(random), random_month(random));
    let day = last_of_month(year, month) + if outside { 1 } else { 0 };
    day_or(outside, random, date(year, month, day))
}

/// 29 February, in a leap year or in another.
pub fn leap_day(random: &mut Random, outside: bool) -> Made {
    let leap_year = match random.place(5) {
        0 => 2000,
        _ => 4 * random.between_or_bound(488, 524),
    };
    let year = if outside {
        leap_year + random.between(1, 3)
    } else {
        leap_year
    };
    day_or(outside, random, date(year, 2, 29))
}

pub fn any_number(random: &mut Random, outside: bool) -> Made {
    let date = day_or_none(random, !outside);
    day_or(outside, random, date)
}

/// "is refused with 22 as it is read, before any later number": the class after the date is faulty.
pub fn before_class(random: &mut Random, outside: bool) -> Made {
    let date = day_or_none(random, !outside);
    let road = dated_road(random, date);
    let numbers = numbers(&road);
    let class = first_byte(&numbers, 2);
    let mut bytes = bytes_of(&numbers[..2]);
    let (faulty, number): (&[u8], i128) =
        random.pick(&[(&[0], 3), (&[5], 3), (&[9], 3), (&[0x81, 0], 2), (&[], 2)]);
    bytes.extend(faulty);
    if !faulty.is_empty() {
        bytes.extend(bytes_of(&numbers[3..]));
    }
    let expected = if outside {
        Expected::RefusedAt(22, PLACE)
    } else {
        Expected::RefusedAt(number, class)
    };
    made(&road, bytes, expected)
}

/// A date that breaks off, is not in shortest form or exceeds the greatest is refused with 2, day or not.
pub fn shape_of_date(random: &mut Random, outside: bool) -> Made {
    if !outside {
        let date = no_day(random);
        return day_or(true, random, date);
    }
    let is_day = random.chance(50);
    let date = day_or_none(random, is_day);
    let road = dated_road(random, date);
    let numbers = numbers(&road);
    let mut written = number_bytes(numbers[1].written);
    let mut rest = bytes_of(&numbers[2..]);
    match random.place(3) {
        0 => {
            written.truncate(random.place(written.len()));
            rest.clear();
        }
        1 => {
            for _ in 0..random.between_by_size(1, 8) {
                *written.last_mut().expect("a byte") |= 0x80;
                written.push(0);
            }
        }
        _ => written = number_bytes(random.between_by_size(1 << 32, 1 << 63) as u64),
    }
    let bytes = [bytes_of(&numbers[..1]), written, rest].concat();
    made(&road, bytes, Expected::RefusedAt(2, PLACE))
}

/// Any first number but 9 is the class, in its range.
pub fn layout(random: &mut Random, outside: bool) -> Made {
    let date = random_day(random);
    let road = dated_road(random, date);
    if !outside {
        return accepted(&road);
    }
    let mut numbers = numbers(&road);
    numbers[0].written = random.pick(&[0, 5, 8, 8, 10, 10, 128 + 9, date as u64]);
    made(&road, bytes_of(&numbers), Expected::RefusedAt(3, 0))
}

/// After the date comes the class, not a second date.
pub fn second_date(random: &mut Random, outside: bool) -> Made {
    let date = random_day(random);
    let road = dated_road(random, date);
    if !outside {
        return accepted(&road);
    }
    let mut numbers = numbers(&road);
    let class = first_byte(&numbers, 2);
    let again = [(Field::Layout, 9), (Field::Date, date as u64)];
    numbers.splice(
        2..2,
        again.map(|(field, written)| Number { field, written }),
    );
    made(&road, bytes_of(&numbers), Expected::RefusedAt(3, class))
}
