//! Refusals 1 to 4: the file's length, the shape of its numbers, their ranges; `date` has what the date adds.

use super::{accepted, made, road_with, Expected, Made};
use crate::generate::head::Head;
use crate::generate::numbers::{
    bytes_of, file, first_byte, number_bytes, numbers, written_signed, Field, Number,
};
use crate::generate::random::Random;
use crate::generate::valid::{random_road, road_of_size, Size};

/// A bound of a field's range, and by how much to go beyond it.
#[derive(Clone, Copy)]
pub struct Bound {
    pub field: Field,
    pub value: i128,
    pub beyond: i128,
}

pub fn longest_file(random: &mut Random, outside: bool) -> Made {
    let road = random_road(random);
    let mut bytes = if random.chance(50) {
        file(&road)
    } else {
        Vec::new()
    };
    let filler = random.pick(&[0x00, 0x01, 0x09, 0x80, 0xff]);
    let read = bytes.len();
    bytes.resize(if outside { 8_193 } else { 8_192 }, filler);
    let expected = match (outside, read) {
        (true, _) => Expected::RefusedAt(1, 8_192),
        (false, 0) => match filler {
            0x00 => Expected::RefusedAt(3, 0),
            0x01 => Expected::RefusedAt(3, 2),
            0x09 => Expected::RefusedAt(22, 1),
            _ => Expected::RefusedAt(2, 0),
        },
        (false, read) => Expected::RefusedAt(4, read),
    };
    made(&road, bytes, expected)
}

pub fn breaks_off(random: &mut Random, outside: bool) -> Made {
    let road = random_road(random);
    if !outside {
        return accepted(&road);
    }
    let numbers = numbers(&road);
    let mut bytes = bytes_of(&numbers);
    let cut = random.place(bytes.len());
    bytes.truncate(cut);
    let begun = (0..numbers.len())
        .map(|place| first_byte(&numbers, place))
        .take_while(|&first| first <= cut)
        .last()
        .unwrap_or(0);
    made(&road, bytes, Expected::RefusedAt(2, begun))
}

/// The bytes of a file with one number replaced by bytes of another shape.
fn with_number(numbers: &[Number], place: usize, replacement: &[u8]) -> Vec<u8> {
    let mut bytes = bytes_of(&numbers[..place]);
    bytes.extend_from_slice(replacement);
    bytes.extend(bytes_of(&numbers[place + 1..]));
    bytes
}

pub fn shortest_form(random: &mut Random, outside: bool) -> Made {
    let road = random_road(random);
    if !outside {
        return accepted(&road);
    }
    let numbers = numbers(&road);
    let place = random.place(numbers.len());
    let mut replacement = number_bytes(numbers[place].written);
    let more = random.between_by_size(1, 8);
    for _ in 0..more {
        *replacement.last_mut().expect("a byte") |= 0x80;
        replacement.push(0);
    }
    let expected = Expected::RefusedAt(2, first_byte(&numbers, place));
    made(&road, with_number(&numbers, place, &replacement), expected)
}

/// A date's value is refused with 22, any other with 3.
fn refusal_of_value(field: Field) -> i128 {
    if field == Field::Date {
        22
    } else {
        3
    }
}

pub fn greatest_number(random: &mut Random, outside: bool) -> Made {
    let road = random_road(random);
    let numbers = numbers(&road);
    let place = random.place(numbers.len());
    let greatest = 4_294_967_295;
    let value = if outside { greatest + 1 } else { greatest };
    let number = if outside {
        2
    } else {
        refusal_of_value(numbers[place].field)
    };
    let bytes = with_number(&numbers, place, &number_bytes(value));
    let expected = Expected::RefusedAt(number, first_byte(&numbers, place));
    made(&road, bytes, expected)
}

pub fn five_bytes(random: &mut Random, outside: bool) -> Made {
    let road = random_road(random);
    let numbers = numbers(&road);
    let place = random.place(numbers.len());
    let (value, number) = if outside {
        (1_u64 << random.between(35, 63), 2)
    } else {
        let value = random.between(1 << 28, 4_294_967_295);
        (value as u64, refusal_of_value(numbers[place].field))
    };
    let bytes = with_number(&numbers, place, &number_bytes(value));
    let expected = Expected::RefusedAt(number, first_byte(&numbers, place));
    made(&road, bytes, expected)
}

pub fn top_bit_at_end(random: &mut Random, outside: bool) -> Made {
    let road = random_road(random);
    if !outside {
        return accepted(&road);
    }
    let numbers = numbers(&road);
    let mut bytes = bytes_of(&numbers);
    *bytes.last_mut().expect("a byte") |= 0x80;
    let first = first_byte(&numbers, numbers.len() - 1);
    made(&road, bytes, Expected::RefusedAt(2, first))
}

/// A number at a bound of its range, or beyond it.
pub fn at_bound(random: &mut Random, outside: bool, bound: Bound) -> Made {
    let Bound { field, .. } = bound;
    let value = if outside {
        bound.value + bound.beyond
    } else {
        bound.value
    };
    let with_bends = |random: &mut Random| {
        let head = Head::random(random);
        let size = Size::with_bends(random, 1, 4);
        road_of_size(random, head, &size)
    };
    let (road, place) = road_with(random, with_bends, |road| {
        let numbers = numbers(road);
        (0..numbers.len())
            .filter(|&place| numbers[place].field == field)
            .collect()
    });
    let mut numbers = numbers(&road);
    numbers[place].written = if field.is_signed() {
        written_signed(value)
    } else {
        value as u64
    };
    let first = first_byte(&numbers, place);
    let expected = if outside {
        Expected::RefusedAt(3, first)
    } else {
        Expected::NotOutsideRangeAt(first)
    };
    made(&road, bytes_of(&numbers), expected)
}

pub fn bytes_follow(random: &mut Random, outside: bool) -> Made {
    let road = random_road(random);
    if !outside {
        return accepted(&road);
    }
    let mut bytes = file(&road);
    let end = bytes.len();
    let count = random.between_by_size(1, 8_192 - end as i128) as usize;
    let more = random.bytes(count);
    bytes.extend(more);
    made(&road, bytes, Expected::RefusedAt(4, end))
}
