//! From an alignment to the numbers of a file and to its bytes.

use reference::file::{Alignment, Contract, Kind};

/// What a number of the file stands for.
#[derive(Clone, Copy, Debug, PartialEq, Eq)]
pub enum Field {
    Layout,
    Date,
    Class,
    Terrain,
    Step,
    RampLimit,
    PlanCount,
    Kind,
    Length,
    Radius,
    StartHeight,
    TangentCount,
    TangentLength,
    Grade,
    HalfLength,
    CrossfallCount,
    Station,
    Left,
    Right,
}

impl Field {
    pub fn is_signed(self) -> bool {
        matches!(
            self,
            Field::Radius | Field::StartHeight | Field::Grade | Field::Left | Field::Right
        )
    }
}

/// A number of the file, as it is written.
#[derive(Clone, Copy, Debug)]
pub struct Number {
    pub field: Field,
    pub written: u64,
}

/// "A signed value v is written as 2v if v >= 0, else as -2v - 1."
pub fn written_signed(value: i128) -> u64 {
    let written = if value >= 0 {
        2 * value
    } else {
        -2 * value - 1
    };
    u64::try_from(written).expect("a value that can be written")
}

fn written(value: i128) -> u64 {
    u64::try_from(value).expect("a value that can be written")
}

/// The numbers of a file, in order.
pub fn numbers(alignment: &Alignment) -> Vec<Number> {
    let mut numbers = Vec::new();
    let mut add = |field, written| numbers.push(Number { field, written });
    if let Contract::Dated(date) = alignment.contract {
        add(Field::Layout, 9);
        add(Field::Date, written(date));
    }
    add(Field::Class, written(alignment.class));
    add(Field::Terrain, written(alignment.terrain));
    add(Field::Step, written(alignment.step));
    add(Field::RampLimit, written(alignment.ramp_limit));
    add(Field::PlanCount, alignment.elements.len() as u64);
    for element in &alignment.elements {
        let kind = match element.kind {
            Kind::Straight => 0,
            Kind::Arc => 1,
            Kind::Clothoid => 2,
        };
        add(Field::Kind, kind);
        add(Field::Length, written(element.length));
        if element.kind == Kind::Arc {
            add(Field::Radius, written_signed(element.radius));
        }
    }
    add(Field::StartHeight, written_signed(alignment.start_height));
    add(Field::TangentCount, alignment.tangents.len() as u64);
    for (place, tangent) in alignment.tangents.iter().enumerate() {
        add(Field::TangentLength, written(tangent.length));
        add(Field::Grade, written_signed(tangent.grade));
        if place + 1 < alignment.tangents.len() {
            add(Field::HalfLength, written(tangent.half_length));
        }
    }
    add(Field::CrossfallCount, alignment.points.len() as u64);
    for point in &alignment.points {
        add(Field::Station, written(point.station));
        add(Field::Left, written_signed(point.left));
        add(Field::Right, written_signed(point.right));
    }
    numbers
}

/// A number in shortest form, "seven bits to a byte, lowest group first".
pub fn number_bytes(written: u64) -> Vec<u8> {
    let mut bytes = Vec::new();
    let mut rest = written;
    while rest >= 0x80 {
        bytes.push((rest & 0x7f) as u8 | 0x80);
        rest >>= 7;
    }
    bytes.push(rest as u8);
    bytes
}

pub fn bytes_of(numbers: &[Number]) -> Vec<u8> {
    numbers
        .iter()
        .flat_map(|number| number_bytes(number.written))
        .collect()
}

/// The first byte of a number of the file.
pub fn first_byte(numbers: &[Number], place: usize) -> usize {
    bytes_of(&numbers[..place]).len()
}

pub fn file(alignment: &Alignment) -> Vec<u8> {
    bytes_of(&numbers(alignment))
}
