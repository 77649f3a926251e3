//! "The file": numbers, fields in order with their ranges, refusals 1 to 4 and 22.

use crate::day::is_day;

/// "The answer is the number and a place, counted from 0."
#[derive(Clone, Copy, Debug, PartialEq, Eq)]
pub struct Refusal {
    pub number: i128,
    pub place: i128,
}

/// "kind 0 straight, 1 arc, 2 clothoid"
#[derive(Clone, Copy, Debug, PartialEq, Eq)]
pub enum Kind {
    Straight,
    Arc,
    Clothoid,
}

#[derive(Clone, Copy, Debug)]
pub struct Element {
    pub kind: Kind,
    pub length: i128,
    /// "for an arc a signed radius"; 0 on other elements.
    pub radius: i128,
}

#[derive(Clone, Copy, Debug)]
pub struct Tangent {
    pub length: i128,
    pub grade: i128,
    /// "except after the last, half length h of the vertical curve that follows"; 0 on the last.
    pub half_length: i128,
}

#[derive(Clone, Copy, Debug)]
pub struct CrossfallPoint {
    pub station: i128,
    pub left: i128,
    pub right: i128,
}

/// "A file beginning with 9 has the contract date next"; any other file has none.
#[derive(Clone, Copy, Debug, PartialEq, Eq)]
pub enum Contract {
    Undated,
    /// Year x 10,000 + month x 100 + day.
    Dated(i128),
}

/// "An alignment is held as three lists with their counts."
#[derive(Clone, Debug)]
pub struct Alignment {
    pub contract: Contract,
    pub class: i128,
    pub terrain: i128,
    pub step: i128,
    pub ramp_limit: i128,
    pub elements: Vec<Element>,
    pub start_height: i128,
    pub tangents: Vec<Tangent>,
    pub points: Vec<CrossfallPoint>,
}

impl Alignment {
    /// "T is the sum of the plan lengths."
    pub fn total_length(&self) -> i128 {
        self.elements.iter().map(|element| element.length).sum()
    }
}

/// "The greatest number is 4,294,967,295."
pub const GREATEST_NUMBER: i128 = 4_294_967_295;

/// "A file beginning with 9 has the contract date next".
pub const DATED_LAYOUT: i128 = 9;

/// "The file has more than 8,192 bytes"
pub const LONGEST_FILE: usize = 8_192;

/// "a number of b significant bits takes b/7 bytes, rounded up; 0 takes one"
pub fn shortest_form_bytes(number: i128) -> i128 {
    let mut significant_bits = 0;
    let mut rest = number;
    while rest > 0 {
        significant_bits += 1;
        rest /= 2;
    }
    if significant_bits == 0 {
        1
    } else {
        (significant_bits + 6) / 7
    }
}

/// "A signed value v is written as 2v if v >= 0, else as -2v - 1."
pub fn signed_value(written: i128) -> i128 {
    if written % 2 == 0 {
        written / 2
    } else {
        -((written + 1) / 2)
    }
}

/// "The reading place moves through the caller's bytes".
struct Reader<'f> {
    bytes: &'f [u8],
    place: usize,
}

impl Reader<'_> {
    /// The next number, or refusal 2 at its first byte.
    fn number(&mut self) -> Result<i128, Refusal> {
        let first = self.place;
        let faulty = Refusal {
            number: 2,
            place: first as i128,
        };
        // "the top bit is set on every byte but the last"
        let mut last = first;
        while last < self.bytes.len() && self.bytes[last] >= 128 {
            last += 1;
        }
        if last >= self.bytes.len() {
            return Err(faulty); // "breaks off"
        }
        let count = last + 1 - first;
        if count > 5 {
            return Err(faulty); // not shortest, or 36 bits and more
        }
        // "seven bits to a byte, lowest group first"
        let mut number: i128 = 0;
        for position in (first..=last).rev() {
            number = number * 128 + i128::from(self.bytes[position] % 128);
        }
        if shortest_form_bytes(number) != count as i128 {
            return Err(faulty); // "is not in shortest form"
        }
        if number > GREATEST_NUMBER {
            return Err(faulty); // "exceeds the greatest"
        }
        self.place = last + 1;
        Ok(number)
    }

    /// A number of a range; refusal 3 at its first byte where it is outside.
    fn number_within(&mut self, low: i128, high: i128) -> Result<i128, Refusal> {
        let first = self.place;
        let number = self.number()?;
        if number < low || number > high {
            return Err(outside_range(first));
        }
        Ok(number)
    }

    /// A signed value of a range.
    fn signed_within(&mut self, low: i128, high: i128) -> Result<i128, Refusal> {
        let first = self.place;
        let value = signed_value(self.number()?);
        if value < low || value > high {
            return Err(outside_range(first));
        }
        Ok(value)
    }

    /// "A file beginning with 9 has the contract date next [..] and then the layout we have from class onward."
    /// Any other first number is the class: the reading place stays before it.
    fn contract(&mut self) -> Result<Contract, Refusal> {
        let first = self.place;
        if self.number()? == DATED_LAYOUT {
            return Ok(Contract::Dated(self.date()?));
        }
        self.place = first;
        Ok(Contract::Undated)
    }

    /// "A date that is no Gregorian day from 19500101 to 20991231 is refused with 22 as it is read, before any
    /// later number, its place being the date's first byte."
    fn date(&mut self) -> Result<i128, Refusal> {
        let first = self.place;
        let date = self.number()?;
        if !is_day(date) {
            return Err(no_day(first));
        }
        Ok(date)
    }

    /// "for an arc a signed radius, 10,000 to 10,000,000 in size"
    fn radius(&mut self) -> Result<i128, Refusal> {
        let first = self.place;
        let radius = signed_value(self.number()?);
        if radius.abs() < 10_000 || radius.abs() > 10_000_000 {
            return Err(outside_range(first));
        }
        Ok(radius)
    }

    /// "each element: kind 0 straight, 1 arc, 2 clothoid; length 1 to 10,000,000"
    fn element(&mut self) -> Result<Element, Refusal> {
        let kind = match self.number_within(0, 2)? {
            0 => Kind::Straight,
            1 => Kind::Arc,
            _ => Kind::Clothoid,
        };
        let length = self.number_within(1, 10_000_000)?;
        let radius = if kind == Kind::Arc { self.radius()? } else { 0 };
        Ok(Element {
            kind,
            length,
            radius,
        })
    }

    /// "each tangent: length 1 to 10,000,000; signed grade -120,000 to 120,000; then, except
    /// after the last, half length h of the vertical curve that follows, 0 to 1,000,000"
    fn tangent(&mut self, is_last: bool) -> Result<Tangent, Refusal> {
        let length = self.number_within(1, 10_000_000)?;
        let grade = self.signed_within(-120_000, 120_000)?;
        let half_length = if is_last {
            0
        } else {
            self.number_within(0, 1_000_000)?
        };
        Ok(Tangent {
            length,
            grade,
            half_length,
        })
    }

    /// "each point: station 0 to 100,000,000; signed left and right, -80,000 to 80,000"
    fn crossfall_point(&mut self) -> Result<CrossfallPoint, Refusal> {
        Ok(CrossfallPoint {
            station: self.number_within(0, 100_000_000)?,
            left: self.signed_within(-80_000, 80_000)?,
            right: self.signed_within(-80_000, 80_000)?,
        })
    }
}

fn outside_range(first: usize) -> Refusal {
    Refusal {
        number: 3,
        place: first as i128,
    }
}

fn no_day(first: usize) -> Refusal {
    Refusal {
        number: 22,
        place: first as i128,
    }
}

/// Reads an alignment file; refusals 1 to 4 and 22.
pub fn read(bytes: &[u8]) -> Result<Alignment, Refusal> {
    // "1 is tried before any number is read"
    if bytes.len() > LONGEST_FILE {
        return Err(Refusal {
            number: 1,
            place: 8_192,
        });
    }
    let mut reader = Reader { bytes, place: 0 };
    let contract = reader.contract()?;
    let class = reader.number_within(1, 4)?;
    let terrain = reader.number_within(1, 3)?;
    let step = reader.number_within(1_000, 100_000)?;
    let ramp_limit = reader.number_within(1, 20_000)?;

    let mut elements = Vec::new();
    for _ in 0..reader.number_within(1, 200)? {
        elements.push(reader.element()?);
    }

    let start_height = reader.signed_within(-500_000, 3_000_000)?;
    let mut tangents = Vec::new();
    let tangent_count = reader.number_within(1, 100)?;
    for tangent in 0..tangent_count {
        tangents.push(reader.tangent(tangent == tangent_count - 1)?);
    }

    let mut points = Vec::new();
    for _ in 0..reader.number_within(2, 200)? {
        points.push(reader.crossfall_point()?);
    }

    // "Bytes follow the last number (place: the first of them)."
    if reader.place < bytes.len() {
        return Err(Refusal {
            number: 4,
            place: reader.place as i128,
        });
    }
    Ok(Alignment {
        contract,
        class,
        terrain,
        step,
        ramp_limit,
        elements,
        start_height,
        tangents,
        points,
    })
}
