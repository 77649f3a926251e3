//! Files for the tests, made from numbers.

/// A number, seven bits to a byte, lowest group first.
fn number(value: u64, out: &mut Vec<u8>) {
    let mut rest = value;
    while rest > 127 {
        out.push((rest & 127) as u8 | 128);
        rest >>= 7;
    }
    out.push(rest as u8);
}

fn signed(value: i64, out: &mut Vec<u8>) {
    let written = if value >= 0 {
        2 * value
    } else {
        -2 * value - 1
    };
    number(written as u64, out);
}

/// A file with a contract date before its class.
pub fn dated(date: u64, file: &[u8]) -> Vec<u8> {
    let mut out = vec![9];
    number(date, &mut out);
    out.extend_from_slice(file);
    out
}

/// A road by its numbers: elements are kind, length and radius; tangents length, grade and half length.
pub struct Sample {
    pub head: [u64; 4],
    pub elements: Vec<(u64, u64, i64)>,
    pub start_height: i64,
    pub tangents: Vec<(u64, i64, u64)>,
    pub points: Vec<(u64, i64, i64)>,
}

impl Sample {
    /// A straight access road in mountains with one crossfall.
    pub fn straight(length: u64, step: u64, tangents: &[(u64, i64, u64)]) -> Sample {
        Sample {
            head: [4, 3, step, 20_000],
            elements: vec![(0, length, 0)],
            start_height: 500_000,
            tangents: tangents.to_vec(),
            points: vec![(0, -25_000, -25_000), (length, -25_000, -25_000)],
        }
    }

    pub fn file(&self) -> Vec<u8> {
        let mut out = Vec::new();
        for value in self.head {
            number(value, &mut out);
        }
        number(self.elements.len() as u64, &mut out);
        for (kind, length, radius) in &self.elements {
            number(*kind, &mut out);
            number(*length, &mut out);
            if *kind == 1 {
                signed(*radius, &mut out);
            }
        }
        signed(self.start_height, &mut out);
        number(self.tangents.len() as u64, &mut out);
        for (place, (length, grade, half_length)) in self.tangents.iter().enumerate() {
            number(*length, &mut out);
            signed(*grade, &mut out);
            if place + 1 < self.tangents.len() {
                number(*half_length, &mut out);
            }
        }
        number(self.points.len() as u64, &mut out);
        for (station, left, right) in &self.points {
            number(*station, &mut out);
            signed(*left, &mut out);
            signed(*right, &mut out);
        }
        out
    }
}

/// Whole numbers that look random and are the same at every run.
pub struct Chance(pub u64);

impl Chance {
    /// From one number to another, both included.
    pub fn within(&mut self, low: i64, high: i64) -> i64 {
        self.0 = self
            .0
            .wrapping_mul(6_364_136_223_846_793_005)
            .wrapping_add(1_442_695_040_888_963_407);
        low + ((self.0 >> 33) % (high - low + 1) as u64) as i64
    }

    /// A length whose number of digits is random too.
    pub fn length(&mut self, most: u32) -> u64 {
        let digits = self.within(1, i64::from(most)) as u32;
        self.within(1, 10_i64.pow(digits)) as u64
    }
}
