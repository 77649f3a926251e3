//! Files damaged in every way that a file can be, the same ones in each run.

use desk::text::file::{numbers, Item};
use desk::text::numbers::put;
use desk::text::MOST_BYTES;

/// Numbers that look like any, from a seed.
pub struct Random(pub u64);

impl Random {
    fn next(&mut self) -> u64 {
        // the generator "splitmix64"
        self.0 = self.0.wrapping_add(0x9E37_79B9_7F4A_7C15);
        let mut mixed = self.0;
        mixed = (mixed ^ (mixed >> 30)).wrapping_mul(0xBF58_476D_1CE4_E5B9);
        mixed = (mixed ^ (mixed >> 27)).wrapping_mul(0x94D0_49BB_1331_11EB);
        mixed ^ (mixed >> 31)
    }

    /// A number below another one; 0 below 0.
    pub fn below(&mut self, end: usize) -> usize {
        (self.next() % end.max(1) as u64) as usize
    }

    fn byte(&mut self) -> u8 {
        self.next() as u8
    }
}

type Damage = fn(&mut Vec<u8>, &[Vec<u8>], &mut Random);

const DAMAGES: [Damage; 9] = [cut, add, flip, lengthen, count, join, run, size, date];

/// A file with one fault or more, no longer than one that has a text.
pub fn damaged(seeds: &[Vec<u8>], random: &mut Random) -> Vec<u8> {
    let mut file = seeds[random.below(seeds.len())].clone();
    for _ in 0..=random.below(3) {
        let damage = DAMAGES[random.below(DAMAGES.len())];
        damage(&mut file, seeds, random);
    }
    file.truncate(MOST_BYTES);
    file
}

/// A file with a contract date: a day, a number like one, the least, or any number.
pub fn dated(file: &[u8], random: &mut Random) -> Vec<u8> {
    let mut between = |least: usize, most: usize| least + random.below(most + 1 - least);
    let date = match between(0, 3) {
        0 => between(1950, 2099) * 10_000 + between(1, 12) * 100 + between(1, 28),
        1 => between(1949, 2100) * 10_000 + between(0, 13) * 100 + between(0, 32),
        2 => between(0, 1),
        _ => between(0, u32::MAX as usize),
    };
    let mut out = vec![9];
    put(date as i64, &mut out);
    out.extend_from_slice(file);
    out
}

fn date(file: &mut Vec<u8>, _: &[Vec<u8>], random: &mut Random) {
    *file = dated(file, random);
}

fn cut(file: &mut Vec<u8>, _: &[Vec<u8>], random: &mut Random) {
    file.truncate(random.below(file.len() + 1));
}

fn add(file: &mut Vec<u8>, _: &[Vec<u8>], random: &mut Random) {
    let place = random.below(file.len() + 1);
    let bytes: Vec<u8> = (0..=random.below(40)).map(|_| random.byte()).collect();
    file.splice(place..place, bytes);
}

#[allow(clippy::ptr_arg)] // one shape for all damages
fn flip(file: &mut Vec<u8>, _: &[Vec<u8>], random: &mut Random) {
    for _ in 0..=random.below(4) {
        let place = random.below(file.len());
        if let Some(byte) = file.get_mut(place) {
            *byte ^= 1 << random.below(8);
        }
    }
}

/// A number that is not in shortest form, or too great.
fn lengthen(file: &mut Vec<u8>, _: &[Vec<u8>], random: &mut Random) {
    let place = random.below(file.len());
    let more = random.below(6);
    let last = random.byte() % 2;
    if let Some(byte) = file.get_mut(place) {
        *byte |= 128;
        let groups = vec![128; more].into_iter().chain([last]);
        file.splice(place + 1..place + 1, groups);
    }
}

/// A count that is one off, none, or any number.
fn count(file: &mut Vec<u8>, _: &[Vec<u8>], random: &mut Random) {
    let found = numbers(file);
    let is_count = |item: &Item| matches!(item, Item::Count(_));
    let counts: Vec<_> = found.entries.iter().filter(|e| is_count(&e.item)).collect();
    let chosen = counts.get(random.below(counts.len()));
    let Some(number) = chosen.and_then(|entry| entry.numbers.first()) else {
        return;
    };
    let value = match random.below(4) {
        0 => number.value + 1,
        1 => (number.value - 1).max(0),
        2 => 0,
        _ => (random.next() >> 32) as i64,
    };
    let mut was = Vec::new();
    put(number.value, &mut was);
    let mut is = Vec::new();
    put(value.min(4_294_967_295), &mut is);
    file.splice(number.at..number.at + was.len(), is);
}

fn join(file: &mut Vec<u8>, seeds: &[Vec<u8>], random: &mut Random) {
    file.extend_from_slice(&seeds[random.below(seeds.len())]);
}

fn run(file: &mut Vec<u8>, _: &[Vec<u8>], random: &mut Random) {
    let place = random.below(file.len() + 1);
    let most = [40, 300, 9_000][random.below(3)];
    let length = random.below(most);
    let byte = [0, 1, 127, 128, 255, random.byte()][random.below(6)];
    file.splice(place..place, vec![byte; length]);
}

/// A size near the longest file that is read, or that has a text.
fn size(file: &mut Vec<u8>, _: &[Vec<u8>], random: &mut Random) {
    let near = [8_192, 8_192, 8_192, MOST_BYTES][random.below(4)];
    let length = near - 3 + random.below(7);
    let pattern = match random.below(3) {
        0 => vec![0],
        1 => vec![random.byte(), random.byte(), random.byte()],
        _ => file.clone(),
    };
    let more = pattern.iter().cycle().copied();
    let missing = length.saturating_sub(file.len());
    let more: Vec<u8> = more.take(missing).collect();
    file.extend(more);
    file.truncate(length);
}
