//! Roads changed at random, most numbers to one side or the other of a limit.

use std::env;
use std::fs;
use std::path::Path;
use std::process::exit;

use crate::limits::{rows, Row};
use crate::read::{read, Alignment, File, ARC, CLOTHOID, FILE_MAX, POINTS};

/// Splitmix.
pub struct Chance(u64);

impl Chance {
    fn next(&mut self) -> u64 {
        self.0 = self.0.wrapping_add(0x9e37_79b9_7f4a_7c15);
        let x = (self.0 ^ self.0 >> 30).wrapping_mul(0xbf58_476d_1ce4_e5b9);
        let x = (x ^ x >> 27).wrapping_mul(0x94d0_49bb_1331_11eb);
        x ^ x >> 31
    }

    pub fn below(&mut self, n: usize) -> usize {
        (self.next() % n as u64) as usize
    }

    pub fn one_in(&mut self, n: usize) -> bool {
        self.below(n) == 0
    }

    pub fn of<T: Copy>(&mut self, all: &[T]) -> T {
        all[self.below(all.len())]
    }

    /// One less, the number itself or one more; where there is no limit, anything.
    fn near(&mut self, limit: i64) -> i64 {
        if limit > 100_000_000_000 {
            return self.below(10_000_000) as i64;
        }
        limit + self.below(3) as i64 - 1
    }
}

fn number(out: &mut Vec<u8>, mut n: u32) {
    while n > 127 {
        out.push(n as u8 | 128);
        n >>= 7;
    }
    out.push(n as u8);
}

fn signed(out: &mut Vec<u8>, v: i32) {
    number(out, (v << 1 ^ v >> 31) as u32);
}

fn encode(road: &Alignment) -> Vec<u8> {
    let mut out = Vec::new();
    if road.date != 0 {
        number(&mut out, 9);
        number(&mut out, road.date);
    }
    for n in [road.class, road.terrain, road.step as u32] {
        number(&mut out, n);
    }
    number(&mut out, road.ramp_limit as u32);
    number(&mut out, road.element_count as u32);
    for e in road.elements() {
        number(&mut out, e.kind);
        number(&mut out, e.length as u32);
        if e.kind == ARC {
            signed(&mut out, e.radius);
        }
    }
    signed(&mut out, road.start_height);
    number(&mut out, road.tangent_count as u32);
    for (i, t) in road.tangents().iter().enumerate() {
        number(&mut out, t.length as u32);
        signed(&mut out, t.grade);
        if i + 1 < road.tangent_count {
            number(&mut out, t.half as u32);
        }
    }
    number(&mut out, road.point_count as u32);
    for p in road.points() {
        number(&mut out, p.station as u32);
        signed(&mut out, p.left);
        signed(&mut out, p.right);
    }
    out
}

pub fn file(bytes: &[u8]) -> File {
    let mut file = File {
        bytes: [0; FILE_MAX + 16],
        len: bytes.len().min(FILE_MAX + 1),
    };
    file.bytes[..file.len].copy_from_slice(&bytes[..file.len]);
    file
}

/// A length of the plan; points and last tangent go along, mostly.
fn set_length(road: &mut Alignment, i: usize, length: i64, chance: &mut Chance) {
    let length = length.clamp(1, 10_000_000) as i32;
    let end: i32 = road.elements[..=i].iter().map(|e| e.length).sum();
    let more = length - road.elements[i].length;
    road.elements[i].length = length;
    if chance.one_in(40) {
        return;
    }
    for p in &mut road.points[..road.point_count] {
        if p.station >= end {
            p.station = (p.station + more).clamp(0, 100_000_000);
        }
    }
    let last = &mut road.tangents[road.tangent_count - 1];
    last.length = (last.length + more).clamp(1, 10_000_000);
}

/// The least length of clothoid i, or what comes near it.
fn least_clothoid(road: &Alignment, i: usize, row: &Row) -> i64 {
    let radius = |at: usize| match road.elements().get(at) {
        Some(e) if e.kind == ARC => Some(e.radius.unsigned_abs() as i64),
        _ => None,
    };
    let around = (radius(i.wrapping_sub(1)), radius(i + 1));
    let least = match around {
        (Some(a), Some(b)) => {
            let product = a as i128 * b as i128;
            ((row.a_squared as i128 * a.abs_diff(b) as i128 + product - 1) / product) as i64
        }
        (Some(a), None) | (None, Some(a)) => (row.a_squared + a - 1) / a,
        (None, None) => 30_000,
    };
    least.max(row.clothoid_min)
}

fn change_plan(road: &mut Alignment, row: &Row, chance: &mut Chance) {
    let i = chance.below(road.element_count);
    let wanted = match road.elements[i].kind {
        ARC if chance.one_in(2) => return change_radius(road, i, row, chance),
        ARC => row.arc_min,
        CLOTHOID => least_clothoid(road, i, row),
        _ => chance.of(&[row.straight_max, row.straight_min]),
    };
    let length = chance.near(wanted);
    set_length(road, i, length, chance);
}

fn change_radius(road: &mut Alignment, i: usize, row: &Row, chance: &mut Chance) {
    let radius = road.elements[i].radius as i64;
    let limits = [row.radius_min, row.radius_min, row.radius_roof, 1_000_000];
    let limit = chance.of(&limits);
    let size = chance.near(limit).clamp(10_000, 10_000_000) * radius.signum();
    let other = chance.below(road.element_count);
    road.elements[i].radius = match chance.below(12) {
        0 => -radius as i32,
        1 if road.elements[other].kind == ARC => road.elements[other].radius,
        _ => size as i32,
    };
}

fn change_profile(road: &mut Alignment, row: &Row, chance: &mut Chance) {
    let i = chance.below(road.tangent_count);
    let next = (i + 1).min(road.tangent_count - 1);
    let change = (road.tangents[next].grade - road.tangents[i].grade) as i64;
    let radius = if change > 0 { row.sag } else { row.crest };
    let half = (radius * change.abs() + 1_999_999) / 2_000_000;
    let sign = chance.of(&[-1, 1]);
    match chance.below(4) {
        0 => road.tangents[i].grade = sign * chance.near(row.grade_max) as i32,
        1 if i < next => {
            road.tangents[i].length = (road.tangents[i].half + sign).max(1);
        }
        _ if i < next => road.tangents[i].half = chance.near(half).clamp(0, 1_000_000) as i32,
        _ => {}
    }
}

/// The least or greatest ramp limit near which the pair of points i and i + 1 stands.
fn ramp_limit(road: &Alignment, i: usize, row: &Row) -> i64 {
    let (p, q) = (road.points[i], road.points[i + 1]);
    let change = (q.left - p.left).abs().max((q.right - p.right).abs()) as i64;
    row.lane * change / i64::from(q.station - p.station).max(1)
}

fn change_points(road: &mut Alignment, row: &Row, chance: &mut Chance) {
    let i = chance.below(road.point_count - 1);
    let size = chance.of(&[25_000, 70_000, 24_999, 70_001, 40_000]);
    match chance.below(8) {
        0 => road.points[i].left = size * chance.of(&[-1, 1]),
        1 => road.points[i].station = road.points[i + 1].station - chance.below(2) as i32,
        2 => roof_or_tilt(road, i, chance.of(&[None, Some(-30_000), Some(30_000)])),
        3 => drop_point(road, i),
        _ => {
            let limit = ramp_limit(road, i, row);
            road.ramp_limit = chance.near(limit).clamp(1, 20_000) as i32;
        }
    }
}

/// Gives the point and its neighbours a roof, or a crossfall to one side.
fn roof_or_tilt(road: &mut Alignment, i: usize, tilt: Option<i32>) {
    let (left, right) = tilt.map_or((-25_000, -25_000), |c| (c, -c));
    let end = (i + 3).min(road.point_count);
    for p in &mut road.points[i.saturating_sub(1)..end] {
        (p.left, p.right) = (left, right);
    }
}

fn drop_point(road: &mut Alignment, i: usize) {
    if road.point_count > 2 {
        road.points.copy_within(i + 1..POINTS, i);
        road.point_count -= 1;
    }
}

/// A wider road: what is below the limits of the row comes up to them.
fn widen(road: &mut Alignment, row: &Row, chance: &mut Chance) {
    for i in 0..road.element_count {
        let e = road.elements[i];
        if e.kind != ARC {
            continue;
        }
        let radius = (e.radius.unsigned_abs() as i64).max(row.radius_min + i as i64);
        road.elements[i].radius = e.radius.signum() * radius.min(10_000_000) as i32;
        set_length(road, i, (e.length as i64).max(row.arc_min), chance);
    }
    for i in 0..road.element_count {
        if road.elements[i].kind == CLOTHOID {
            let least = least_clothoid(road, i, row).max(row.clothoid_min);
            set_length(road, i, (road.elements[i].length as i64).max(least), chance);
        }
    }
    let most = row.grade_max as i32;
    for t in &mut road.tangents[..road.tangent_count] {
        t.grade = t.grade.clamp(-most, most);
    }
}

fn change_kind(road: &mut Alignment, chance: &mut Chance) {
    let i = chance.below(road.element_count);
    road.elements[i].kind = chance.below(3) as u32;
    if road.elements[i].radius == 0 {
        road.elements[i].radius = 500_000;
    }
}

/// Ends the road one element earlier.
fn stop_short(road: &mut Alignment) {
    let last = road.element_count - 1;
    let less = road.elements[last].length;
    if last == 0 || less >= road.tangents[road.tangent_count - 1].length {
        return;
    }
    let end = road.points[road.point_count - 1].station - less;
    road.element_count = last;
    road.tangents[road.tangent_count - 1].length -= less;
    while road.point_count > 2 && road.points[road.point_count - 2].station >= end {
        road.point_count -= 1;
    }
    road.points[road.point_count - 1].station = end.max(0);
}

fn change(road: &mut Alignment, chance: &mut Chance) {
    let row = &rows(road.date)[chance.below(7)];
    match chance.below(25) {
        0 => road.date = chance.of(&[0, 20_111_231, 20_120_101, 19_990_101]),
        1 => change_kind(road, chance),
        2..=3 => widen(road, row, chance),
        4..=12 => change_plan(road, row, chance),
        13..=18 => change_profile(road, row, chance),
        19 => stop_short(road),
        _ => change_points(road, row, chance),
    }
}

/// A file of the road with some numbers changed, and now and then a bit.
pub fn changed(road: &Alignment, chance: &mut Chance) -> Vec<u8> {
    let mut road = road.clone();
    for _ in 0..chance.below(5) {
        change(&mut road, chance);
    }
    let mut bytes = encode(&road);
    if chance.one_in(12) {
        let i = chance.below(bytes.len());
        bytes[i] ^= 1 << chance.below(8);
    }
    bytes
}

pub fn to_hex(bytes: &[u8]) -> String {
    bytes.iter().map(|b| format!("{b:02x}")).collect()
}

fn from_hex(line: &str) -> Vec<u8> {
    let digits = line.split(' ').next().unwrap_or("");
    let byte = |i| u8::from_str_radix(digits.get(i..i + 2)?, 16).ok();
    (0..digits.len()).step_by(2).map_while(byte).collect()
}

/// A path that ends in `cases` has one file a line.
fn files(path: &str) -> Vec<Vec<u8>> {
    let bytes = fs::read(path).unwrap_or_else(|e| fail(&format!("{path}: {e}")));
    if Path::new(path).file_name().is_some_and(|n| n == "cases") {
        let text = String::from_utf8_lossy(&bytes).into_owned();
        return text.lines().map(from_hex).collect();
    }
    vec![bytes]
}

fn roads(paths: &[String]) -> Vec<Alignment> {
    let readable = |bytes: Vec<u8>| {
        let mut road = Alignment::new();
        read(&file(&bytes), &mut road).ok().map(|()| road)
    };
    let all = paths.iter().flat_map(|path| files(path));
    all.filter_map(readable).collect()
}

fn fail(message: &str) -> ! {
    eprintln!("{message}");
    exit(2);
}

/// What the program is told, COUNT SEED FILE ..: how many files to try, chance, the roads to begin with.
pub fn told() -> (u64, Chance, Vec<Alignment>) {
    let arguments: Vec<String> = env::args().skip(1).collect();
    let numbers: Vec<u64> = arguments.iter().map_while(|a| a.parse().ok()).collect();
    let [count, seed] = numbers[..] else {
        fail("to be told: COUNT SEED FILE ..");
    };
    let roads = roads(&arguments[2..]);
    if roads.is_empty() {
        fail("no road to begin with");
    }
    (count, Chance(seed), roads)
}
