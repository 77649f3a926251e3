//! The walk along the three lists of an accepted road, and the row of a station.
//!
//! A stretch lies between two neighbouring joints (element ends, curve ends, vertices, crossfall
//! points). In it the height is one quadratic, the other numbers are linear in the station. Each
//! rounding is a floor with half a unit added; below zero the dividend is one less, so that an
//! exact half goes away from zero. A bias keeps the dividend from being negative. Curvature needs more
//! than 64 bits: it is a sum in fixed point that goes on from row to row.

use crate::decimal::{Pen, NUMBER_MAX};
use crate::read::{Alignment, ARC, CLOTHOID};

/// The most bytes of a row: eight numbers, each with a space or newline.
pub const LINE_MAX: usize = 8 * (NUMBER_MAX + 1);

/// floor((start + slope × distance) / divisor) − bias, the dividend being one less where it is below
/// that of the value 0; `flat` where the slope is 0.
#[derive(Clone, Copy)]
struct Linear {
    origin: i64,
    start: i64,
    slope: i64,
    zero: i64,
    divisor: u64,
    bias: i64,
    flat: i64,
}

impl Linear {
    fn constant(flat: i64) -> Self {
        Linear {
            origin: 0,
            start: 0,
            slope: 0,
            zero: 0,
            divisor: 1,
            bias: 0,
            flat,
        }
    }

    /// round((value + slope × (s − origin)) / divisor), its size being below the bias.
    fn new(origin: i64, value: i64, slope: i64, divisor: i64, bias: i64) -> Self {
        let zero = 2 * bias * divisor + divisor;
        let start = 2 * value + zero;
        if slope == 0 {
            return Self::constant(lowered(start, zero) / (2 * divisor) - bias);
        }
        let divisor = 2 * divisor as u64;
        Linear {
            origin,
            start,
            slope: 2 * slope,
            zero,
            divisor,
            bias,
            flat: 0,
        }
    }

    #[inline(always)]
    fn at(&self, s: i64) -> i64 {
        if self.slope == 0 {
            return self.flat;
        }
        let n = lowered(self.start + self.slope * (s - self.origin), self.zero);
        (n as u64 / self.divisor) as i64 - self.bias
    }
}

/// A dividend, one less where it is below that of the value 0.
#[inline(always)]
fn lowered(n: i64, zero: i64) -> i64 {
    n - (n < zero) as i64
}

/// In mm; no height of a road is as large in size.
const HEIGHT_BIAS: i64 = 20_000_000;
/// The dividend of the height 0.
const HEIGHT_ZERO: i64 = 500_000 + HEIGHT_BIAS * 1_000_000;

/// Height and grade: a tangent, prolonged, and in a vertical curve the parabola added to it.
#[derive(Clone, Copy)]
pub struct Profile {
    begin: i64,
    /// At the begin, in millionths of a mm, with half a mm and the bias added.
    height: i64,
    tangent_grade: i64,
    grade: Linear,
    /// |g2 − g1|; 0 outside curves.
    bend: u64,
    hogging: bool,
    four_halves: u64,
}

impl Profile {
    #[inline(always)]
    fn height(&self, s: i64) -> i64 {
        let u = s - self.begin;
        let mut n = self.height + self.tangent_grade * u;
        let rise = self.bend * (u * u) as u64;
        if self.bend != 0 {
            if self.hogging {
                n -= rise.div_ceil(self.four_halves) as i64;
            } else {
                n += (rise / self.four_halves) as i64;
            }
        }
        // Where the parabola's division leaves something, there is no exact half.
        if n < HEIGHT_ZERO && rise % self.four_halves == 0 {
            n -= 1;
        }
        (n as u64 / 1_000_000) as i64 - HEIGHT_BIAS
    }
}

/// Walks along the tangents and their curves.
pub struct ProfileCursor<'a> {
    road: &'a Alignment,
    /// The tangent that is prolonged.
    tangent: usize,
    in_curve: bool,
    /// Where the tangent begins and its exact height there, in millionths of a mm.
    vertex: i64,
    vertex_height: i64,
    pub end: i64,
    pub now: Profile,
}

impl<'a> ProfileCursor<'a> {
    pub fn new(road: &'a Alignment) -> Self {
        let first = &road.tangents[0];
        let height = road.start_height as i64 * 1_000_000;
        let grade = first.grade as i64;
        ProfileCursor {
            road,
            tangent: 0,
            in_curve: false,
            vertex: 0,
            vertex_height: height,
            end: (first.length - first.half) as i64,
            now: Self::straight(0, height, grade),
        }
    }

    fn straight(begin: i64, height: i64, grade: i64) -> Profile {
        Profile {
            begin,
            height: height + HEIGHT_ZERO,
            tangent_grade: grade,
            grade: Linear::constant(grade),
            bend: 0,
            hogging: false,
            four_halves: 1,
        }
    }

    /// Goes on to the piece that holds the stations just after s, which is below T.
    pub fn advance(&mut self, s: i64) {
        while self.end <= s {
            let t = &self.road.tangents[self.tangent];
            let half = t.half as i64;
            if !self.in_curve && half > 0 {
                let next = &self.road.tangents[self.tangent + 1];
                let grade = t.grade as i64;
                let change = next.grade as i64 - grade;
                let begin = self.end;
                let height = self.vertex_height + grade * (begin - self.vertex);
                self.now = Profile {
                    grade: Linear::new(begin, grade * 2 * half, change, 2 * half, 120_001),
                    bend: change.unsigned_abs(),
                    hogging: change < 0,
                    four_halves: 4 * half as u64,
                    ..Self::straight(begin, height, grade)
                };
                self.in_curve = true;
                self.end = begin + 2 * half;
            } else {
                self.vertex += t.length as i64;
                self.vertex_height += t.length as i64 * t.grade as i64;
                self.tangent += 1;
                self.in_curve = false;
                let t = &self.road.tangents[self.tangent];
                self.now = Self::straight(self.vertex, self.vertex_height, t.grade as i64);
                self.end = self.vertex + (t.length - t.half) as i64;
            }
        }
    }
}

/// The bits behind the point of a curvature in fixed point.
const POINT: u32 = 96;
const ONE: i128 = 1 << POINT;

/// n / d in fixed point, rounded down and rounded up; n is below 2^60, n / d below 2^30.
fn fixed(n: u64, d: u64) -> (i128, i128) {
    let (n, d) = ((n as u128) << 64, d as u128);
    let rest = (n % d) << (POINT - 64);
    let down = ((n / d) << (POINT - 64)) + rest / d;
    let up = down + (rest % d != 0) as u128;
    (down as i128, up as i128)
}

/// Curvature, floor(start + slope × (s − begin)) in fixed point, half a unit being in the start.
///
/// For a right turn, start and slope are the exact ones rounded up. A distance is below 2^24, so the
/// sum is too great by less than 2^−71. The exact sum is a whole number over 2 × R1 × R2 × length, on an
/// egg below 2^65 and elsewhere less; so it is whole, or over 2^−65 below the next whole number, and
/// both sums have the same floor.
#[derive(Clone, Copy)]
pub struct Curvature {
    begin: i64,
    start: i128,
    pub slope: i128,
}

impl Curvature {
    fn straight() -> Self {
        Curvature {
            begin: 0,
            start: 0,
            slope: 0,
        }
    }

    /// Evenly from radius r1 to radius r2 of the same turn; one of them may be 0, for no curvature.
    fn new(begin: i64, length: i64, r1: i32, r2: i32) -> Self {
        const UNIT: u64 = 1_000_000_000;
        let (a, b) = (r1.unsigned_abs() as u64, r2.unsigned_abs() as u64);
        let length = length as u64;
        let (down, up) = match (a, b) {
            (0, r) | (r, 0) => fixed(UNIT, r * length),
            _ if a == b => (0, 0),
            _ => fixed(UNIT * a.abs_diff(b), a * b * length),
        };
        let tighter = a == 0 || (b != 0 && b < a);
        let slope = if tighter { up } else { -down };
        let at_begin = if a == 0 { 0 } else { fixed(UNIT, a).1 };
        let start = at_begin + ONE / 2;
        if r1 < 0 || r2 < 0 {
            // −floor(n / ONE) = floor((ONE − 1 − n) / ONE)
            Curvature {
                begin,
                start: ONE - 1 - start,
                slope: -slope,
            }
        } else {
            Curvature {
                begin,
                start,
                slope,
            }
        }
    }

    /// The sum at s; beyond the element its lowest 128 bits.
    pub fn sum(&self, s: i64) -> i128 {
        let distance = (s - self.begin) as i128;
        self.start.wrapping_add(self.slope.wrapping_mul(distance))
    }
}

/// Walks along the plan elements.
pub struct PlanCursor<'a> {
    road: &'a Alignment,
    element: usize,
    pub end: i64,
    pub curvature: Curvature,
}

impl<'a> PlanCursor<'a> {
    pub fn new(road: &'a Alignment) -> Self {
        let end = road.elements[0].length as i64;
        PlanCursor {
            road,
            element: 0,
            end,
            curvature: Curvature::straight(),
        }
    }

    pub fn advance(&mut self, s: i64) {
        while self.end <= s {
            let begin = self.end;
            self.element += 1;
            let i = self.element;
            let elements = &self.road.elements;
            let e = &elements[i];
            let length = e.length as i64;
            self.end += length;
            self.curvature = match e.kind {
                ARC => Curvature::new(begin, length, e.radius, e.radius),
                CLOTHOID => {
                    // A radius is 0 but on an arc.
                    let (r1, r2) = (elements[i - 1].radius, elements[i + 1].radius);
                    Curvature::new(begin, length, r1, r2)
                }
                _ => Curvature::straight(),
            };
        }
    }
}

/// One side of the roadway between two crossfall points.
#[derive(Clone, Copy)]
pub struct Side {
    crossfall: Linear,
    drop: Linear,
}

impl Side {
    fn new(begin: i64, length: i64, from: i32, to: i32, lane: i64) -> Self {
        let (value, slope) = (from as i64 * length, (to - from) as i64);
        Side {
            crossfall: Linear::new(begin, value, slope, length, 80_001),
            drop: Linear::new(begin, value * lane, slope * lane, length * 1_000_000, 301),
        }
    }
}

/// Walks along the crossfall points.
pub struct CrossfallCursor<'a> {
    road: &'a Alignment,
    lane: i64,
    point: usize,
    pub end: i64,
    pub left: Side,
    pub right: Side,
}

impl<'a> CrossfallCursor<'a> {
    pub fn new(road: &'a Alignment, lane: i64) -> Self {
        let side = Side {
            crossfall: Linear::constant(0),
            drop: Linear::constant(0),
        };
        let mut cursor = CrossfallCursor {
            road,
            lane,
            point: 0,
            end: 0,
            left: side,
            right: side,
        };
        cursor.pair();
        cursor
    }

    fn pair(&mut self) {
        let p = &self.road.points[self.point];
        let q = &self.road.points[self.point + 1];
        let begin = p.station as i64;
        self.end = q.station as i64;
        let length = self.end - begin;
        self.left = Side::new(begin, length, p.left, q.left, self.lane);
        self.right = Side::new(begin, length, p.right, q.right, self.lane);
    }

    pub fn advance(&mut self, s: i64) {
        while self.end <= s {
            self.point += 1;
            self.pair();
        }
    }
}

/// All that the rows of one stretch need, but for the curvature.
pub struct Stretch {
    pub profile: Profile,
    pub left: Side,
    pub right: Side,
}

impl Stretch {
    /// # Safety
    /// `LINE_MAX` bytes from the pen's place may be written.
    #[inline(always)]
    pub unsafe fn row(&self, pen: &mut Pen, s: i64, curvature: i128) {
        let height = self.profile.height(s);
        pen.plain(s as u32);
        pen.byte(b' ');
        pen.signed(height as i32);
        pen.byte(b' ');
        pen.signed(self.profile.grade.at(s) as i32);
        pen.byte(b' ');
        pen.signed(self.left.crossfall.at(s) as i32);
        pen.byte(b' ');
        pen.signed(self.right.crossfall.at(s) as i32);
        pen.byte(b' ');
        pen.signed((height + self.left.drop.at(s)) as i32);
        pen.byte(b' ');
        pen.signed((height + self.right.drop.at(s)) as i32);
        pen.byte(b' ');
        pen.signed((curvature >> POINT) as i32);
        pen.byte(b'\n');
    }
}
