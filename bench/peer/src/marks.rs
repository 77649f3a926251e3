//! The seven marks of A.4: at which speeds a road would pass.
//!
//! No limit grows milder with the speed, straight max and R' apart. So the speeds that keep the other
//! rules are the lowest ones: one walk along the three lists begins at 100 km/h and goes down where a
//! rule is broken.

use crate::judge::{judge_by, same_turn, short_clothoid, short_egg, wrong_egg};
use crate::limits::{rows, Row};
use crate::read::{Alignment, Element, Point, Tangent, ARC, CLOTHOID, STRAIGHT};

/// The marks, 40 km/h in the lowest bit.
pub fn marks(road: &Alignment) -> u8 {
    passing(road).unwrap_or(0)
}

/// The same marks, by judging the road seven times.
pub fn plain_marks(road: &Alignment) -> u8 {
    let stands = |row| judge_by(road, row).is_ok() as u8;
    let rows = rows(road.date).iter().enumerate();
    rows.fold(0, |marks, (i, row)| marks | stands(row) << i)
}

/// The speeds, from 40 km/h on, that keep every rule met so far; there is one at least.
struct Speeds {
    rows: &'static [Row],
    highest: &'static Row,
}

impl Speeds {
    fn new(rows: &'static [Row; 7]) -> Self {
        Speeds {
            rows,
            highest: &rows[6],
        }
    }

    /// Goes on with the speeds that keep this rule too; nothing where none does.
    #[inline(always)]
    fn keep(&mut self, broken: impl Fn(&Row) -> bool) -> Option<()> {
        if broken(self.highest) {
            self.lower(broken)?;
        }
        Some(())
    }

    #[cold]
    #[inline(never)]
    fn lower(&mut self, broken: impl Fn(&Row) -> bool) -> Option<()> {
        let count = self.rows.partition_point(|row| !broken(row));
        self.rows = &self.rows[..count];
        self.highest = self.rows.last()?;
        Some(())
    }

    fn marks(&self, stands: impl Fn(&Row) -> bool) -> u8 {
        let rows = self.rows.iter().enumerate();
        rows.fold(0, |marks, (i, row)| marks | (stands(row) as u8) << i)
    }
}

/// A rule that is the same at every speed.
#[inline(always)]
fn hold(kept: bool) -> Option<()> {
    kept.then_some(())
}

fn small_arc(arc: &Element, row: &Row) -> bool {
    let radius = arc.radius.unsigned_abs() as i64;
    (radius < row.radius_min) | ((arc.length as i64) < row.arc_min)
}

fn short_straight(straight: &Element, row: &Row) -> bool {
    (straight.length as i64) < row.straight_min
}

/// Rule 15 of the vertex between two tangents.
fn short_curve(before: &Tangent, after: &Tangent, row: &Row) -> bool {
    let change = (after.grade - before.grade) as i64;
    let radius = if change > 0 { row.sag } else { row.crest };
    before.half as i64 * 2_000_000 < radius * change.abs()
}

/// Rule 17.
fn usual_crossfalls(p: &Point) -> bool {
    let usual = |c: i32| (25_000..=70_000).contains(&c.unsigned_abs());
    usual(p.left) & usual(p.right)
}

/// Nothing where no mark stands.
fn passing(road: &Alignment) -> Option<u8> {
    let mut speeds = Speeds::new(rows(road.date));
    let total = road.elements().iter().map(|e| e.length as i64).sum();
    hold(total <= 100_000_000)?;
    hold(road.tangents().iter().map(|t| t.length as i64).sum::<i64>() == total)?;
    let straight = plan(road.elements(), &mut speeds)?;
    profile(road.tangents(), &mut speeds)?;
    crossfalls(road, total, &mut speeds)?;
    let roof = arcs(road)?;
    Some(speeds.marks(|row| straight <= row.straight_max && roof >= row.radius_roof))
}

/// Rules 10 and 11 of an arc, 12 of the clothoid before it, which has no arc at its other end; their
/// kinds.
#[inline(always)]
fn bend(into: &Element, arc: &Element, speeds: &mut Speeds) -> Option<()> {
    hold(into.kind == CLOTHOID && arc.kind == ARC)?;
    speeds.keep(move |row| short_clothoid(into, arc, row))?;
    speeds.keep(move |row| small_arc(arc, row))
}

/// Rules 7, 23 and 9 to 12, from each arc to the next; the longest straight, for rule 8.
fn plan(elements: &[Element], speeds: &mut Speeds) -> Option<i64> {
    let (first, rest) = elements.split_first()?;
    hold(first.kind == STRAIGHT)?;
    let mut longest = first.length;
    let [into, arc, rest @ ..] = rest else {
        return rest.is_empty().then_some(longest as i64);
    };
    bend(into, arc, speeds)?;
    let (mut arc, mut rest) = (arc, rest);
    loop {
        let [out, after, tail @ ..] = rest else {
            return None;
        };
        hold(out.kind == CLOTHOID)?;
        if after.kind == ARC {
            hold(!wrong_egg(arc, after))?;
            speeds.keep(move |row| short_egg(out, arc, after, row))?;
            speeds.keep(move |row| small_arc(after, row))?;
            (arc, rest) = (after, tail);
            continue;
        }
        speeds.keep(move |row| short_clothoid(out, arc, row))?;
        if after.kind == CLOTHOID {
            let (next, tail) = tail.split_first()?;
            bend(after, next, speeds)?;
            hold(!same_turn(arc, next))?;
            (arc, rest) = (next, tail);
            continue;
        }
        longest = longest.max(after.length);
        let [into, next, tail @ ..] = tail else {
            return tail.is_empty().then_some(longest as i64);
        };
        bend(into, next, speeds)?;
        speeds.keep(move |row| short_straight(after, row) && same_turn(arc, next))?;
        (arc, rest) = (next, tail);
    }
}

/// Rules 13 to 15.
fn profile(tangents: &[Tangent], speeds: &mut Speeds) -> Option<()> {
    let mut half_before = 0;
    for (i, t) in tangents.iter().enumerate() {
        hold(t.length >= half_before + t.half)?;
        speeds.keep(move |row| t.grade.unsigned_abs() as i64 > row.grade_max)?;
        half_before = t.half;
        if let Some(next) = tangents.get(i + 1) {
            speeds.keep(move |row| short_curve(t, next, row))?;
        }
    }
    Some(())
}

/// Rules 16 to 18.
fn crossfalls(road: &Alignment, total: i64, speeds: &mut Speeds) -> Option<()> {
    let points = road.points();
    let (first, last) = (&points[0], &points[points.len() - 1]);
    hold(first.station == 0 && last.station as i64 == total)?;
    hold(usual_crossfalls(first))?;
    let ramp_limit = road.ramp_limit as i64;
    for pair in points.windows(2) {
        let [p, q] = pair else { unreachable!() };
        hold(p.station < q.station)?;
        hold(usual_crossfalls(q))?;
        let change = (q.left - p.left).abs().max((q.right - p.right).abs()) as i64;
        let most = ramp_limit * (q.station - p.station) as i64;
        speeds.keep(move |row| row.lane * change > most)?;
    }
    Some(())
}

/// The crossfalls of an arc, where they do not change on it; the last point at or before its begin is
/// sought from `at` on.
#[inline(always)]
fn level(points: &[Point], at: &mut usize, begin: i32, end: i32) -> Option<Point> {
    while points[*at + 1].station <= begin {
        *at += 1;
    }
    let p = points[*at];
    loop {
        let next = points[*at + 1];
        hold(next.left == p.left && next.right == p.right)?;
        if next.station >= end {
            return Some(p);
        }
        *at += 1;
    }
}

/// Rule 19, the kinds and the stations of the points being right; the least radius of an arc with a
/// roof, for R'.
fn arcs(road: &Alignment) -> Option<i64> {
    let mut least = i64::MAX;
    let mut begin = 0;
    let mut at = 0;
    for e in road.elements() {
        let end = begin + e.length;
        if e.kind == ARC {
            let p = level(road.points(), &mut at, begin, end)?;
            let inner = if e.radius > 0 { p.right } else { p.left };
            if p.left != -p.right || inner >= 0 {
                hold(p.left == -25_000 && p.right == -25_000)?;
                least = least.min(e.radius.unsigned_abs() as i64);
            }
        }
        begin = end;
    }
    Some(least)
}
