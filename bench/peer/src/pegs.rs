//! The rows of ascending pegs (A.5), in one walk along the three lists.

use crate::decimal::Pen;
use crate::judge::judge;
use crate::limits::Row;
use crate::read::{read, Alignment, File};
use crate::walk::{CrossfallCursor, PlanCursor, ProfileCursor, Stretch, LINE_MAX};
use crate::{refuse, Refusal};

/// The most pegs of a list.
pub const PEGS: usize = 2_000;

/// Writes the rows one behind another and gives their total length; `road` is room for the file's.
pub fn pegs(
    file: &File,
    road: &mut Alignment,
    stations: &[u64],
    out: &mut [u8],
) -> Result<usize, Refusal> {
    read(file, road)?;
    let row = judge(road)?;
    if out.len() / LINE_MAX < stations.len() {
        return refuse(20, 0);
    }
    if let Some(peg) = first_bad(stations, road.total() as u64) {
        return refuse(24, peg);
    }
    Ok(rows(road, row, stations, out))
}

/// The row of one station and its length: the single call.
pub fn single(
    file: &File,
    road: &mut Alignment,
    station: u64,
    line: &mut [u8],
) -> Result<usize, Refusal> {
    read(file, road)?;
    let row = judge(road)?;
    if line.len() < LINE_MAX {
        return refuse(20, 0);
    }
    if station > road.total() as u64 {
        return refuse(21, 0);
    }
    Ok(rows(road, row, &[station], line))
}

/// The first peg that is beyond T, below the one before it, or one too many.
fn first_bad(stations: &[u64], total: u64) -> Option<usize> {
    let mut before = 0;
    for (i, &s) in stations.iter().take(PEGS).enumerate() {
        if s < before || s > total {
            return Some(i);
        }
        before = s;
    }
    (stations.len() > PEGS).then_some(PEGS)
}

/// The rows of pegs that ascend up to T, in a buffer with `LINE_MAX` bytes for each.
fn rows(road: &Alignment, row: &Row, stations: &[u64], out: &mut [u8]) -> usize {
    assert!(out.len() / LINE_MAX >= stations.len());
    let mut plan = PlanCursor::new(road);
    let mut profile = ProfileCursor::new(road);
    let mut crossfall = CrossfallCursor::new(road, row.lane);
    let base = out.as_mut_ptr();
    // SAFETY: the pen writes at most LINE_MAX bytes for each peg, for which there is room.
    let mut pen = unsafe { Pen::at(base) };
    let mut rest = stations;
    while let [first, ..] = rest {
        // the stretch that begins before the peg and does not end before it
        let before = *first as i64 - 1;
        plan.advance(before);
        profile.advance(before);
        crossfall.advance(before);
        let joint = plan.end.min(profile.end).min(crossfall.end);
        let stretch = Stretch {
            profile: profile.now,
            left: crossfall.left,
            right: crossfall.right,
        };
        while let [peg, others @ ..] = rest {
            let s = *peg as i64;
            if s > joint {
                break;
            }
            unsafe { stretch.row(&mut pen, s, plan.curvature.sum(s)) };
            rest = others;
        }
    }
    // SAFETY: the pen has gone on from the base.
    unsafe { pen.place().offset_from(base) as usize }
}
