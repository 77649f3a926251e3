//! Lists of pegs: the library's rows against the reference's and against its own single calls, and the blade between
//! them.

use crate::blade;
use crate::generate::pegs::{joints, peg_list};
use crate::generate::random::Random;
use crate::pegs_seen::Asked;
use crate::run::Run;
use crate::summary::Summary;
use reference::blade::{neighbouring, Row};
use reference::file::Alignment;

/// Single calls to hold one list against: each reads the file anew.
const MOST_SINGLE_CALLS: usize = 4;

/// Pairs of rows of one list to run the blade between.
const MOST_BLADES: usize = 3;

/// Lists for one file.
pub fn compare_pegs(
    random: &mut Random,
    file: &[u8],
    road: Option<&Alignment>,
    summary: &mut Summary,
) -> Result<(), String> {
    let joints = &joints(road);
    let lists = if road.is_some() { 2 } else { 1 };
    for _ in 0..lists {
        let list = &peg_list(random, road, joints);
        let mut run = Run::new(file, buffer(random, list.room));
        let answer = run.pegs(&list.pegs, summary)?;
        summary.pegs.count(&Asked {
            list,
            joints,
            answer,
        });
        if let (Some(road), Ok(length)) = (road, answer) {
            let rows = run.library_buffer[..length].split_inclusive(|&byte| byte == b'\n');
            let rows: Vec<&[u8]> = rows.collect();
            compare_with_single_calls(random, file, &list.pegs, &rows)?;
            summary.blade_places += check_blade(random, road, &rows)?;
        }
    }
    Ok(())
}

/// A buffer with anything in it, some bytes again and again: drawing each takes its time for 2,000 pegs.
fn buffer(random: &mut Random, room: usize) -> Vec<u8> {
    let mut bytes = random.bytes(997).repeat(room / 997 + 1);
    bytes.truncate(room);
    bytes
}

/// "The answer for each peg is the row that the single call gives": for all of a few pegs, for some of many.
fn compare_with_single_calls(
    random: &mut Random,
    file: &[u8],
    pegs: &[u64],
    rows: &[&[u8]],
) -> Result<(), String> {
    if rows.len() != pegs.len() {
        return Err(format!("{} rows of {} pegs", rows.len(), pegs.len()));
    }
    let first = random.place(pegs.len().saturating_sub(MOST_SINGLE_CALLS) + 1);
    for (peg, row) in pegs.iter().zip(rows).skip(first).take(MOST_SINGLE_CALLS) {
        let mut line = [0; voardusk::LINE_LENGTH];
        let single = voardusk::row(file, *peg, &mut line);
        if single != Ok(row) {
            return Err(format!(
                "the single call for {peg} gives {single:?}, not {row:?}"
            ));
        }
    }
    Ok(())
}

/// The blade between some neighbouring rows; how many places were looked at.
fn check_blade(random: &mut Random, road: &Alignment, rows: &[&[u8]]) -> Result<u64, String> {
    let mut places = 0;
    for _ in 0..rows.len().saturating_sub(1).min(MOST_BLADES) {
        let first = random.place(rows.len() - 1);
        let read = |place: usize| Row::read(rows[place]).ok_or("a peg's line that is no row");
        let (a, b) = (read(first)?, read(first + 1)?);
        if neighbouring(road, a.station, b.station) {
            places += blade::check(random, road, a, b)?;
        }
    }
    Ok(places)
}
