//! "Two thousand pegs in one go": the rows of a list of peg stations.

use crate::file::{Alignment, Refusal};
use crate::machine::{accept, LEAST_BUFFER};
use crate::road;

/// "a list of peg stations, up to 2,000"
pub const MOST_PEGS: usize = 2_000;

/// "The rows stand one behind another in a lent buffer, whose later bytes do not change. Their total length is
/// returned, 0 for no pegs."
pub fn pegs(file: &[u8], stations: &[u64], buffer: &mut [u8]) -> Result<usize, Refusal> {
    let rows = rows_of_pegs(file, stations, buffer.len())?;
    buffer[..rows.len()].copy_from_slice(rows.as_bytes());
    Ok(rows.len())
}

/// "After the file's own refusals": 20, then 24. "The answer for each peg is the row that the single call gives."
fn rows_of_pegs(file: &[u8], stations: &[u64], room: usize) -> Result<String, Refusal> {
    let alignment = accept(file)?;
    if has_too_little_room(stations.len(), room) {
        return Err(Refusal {
            number: 20,
            place: 0,
        });
    }
    if let Some(peg) = first_bad_peg(&alignment, stations) {
        return Err(Refusal {
            number: 24,
            place: peg as i128,
        });
    }
    let stations = stations.iter().map(|&station| i128::from(station));
    Ok(stations.map(|s| road::line(&alignment, s)).collect())
}

/// "a buffer with less than 96 bytes for each peg": each peg of the list as given, however long.
fn has_too_little_room(pegs: usize, room: usize) -> bool {
    (room as i128) < LEAST_BUFFER as i128 * pegs as i128
}

/// "a list that falls, is longer than 2,000 or passes T is refused [..], its place being the first bad peg, peg 2,000
/// being bad"
fn first_bad_peg(alignment: &Alignment, stations: &[u64]) -> Option<usize> {
    let end = alignment.total_length();
    let falls = |peg: usize| peg > 0 && stations[peg] < stations[peg - 1];
    let passes_end = |peg: usize| i128::from(stations[peg]) > end;
    (0..stations.len()).find(|&peg| peg >= MOST_PEGS || passes_end(peg) || falls(peg))
}
