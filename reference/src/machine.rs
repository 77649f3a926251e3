//! The plain machine: "given the file, the first buffer and the calls", it answers each call and
//! holds the buffer that the call leaves. Every call reads the file anew.

use crate::file::{read, Alignment, Refusal};
use crate::{road, rules, stations};

/// "The buffer is shorter than 96 bytes"
pub const LEAST_BUFFER: usize = 96;

/// What the machine answers to a call of one of the two routines.
#[derive(Clone, Debug, PartialEq, Eq)]
pub enum Answer {
    Refused(Refusal),
    /// The length of the line that stands over the first bytes of the buffer.
    Line(usize),
    Station(i128),
    NoStation,
}

/// What the machine answers to a call for a part of the list.
#[derive(Clone, Debug, PartialEq, Eq)]
pub enum PartAnswer {
    Refused(Refusal),
    /// The length of the rows over the first bytes of the buffer, and where to go on.
    Rows(usize, Option<i128>),
}

/// The refusals of the file, 1 to 19, 22 and 23.
pub fn accept(file: &[u8]) -> Result<Alignment, Refusal> {
    let alignment = read(file)?;
    rules::judge(&alignment)?;
    Ok(alignment)
}

/// "A routine for one row takes file, any whole station from 0 up and line buffer."
pub fn row(file: &[u8], station: u64, buffer: &mut [u8]) -> Answer {
    match line_of_row(file, i128::from(station), buffer.len()) {
        Err(refusal) => Answer::Refused(refusal),
        Ok(line) => {
            buffer[..line.len()].copy_from_slice(line.as_bytes());
            Answer::Line(line.len())
        }
    }
}

/// "It checks further, each only as stated and in this order": 20, 21.
fn line_of_row(file: &[u8], station: i128, room: usize) -> Result<String, Refusal> {
    let alignment = accept(file)?;
    if room < LEAST_BUFFER {
        return Err(Refusal {
            number: 20,
            place: 0,
        });
    }
    if station > alignment.total_length() {
        return Err(Refusal {
            number: 21,
            place: 0,
        });
    }
    Ok(road::line(&alignment, station))
}

/// "A routine for the next station takes file and any whole station from 0 up."
pub fn next_station(file: &[u8], station: u64) -> Answer {
    match accept(file) {
        Err(refusal) => Answer::Refused(refusal),
        Ok(alignment) => match stations::next_station(&alignment, i128::from(station)) {
            Some(next) => Answer::Station(next),
            None => Answer::NoStation,
        },
    }
}

/// The rows of the listed stations not below a station, as long as there is room for 96 bytes.
pub fn list(file: &[u8], station: u64, buffer: &mut [u8]) -> PartAnswer {
    let alignment = match accept(file) {
        Err(refusal) => return PartAnswer::Refused(refusal),
        Ok(alignment) => alignment,
    };
    if buffer.len() < LEAST_BUFFER {
        return PartAnswer::Refused(Refusal {
            number: 20,
            place: 0,
        });
    }
    let mut length = 0;
    let mut next = stations::next_station(&alignment, i128::from(station));
    while let Some(listed) = next {
        if buffer.len() - length < LEAST_BUFFER {
            break;
        }
        let line = road::line(&alignment, listed);
        buffer[length..length + line.len()].copy_from_slice(line.as_bytes());
        length += line.len();
        next = stations::next_station(&alignment, listed + 1);
    }
    PartAnswer::Rows(length, next)
}

/// What the listing program prints: the refusal, or the row of every listed station.
pub fn printed_list(file: &[u8]) -> String {
    match accept(file) {
        Err(refusal) => format!("R {} {}\n", refusal.number, refusal.place),
        Ok(alignment) => stations::listed_stations(&alignment)
            .into_iter()
            .map(|station| road::line(&alignment, station))
            .collect(),
    }
}
