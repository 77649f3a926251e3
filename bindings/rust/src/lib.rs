//! Rows and listed stations of the alignment file of a two-lane rural road, the speeds at which it would pass, and the
//! rows of a list of pegs.
//!
//! Five routines, each a function of the file's bytes, and but for the marks of stations in millimetres; those that write
//! rows take a lent buffer. None keeps state, allocates, calls the system or panics; each needs some 64 KB of stack. A
//! [`Refusal`] leaves the buffer untouched.
//!
//! ```
//! # fn main() -> Result<(), voardusk::Refusal> {
//! # let file = include_bytes!("../../../examples/crest.alignment");
//! let mut line = [0; voardusk::LINE_LENGTH];
//! let station = voardusk::next_station(file, 60_000)?;
//! assert_eq!(station, Some(80_000));
//! let row = voardusk::row(file, 80_000, &mut line)?;
//! assert_eq!(row, b"80000 501600 20000 -25000 -25000 501531 501531 0\n");
//! assert_eq!(voardusk::marks(file)?.speeds().collect::<Vec<_>>(), [40, 50]);
//!
//! let mut out = [0; 2 * voardusk::LINE_LENGTH];
//! let rows = voardusk::pegs(file, &[80_000, 100_000], &mut out)?;
//! assert!(rows.starts_with(b"80000 501600 ") && rows.ends_with(b" 501731 501731 0\n"));
//! # Ok(())
//! # }
//! ```
#![deny(missing_docs)]

use std::fmt;

#[cfg(not(target_arch = "x86_64"))]
compile_error!("the proved library is for x86-64");

/// A line needs no more bytes than this; a buffer with less for each row asked for is refused with 20.
pub const LINE_LENGTH: usize = 96;

/// A list has no more pegs than this; the next one is refused with 24.
pub const PEG_COUNT: usize = 2000;

/// A file has no more bytes than this; a longer one is refused with 1.
pub const FILE_LENGTH: usize = 8192;

/// The speeds in km/h that the rule book has rows for, in the order of the [`Marks`].
pub const SPEEDS: [u32; 7] = [40, 50, 60, 70, 80, 90, 100];

/// The number of the rule that turns a call away, and its place, counted from 0 (`docs/REFUSALS.md`).
#[derive(Clone, Copy, Debug, PartialEq, Eq, Hash)]
pub struct Refusal {
    number: u32,
    place: u64,
}

impl Refusal {
    /// 1 to 19, 22 and 23 for the file, 20 for a buffer under [`LINE_LENGTH`] bytes for each row asked for, 21 for a row
    /// beyond the road's end, 24 for a bad peg.
    pub fn number(self) -> u32 {
        self.number
    }

    /// A byte of the file for 1 to 4 and 22; an element, tangent, vertex or crossfall point from 5 to 19 and of 23; the
    /// peg of 24; 0 of 6, 20 and 21.
    pub fn place(self) -> u64 {
        self.place
    }
}

impl fmt::Display for Refusal {
    /// The line that the listing program prints, without its newline.
    fn fmt(&self, out: &mut fmt::Formatter<'_>) -> fmt::Result {
        write!(out, "R {} {}", self.number, self.place)
    }
}

impl std::error::Error for Refusal {}

/// Some rows of a list.
#[derive(Clone, Copy, Debug, PartialEq, Eq)]
#[must_use = "the list goes on from `next`"]
pub struct Part<'b> {
    /// The lines, one behind another: the first bytes of the buffer.
    pub rows: &'b [u8],
    /// The listed station to go on from; none where the list is done.
    pub next: Option<u64>,
}

/// At which of the [`SPEEDS`] a road would pass.
#[derive(Clone, Copy, Debug, PartialEq, Eq, Hash)]
pub struct Marks {
    number: u64,
}

impl Marks {
    /// The seven marks as a number: 40 km/h in the lowest bit, 50 in the next, up to 100 in the seventh.
    pub fn number(self) -> u64 {
        self.number
    }

    /// Whether the mark of a speed stands; there is none at a speed that is not among the [`SPEEDS`].
    pub fn stands_at(self, speed: u32) -> bool {
        self.speeds().any(|passed| passed == speed)
    }

    /// The speeds whose marks stand, ascending.
    pub fn speeds(self) -> impl Iterator<Item = u32> {
        let marked = move |(bit, _): &(usize, u32)| self.number >> bit & 1 == 1;
        (0..).zip(SPEEDS).filter(marked).map(|(_, speed)| speed)
    }
}

/// The line of a station, listed or not, newline included: the first bytes of the buffer. Only they change.
pub fn row<'b>(file: &[u8], station: u64, line: &'b mut [u8]) -> Result<&'b [u8], Refusal> {
    let mut answer = 0;
    // SAFETY: each pointer comes from a reference with its own length, and no two of them overlap.
    let number = unsafe {
        exported::voardusk_row(
            file.as_ptr(),
            file.len(),
            station,
            line.as_mut_ptr(),
            line.len(),
            &mut answer,
        )
    };
    accepted(number, answer)?;
    Ok(&line[..answer as usize])
}

/// The least listed station not below a station; none beyond the road's end.
pub fn next_station(file: &[u8], station: u64) -> Result<Option<u64>, Refusal> {
    let mut answer = 0;
    // SAFETY: each pointer comes from a reference with its own length, and no two of them overlap.
    let number =
        unsafe { exported::voardusk_next_station(file.as_ptr(), file.len(), station, &mut answer) };
    accepted(number, answer)?;
    Ok(found(answer))
}

/// The rows of the listed stations not below a station, as long as [`LINE_LENGTH`] bytes of the buffer are left.
pub fn list<'b>(file: &[u8], station: u64, out: &'b mut [u8]) -> Result<Part<'b>, Refusal> {
    let mut answer = 0;
    let mut next = 0;
    // SAFETY: each pointer comes from a reference with its own length, and no two of them overlap.
    let number = unsafe {
        exported::voardusk_list(
            file.as_ptr(),
            file.len(),
            station,
            out.as_mut_ptr(),
            out.len(),
            &mut answer,
            &mut next,
        )
    };
    accepted(number, answer)?;
    Ok(Part {
        rows: &out[..answer as usize],
        next: found(next),
    })
}

/// The speeds at which the road would pass every rule from 5 on, its own class and terrain put aside. Refused is only a
/// file that cannot be read (1 to 4 and 22).
pub fn marks(file: &[u8]) -> Result<Marks, Refusal> {
    let mut answer = 0;
    // SAFETY: each pointer comes from a reference with its own length, and no two of them overlap.
    let number = unsafe { exported::voardusk_marks(file.as_ptr(), file.len(), &mut answer) };
    accepted(number, answer)?;
    Ok(Marks { number: answer })
}

/// The rows of up to [`PEG_COUNT`] pegs, one behind another: the first bytes of the buffer. Only they change. Each row is
/// the one that [`row`] gives for the peg's station. The stations ascend; equal ones are allowed.
pub fn pegs<'b>(file: &[u8], stations: &[u64], out: &'b mut [u8]) -> Result<&'b [u8], Refusal> {
    let mut answer = 0;
    // SAFETY: each pointer comes from a reference with its own length, and no two of them overlap.
    let number = unsafe {
        exported::voardusk_pegs(
            file.as_ptr(),
            file.len(),
            stations.as_ptr(),
            stations.len(),
            out.as_mut_ptr(),
            out.len(),
            &mut answer,
        )
    };
    accepted(number, answer)?;
    Ok(&out[..answer as usize])
}

/// 0 is no refusal.
fn accepted(number: u32, place: u64) -> Result<(), Refusal> {
    match number {
        0 => Ok(()),
        _ => Err(Refusal { number, place }),
    }
}

/// All bits set stand for "there is no station".
fn found(station: u64) -> Option<u64> {
    (station != u64::MAX).then_some(station)
}

/// The routines of the archive, as `bindings/c/voardusk.h` declares them.
mod exported {
    extern "C" {
        pub fn voardusk_row(
            file: *const u8,
            file_length: usize,
            station: u64,
            line: *mut u8,
            line_length: usize,
            answer: &mut u64,
        ) -> u32;

        pub fn voardusk_next_station(
            file: *const u8,
            file_length: usize,
            station: u64,
            answer: &mut u64,
        ) -> u32;

        pub fn voardusk_list(
            file: *const u8,
            file_length: usize,
            station: u64,
            out: *mut u8,
            out_length: usize,
            answer: &mut u64,
            next: &mut u64,
        ) -> u32;

        pub fn voardusk_marks(file: *const u8, file_length: usize, answer: &mut u64) -> u32;

        pub fn voardusk_pegs(
            file: *const u8,
            file_length: usize,
            stations: *const u64,
            station_count: usize,
            out: *mut u8,
            out_length: usize,
            answer: &mut u64,
        ) -> u32;
    }
}
