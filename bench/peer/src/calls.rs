//! What the programs share: the file on standard input, and calls on it that are timed.

use std::fs;
use std::hint::black_box;
use std::io::{self, Read};
use std::mem::ManuallyDrop;
use std::os::fd::FromRawFd;
use std::time::Instant;

use crate::read::{File, FILE_MAX};

/// The file on standard input, of which at most one byte past the greatest length is looked at.
pub fn standard_input() -> io::Result<File> {
    // SAFETY: the descriptor is open for the whole run and is not closed here.
    let mut input = ManuallyDrop::new(unsafe { fs::File::from_raw_fd(0) });
    let mut file = File {
        bytes: [0; FILE_MAX + 16],
        len: 0,
    };
    while file.len <= FILE_MAX {
        match input.read(&mut file.bytes[file.len..FILE_MAX + 1]) {
            Ok(0) => break,
            Ok(n) => file.len += n,
            Err(e) if e.kind() == io::ErrorKind::Interrupted => {}
            Err(e) => return Err(e),
        }
    }
    Ok(file)
}

/// Calls timed together: short enough for a batch to run through without interruption.
pub const BATCH: u64 = 50;

/// The bit of the third byte that is changed between calls. Class and terrain take a byte each; the
/// step follows: its lowest bit, or, at the greatest step, the lowest one that is set.
pub fn changed_bit(file: &File) -> u8 {
    let greatest = file.bytes[2..5] == [0xa0, 0x8d, 0x06];
    if greatest {
        0x20
    } else {
        0x01
    }
}

/// The sum of the answers of so many calls, modulo 2^32; the file's step is changed after each call.
pub fn sum(file: &mut File, calls: u64, mut call: impl FnMut(&File) -> u64) -> u32 {
    let bit = changed_bit(file);
    let mut sum = 0u32;
    for _ in 0..calls {
        sum = sum.wrapping_add(black_box(call(black_box(file))) as u32);
        file.bytes[2] ^= bit;
    }
    sum
}

/// Nanoseconds of a call, in the best batch; the file's step is changed before each call.
pub fn time(file: &mut File, calls: u64, mut call: impl FnMut(&File)) -> f64 {
    let bit = changed_bit(file);
    let mut best = f64::INFINITY;
    for _ in 0..calls.div_ceil(BATCH) {
        let start = Instant::now();
        for _ in 0..BATCH {
            file.bytes[2] ^= bit;
            call(black_box(file));
        }
        best = best.min(start.elapsed().as_nanos() as f64 / BATCH as f64);
    }
    best
}
