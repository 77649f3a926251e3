//! The marks of one walk beside the marks of seven judgings.
//!
//! `try_marks COUNT SEED FILE ..` changes the given roads at random, COUNT times, most numbers to one
//! side or the other of a limit, and compares. A FILE named `cases` holds one road a line, in hexadecimal.

use std::process::exit;
use std::ptr;

use peer::changed::{changed, file, to_hex, told};
use peer::judge::judge;
use peer::limits::{limits, rows};
use peer::marks::{marks, plain_marks};
use peer::read::{read, Alignment};

/// The marks, where both orders of asking give the same, and so does the judge at the road's own speed.
fn agreed(road: &Alignment, again: &Alignment) -> Option<u8> {
    let (a, b) = (marks(road), plain_marks(road));
    let (c, d) = (plain_marks(again), marks(again));
    let own = limits(road.date, road.class, road.terrain);
    let at = rows(road.date).iter().position(|row| ptr::eq(row, own))?;
    let stands = a >> at & 1 == 1;
    (a == b && b == c && c == d && stands == judge(road).is_ok()).then_some(a)
}

fn main() {
    let (count, mut chance, roads) = told();
    // one holds what the files before left in it, the other nothing
    let mut used = Alignment::new();
    let (mut refused, mut differ, mut seen) = (0, 0, [0u64; 128]);
    for _ in 0..count {
        let bytes = changed(&roads[chance.below(roads.len())], &mut chance);
        let file = file(&bytes);
        let mut fresh = Alignment::new();
        if read(&file, &mut used).is_err() || read(&file, &mut fresh).is_err() {
            refused += 1;
            continue;
        }
        match agreed(&used, &fresh) {
            Some(marks) => seen[marks as usize] += 1,
            None => {
                differ += 1;
                let hex = to_hex(&bytes);
                println!("{hex} = {} {}", marks(&used), plain_marks(&used));
            }
        }
    }
    println!(
        "{count} files of {} roads, {refused} not read, {differ} differ",
        roads.len()
    );
    let kinds = seen.iter().enumerate().filter(|(_, n)| **n > 0);
    let kinds: Vec<String> = kinds.map(|(marks, n)| format!("{marks}: {n}")).collect();
    println!("marks: {}", kinds.join(", "));
    exit((differ > 0) as i32);
}
