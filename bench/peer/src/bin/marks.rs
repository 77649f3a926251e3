//! Prints the seven marks of the road on standard input, or the refusal. `marks --often N` reads and
//! marks it N times over and prints the sum of the marks; `marks --time N` prints the time of a call.
//!
//! A program of its own: with these in the listing program, its rows take 1 % longer.

use std::hint::black_box;
use std::io;
use std::process::exit;

use peer::calls::{standard_input, sum, time, BATCH};
use peer::marks::{marks, plain_marks};
use peer::read::{read, Alignment};
use peer::Refusal;

fn print_marks() -> io::Result<()> {
    let file = standard_input()?;
    let mut road = Alignment::new();
    match read(&file, &mut road) {
        Ok(()) => println!("{}", marks(&road)),
        Err(Refusal { number, place }) => println!("R {number} {place}"),
    }
    Ok(())
}

/// Reads and marks so many times, the file's step changed between calls.
fn marks_often(calls: u64) -> io::Result<()> {
    let mut file = standard_input()?;
    let mut road = Alignment::new();
    let sum = sum(&mut file, calls, |file| {
        read(file, &mut road).map_or(0, |()| u64::from(marks(&road)))
    });
    println!("{sum}");
    Ok(())
}

fn time_marks(calls: u64) -> io::Result<()> {
    let mut file = standard_input()?;
    let mut road = Alignment::new();
    let mut timed = |marks: fn(&Alignment) -> u8| {
        time(&mut file, calls, |file| {
            let _ = black_box(read(file, &mut road).map(|()| marks(&road)));
            black_box(&road);
        })
    };
    let (walk, plain) = (timed(marks), timed(plain_marks));
    println!("{calls} calls, best batch of {BATCH}");
    println!("read and mark              {walk:9.1} ns/call");
    println!("read and judge seven times {plain:9.1} ns/call");
    Ok(())
}

fn main() {
    let arguments: Vec<String> = std::env::args().skip(1).collect();
    let done = match arguments.as_slice() {
        [] => print_marks(),
        [flag, calls] if flag == "--often" && calls.parse::<u64>().is_ok() => {
            marks_often(calls.parse().unwrap())
        }
        [flag, calls] if flag == "--time" && calls.parse::<u64>().is_ok_and(|n| n > 0) => {
            time_marks(calls.parse().unwrap())
        }
        _ => {
            eprintln!("usage: marks [--often CALLS | --time CALLS] < FILE");
            exit(2);
        }
    };
    if let Err(e) = done {
        eprintln!("marks: {e}");
        exit(1);
    }
}
