//! The rows of 2,000 pegs spread evenly over the road on standard input, or the refusal.
//!
//! `pegs --at STATIONS LENGTH` gives the rows of other stations, with commas between them or `-` for
//! none, in a buffer of that length. `--accept`, `--often`, `--single` and `--list N` make many calls
//! of one kind and print the sum of their answers; `--time N` prints the time of a call.
//!
//! A program of its own, like `marks`.

use std::hint::black_box;
use std::io::{self, Write};
use std::process::exit;

use peer::calls::{standard_input, sum, time, BATCH};
use peer::judge::judge;
use peer::list::list;
use peer::pegs::{pegs, single, PEGS};
use peer::read::{read, Alignment, File};
use peer::walk::LINE_MAX;
use peer::Refusal;

/// Peg i is T × i / 1999, rounded down.
fn even_pegs(file: &File) -> Vec<u64> {
    let mut road = Alignment::new();
    let total = read(file, &mut road).map_or(0, |()| road.total() as u64);
    let last = PEGS as u64 - 1;
    (0..=last).map(|i| total * i / last).collect()
}

fn print_pegs(file: &File, stations: &[u64], length: usize) -> io::Result<()> {
    let mut out = vec![0; length];
    match pegs(file, &mut Alignment::new(), stations, &mut out) {
        Ok(length) => io::stdout().write_all(&out[..length]),
        Err(Refusal { number, place }) => writeln!(io::stdout(), "R {number} {place}"),
    }
}

/// Counts what it is given.
struct Length(u64);

impl Write for Length {
    fn write(&mut self, bytes: &[u8]) -> io::Result<usize> {
        self.0 += black_box(bytes).len() as u64;
        Ok(bytes.len())
    }

    fn flush(&mut self) -> io::Result<()> {
        Ok(())
    }
}

fn list_length(file: &File, road: &mut Alignment) -> u64 {
    let mut length = Length(0);
    if let Ok(row) = read(file, road).and_then(|()| judge(road)) {
        list(road, row, &mut length).expect("counting does not fail");
    }
    length.0
}

fn total(file: &File, road: &mut Alignment) -> u64 {
    let judged = read(file, road).and_then(|()| judge(road));
    judged.map_or(0, |_| road.total() as u64)
}

/// The sum of the answers of so many calls of one kind.
fn sum_of(kind: &str, often: u64, file: &mut File) -> Option<u32> {
    let stations = even_pegs(file);
    let mut out = vec![0; PEGS * LINE_MAX];
    let mut road = Alignment::new();
    let mut places = stations.iter().cycle();
    Some(match kind {
        "--accept" => sum(file, often, |file| total(file, &mut road)),
        "--often" => sum(file, often, |file| {
            pegs(file, &mut road, &stations, &mut out).unwrap_or(0) as u64
        }),
        "--single" => sum(file, often * PEGS as u64, |file| {
            let station = *places.next().expect("the pegs go round");
            single(file, &mut road, station, &mut out).unwrap_or(0) as u64
        }),
        "--list" => sum(file, often, |file| list_length(file, &mut road)),
        _ => return None,
    })
}

fn time_pegs(file: &mut File, calls: u64) -> io::Result<()> {
    let stations = even_pegs(file);
    let mut out = vec![0; PEGS * LINE_MAX];
    let mut road = Alignment::new();
    let accept = time(file, calls, |file| {
        black_box(total(file, &mut road));
    });
    let both = time(file, calls, |file| {
        let _ = black_box(pegs(file, &mut road, &stations, &mut out));
        black_box(&out);
    });
    println!("{calls} calls, best batch of {BATCH}");
    println!("read and judge           {accept:9.1} ns/call");
    println!("read, judge, {PEGS} pegs  {both:9.1} ns/call");
    println!(
        "judging apart            {:9.1} ns/peg",
        (both - accept) / PEGS as f64
    );
    Ok(())
}

fn stations(text: &str) -> Option<Vec<u64>> {
    if text == "-" {
        return Some(Vec::new());
    }
    text.split(',').map(|s| s.parse().ok()).collect()
}

fn usage() -> ! {
    eprintln!("usage: pegs [--at STATIONS LENGTH | --accept N | --often N | --single N | --list N | --time N] < FILE");
    exit(2);
}

fn answer(arguments: &[&str]) -> io::Result<()> {
    let mut file = standard_input()?;
    match *arguments {
        [] => print_pegs(&file, &even_pegs(&file), PEGS * LINE_MAX),
        ["--at", text, length] => match (stations(text), length.parse()) {
            (Some(stations), Ok(length)) => print_pegs(&file, &stations, length),
            _ => usage(),
        },
        [kind, often] => match (kind, often.parse()) {
            ("--time", Ok(calls @ 1..)) => time_pegs(&mut file, calls),
            (_, Ok(often)) => match sum_of(kind, often, &mut file) {
                Some(sum) => writeln!(io::stdout(), "{sum}"),
                None => usage(),
            },
            _ => usage(),
        },
        _ => usage(),
    }
}

fn main() {
    let arguments: Vec<String> = std::env::args().skip(1).collect();
    let arguments: Vec<&str> = arguments.iter().map(String::as_str).collect();
    if let Err(e) = answer(&arguments) {
        eprintln!("pegs: {e}");
        exit(1);
    }
}
