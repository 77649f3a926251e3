//! The reference, and of some routines the library, against known answers.

use std::fs;
use std::path::Path;

use crate::hexadecimal;
use crate::run::refusal;
use reference::file::Refusal;
use reference::machine::{self, Answer};
use reference::{marks, pegs};

/// The count of cases, and those that differ.
pub type Checked = (usize, Vec<(String, String)>);

/// Checks NNNN.in against NNNN.out and NNNN.run.
pub fn check(directory: &Path) -> std::io::Result<Checked> {
    let mut paths: Vec<_> = fs::read_dir(directory)?
        .filter_map(|entry| entry.ok().map(|entry| entry.path()))
        .filter(|path| path.extension().is_some_and(|extension| extension == "in"))
        .collect();
    paths.sort();
    let mut differing = Vec::new();
    for path in &paths {
        let file = fs::read(path)?;
        let list = fs::read_to_string(path.with_extension("out"))?;
        let run = fs::read_to_string(path.with_extension("run"))?;
        let compared = if machine::printed_list(&file) == list {
            check_run(&file, &run)
        } else {
            Err("the printed list differs".to_string())
        };
        if let Err(difference) = compared {
            differing.push((path.display().to_string(), difference));
        }
    }
    Ok((paths.len(), differing))
}

/// One run: the first buffer, then each call with its answer and the buffer after it.
fn check_run(file: &[u8], run: &str) -> Result<(), String> {
    let mut lines = run.lines();
    let first = lines.next().and_then(|line| line.strip_prefix("buffer"));
    let mut buffer = first
        .and_then(|text| hexadecimal::read(text.trim()))
        .ok_or("no first buffer")?;
    for line in lines {
        let (call, rest) = line.split_once(": ").ok_or("a line without a call")?;
        let (_, after) = rest.split_once('|').ok_or("a line without a buffer")?;
        let (routine, station) = call.split_once(' ').ok_or("a call without a station")?;
        let station: u64 = station.parse().map_err(|_| "a station that is no number")?;
        let answer = match routine {
            "row" => machine::row(file, station, &mut buffer),
            "next" => machine::next_station(file, station),
            _ => return Err(format!("unknown call {call}")),
        };
        let ours = format!(
            "{call}: {} | {}",
            text(&answer),
            hexadecimal::write(&buffer)
        );
        let theirs = format!(
            "{call}: {} | {}",
            rest[..rest.len() - after.len() - 1].trim(),
            after.trim()
        );
        if ours != theirs {
            return Err(format!("expected {theirs}, the reference gives {ours}"));
        }
    }
    Ok(())
}

/// Checks the library and the reference against lines of a file in hexadecimal, ` = ` and its marks as a number, or the
/// refusal.
pub fn check_marks(cases: &Path) -> std::io::Result<Checked> {
    check_lines(cases, check_marks_of)
}

/// Checks the library and the reference against lines of a file in hexadecimal, stations with commas, the buffer's
/// length, ` = ` and the rows in hexadecimal, or the refusal.
pub fn check_pegs(cases: &Path) -> std::io::Result<Checked> {
    check_lines(cases, check_pegs_of)
}

fn check_lines(cases: &Path, check: fn(&str) -> Result<(), String>) -> std::io::Result<Checked> {
    let text = fs::read_to_string(cases)?;
    let mut differing = Vec::new();
    for (place, line) in text.lines().enumerate() {
        if let Err(difference) = check(line) {
            differing.push((format!("line {}", place + 1), difference));
        }
    }
    Ok((text.lines().count(), differing))
}

fn check_marks_of(line: &str) -> Result<(), String> {
    let ([file], theirs) = inputs_and_answer(line)?;
    let file = bytes(file)?;
    let library = voardusk::marks(&file).map_err(refusal);
    let library = library.map(|marks| i128::from(marks.number()));
    let reference = marks::marks(&file).map(|marks| marks.number());
    let text = |answer: Result<i128, _>| answer.map_or_else(text_of, |number| number.to_string());
    agree(theirs, &text(library), &text(reference))
}

fn check_pegs_of(line: &str) -> Result<(), String> {
    let ([file, stations, room], theirs) = inputs_and_answer(line)?;
    let file = bytes(file)?;
    let pegs = numbers(stations)?;
    let room = room.parse().map_err(|_| "a length that is no number")?;
    let library = rows_in(room, |buffer| {
        let rows = voardusk::pegs(&file, &pegs, buffer).map_err(refusal)?;
        Ok(rows.len())
    });
    let reference = rows_in(room, |buffer| pegs::pegs(&file, &pegs, buffer));
    agree(theirs, &library, &reference)
}

/// The inputs of a case, separated by spaces, and after ` = ` its answer.
fn inputs_and_answer<const N: usize>(line: &str) -> Result<([&str; N], &str), String> {
    let (inputs, answer) = line.split_once(" = ").ok_or("a line without an answer")?;
    let inputs: Vec<&str> = inputs.split(' ').collect();
    let inputs = inputs.try_into().map_err(|_| format!("not {N} inputs"))?;
    Ok((inputs, answer))
}

/// The bytes of an input; `-` is none.
fn bytes(input: &str) -> Result<Vec<u8>, String> {
    let digits = if input == "-" { "" } else { input };
    Ok(hexadecimal::read(digits).ok_or("bytes that are not hexadecimal")?)
}

/// Numbers with commas between them; `-` is none.
fn numbers(input: &str) -> Result<Vec<u64>, String> {
    let texts = input.split(',').filter(|_| input != "-");
    let numbers = texts.map(|text| text.parse().map_err(|_| format!("{text} is no number")));
    numbers.collect()
}

/// The rows that a call leaves in a buffer of so many bytes, or its refusal.
fn rows_in(room: usize, call: impl FnOnce(&mut [u8]) -> Result<usize, Refusal>) -> String {
    let lent: Vec<u8> = (0..room).map(|place| place as u8).collect();
    let mut buffer = lent.clone();
    let answer = call(&mut buffer);
    let length = answer.unwrap_or(0);
    match answer {
        _ if buffer[length..] != lent[length..] => "a change beyond the rows".to_string(),
        Err(refusal) => text_of(refusal),
        Ok(0) => "-".to_string(),
        Ok(_) => hexadecimal::write(&buffer[..length]),
    }
}

fn agree(theirs: &str, library: &str, reference: &str) -> Result<(), String> {
    match library == theirs && reference == theirs {
        true => Ok(()),
        false => Err(format!(
            "expected {theirs}, the library gives {library}, the reference {reference}"
        )),
    }
}

fn text_of(refusal: Refusal) -> String {
    format!("R {} {}", refusal.number, refusal.place)
}

fn text(answer: &Answer) -> String {
    match answer {
        Answer::Refused(refusal) => text_of(*refusal),
        Answer::Line(length) => format!("len {length}"),
        Answer::Station(station) => format!("station {station}"),
        Answer::NoStation => "none".to_string(),
    }
}
