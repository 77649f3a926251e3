//! One file: the library's answers and buffers against the plain machine's, call by call.

use crate::blade;
use crate::generate::random::Random;
use crate::generate::stations::random_station;
use crate::pegs::compare_pegs;
use crate::run::{refusal, Run};
use crate::summary::Summary;
use reference::blade::{neighbouring, Row};
use reference::file::{read, Alignment, Refusal};
use reference::limits::SPEEDS;
use reference::machine::{self, Answer, PartAnswer};
use reference::marks;
use reference::stations;

fn random_buffer(random: &mut Random) -> Vec<u8> {
    let length = match random.place(16) {
        0 => 0,
        1 => 1,
        2 => 95,
        3 => random.between(0, 95) as usize,
        4..=6 => 96,
        7 => 97,
        8 => 5_000,
        _ => random.between(96, 300) as usize,
    };
    random.bytes(length)
}

/// A run of calls of the two routines, then the blade between its neighbouring rows.
fn compare_run(
    random: &mut Random,
    file: &[u8],
    road: Option<&Alignment>,
    summary: &mut Summary,
) -> Result<(), String> {
    let mut run = Run::new(file, random_buffer(random));
    let mut rows = Vec::new();
    let calls = if file.len() > 1_000 { 10 } else { 20 };
    for _ in 0..random.between(4, calls) {
        if random.chance(35) {
            let station = random_station(random, road);
            run.next_station(station, summary)?;
            continue;
        }
        let mut asked = vec![random_station(random, road)];
        if let Some(road) = road.filter(|_| random.chance(40)) {
            // Two rows with no listed station between them.
            let from = random.between(0, road.total_length());
            let next = stations::next_station(road, from + 1).unwrap_or(from);
            asked = vec![from as u64, random.between(from, next) as u64];
        }
        for station in asked {
            if let Some(line) = run.row(station, summary)? {
                let row = Row::read(&line).ok_or("a line that is no row")?;
                if row.station != i128::from(station) {
                    return Err(format!("the row of {station} names {}", row.station));
                }
                rows.push(row);
                if let Some(road) = road {
                    summary.halves.count(road, row.station);
                }
            }
        }
    }
    let Some(road) = road else { return Ok(()) };
    rows.sort_by_key(|row| row.station);
    for pair in rows.windows(2) {
        if neighbouring(road, pair[0].station, pair[1].station) {
            summary.blade_places += blade::check(random, road, pair[0], pair[1])?;
        }
    }
    Ok(())
}

/// "The listing program's run [..] asks for the next station from 0, then for the row there, then
/// from 1 past each station answered, until there is none".
fn compare_listing_run(
    random: &mut Random,
    file: &[u8],
    summary: &mut Summary,
) -> Result<(), String> {
    let length = random.between(96, 200) as usize;
    let mut run = Run::new(file, random.bytes(length));
    let mut listed = Vec::new();
    let mut from = 0;
    while let Answer::Station(station) = run.next_station(from, summary)? {
        let station = station as u64;
        let line = run.row(station, summary)?.ok_or("a listed row refused")?;
        listed.extend(line);
        from = station + 1;
    }
    if listed != machine::printed_list(file).into_bytes() {
        return Err("the listing program's run is not the whole list".to_string());
    }
    summary.listing_runs += 1;
    Ok(())
}

/// Calls for parts of the list; from 0 on to the end where the list is not too long.
fn compare_lists(
    random: &mut Random,
    file: &[u8],
    road: Option<&Alignment>,
    summary: &mut Summary,
) -> Result<(), String> {
    let station = random_station(random, road);
    Run::new(file, random_buffer(random)).list(station, summary)?;
    let Some(road) = road else { return Ok(()) };
    let length = tight_room(random, file, station);
    Run::new(file, random.bytes(length)).list(station, summary)?;
    let marks = road.elements.len() + 2 * road.tangents.len() + road.points.len();
    let rows = road.total_length() / road.step + marks as i128;
    if rows <= 60 && random.chance(30) {
        compare_listing_run(random, file, summary)?;
    }
    // Long lists take their time, so fewer of them are walked through.
    let percent = match rows {
        0..=100 => 100,
        101..=400 => 50,
        401..=2_000 => 5,
        _ => 8,
    };
    if random.chance(percent) {
        compare_whole_list(random, file, rows, road, summary)?;
    }
    Ok(())
}

/// Room that ends some rows on, with 95, 96 or 97 bytes left for the next.
fn tight_room(random: &mut Random, file: &[u8], station: u64) -> usize {
    let mut buffer = vec![0; 1_000];
    let length = match machine::list(file, station, &mut buffer) {
        PartAnswer::Rows(length, _) => length,
        PartAnswer::Refused(_) => 0,
    };
    let ends: Vec<usize> = (0..length).filter(|&byte| buffer[byte] == b'\n').collect();
    let rows = random.place(ends.len() + 1);
    let taken = rows.checked_sub(1).map_or(0, |row| ends[row] + 1);
    taken + random.pick(&[95, 96, 97])
}

fn compare_whole_list(
    random: &mut Random,
    file: &[u8],
    rows: i128,
    road: &Alignment,
    summary: &mut Summary,
) -> Result<(), String> {
    let mut listed: Vec<u8> = Vec::new();
    let mut station = Some(0);
    while let Some(from) = station {
        let length = match random.place(3) {
            0 => random.between(96, 300),
            _ => random.between(96, 300 + rows * 20),
        };
        let mut run = Run::new(file, random.bytes(length as usize));
        match run.list(from, summary)? {
            PartAnswer::Rows(length, next) => {
                listed.extend_from_slice(&run.library_buffer[..length]);
                station = next.map(|next| next as u64);
            }
            PartAnswer::Refused(refused) => return Err(format!("a list refused: {refused:?}")),
        }
    }
    if listed != machine::printed_list(file).into_bytes() {
        return Err("the parts together are not the whole list".to_string());
    }
    summary.whole_lists += 1;
    let read: Vec<Row> = listed
        .split_inclusive(|&byte| byte == b'\n')
        .map(Row::read)
        .collect::<Option<_>>()
        .ok_or("a listed line that is no row")?;
    summary.listed_rows += read.len() as u64;
    summary.longest_list = summary.longest_list.max(read.len() as u64);
    for _ in 0..6 {
        let place = random.place(read.len() - 1);
        summary.blade_places += blade::check(random, road, read[place], read[place + 1])?;
    }
    Ok(())
}

/// Compares the seven marks, as a number and speed by speed.
fn compare_marks(file: &[u8]) -> Result<(), String> {
    let passes = |marks: voardusk::Marks| SPEEDS.map(|speed| marks.stands_at(speed as u32));
    let library = voardusk::marks(file)
        .map(|marks| (i128::from(marks.number()), passes(marks)))
        .map_err(refusal);
    let reference = marks::marks(file).map(|marks| (marks.number(), marks.stands));
    if library == reference {
        return Ok(());
    }
    Err(format!(
        "call: marks\nthe library's answer: {library:?}\nthe reference's answer: {reference:?}"
    ))
}

/// What the papers say of a file with the row of a speed in place of the class's.
pub fn refusal_at(file: &[u8], speed: i128) -> Option<Refusal> {
    match read(file) {
        Ok(road) => marks::first_refusal_at(&road, speed),
        Err(refusal) => Some(refusal),
    }
}

/// Compares one file; the reference's verdict on it.
pub fn compare_file(
    random: &mut Random,
    file: &[u8],
    summary: &mut Summary,
) -> (Result<Alignment, Refusal>, Result<(), String>) {
    let accepted = machine::accept(file);
    let road = accepted.as_ref().ok();
    let lent = file.to_vec();
    let compared = compare_run(random, &lent, road, summary)
        .and_then(|()| compare_lists(random, &lent, road, summary))
        .and_then(|()| compare_marks(&lent))
        .and_then(|()| compare_pegs(random, &lent, road, summary))
        .and_then(|()| match lent == file {
            true => Ok(()),
            false => Err("the file itself was changed".to_string()),
        });
    (accepted, compared)
}
