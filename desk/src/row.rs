//! `row`: the row of each station.

use std::ffi::OsStr;

use crate::call::Call;
use crate::commands::Command;
use crate::fault::{End, Fault};
use crate::language::Language;
use crate::names::{plain, shown};
use crate::words::{common, help};
use crate::{quantity, reading, refusals, writing};

pub const COMMAND: Command = Command {
    name: "row",
    shape: "FILE STATION..",
    options: &[],
    least_words: 2,
    most_words: usize::MAX,
    summary: help::ROW,
    help: help::ROW_HELP,
    run,
};

fn run(call: &Call) -> Result<End, Fault> {
    let stations = stations(call)?;
    let name = &call.words[0];
    let file = reading::alignment(name, call.language)?;
    let mut line = [0; proved::LINE_LENGTH];
    let mut out = Vec::new();
    let mut end = End::Answered;
    for station in stations {
        match proved::row(&file, station, &mut line) {
            Ok(row) => out.extend_from_slice(row),
            Err(refusal) => {
                out.extend_from_slice(format!("{refusal}\n").as_bytes());
                writing::say(
                    &refused(name, station, refusal, call.language),
                    call.language,
                );
                end = End::Refused;
            }
        }
    }
    writing::answer(&out, call.language)?;
    Ok(end)
}

/// The stations after the file's name.
pub fn stations(call: &Call) -> Result<Vec<u64>, Fault> {
    let words = call.words[1..].iter();
    let read = words.map(|word| {
        let station = word.to_str().and_then(quantity::station);
        station.ok_or_else(|| {
            let words = call.language.say(common::NO_STATION, &[&plain(word)]);
            Fault::Use(words)
        })
    });
    read.collect()
}

fn refused(name: &OsStr, station: u64, refusal: proved::Refusal, language: Language) -> String {
    match refusal.number() {
        21 => language.say(common::STATION_REFUSED, &[&shown(name, language), &station]),
        _ => refusals::words(name, refusal, language),
    }
}
