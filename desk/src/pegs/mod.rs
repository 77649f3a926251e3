//! `pegs`: the rows of a list of pegs, in one call of the library.

mod cells;
mod columns;
mod csv;
mod list;
mod refused;
mod station;

#[cfg(test)]
mod tests;

use crate::call::{flag, Call};
use crate::commands::Command;
use crate::fault::{End, Fault};
use crate::list::refusal_line;
use crate::names::shown;
use crate::words::{common, pegs as words};
use crate::{files, reading, writing};
use list::List;

pub const COMMAND: Command = Command {
    name: "pegs",
    shape: "FILE PEGS [--csv]",
    options: &[flag("--csv")],
    least_words: 2,
    most_words: 2,
    summary: words::SUMMARY,
    help: words::HELP,
    run,
};

fn run(call: &Call) -> Result<End, Fault> {
    let language = call.language;
    files::read_input_once(call)?;
    let file = reading::alignment(&call.words[0], language)?;
    let text = reading::first_bytes(&call.words[1], list::MOST_TEXT + 1, language)?;
    match list::read(&text, language) {
        Ok(list) => answer(call, &file, &list),
        Err(wrong) => {
            let name = shown(&call.words[1], language);
            let words = language.say(common::ABOUT_FILE, &[&name, &wrong]);
            writing::say(&words, language);
            Ok(End::Refused)
        }
    }
}

/// Prints what the library answers: the rows, or the refusal of the file or of the list.
fn answer(call: &Call, file: &[u8], list: &List) -> Result<End, Fault> {
    let language = call.language;
    let stations: Vec<u64> = list.pegs.iter().map(|peg| peg.station).collect();
    let mut buffer = vec![0; stations.len() * proved::LINE_LENGTH];
    match proved::pegs(file, &stations, &mut buffer) {
        Ok(rows) if call.has("--csv") => writing::answer(&csv::table(rows, list), language)?,
        Ok(rows) => writing::answer(rows, language)?,
        Err(refusal) => {
            writing::answer(&refusal_line(refusal, call.has("--csv")), language)?;
            let words = refused::words(call, file, list, refusal);
            writing::say(&words, language);
            return Ok(End::Refused);
        }
    }
    Ok(End::Answered)
}
