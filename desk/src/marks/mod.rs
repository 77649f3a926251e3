//! `marks`: at which of the seven speeds a road would pass.

mod by_class;
mod csv;
mod limit;
pub mod text;
pub mod verdicts;

#[cfg(test)]
mod tests;

use std::ffi::OsStr;

use crate::call::{flag, Call};
use crate::commands::Command;
use crate::fault::{End, Fault};
use crate::files::{self, Said};
use crate::names::{plain, shown};
use crate::words::{common, marks as words};
use crate::{reading, refusals, writing};
use verdicts::{agreed, Agreed};

pub const COMMAND: Command = Command {
    name: "marks",
    shape: "FILE.. [--number | --csv]",
    options: &[flag("--number"), flag("--csv")],
    least_words: 1,
    most_words: usize::MAX,
    summary: words::SUMMARY,
    help: words::HELP,
    run,
};

fn run(call: &Call) -> Result<End, Fault> {
    files::read_input_once(call)?;
    match (call.has("--number"), call.has("--csv")) {
        (false, false) => files::each_under_its_name(call, |name| table(call, name)),
        (true, false) => files::each(call, |name| number(call, name)),
        (false, true) => {
            let mut head = csv::HEAD;
            files::each(call, |name| {
                let (lines, end) = lines(call, name)?;
                // the first answer brings the head line
                Ok((std::mem::take(&mut head).to_string() + &lines, end))
            })
        }
        (true, true) => {
            let right = format!("voardusk {} {}", COMMAND.name, COMMAND.shape);
            let words = call
                .language
                .say(common::WRONG_WORDS, &[&COMMAND.name, &right]);
            Err(Fault::Use(words))
        }
    }
}

/// A line for each speed.
fn table(call: &Call, name: &OsStr) -> Result<Said, Fault> {
    match read(call, name)? {
        Agreed::Marked(road) => Ok((text::table(&road, call.language), End::Answered)),
        Agreed::Unread(refusal) => Ok(unread(call, name, refusal, format!("{refusal}\n"))),
    }
}

/// The marks as the library gives them, for other programs.
fn number(call: &Call, name: &OsStr) -> Result<Said, Fault> {
    let file = reading::alignment(name, call.language)?;
    match proved::marks(&file) {
        Ok(marks) => Ok((format!("{}\n", marks.number()), End::Answered)),
        Err(refusal) => Ok(unread(call, name, refusal, format!("{refusal}\n"))),
    }
}

/// The file's lines with commas.
fn lines(call: &Call, name: &OsStr) -> Result<Said, Fault> {
    match read(call, name)? {
        Agreed::Marked(road) => Ok((csv::lines(&plain(name), &road), End::Answered)),
        Agreed::Unread(refusal) => {
            let line = csv::unread(&plain(name), refusal);
            Ok(unread(call, name, refusal, line))
        }
    }
}

fn read(call: &Call, name: &OsStr) -> Result<Agreed, Fault> {
    let language = call.language;
    let file = reading::alignment(name, language)?;
    agreed(&file, language).map_err(|words| {
        let name = shown(name, language);
        Fault::Failed(language.say(common::DISAGREEMENT, &[&name, &words]))
    })
}

/// The line of a file that cannot be read; the words about it go to standard error.
fn unread(call: &Call, name: &OsStr, refusal: proved::Refusal, line: String) -> Said {
    let words = refusals::words(name, refusal, call.language);
    writing::say(&words, call.language);
    (line, End::Refused)
}
