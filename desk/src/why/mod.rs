//! `why`: every broken rule of a refused file, and what would mend it.

mod between_arcs;
mod cross_section;
mod date;
mod findings;
pub mod least;
mod limits;
mod lines;
mod mending;
mod moves;
mod plan;
mod profile;
mod teller;
mod text;
mod together;
mod unread;

#[cfg(test)]
mod tests;

pub use findings::{findings, Finding};
pub use text::{ending, heading};

use std::ffi::OsStr;

use crate::agreement::{agreed, Agreed};
use crate::call::{flag, Call};
use crate::commands::Command;
use crate::fault::{End, Fault};
use crate::files::{self, Said};
use crate::names::shown;
use crate::words::{common, why as words};
use crate::{reading, writing};

pub const COMMAND: Command = Command {
    name: "why",
    shape: "FILE.. | --limits",
    options: &[flag("--limits")],
    least_words: 0,
    most_words: usize::MAX,
    summary: words::SUMMARY,
    help: words::HELP,
    run,
};

fn run(call: &Call) -> Result<End, Fault> {
    let language = call.language;
    if call.has("--limits") != call.words.is_empty() {
        let right = format!("voardusk {} {}", COMMAND.name, COMMAND.shape);
        let words = language.say(common::WRONG_WORDS, &[&COMMAND.name, &right]);
        return Err(Fault::Use(words));
    }
    files::read_input_once(call)?;
    if call.has("--limits") {
        writing::answer(limits::tables(language).as_bytes(), language)?;
        return Ok(End::Answered);
    }
    files::each_under_its_name(call, |name| one(call, name))
}

/// What is said of a file.
fn one(call: &Call, name: &OsStr) -> Result<Said, Fault> {
    let language = call.language;
    let file = reading::alignment(name, language)?;
    let agreed = agreed(&file, language).map_err(|words| {
        let name = shown(name, language);
        Fault::Failed(language.say(common::DISAGREEMENT, &[&name, &words]))
    })?;
    Ok(match agreed {
        Agreed::Listed(listed) => (text::kept(&listed, language), End::Answered),
        Agreed::Refused(refused) => (text::broken(&refused, language), End::Refused),
    })
}
