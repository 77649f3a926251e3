//! `make`: an alignment file from text.

mod assembly;
mod item;
mod order;
mod value;

use std::io::{self, IsTerminal};

use crate::call::{valued, Call};
use crate::commands::Command;
use crate::fault::{End, Fault};
use crate::language::Language;
use crate::names::shown;
use crate::words::{common, make as words};
use crate::{reading, source, writing};

pub const COMMAND: Command = Command {
    name: "make",
    shape: "TEXT [-o FILE]",
    options: &[valued("-o")],
    least_words: 1,
    most_words: 1,
    summary: words::SUMMARY,
    help: words::HELP,
    run,
};

/// The longest text that is read, in bytes.
const MOST_TEXT: usize = 16_000_000;

/// How many remarks are said.
const MOST_REMARKS: usize = 20;

/// A file that was made, and what is to be said of it.
#[derive(Debug, Default)]
pub struct Made {
    pub bytes: Vec<u8>,
    /// Values outside their ranges, in words.
    pub remarks: Vec<String>,
}

fn run(call: &Call) -> Result<End, Fault> {
    let language = call.language;
    let target = call.target();
    if target.is_none() && io::stdout().is_terminal() {
        return Err(Fault::Use(language.say(words::TERMINAL, &[])));
    }
    let text = reading::first_bytes(&call.words[0], MOST_TEXT + 1, language)?;
    let made = match file(&text, language) {
        Ok(made) => made,
        Err(wrong) => {
            say(call, &wrong);
            return Ok(End::Refused);
        }
    };
    say_remarks(call, &made.remarks);
    match target {
        Some(path) => writing::whole_file(path, &made.bytes, language)?,
        None => writing::answer(&made.bytes, language)?,
    }
    Ok(End::Answered)
}

fn say_remarks(call: &Call, remarks: &[String]) {
    for remark in remarks.iter().take(MOST_REMARKS) {
        say(call, remark);
    }
    if let Some(more @ 1..) = remarks.len().checked_sub(MOST_REMARKS) {
        say(call, &call.language.say(words::MORE_REMARKS, &[&more]));
    }
}

/// Says something about the text.
fn say(call: &Call, words: &str) {
    let name = shown(&call.words[0], call.language);
    let words = call.language.say(common::ABOUT_FILE, &[&name, &words]);
    writing::say(&words, call.language);
}

/// The file that a text stands for, or what is wrong with the text.
pub fn file(text: &[u8], language: Language) -> Result<Made, String> {
    if text.len() > MOST_TEXT {
        let most = language.number(MOST_TEXT as i128);
        return Err(language.say(common::TEXT_TOO_LONG, &[&most]));
    }
    let text = source::without_mark(text, language)?;
    let mut assembly = assembly::Assembly::new(language);
    for (line, bytes) in (1..).zip(source::lines(text)) {
        let at_line = |wrong: String| language.say(common::AT_LINE, &[&line, &wrong]);
        let said = source::before_comment(bytes, language).map_err(at_line)?;
        let item = item::read(said, language).map_err(at_line)?;
        if let Some(item) = item {
            assembly.add(line, item).map_err(at_line)?;
        }
    }
    assembly.finished()
}

#[cfg(test)]
mod tests;
