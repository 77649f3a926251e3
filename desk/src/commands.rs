//! The commands, and the call of one of them.

use std::ffi::{OsStr, OsString};

use crate::call::{flag, Call, Choice};
use crate::fault::{status, End, Fault};
use crate::language::Language;
use crate::names::plain;
use crate::words::{common, Phrase};
use crate::{
    compare, folder, help, list, make, manual, marks, next, pegs, report, row, show, why, writing,
};

/// A command: how it is called, what it does, and the function that does it.
pub struct Command {
    pub name: &'static str,
    /// The words and options after the name.
    pub shape: &'static str,
    pub options: &'static [Choice],
    pub least_words: usize,
    pub most_words: usize,
    /// One line.
    pub summary: Phrase,
    /// What `--help` says, with an example.
    pub help: Phrase,
    pub run: fn(&Call) -> Result<End, Fault>,
}

pub const COMMANDS: &[Command] = &[
    list::COMMAND,
    row::COMMAND,
    pegs::COMMAND,
    next::COMMAND,
    show::COMMAND,
    make::COMMAND,
    why::COMMAND,
    marks::COMMAND,
    report::COMMAND,
    compare::COMMAND,
    folder::COMMAND,
];

/// Carries out a call and gives its exit status.
pub fn run(words: Vec<OsString>) -> u8 {
    let language = Language::of_environment();
    let end = carried_out(words, language);
    if let Err(Fault::Use(words) | Fault::Failed(words)) = &end {
        writing::say(words, language);
    }
    status(&end)
}

fn carried_out(mut words: Vec<OsString>, language: Language) -> Result<End, Fault> {
    if words.first().is_none_or(|first| is_option(first)) {
        return without_command(words, language);
    }
    let name = words.remove(0);
    let Some(command) = named(&name) else {
        let words = language.say(common::UNKNOWN_COMMAND, &[&plain(&name)]);
        return Err(Fault::Use(words));
    };
    let called = format!("voardusk {}", command.name);
    let call = Call::read(&called, command.options, words, language)?;
    if call.asks_for_help() {
        writing::answer(help::of(command, call.language).as_bytes(), call.language)?;
        return Ok(End::Answered);
    }
    let count = call.words.len();
    if count < command.least_words || count > command.most_words {
        let right = format!("{called} {}", command.shape);
        let words = call
            .language
            .say(common::WRONG_WORDS, &[&command.name, &right]);
        return Err(Fault::Use(words));
    }
    (command.run)(&call)
}

fn named(name: &OsStr) -> Option<&'static Command> {
    COMMANDS.iter().find(|command| name == command.name)
}

fn is_option(word: &OsStr) -> bool {
    word.as_encoded_bytes().starts_with(b"-")
}

/// `voardusk --help`, `--version` or `--manual`, or nothing at all.
fn without_command(words: Vec<OsString>, language: Language) -> Result<End, Fault> {
    let call = Call::read(
        "voardusk",
        &[flag("--version"), flag("--manual")],
        words,
        language,
    )?;
    let language = call.language;
    if let Some(word) = call.words.first() {
        let wrong = match named(word) {
            Some(_) => common::COMMAND_FIRST,
            None => common::UNKNOWN_COMMAND,
        };
        return Err(Fault::Use(language.say(wrong, &[&plain(word)])));
    }
    if call.has("--version") {
        writing::answer(help::version().as_bytes(), language)?;
    } else if call.has("--manual") {
        writing::answer(manual::page(language).as_bytes(), language)?;
    } else if call.asks_for_help() {
        writing::answer(help::all(language).as_bytes(), language)?;
    } else {
        let help = help::all(language);
        let words = language.say(common::NO_COMMAND, &[&help.trim_end()]);
        return Err(Fault::Use(words));
    }
    Ok(End::Answered)
}
