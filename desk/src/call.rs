//! The words of a call: a command's options and what they are about.

use std::ffi::{OsStr, OsString};
use std::path::Path;

use crate::fault::Fault;
use crate::language::Language;
use crate::names::{plain, DASH};
use crate::words::common;

/// An option of a command.
#[derive(Clone, Copy, Debug)]
pub struct Choice {
    pub name: &'static str,
    pub has_value: bool,
}

/// An option that stands alone.
pub const fn flag(name: &'static str) -> Choice {
    Choice {
        name,
        has_value: false,
    }
}

/// An option with a value: `--name VALUE` or `--name=VALUE`.
pub const fn valued(name: &'static str) -> Choice {
    Choice {
        name,
        has_value: true,
    }
}

/// The options that every command takes.
pub const COMMON: [Choice; 3] = [valued("--language"), flag("--help"), flag("-h")];

/// A call of a command.
#[derive(Debug)]
pub struct Call {
    pub language: Language,
    /// The words that are no options, in order.
    pub words: Vec<OsString>,
    options: Vec<(&'static str, OsString)>,
}

impl Call {
    pub fn has(&self, name: &str) -> bool {
        self.value(name).is_some()
    }

    pub fn value(&self, name: &str) -> Option<&OsStr> {
        let found = self.options.iter().find(|(given, _)| *given == name);
        found.map(|(_, value)| value.as_os_str())
    }

    /// The file or folder after `-o`; none where the answer goes to standard output.
    pub fn target(&self) -> Option<&Path> {
        let target = self.value("-o").filter(|target| *target != DASH);
        target.map(Path::new)
    }

    pub fn asks_for_help(&self) -> bool {
        self.has("--help") || self.has("-h")
    }

    /// Takes the words of a call apart; after `--` no word is an option.
    pub fn read(
        command: &str,
        choices: &[Choice],
        words: Vec<OsString>,
        language: Language,
    ) -> Result<Call, Fault> {
        let mut call = Call {
            language,
            words: Vec::new(),
            options: Vec::new(),
        };
        let mut rest = words.into_iter();
        while let Some(word) = rest.next() {
            if word == "--" {
                call.words.extend(rest);
                break;
            }
            if !is_option(&word) {
                call.words.push(word);
                continue;
            }
            call.take_option(command, choices, &word, &mut rest)?;
        }
        Ok(call)
    }

    fn take_option(
        &mut self,
        command: &str,
        choices: &[Choice],
        word: &OsStr,
        rest: &mut impl Iterator<Item = OsString>,
    ) -> Result<(), Fault> {
        let wrong = |phrase, values: &[&dyn std::fmt::Display]| {
            Fault::Use(self.language.say(phrase, values))
        };
        let (name, value) = split(word);
        let known = choices.iter().chain(&COMMON);
        let Some(choice) = known.into_iter().find(|choice| name == choice.name) else {
            return Err(wrong(common::UNKNOWN_OPTION, &[&command, &plain(word)]));
        };
        if self.has(choice.name) {
            return Err(wrong(common::OPTION_TWICE, &[&choice.name]));
        }
        let value = match (choice.has_value, value) {
            // an empty value, as of a variable that is not set, is none
            (true, value) => value
                .or_else(|| rest.next())
                .filter(|value| !value.is_empty())
                .ok_or_else(|| wrong(common::OPTION_WITHOUT_VALUE, &[&choice.name, &command]))?,
            (false, None) => OsString::new(),
            (false, Some(_)) => {
                return Err(wrong(common::OPTION_WITH_VALUE, &[&choice.name, &command]))
            }
        };
        self.options.push((choice.name, value));
        self.take_language()
    }

    fn take_language(&mut self) -> Result<(), Fault> {
        let Some(name) = self.value("--language") else {
            return Ok(());
        };
        let found = name.to_str().and_then(Language::named);
        let unknown = || {
            let words = self.language.say(common::UNKNOWN_LANGUAGE, &[&plain(name)]);
            Fault::Use(words)
        };
        self.language = found.ok_or_else(unknown)?;
        Ok(())
    }
}

/// `-` stands for standard input, and `-5` is a number that a command has to judge.
fn is_option(word: &OsStr) -> bool {
    match word.as_encoded_bytes() {
        [b'-', second, ..] => !second.is_ascii_digit(),
        _ => false,
    }
}

/// `--name=VALUE` in two; a short option has its value as the next word.
fn split(word: &OsStr) -> (OsString, Option<OsString>) {
    match word.to_str().and_then(|text| text.split_once('=')) {
        Some((name, value)) if name.starts_with("--") => (name.into(), Some(value.into())),
        _ => (word.to_os_string(), None),
    }
}
