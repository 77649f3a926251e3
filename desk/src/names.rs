//! Names of files as they are shown.

use std::ffi::OsStr;

use crate::language::Language;
use crate::words::common;

/// The word that stands for standard input.
pub const DASH: &str = "-";

/// A file's name on one line: control characters and what is no text are shown as escapes.
pub fn shown(name: &OsStr, language: Language) -> String {
    if name == DASH {
        return language.say(common::STANDARD_INPUT, &[]);
    }
    plain(name)
}

/// The same where the name stands for itself; an empty one is shown too.
pub fn plain(name: &OsStr) -> String {
    if name.is_empty() {
        return "''".to_string();
    }
    let text = name.to_string_lossy();
    text.chars()
        .flat_map(|letter| match letter.is_control() {
            true => letter.escape_default().collect::<Vec<_>>(),
            false => vec![letter],
        })
        .collect()
}
