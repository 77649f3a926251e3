//! What is said of each of several files.

use std::ffi::OsStr;

use crate::call::Call;
use crate::fault::{End, Fault};
use crate::names::{shown, DASH};
use crate::words::common;
use crate::writing;

/// Words about a file, and how the call ends for it.
pub type Said = (String, End);

/// Standard input stands for one file at most.
pub fn read_input_once(call: &Call) -> Result<(), Fault> {
    match call.words.iter().filter(|name| *name == DASH).count() {
        0 | 1 => Ok(()),
        _ => Err(Fault::Use(call.language.say(common::INPUT_TWICE, &[]))),
    }
}

/// Each file in turn; of several, one that cannot be read is named, and the others are done.
pub fn each(call: &Call, mut one: impl FnMut(&OsStr) -> Result<Said, Fault>) -> Result<End, Fault> {
    let mut end = End::Answered;
    for name in &call.words {
        match one(name) {
            Ok((text, ended)) => {
                writing::answer(text.as_bytes(), call.language)?;
                end = end.max(ended);
            }
            Err(Fault::Failed(words)) if call.words.len() > 1 => {
                writing::say(&words, call.language);
                end = End::Failed;
            }
            Err(fault) => return Err(fault),
        }
    }
    Ok(end)
}

/// The same, with each of several files under its name and an empty line between them.
pub fn each_under_its_name(
    call: &Call,
    mut one: impl FnMut(&OsStr) -> Result<Said, Fault>,
) -> Result<End, Fault> {
    if call.words.len() == 1 {
        return each(call, one);
    }
    let mut gap = "";
    each(call, |name| {
        let (text, end) = one(name)?;
        let text = format!("{gap}{}\n{text}", shown(name, call.language));
        gap = "\n";
        Ok((text, end))
    })
}
