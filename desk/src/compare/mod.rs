//! `compare`: rows gone, new and changed between two revisions.

mod changes;
mod csv;
mod heads;
mod text;

use std::ffi::OsStr;

use crate::agreement::{agreed, Agreed, Listed};
use crate::call::{flag, Call};
use crate::commands::Command;
use crate::fault::{End, Fault};
use crate::language::Language;
use crate::names::{shown, DASH};
use crate::words::{common, compare as words};
use crate::{list, reading, refusals, writing};

pub const COMMAND: Command = Command {
    name: "compare",
    shape: "OLD NEW [--csv]",
    options: &[flag("--csv")],
    least_words: 2,
    most_words: 2,
    summary: words::SUMMARY,
    help: words::HELP,
    run,
};

fn run(call: &Call) -> Result<End, Fault> {
    let language = call.language;
    if call.words.iter().all(|name| name == DASH) {
        return Err(Fault::Use(language.say(common::INPUT_TWICE, &[])));
    }
    let files = [
        reading::alignment(&call.words[0], language)?,
        reading::alignment(&call.words[1], language)?,
    ];
    let old = judged(&call.words[0], &files[0], language)?;
    let new = judged(&call.words[1], &files[1], language)?;
    match (old, new) {
        (Agreed::Listed(old), Agreed::Listed(new)) => {
            compared(call, &old, &new, files[0] == files[1])
        }
        (old, new) => {
            refused(call, &call.words[0], &old)?;
            refused(call, &call.words[1], &new)?;
            Ok(End::Refused)
        }
    }
}

fn judged(name: &OsStr, file: &[u8], language: Language) -> Result<Agreed, Fault> {
    agreed(file, language).map_err(|why| {
        let name = shown(name, language);
        Fault::Failed(language.say(common::DISAGREEMENT, &[&name, &why]))
    })
}

/// What `list` says of a refused file; nothing of one that is listed.
fn refused(call: &Call, name: &OsStr, file: &Agreed) -> Result<(), Fault> {
    let Agreed::Refused(file) = file else {
        return Ok(());
    };
    let line = list::refusal_line(file.refusal, call.has("--csv"));
    writing::answer(&line, call.language)?;
    let words = refusals::words(name, file.refusal, call.language);
    writing::say(&words, call.language);
    Ok(())
}

fn compared(call: &Call, old: &Listed, new: &Listed, is_same: bool) -> Result<End, Fault> {
    let language = call.language;
    let changes = changes::between(&old.rows, &new.rows);
    let heads = heads::words(old, new, language);
    let counts = text::counts(&changes, heads.is_empty(), is_same, language);
    if call.has("--csv") {
        writing::answer(csv::table(&changes).as_bytes(), language)?;
        for line in heads.iter().chain([&counts]) {
            writing::say(line, language);
        }
    } else {
        let answer = text::answer(&heads, &changes, &counts, language);
        writing::answer(answer.as_bytes(), language)?;
    }
    Ok(End::Answered)
}
