//! `list`: the list of each road, or its refusal.

use std::collections::HashMap;
use std::ffi::{OsStr, OsString};
use std::fs;
use std::path::{Path, PathBuf};

use crate::call::{flag, valued, Call};
use crate::commands::Command;
use crate::fault::{End, Fault};
use crate::language::Language;
use crate::names::{plain, shown, DASH};
use crate::words::{common, help};
use crate::{files, reading, refusals, rows, writing};

pub const COMMAND: Command = Command {
    name: "list",
    shape: "FILE.. [-o FOLDER] [--csv]",
    options: &[valued("-o"), flag("--csv")],
    least_words: 1,
    most_words: usize::MAX,
    summary: help::LIST,
    help: help::LIST_HELP,
    run,
};

fn run(call: &Call) -> Result<End, Fault> {
    let language = call.language;
    files::read_input_once(call)?;
    let Some(folder) = call.target() else {
        return each(call, |_, bytes| writing::answer(bytes, language));
    };
    let ending = if call.has("--csv") { "csv" } else { "list" };
    let paths = target_paths(&call.words, folder, ending, language)?;
    make_folder(folder, language)?;
    each(call, |name, bytes| {
        writing::whole_file(&paths[name], bytes, language)
    })
}

/// Lists each file in turn; one that cannot be read or written is named, and the others are done.
fn each(call: &Call, put: impl Fn(&OsString, &[u8]) -> Result<(), Fault>) -> Result<End, Fault> {
    let mut end = End::Answered;
    for name in &call.words {
        match one(call, name, &put) {
            Ok(ended) => end = end.max(ended),
            Err(Fault::Failed(words)) if call.words.len() > 1 => {
                writing::say(&words, call.language);
                end = End::Failed;
            }
            Err(fault) => return Err(fault),
        }
    }
    Ok(end)
}

fn one(
    call: &Call,
    name: &OsString,
    put: impl Fn(&OsString, &[u8]) -> Result<(), Fault>,
) -> Result<End, Fault> {
    let file = reading::alignment(name, call.language)?;
    match rows::list(&file) {
        Ok(list) if call.has("--csv") => put(name, &rows::with_commas(&list))?,
        Ok(list) => put(name, &list)?,
        Err(refusal) => {
            put(name, &refusal_line(refusal, call.has("--csv")))?;
            writing::say(
                &refusals::words(name, refusal, call.language),
                call.language,
            );
            return Ok(End::Refused);
        }
    }
    Ok(End::Answered)
}

/// The line that the listing program prints, or the same two numbers with a head line.
pub fn refusal_line(refusal: proved::Refusal, with_commas: bool) -> Vec<u8> {
    let line = match with_commas {
        false => format!("{refusal}\n"),
        true => format!("refusal,place\n{},{}\n", refusal.number(), refusal.place()),
    };
    line.into_bytes()
}

/// Where each list goes; two files must not become one.
fn target_paths(
    names: &[OsString],
    folder: &Path,
    ending: &str,
    language: Language,
) -> Result<HashMap<OsString, PathBuf>, Fault> {
    let mut taken: HashMap<PathBuf, &OsString> = HashMap::new();
    let mut paths = HashMap::new();
    for name in names {
        let Some(target) = target_name(name, ending) else {
            let words = language.say(common::NO_NAME, &[&shown(name, language)]);
            return Err(Fault::Use(words));
        };
        let path = folder.join(&target);
        if let Some(other) = taken.insert(path.clone(), name) {
            let values: [&dyn std::fmt::Display; 3] =
                [&plain(other), &plain(name), &plain(&target)];
            return Err(Fault::Use(language.say(common::SAME_NAME, &values)));
        }
        paths.insert(name.clone(), path);
    }
    Ok(paths)
}

/// `NAME.list` of `NAME.alignment`; another ending stays.
pub fn target_name(name: &OsStr, ending: &str) -> Option<OsString> {
    let path = Path::new(name);
    if name == DASH {
        return None;
    }
    let is_alignment = path.extension().is_some_and(|found| found == "alignment");
    let stem = if is_alignment {
        path.file_stem()
    } else {
        path.file_name()
    };
    let mut target = stem?.to_os_string();
    target.push(".");
    target.push(ending);
    Some(target)
}

/// The folder that files are written into, made where there is none.
pub fn make_folder(folder: &Path, language: Language) -> Result<(), Fault> {
    let made = fs::create_dir_all(folder);
    if folder.is_dir() {
        return Ok(());
    }
    let why = match made {
        Err(fault) if !folder.exists() => fault.to_string(),
        _ => language.say(common::NO_FOLDER, &[]),
    };
    let name = plain(folder.as_os_str());
    Err(Fault::Failed(
        language.say(common::UNWRITTEN, &[&name, &why]),
    ))
}
