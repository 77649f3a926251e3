//! `folder`: list and report of every file of a folder, and a table of all roads.

mod digest;
mod html;
mod inputs;
mod leftovers;
mod progress;
mod road;
mod stamp;
mod table;
mod text;
mod work;

use std::ffi::OsString;
use std::fs;
use std::os::unix::fs::MetadataExt;
use std::path::Path;

use crate::call::{valued, Call};
use crate::commands::Command;
use crate::fault::{End, Fault};
use crate::language::Language;
use crate::list::make_folder;
use crate::names::plain;
use crate::words::folder as words;
use crate::writing;

use road::{Outcome, Road};

pub const COMMAND: Command = Command {
    name: "folder",
    shape: "IN OUT [--ending ENDING]",
    options: &[valued("--ending")],
    least_words: 2,
    most_words: 2,
    summary: words::SUMMARY,
    help: words::HELP,
    run,
};

fn run(call: &Call) -> Result<End, Fault> {
    let language = call.language;
    let (from, to) = (Path::new(&call.words[0]), Path::new(&call.words[1]));
    let inputs = inputs::of(from, call.value("--ending"), language)?;
    inputs::each_has_its_own_name(&inputs.names, language)?;
    if is_same_folder(from, to) {
        let folder = plain(from.as_os_str());
        return Err(Fault::Use(language.say(words::SAME_FOLDER, &[&folder])));
    }
    make_folder(to, language)?;
    leftovers::remove(to);
    let roads = work::all_roads(from, to, &inputs.names, language);
    say_what_failed(from, &inputs.passed_over, &roads, language);
    let written = write_tables(from, to, &roads, language);
    writing::say(&table::summary(&roads, language), language);
    written.map(|()| end(&roads))
}

/// Whether the outputs would be taken for inputs by the next run.
fn is_same_folder(from: &Path, to: &Path) -> bool {
    let place = |path: &Path| fs::metadata(path).map(|there| (there.dev(), there.ino()));
    matches!((place(from), place(to)), (Ok(from), Ok(to)) if from == to)
}

fn write_tables(from: &Path, to: &Path, roads: &[Road], language: Language) -> Result<(), Fault> {
    let text = text::page(roads, language);
    put(&to.join(table::TEXT_NAME), text.as_bytes(), language)?;
    let html = html::page(from, roads, language);
    put(&to.join(table::HTML_NAME), html.as_bytes(), language)
}

/// Writes a file whole; to open a pipe that stands there may wait for ever.
fn put(path: &Path, bytes: &[u8], language: Language) -> Result<(), Fault> {
    let is_pipe = |there: fs::Metadata| !there.is_file() && !there.is_dir();
    if fs::metadata(path).is_ok_and(is_pipe) {
        let path = plain(path.as_os_str());
        return Err(Fault::Failed(language.say(words::NO_FILE, &[&path])));
    }
    writing::whole_file(path, bytes, language)
}

fn say_what_failed(from: &Path, passed_over: &[OsString], roads: &[Road], language: Language) {
    for name in passed_over {
        let path = plain(from.join(name).as_os_str());
        writing::say(&language.say(words::NO_FILE, &[&path]), language);
    }
    for road in roads {
        if let Outcome::Failed(why) = &road.outcome {
            writing::say(why, language);
        }
    }
}

/// The gravest of all roads' ends.
fn end(roads: &[Road]) -> End {
    let ends = roads.iter().map(|road| match road.outcome {
        Outcome::Listed { .. } => End::Answered,
        Outcome::Refused(_) => End::Refused,
        Outcome::Failed(_) => End::Failed,
    });
    ends.max().unwrap_or(End::Answered)
}
