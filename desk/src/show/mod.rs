//! `show`: a file as text, with every number named.

mod head;
mod items;
mod line;
mod mark;
mod rest;
mod stations;

pub use items::name as number_name;

use crate::agreement::judged;
use crate::call::Call;
use crate::commands::Command;
use crate::fault::{End, Fault};
use crate::language::Language;
use crate::names::shown;
use crate::text::file::{numbers, Numbers};
use crate::text::MOST_BYTES;
use crate::words::{common, show as words};
use crate::{reading, writing};

pub const COMMAND: Command = Command {
    name: "show",
    shape: "FILE",
    options: &[],
    least_words: 1,
    most_words: 1,
    summary: words::SUMMARY,
    help: words::HELP,
    run,
};

fn run(call: &Call) -> Result<End, Fault> {
    let language = call.language;
    let name = &call.words[0];
    let file = reading::first_bytes(name, MOST_BYTES + 1, language)?;
    let text = text(&file, language).map_err(|difference| {
        let values: [&dyn std::fmt::Display; 2] = [&shown(name, language), &difference];
        Fault::Failed(language.say(common::DISAGREEMENT, &values))
    })?;
    writing::answer(text.as_bytes(), language)?;
    if file.len() <= MOST_BYTES {
        return Ok(End::Answered);
    }
    let not_whole = language.say(words::LONGER, &[&language.number(MOST_BYTES as i128)]);
    let values: [&dyn std::fmt::Display; 2] = [&shown(name, language), &not_whole];
    writing::say(&language.say(common::ABOUT_FILE, &values), language);
    Ok(End::Refused)
}

/// A file as text, of a longer one the first 65,536 bytes; words where two readings of it differ.
pub fn text(file: &[u8], language: Language) -> Result<String, String> {
    let refusal = judged(file, language)?;
    let is_cut = file.len() > MOST_BYTES;
    let bytes = &file[..file.len().min(MOST_BYTES)];
    let numbers = numbers(bytes);
    hold_against(refusal, &numbers, file.len(), language)?;
    if refusal.is_none() {
        stations::hold_against_list(file, &numbers, language)?;
    }
    let place = refusal.and_then(mark::byte).unwrap_or(bytes.len());
    let road = reference::file::read(file).ok();
    let mut lines = items::lines(&numbers, road.as_ref(), language);
    lines.extend(rest::lines(bytes, &numbers, place, is_cut, language));
    if let Some(refusal) = refusal {
        mark::mark(&mut lines, refusal, language);
    }
    let mut out = head::comments(file.len(), refusal, &numbers, language);
    for line in &lines {
        line.print(&mut out);
    }
    Ok(out)
}

/// Refusals 1 to 4 and 22 by this reading are the library's.
fn hold_against(
    refusal: Option<proved::Refusal>,
    numbers: &Numbers,
    length: usize,
    language: Language,
) -> Result<(), String> {
    let library = refusal
        .filter(|refusal| mark::byte(*refusal).is_some())
        .map(|refusal| (refusal.number(), refusal.place()));
    let own = numbers.refusal(length);
    if library == own {
        return Ok(());
    }
    let line = |refusal: Option<(u32, u64)>| match refusal {
        Some((number, place)) => format!("R {number} {place}"),
        None => language.say(words::READ, &[]),
    };
    Err(language.say(common::DIFFERENT_REFUSALS, &[&line(library), &line(own)]))
}

#[cfg(test)]
mod tests;
