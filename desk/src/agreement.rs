//! A file as the library answers it, agreed with the second reading of the paper.

use reference::file::{Alignment, Refusal};
use reference::machine;
use reference::rules::{judge_all, Judgement};

use crate::language::Language;
use crate::reading::ALIGNMENT_BYTES;
use crate::rows::{list, rows, Row};
use crate::words::common;

/// What both say of a file.
pub enum Agreed {
    Listed(Listed),
    Refused(Refused),
}

/// A road that is listed.
pub struct Listed {
    pub alignment: Alignment,
    /// The bytes of the list.
    pub list: Vec<u8>,
    pub rows: Vec<Row>,
}

/// A file that is turned away.
pub struct Refused {
    /// Its bytes, no more than tell that it is too long.
    pub file: Vec<u8>,
    pub refusal: proved::Refusal,
    /// The numbers that were read, and every broken rule: not of a file that could not be read.
    pub read: Option<(Alignment, Judgement)>,
}

/// What both say of a file; words where they differ.
pub fn agreed(file: &[u8], language: Language) -> Result<Agreed, String> {
    match list(file) {
        Err(refusal) => refused(file, refusal, language).map(Agreed::Refused),
        Ok(list) => listed(file, list, language).map(Agreed::Listed),
    }
}

/// The refusal of a file as both have it, without its rows; words where they differ.
pub fn judged(file: &[u8], language: Language) -> Result<Option<proved::Refusal>, String> {
    let first = proved::next_station(file, 0).err();
    let second = machine::accept(file).err();
    let listed = || language.say(common::LISTED, &[]);
    let first_line = first.map_or_else(listed, |refusal| refusal.to_string());
    let second_line = second.map_or_else(listed, line);
    match first_line == second_line {
        true => Ok(first),
        false => Err(language.say(common::DIFFERENT_REFUSALS, &[&first_line, &second_line])),
    }
}

fn refused(file: &[u8], refusal: proved::Refusal, language: Language) -> Result<Refused, String> {
    let second = machine::accept(file).err();
    if second != Some(as_read(refusal)) {
        let second = second.map_or(language.say(common::LISTED, &[]), line);
        return Err(language.say(common::DIFFERENT_REFUSALS, &[&refusal, &second]));
    }
    let read = reference::file::read(file).ok();
    let read = read.map(|alignment| {
        let judgement = judge_all(&alignment);
        (alignment, judgement)
    });
    let file = file[..file.len().min(ALIGNMENT_BYTES)].to_vec();
    Ok(Refused {
        file,
        refusal,
        read,
    })
}

fn listed(file: &[u8], list: Vec<u8>, language: Language) -> Result<Listed, String> {
    let alignment = machine::accept(file).map_err(|second| {
        let first = language.say(common::LISTED, &[]);
        language.say(common::DIFFERENT_REFUSALS, &[&first, &line(second)])
    })?;
    if machine::printed_list(file).as_bytes() != list {
        return Err(language.say(common::DIFFERENT_ROWS, &[]));
    }
    Ok(Listed {
        alignment,
        rows: rows(&list),
        list,
    })
}

/// The library's refusal as the second reading has it.
pub fn as_read(refusal: proved::Refusal) -> Refusal {
    Refusal {
        number: refusal.number().into(),
        place: refusal.place().into(),
    }
}

/// The line that the listing program prints.
pub fn line(refusal: Refusal) -> String {
    format!("R {} {}", refusal.number, refusal.place)
}
