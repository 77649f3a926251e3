//! Files as bytes, no more of them than is asked for.

use std::ffi::OsStr;
use std::fs::File;
use std::io::{self, Read};

use crate::fault::Fault;
use crate::language::Language;
use crate::names::{shown, DASH};
use crate::streams;
use crate::words::common;

/// One byte more than a file may have tells that it is too long.
pub const ALIGNMENT_BYTES: usize = proved::FILE_LENGTH + 1;

/// The first bytes of a file that can be an alignment.
pub fn alignment(name: &OsStr, language: Language) -> Result<Vec<u8>, Fault> {
    first_bytes(name, ALIGNMENT_BYTES, language)
}

/// The first bytes of a file, or of standard input where the name is `-`.
pub fn first_bytes(name: &OsStr, most: usize, language: Language) -> Result<Vec<u8>, Fault> {
    let read = if name == DASH {
        from_standard_input(most, language)
    } else {
        File::open(name)
            .and_then(|file| bytes(file, most))
            .map_err(|fault| fault.to_string())
    };
    read.map_err(|why| Fault::Failed(language.say(common::UNREAD, &[&shown(name, language), &why])))
}

fn from_standard_input(most: usize, language: Language) -> Result<Vec<u8>, String> {
    if streams::is_closed(0) {
        return Err(language.say(common::CLOSED, &[]));
    }
    bytes(io::stdin().lock(), most).map_err(|fault| fault.to_string())
}

fn bytes(source: impl Read, most: usize) -> io::Result<Vec<u8>> {
    let mut bytes = Vec::new();
    source.take(most as u64).read_to_end(&mut bytes)?;
    Ok(bytes)
}
