//! Answers on standard output, and files that are written whole or not at all.

use std::ffi::{OsStr, OsString};
use std::fs::{self, File, OpenOptions};
use std::io::{self, Write};
use std::path::{Path, PathBuf};
use std::sync::atomic::{AtomicU64, Ordering};

use crate::fault::Fault;
use crate::language::Language;
use crate::names::plain;
use crate::streams;
use crate::words::common;

/// How the names of files that are not whole yet end.
pub const UNFINISHED: &str = ".voardusk-unfinished";

/// Writes an answer to standard output.
pub fn answer(bytes: &[u8], language: Language) -> Result<(), Fault> {
    let unwritten = |why: &dyn std::fmt::Display| {
        let output = language.say(common::STANDARD_OUTPUT, &[]);
        Fault::Failed(language.say(common::UNWRITTEN, &[&output, why]))
    };
    if streams::is_closed(1) {
        return Err(unwritten(&language.say(common::CLOSED, &[])));
    }
    let mut out = io::stdout().lock();
    out.write_all(bytes)
        .and_then(|()| out.flush())
        .map_err(|fault| unwritten(&fault))
}

/// Says something on standard error; where that fails there is nobody to tell.
pub fn say(words: &str, language: Language) {
    let line = language.say(common::SAID_BY, &[&words]);
    let _ = writeln!(io::stderr().lock(), "{line}");
}

/// Writes a file whole: under another name in the same folder first, then renamed. A device or a pipe is written to.
pub fn whole_file(path: &Path, bytes: &[u8], language: Language) -> Result<(), Fault> {
    put(path, bytes).map_err(|fault| {
        let name = plain(path.as_os_str());
        let why = match fault.kind() {
            io::ErrorKind::IsADirectory => language.say(common::IS_FOLDER, &[]),
            _ => fault.to_string(),
        };
        Fault::Failed(language.say(common::UNWRITTEN, &[&name, &why]))
    })
}

fn put(path: &Path, bytes: &[u8]) -> io::Result<()> {
    match fs::metadata(path) {
        Ok(there) if there.is_dir() => Err(io::ErrorKind::IsADirectory.into()),
        Ok(there) if !there.is_file() => {
            OpenOptions::new().write(true).open(path)?.write_all(bytes)
        }
        // a link stays a link
        Ok(_) => put_and_rename(&fs::canonicalize(path)?, bytes),
        Err(_) => put_and_rename(path, bytes),
    }
}

fn put_and_rename(path: &Path, bytes: &[u8]) -> io::Result<()> {
    let (mut file, unfinished) = new_unfinished(path)?;
    let written = file
        .write_all(bytes)
        .and_then(|()| fs::rename(&unfinished, path));
    if written.is_err() {
        // the first fault is the one to tell
        let _ = fs::remove_file(&unfinished);
    }
    written
}

/// A new file beside another, under a name that no other call uses: `.PROCESS-COUNT` and what every such name ends with.
fn new_unfinished(path: &Path) -> io::Result<(File, PathBuf)> {
    static COUNT: AtomicU64 = AtomicU64::new(0);
    if path.file_name().is_none() {
        return Err(io::ErrorKind::InvalidInput.into());
    }
    loop {
        let count = COUNT.fetch_add(1, Ordering::Relaxed);
        let name = format!(".{}-{count}{UNFINISHED}", std::process::id());
        let unfinished = path.with_file_name(OsString::from(name));
        match File::create_new(&unfinished) {
            // left by a killed call whose process had the same number
            Err(fault) if fault.kind() == io::ErrorKind::AlreadyExists => continue,
            file => return Ok((file?, unfinished)),
        }
    }
}

/// The number of the process that began a file that is not whole yet, from the file's name.
pub fn process_of_unfinished(name: &OsStr) -> Option<u32> {
    let name = name.to_str()?.strip_suffix(UNFINISHED)?;
    let (process, _) = name.strip_prefix('.')?.split_once('-')?;
    process.parse().ok()
}

#[cfg(test)]
mod tests {
    use super::*;

    #[test]
    fn unfinished_names_tell_their_process() {
        let process = |name: &str| process_of_unfinished(OsStr::new(name));
        assert_eq!(process(".71-0.voardusk-unfinished"), Some(71));
        assert_eq!(process("71-0.voardusk-unfinished"), None);
        assert_eq!(process(".x-0.voardusk-unfinished"), None);
        assert_eq!(process(".71-0.list"), None);
    }
}
