//! Files that killed calls left unfinished.

use std::fs;
use std::path::Path;

use crate::writing::process_of_unfinished;

/// Removes the unfinished files of processes that are gone. What cannot be removed does no harm.
pub fn remove(folder: &Path) {
    for entry in fs::read_dir(folder).into_iter().flatten().flatten() {
        if process_of_unfinished(&entry.file_name()).is_some_and(is_gone) {
            let _ = fs::remove_file(entry.path());
        }
    }
}

/// Our own process has begun no file yet: one of its number is an earlier process's.
fn is_gone(process: u32) -> bool {
    let is_there = |name: &str| Path::new("/proc").join(name).exists();
    // without the table of processes nobody can tell
    process == std::process::id() || (is_there("self") && !is_there(&process.to_string()))
}
