//! The files of a folder that are taken for alignments.

use std::collections::HashMap;
use std::ffi::{OsStr, OsString};
use std::fs;
use std::io;
use std::path::Path;

use crate::fault::Fault;
use crate::folder::table;
use crate::language::Language;
use crate::list::target_name;
use crate::names::plain;
use crate::words::{common, folder as words};

/// The names in a folder, ascending; no folder and no name that begins with a dot is among them.
#[derive(Default)]
pub struct Inputs {
    pub names: Vec<OsString>,
    /// Pipes, sockets and devices: to open one may wait for ever.
    pub passed_over: Vec<OsString>,
}

/// The inputs of a folder whose names end so.
pub fn of(folder: &Path, ending: Option<&OsStr>, language: Language) -> Result<Inputs, Fault> {
    let ending = ending.map_or(&[][..], OsStr::as_encoded_bytes);
    found(folder, ending).map_err(|fault| {
        let name = plain(folder.as_os_str());
        Fault::Failed(language.say(common::UNREAD, &[&name, &fault]))
    })
}

fn found(folder: &Path, ending: &[u8]) -> io::Result<Inputs> {
    let mut inputs = Inputs::default();
    for entry in fs::read_dir(folder)? {
        let name = entry?.file_name();
        let bytes = name.as_encoded_bytes();
        if bytes.starts_with(b".") || !bytes.ends_with(ending) {
            continue;
        }
        match fs::metadata(folder.join(&name)) {
            Ok(there) if there.is_dir() => {}
            Ok(there) if !there.is_file() => inputs.passed_over.push(name),
            // a link to nothing is named where it is read
            _ => inputs.names.push(name),
        }
    }
    inputs.names.sort_unstable();
    inputs.passed_over.sort_unstable();
    Ok(inputs)
}

/// What an input becomes: `NAME.list` or `NAME.html` of `NAME.alignment`.
pub fn target(name: &OsStr, ending: &str) -> OsString {
    // as a path, since `-` alone stands for standard input
    let path = Path::new(".").join(name);
    target_name(path.as_os_str(), ending).unwrap_or_default()
}

/// Two files must not become one, nor take the place of the table.
pub fn each_has_its_own_name(names: &[OsString], language: Language) -> Result<(), Fault> {
    let table = OsString::from(language.say(words::TABLE, &[]));
    let mut taken = HashMap::from([(OsString::from(table::HTML_NAME), &table)]);
    for name in names {
        let target = target(name, "html");
        if let Some(other) = taken.insert(target.clone(), name) {
            let values: [&dyn std::fmt::Display; 3] =
                [&plain(other), &plain(name), &plain(&target)];
            return Err(Fault::Use(language.say(common::SAME_NAME, &values)));
        }
    }
    Ok(())
}

#[cfg(test)]
mod tests {
    use super::*;

    fn clash(names: &[&str]) -> bool {
        let names: Vec<OsString> = names.iter().map(OsString::from).collect();
        each_has_its_own_name(&names, Language::English).is_err()
    }

    #[test]
    fn names_of_outputs() {
        assert_eq!(target(OsStr::new("a.alignment"), "list"), "a.list");
        assert_eq!(target(OsStr::new("a.txt"), "list"), "a.txt.list");
        assert_eq!(target(OsStr::new("-"), "html"), "-.html");
    }

    #[test]
    fn no_two_become_one() {
        assert!(!clash(&["a", "b.alignment", "c.html"]));
        assert!(clash(&["a", "a.alignment"]));
        assert!(clash(&["roads.alignment"]));
    }
}
