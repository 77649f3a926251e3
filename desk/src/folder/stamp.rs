//! What a page was made from, in a comment at its end: a later run makes it anew only where that changed.

use std::ffi::OsStr;
use std::fs::{self, File};
use std::io::{self, Read};
use std::path::Path;

use crate::folder::digest::{of_source, Digest};
use crate::language::Language;

/// All that a page depends on: the program, the language, the file's name and its bytes.
pub fn origin(program: u128, language: Language, name: &OsStr, file: &[u8]) -> u128 {
    Digest::new()
        .with(&program.to_le_bytes())
        .with(language.code().as_bytes())
        .with(&[0])
        .with(name.as_encoded_bytes())
        .with(&[0])
        .with(file)
        .value()
}

/// A page with its stamp: its origin and its own digest.
pub fn stamped(mut page: String, origin: u128) -> String {
    let own = Digest::new().with(page.as_bytes()).value();
    page.push_str(&stamp(origin, own));
    page
}

fn stamp(origin: u128, own: u128) -> String {
    format!("<!-- {origin:032x} {own:032x} -->\n")
}

/// Whether a page of this origin stands in a file, and nobody changed it.
pub fn is_page(path: &Path, origin: u128) -> bool {
    is_stamped(path, origin).unwrap_or(false)
}

fn is_stamped(path: &Path, origin: u128) -> io::Result<bool> {
    let there = fs::metadata(path)?;
    let stamp_length = stamp(0, 0).len() as u64;
    if !there.is_file() || there.len() < stamp_length {
        return Ok(false);
    }
    let mut file = File::open(path)?;
    let own = of_source((&mut file).take(there.len() - stamp_length))?;
    let mut rest = Vec::new();
    file.take(stamp_length + 1).read_to_end(&mut rest)?;
    Ok(rest == stamp(origin, own).as_bytes())
}

/// Whether a file holds these bytes.
pub fn holds(path: &Path, bytes: &[u8]) -> bool {
    let is_as_long = |there: fs::Metadata| there.is_file() && there.len() == bytes.len() as u64;
    fs::metadata(path).is_ok_and(is_as_long) && fs::read(path).is_ok_and(|found| found == bytes)
}

#[cfg(test)]
mod tests {
    use super::*;

    const FILE: &[u8] = b"file";

    fn of_name(name: &str) -> u128 {
        origin(7, Language::English, OsStr::new(name), FILE)
    }

    #[test]
    fn each_part_of_the_origin_counts() {
        let name = OsStr::new("a");
        let others = [
            origin(8, Language::English, name, FILE),
            origin(7, Language::Serbian, name, FILE),
            origin(7, Language::English, OsStr::new("b"), FILE),
            origin(7, Language::English, name, b"fil"),
        ];
        assert!(others.iter().all(|other| *other != of_name("a")));
    }

    #[test]
    fn a_changed_page_is_told() -> io::Result<()> {
        let path = std::env::temp_dir().join(format!("voardusk-stamp-{}", std::process::id()));
        let page = stamped("<p>a page</p>\n".to_string(), of_name("a"));
        fs::write(&path, &page)?;
        assert!(is_page(&path, of_name("a")) && holds(&path, page.as_bytes()));
        assert!(!is_page(&path, of_name("b")));
        for changed in [
            page.replace("page", "PAGE"),
            page.clone() + "\n",
            page[1..].into(),
            "".into(),
        ] {
            fs::write(&path, &changed)?;
            assert!(!is_page(&path, of_name("a")) && !holds(&path, page.as_bytes()));
        }
        fs::remove_file(&path)?;
        assert!(!is_page(&path, of_name("a")));
        Ok(())
    }
}
