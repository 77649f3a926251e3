//! List and page of one file.

use std::ffi::{OsStr, OsString};
use std::path::Path;

use reference::file::{read, Contract};

use crate::fault::Fault;
use crate::folder::inputs::target;
use crate::folder::put;
use crate::folder::stamp;
use crate::language::Language;
use crate::list::refusal_line;
use crate::names::plain;
use crate::{reading, report, rows};

/// What became of a file.
pub struct Road {
    pub name: OsString,
    /// None where the file was not read, or could not be.
    pub contract: Option<Contract>,
    pub outcome: Outcome,
    /// List and page stood from an earlier run.
    pub is_unchanged: bool,
}

#[derive(Debug)]
pub enum Outcome {
    Listed {
        length: i128,
        rows: usize,
    },
    Refused(proved::Refusal),
    /// Not read or not written, in words.
    Failed(String),
}

/// What all roads of a run share.
pub struct Run<'r> {
    pub from: &'r Path,
    pub to: &'r Path,
    pub language: Language,
    /// The program's digest.
    pub program: Option<u128>,
}

impl Run<'_> {
    /// Makes list and page of a file where they do not stand already.
    pub fn road(&self, name: &OsStr) -> Road {
        self.made(name).unwrap_or_else(|fault| {
            let (Fault::Use(why) | Fault::Failed(why)) = fault;
            Road {
                name: name.to_os_string(),
                contract: None,
                outcome: Outcome::Failed(why),
                is_unchanged: false,
            }
        })
    }

    /// Whether the list has more bytes; it is not held.
    pub fn is_longer(&self, name: &OsStr, bytes: usize) -> bool {
        self.file(name).is_ok_and(|file| list_length(&file) > bytes)
    }

    fn file(&self, name: &OsStr) -> Result<Vec<u8>, Fault> {
        reading::alignment(self.from.join(name).as_os_str(), self.language)
    }

    fn made(&self, name: &OsStr) -> Result<Road, Fault> {
        let file = self.file(name)?;
        let (list, outcome) = listed(&file);
        let list_path = self.to.join(target(name, "list"));
        let page_path = self.to.join(target(name, "html"));
        let program = self.program.unwrap_or(0);
        let origin = stamp::origin(program, self.language, name, &file);
        let stands = self.program.is_some()
            && stamp::holds(&list_path, &list)
            && stamp::is_page(&page_path, origin);
        if !stands {
            let page = report::page(&plain(name), &file, self.language).map_err(Fault::Failed)?;
            let page = stamp::stamped(page.html, origin);
            put(&list_path, &list, self.language)?;
            put(&page_path, page.as_bytes(), self.language)?;
        }
        Ok(Road {
            name: name.to_os_string(),
            contract: read(&file).ok().map(|alignment| alignment.contract),
            outcome,
            is_unchanged: stands,
        })
    }
}

/// What `list` prints, and what the table says of it.
fn listed(file: &[u8]) -> (Vec<u8>, Outcome) {
    match rows::list(file) {
        Err(refusal) => (refusal_line(refusal, false), Outcome::Refused(refusal)),
        Ok(list) => {
            let rows = list.iter().filter(|byte| **byte == b'\n').count();
            let length = last_station(&list);
            (list, Outcome::Listed { length, rows })
        }
    }
}

/// The road's end, the station of the last row.
fn last_station(list: &[u8]) -> i128 {
    let last = list.trim_ascii_end().rsplit(|byte| *byte == b'\n').next();
    let row = last.map(rows::rows).unwrap_or_default();
    row.first().map_or(0, |row| row.station)
}

/// How many bytes the list has; 0 where there is none.
fn list_length(file: &[u8]) -> usize {
    let mut buffer = vec![0; 1 << 16];
    let mut length = 0;
    let mut station = Some(0);
    while let Some(from) = station {
        let Ok(part) = proved::list(file, from, &mut buffer) else {
            return 0;
        };
        length += part.rows.len();
        station = part.next;
    }
    length
}

#[cfg(test)]
mod tests {
    use super::*;

    const CREST: &[u8] = include_bytes!("../../../examples/crest.alignment");

    #[test]
    fn length_and_rows() {
        let (list, outcome) = listed(CREST);
        assert_eq!(list_length(CREST), list.len());
        let expected = Outcome::Listed {
            length: 200_000,
            rows: 7,
        };
        assert_eq!(format!("{outcome:?}"), format!("{expected:?}"));
    }

    #[test]
    fn a_refusal() {
        let (list, _) = listed(b"");
        assert_eq!((&list[..], list_length(b"")), (&b"R 2 0\n"[..], 0));
    }
}
