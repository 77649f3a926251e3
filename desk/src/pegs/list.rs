//! A list of pegs from its text.

use proved::PEG_COUNT;

use crate::language::Language;
use crate::pegs::cells::is_blank;
use crate::pegs::columns::Columns;
use crate::source;
use crate::words::{common, pegs as words};

/// The longest text that is read, in bytes: 2,000 for each peg.
pub const MOST_TEXT: usize = 4_000_000;

/// Pegs in the order of their lines.
#[derive(Debug, Default)]
pub struct List {
    /// The heads of the columns beside the station's.
    pub heads: Vec<Vec<u8>>,
    /// One more than a list may have tells that it is too long.
    pub pegs: Vec<Peg>,
}

#[derive(Debug, PartialEq, Eq)]
pub struct Peg {
    /// Its line in the text, counted from 1.
    pub line: usize,
    pub station: u64,
    /// What stands beside the station, a cell for each head.
    pub cells: Vec<Vec<u8>>,
}

/// The list that a text is, or what is wrong with the text.
pub fn read(text: &[u8], language: Language) -> Result<List, String> {
    if text.len() > MOST_TEXT {
        let most = language.number(MOST_TEXT as i128);
        return Err(language.say(common::TEXT_TOO_LONG, &[&most]));
    }
    let text = source::without_mark(text, language)?;
    let lines = (1..).zip(source::lines(text));
    let mut lines = lines.filter(|(_, line)| !is_blank(line)).peekable();
    let Some(&(at, first)) = lines.peek() else {
        return Ok(List::default());
    };
    let at_line = |at: usize| move |wrong: String| language.say(common::AT_LINE, &[&at, &wrong]);
    if first.iter().any(is_no_text) {
        return Err(at_line(at)(language.say(words::NO_TEXT, &[])));
    }
    let columns = Columns::of_first(first, language).map_err(at_line(at))?;
    // the first bad peg of a longer list is among these
    let pegs = lines.skip(columns.head_lines()).take(PEG_COUNT + 1);
    let pegs = pegs.map(|(line, bytes)| {
        let (station, cells) = columns.read(bytes, language).map_err(at_line(line))?;
        Ok(Peg {
            line,
            station,
            cells,
        })
    });
    Ok(List {
        heads: columns.heads(),
        pegs: pegs.collect::<Result<_, String>>()?,
    })
}

/// Bytes that stand in an alignment file and in no line of text.
fn is_no_text(byte: &u8) -> bool {
    byte.is_ascii_control() && *byte != b'\t'
}
