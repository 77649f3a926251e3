//! The columns of a list, as its first line has them, and the station's among them.

use std::fmt::Display;

use crate::language::Language;
use crate::pegs::cells::{cells, pieces, separator};
use crate::pegs::station::{self, Unit};
use crate::source::visible;
use crate::words::{pegs as words, Phrase};

#[derive(Debug)]
pub struct Columns {
    /// None where the list has one column.
    separator: Option<u8>,
    count: usize,
    station: usize,
    unit: Unit,
    heads: Option<Vec<Vec<u8>>>,
}

/// A station, and the cells beside it.
pub type Cells = (u64, Vec<Vec<u8>>);

impl Columns {
    /// The columns by the first line: a head line, or a peg.
    pub fn of_first(line: &[u8], language: Language) -> Result<Columns, String> {
        let wrong = |phrase: Phrase, values: &[&dyn Display]| Err(language.say(phrase, values));
        let separator = separator(line).filter(|byte| *byte != b',' || !is_alone(line));
        let Some(cells) = cells(line, separator) else {
            return wrong(words::OPEN_QUOTE, &[]);
        };
        let is_head = !cells.iter().any(|cell| station::may_be_number(cell));
        let has_commas = separator == Some(b',');
        let may_be_station = |cell: &[u8]| {
            station::may_be_number(cell) || has_commas && station::ends_in_number(cell)
        };
        let units = cells.iter().map(|cell| match is_head {
            true => station::unit(cell),
            false => may_be_station(cell).then_some(Unit::Unnamed),
        });
        let found: Vec<(usize, Unit)> = (0..).zip(units).filter_map(named).collect();
        match found[..] {
            [] => wrong(words::NO_COLUMN, &[&seen(line)]),
            [(station, unit)] => Ok(Columns {
                separator,
                count: cells.len(),
                station,
                unit,
                heads: is_head.then_some(cells),
            }),
            [(first, _), (second, _), ..] => {
                let phrases = [words::SEVERAL_NUMBERS, words::SEVERAL_HEADS];
                let phrase = phrases[usize::from(is_head)];
                wrong(phrase, &[&(first + 1), &(second + 1)])
            }
        }
    }

    /// How many lines stand before the first peg.
    pub fn head_lines(&self) -> usize {
        usize::from(self.heads.is_some())
    }

    /// The heads of the columns beside the station's; by their places, from 1, where the list has none.
    pub fn heads(&self) -> Vec<Vec<u8>> {
        let by_place = || (1..=self.count).map(|place| format!("column_{place}").into_bytes());
        let heads = self.heads.clone();
        let mut heads = heads.unwrap_or_else(|| by_place().collect());
        heads.remove(self.station);
        heads
    }

    /// The station of a line, and the cells beside it.
    pub fn read(&self, line: &[u8], language: Language) -> Result<Cells, String> {
        let wrong = |phrase: Phrase, values: &[&dyn Display]| Err(language.say(phrase, values));
        let Some(mut cells) = cells(line, self.separator) else {
            return wrong(words::OPEN_QUOTE, &[]);
        };
        if cells.iter().skip(self.count).any(|cell| !cell.is_empty()) {
            return wrong(words::MORE_COLUMNS, &[&cells.len(), &self.count]);
        }
        if let Some(number) = self.with_decimal_comma(line) {
            return wrong(words::COMMA, &[&visible(&number)]);
        }
        cells.resize(self.count, Vec::new());
        let cell = cells.remove(self.station);
        if cell.is_empty() {
            return wrong(words::EMPTY_STATION, &[&(self.station + 1)]);
        }
        match station::station(&cell, self.unit) {
            Some(station) => Ok((station, cells)),
            None => wrong(station::why_none(&cell, self.unit), &[&seen(&cell)]),
        }
    }

    /// The station and the cell behind it, where a comma between them may begin decimals.
    fn with_decimal_comma(&self, line: &[u8]) -> Option<String> {
        let comma = self.separator.filter(|byte| *byte == b',');
        let pieces = pieces(line, comma);
        let [whole, part] = pieces.get(self.station..)?.first_chunk()?;
        station::with_decimal_comma(whole, part, self.unit)
    }
}

fn named<T>((place, unit): (usize, Option<T>)) -> Option<(usize, T)> {
    unit.map(|unit| (place, unit))
}

/// A station alone, or a head with its unit: `0+095,850`, `Station, m`.
fn is_alone(line: &[u8]) -> bool {
    let unit = station::unit(line).unwrap_or(Unit::Unnamed);
    unit != Unit::Unnamed || station::station(line, unit).is_some()
}

/// A part of a line as an error shows it.
fn seen(bytes: &[u8]) -> String {
    visible(String::from_utf8_lossy(bytes).trim())
}
