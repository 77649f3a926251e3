//! Files inside and outside of each limit; of the limits of a row, at each speed and by each rule book.

use std::fmt;

use crate::generate::edges::{Edge, EDGES};
use reference::file::Contract;
use reference::limits::{rule_book, RuleBook, SPEEDS};

const BOOKS: [(RuleBook, &str); 2] = [
    (RuleBook::Today, "today's book"),
    (RuleBook::OldHandbook, "old handbook"),
];

/// Files inside and outside.
type Sides = [u64; 2];

pub struct LimitsSeen {
    sides: [Sides; EDGES.len()],
    /// By limit, rule book and speed.
    by_row: [[[Sides; SPEEDS.len()]; BOOKS.len()]; EDGES.len()],
}

impl LimitsSeen {
    pub fn new() -> LimitsSeen {
        LimitsSeen {
            sides: [[0; 2]; EDGES.len()],
            by_row: [[[[0; 2]; SPEEDS.len()]; BOOKS.len()]; EDGES.len()],
        }
    }

    pub fn count(&mut self, (edge, outside): (usize, bool)) {
        self.sides[edge][usize::from(outside)] += 1;
    }

    /// Counts a file that can be read and is judged by the row of a speed.
    pub fn count_row(&mut self, (edge, outside): (usize, bool), speed: i128, contract: Contract) {
        let own_book = |(book, _): &(RuleBook, &str)| *book == rule_book(contract);
        let book = BOOKS.iter().position(own_book).expect("a rule book");
        let row = SPEEDS.iter().position(|&of_row| of_row == speed);
        let row = row.expect("one of the speeds");
        self.by_row[edge][book][row][usize::from(outside)] += 1;
    }
}

fn limits_of_rows() -> impl Iterator<Item = (usize, &'static Edge)> {
    EDGES.iter().enumerate().filter(|(_, edge)| edge.of_row)
}

impl fmt::Display for LimitsSeen {
    fn fmt(&self, to: &mut fmt::Formatter<'_>) -> fmt::Result {
        writeln!(to, "limit                       inside   outside")?;
        for (edge, [inside, outside]) in EDGES.iter().zip(self.sides) {
            writeln!(to, "  {:<24} {inside:>7} {outside:>9}", edge.name)?;
        }
        let columns = |texts: [String; SPEEDS.len()]| texts.map(|t| format!("{t:>9}")).concat();
        for (book, (_, name)) in BOOKS.iter().enumerate() {
            let speeds = columns(SPEEDS.map(|speed| speed.to_string()));
            writeln!(to, "{:<26}{speeds}", format!("{name}, inside-outside"))?;
            for (place, edge) in limits_of_rows() {
                let sides = |[inside, outside]: Sides| format!("{inside}-{outside}");
                let counts = columns(self.by_row[place][book].map(sides));
                writeln!(to, "  {:<24}{counts}", edge.name)?;
            }
        }
        Ok(())
    }
}
