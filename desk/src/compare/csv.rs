//! The rows that differ, with commas and a head line.

use crate::compare::changes::{Change, Changes};
use crate::rows::{Row, HEAD};

/// What a row has after its station.
const NUMBERS: usize = 7;

/// Kind, station, the old numbers, the new ones; a side that has no row is empty.
pub fn table(changes: &Changes) -> String {
    let mut out = head();
    for change in &changes.rows {
        let (kind, old, new) = match change {
            Change::Gone(old) => ("gone", Some(old), None),
            Change::New(new) => ("new", None, Some(new)),
            Change::Changed { old, new } => ("changed", Some(old), Some(new)),
        };
        let station = old.or(new).map_or(0, |row| row.station);
        out += &format!("{kind},{station},{},{}\n", side(old), side(new));
    }
    out
}

fn head() -> String {
    let (station, numbers) = HEAD.split_once(',').unwrap_or((HEAD, ""));
    let named = |side: &str| {
        let names: Vec<String> = numbers.split(',').map(|n| format!("{side}_{n}")).collect();
        names.join(",")
    };
    format!("kind,{station},{},{}\n", named("old"), named("new"))
}

fn side(row: Option<&Row>) -> String {
    match row {
        None => ",".repeat(NUMBERS - 1),
        Some(row) => row.numbers()[1..]
            .iter()
            .map(i128::to_string)
            .collect::<Vec<_>>()
            .join(","),
    }
}

#[cfg(test)]
mod tests {
    use super::*;
    use crate::compare::changes::between;
    use crate::rows::rows;

    #[test]
    fn sixteen_fields_a_line() {
        let old = rows(b"0 1 2 3 4 5 6 7\n10 1 2 3 4 5 6 7\n");
        let new = rows(b"0 1 2 3 4 5 6 8\n20 1 2 3 4 5 6 7\n");
        let table = table(&between(&old, &new));
        assert!(table.lines().all(|line| line.split(',').count() == 16));
        let lines: Vec<&str> = table.lines().skip(1).collect();
        let expected = [
            "changed,0,1,2,3,4,5,6,7,1,2,3,4,5,6,8",
            "gone,10,1,2,3,4,5,6,7,,,,,,,",
            "new,20,,,,,,,,1,2,3,4,5,6,7",
        ];
        assert_eq!(lines, expected);
    }
}
