//! The rows of two revisions side by side, by station.

use std::cmp::Ordering;

use crate::rows::Row;

/// What became of a station's row.
#[derive(Clone, Copy, Debug, PartialEq, Eq)]
pub enum Change {
    Gone(Row),
    New(Row),
    Changed { old: Row, new: Row },
}

/// The rows that differ, by ascending station, and how many are the same.
pub struct Changes {
    pub rows: Vec<Change>,
    pub same: usize,
}

/// Walks along both lists; in each the stations ascend.
pub fn between(mut old: &[Row], mut new: &[Row]) -> Changes {
    let mut rows = Vec::new();
    let mut same = 0;
    loop {
        match next_station(old).cmp(&next_station(new)) {
            Ordering::Equal if old.is_empty() => return Changes { rows, same },
            Ordering::Less => {
                rows.push(Change::Gone(old[0]));
                old = &old[1..];
            }
            Ordering::Greater => {
                rows.push(Change::New(new[0]));
                new = &new[1..];
            }
            Ordering::Equal => {
                let (before, after) = (old[0], new[0]);
                match before == after {
                    true => same += 1,
                    false => rows.push(Change::Changed {
                        old: before,
                        new: after,
                    }),
                }
                (old, new) = (&old[1..], &new[1..]);
            }
        }
    }
}

/// Beyond every road where no row is left.
fn next_station(rows: &[Row]) -> i128 {
    rows.first().map_or(i128::MAX, |row| row.station)
}

#[cfg(test)]
mod tests {
    use super::*;

    fn rows(stations_and_heights: &[(i128, i128)]) -> Vec<Row> {
        let lines = stations_and_heights
            .iter()
            .map(|(station, height)| format!("{station} {height} 0 0 0 0 0 0\n"));
        crate::rows::rows(lines.collect::<String>().as_bytes())
    }

    #[test]
    fn each_kind_by_station() {
        let old = rows(&[(0, 5), (10, 5), (20, 5), (30, 5)]);
        let new = rows(&[(0, 5), (15, 5), (20, 6), (30, 5), (40, 5)]);
        let changes = between(&old, &new);
        let expected = [
            Change::Gone(old[1]),
            Change::New(new[1]),
            Change::Changed {
                old: old[2],
                new: new[2],
            },
            Change::New(new[4]),
        ];
        assert_eq!(changes.rows, expected);
        assert_eq!(changes.same, 2);
    }

    #[test]
    fn nothing_on_one_side() {
        let some = rows(&[(0, 1), (7, 1)]);
        assert_eq!(
            between(&some, &[]).rows,
            [Change::Gone(some[0]), Change::Gone(some[1])]
        );
        assert_eq!(
            between(&[], &some).rows,
            [Change::New(some[0]), Change::New(some[1])]
        );
        assert_eq!(between(&some, &some).same, 2);
    }
}
