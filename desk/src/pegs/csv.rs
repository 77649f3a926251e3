//! The rows of a list with commas, each with what stands beside its peg.

use crate::csv::cell;
use crate::pegs::list::List;
use crate::rows::HEAD;

/// A head line, and a line for each peg: the row's numbers, then the peg's cells.
pub fn table(rows: &[u8], list: &List) -> Vec<u8> {
    let mut out = line(HEAD.as_bytes(), &list.heads);
    let rows = rows.split_inclusive(|&byte| byte == b'\n');
    for (row, peg) in rows.zip(&list.pegs) {
        let numbers: Vec<&[u8]> = row.trim_ascii_end().split(|&byte| byte == b' ').collect();
        out.extend(line(&numbers.join(&b','), &peg.cells));
    }
    out
}

fn line(numbers: &[u8], cells: &[Vec<u8>]) -> Vec<u8> {
    let mut line = numbers.to_vec();
    for beside in cells {
        line.push(b',');
        line.extend(cell(beside));
    }
    line.push(b'\n');
    line
}
