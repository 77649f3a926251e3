//! A line of a list as cells. Their bytes need not be text: a name stays as the list's program wrote it.

const QUOTE: u8 = b'"';

/// What may separate cells, the surest first: a comma may begin decimals.
const SEPARATORS: [u8; 3] = [b';', b'\t', b','];

/// What separates the cells of a line; none where it has one cell.
pub fn separator(line: &[u8]) -> Option<u8> {
    let separates = |byte: &u8| pieces(line, Some(*byte)).len() > 1;
    SEPARATORS.into_iter().find(separates)
}

/// Whether a line has nothing in any cell, as an empty row of a spreadsheet.
pub fn is_blank(line: &[u8]) -> bool {
    let is_empty = |byte: &u8| b" \t\";,".contains(byte);
    line.iter().all(is_empty)
}

/// The cells of a line; none where a quote is not closed, or a cell goes on behind its quotes.
pub fn cells(line: &[u8], separator: Option<u8>) -> Option<Vec<Vec<u8>>> {
    let pieces = pieces(line, separator).into_iter();
    pieces.map(|piece| content(piece.trim_ascii())).collect()
}

/// A line cut at its separators; one within quotes cuts nothing.
pub fn pieces(line: &[u8], separator: Option<u8>) -> Vec<&[u8]> {
    let mut is_outside = true;
    let cuts = |byte: &u8| {
        is_outside ^= *byte == QUOTE;
        is_outside && Some(*byte) == separator
    };
    line.split(cuts).collect()
}

/// A cell without its quotes; a quote within them is written twice.
fn content(piece: &[u8]) -> Option<Vec<u8>> {
    let quotes = piece.iter().filter(|byte| **byte == QUOTE).count();
    let Some(begun) = piece.strip_prefix(&[QUOTE]) else {
        return quotes.is_multiple_of(2).then(|| piece.to_vec());
    };
    let mut within = begun.strip_suffix(&[QUOTE])?.iter();
    let mut cell = Vec::new();
    while let Some(&byte) = within.next() {
        if byte == QUOTE && within.next() != Some(&QUOTE) {
            return None;
        }
        cell.push(byte);
    }
    Some(cell)
}

#[cfg(test)]
mod tests {
    use super::*;

    fn split(line: &str) -> Option<Vec<String>> {
        let cells = cells(line.as_bytes(), separator(line.as_bytes()))?;
        let text = |cell: Vec<u8>| String::from_utf8(cell).expect("text");
        Some(cells.into_iter().map(text).collect())
    }

    #[test]
    fn each_separator() {
        for line in ["P1;95850;", "P1,95850,", "P1\t95850\t", " P1 ; 95850 ; "] {
            assert_eq!(split(line).expect("cells"), ["P1", "95850", ""], "{line}");
        }
        let semicolons = split("P1;95,850;a\tb").expect("cells");
        assert_eq!(semicolons, ["P1", "95,850", "a\tb"]);
        assert_eq!(split("95850").expect("cells"), ["95850"]);
        assert_eq!(split("").expect("cells"), [""]);
    }

    #[test]
    fn quotes() {
        let cells = split(r#""P;1", "say ""left""" ,95850"#).expect("cells");
        assert_eq!(cells, ["P;1", "say \"left\"", "95850"]);
        assert_eq!(split(r#""0+095,850""#).expect("cells"), ["0+095,850"]);
        assert_eq!(split("\"\";95850").expect("cells"), ["", "95850"]);
        assert_eq!(split("a \"b\";1").expect("cells"), ["a \"b\"", "1"]);
        for line in [
            "\"P1;95850",
            "\"",
            "\"P1\"x;95850",
            "5\" pipe;95850",
            "\"a\"b\"",
        ] {
            assert_eq!(split(line), None, "{line}");
        }
    }

    #[test]
    fn bytes_that_are_no_text() {
        let found = cells(b"\x8Aabac;1", Some(b';')).expect("cells");
        assert_eq!(found, [&b"\x8Aabac"[..], b"1"]);
    }

    #[test]
    fn empty_rows() {
        assert!([&b""[..], b"  ", b";;;", b",\t", b"\"\";\"\""]
            .into_iter()
            .all(is_blank));
        assert!(!is_blank(b";0;"));
    }
}
