//! Cells of a table with commas.

/// A cell in quotes where it has a comma or a quote. Its bytes need not be text.
pub fn cell(bytes: &[u8]) -> Vec<u8> {
    if !bytes.iter().any(|byte| b",\"".contains(byte)) {
        return bytes.to_vec();
    }
    let mut out = vec![b'"'];
    for &byte in bytes {
        if byte == b'"' {
            out.push(byte);
        }
        out.push(byte);
    }
    out.push(b'"');
    out
}

/// The same of text.
pub fn text_cell(text: &str) -> String {
    String::from_utf8(cell(text.as_bytes())).expect("quotes added to text are text")
}

#[cfg(test)]
mod tests {
    use super::*;

    #[test]
    fn commas_and_quotes() {
        assert_eq!(text_cell("a b.alignment"), "a b.alignment");
        assert_eq!(text_cell("a,\"b\""), "\"a,\"\"b\"\"\"");
        assert_eq!(cell(b"\x9A;1"), b"\x9A;1");
    }
}
