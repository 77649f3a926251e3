//! A text that people wrote or exported, as lines and words.

use crate::language::Language;
use crate::words::{common, make};

const BYTE_ORDER_MARK: &[u8] = b"\xEF\xBB\xBF";

/// How much of a word an error shows.
const MOST_LETTERS: usize = 40;

/// The text after its byte order mark. Text in UTF-16 has another mark.
pub fn without_mark(text: &[u8], language: Language) -> Result<&[u8], String> {
    if text.starts_with(b"\xFF\xFE") || text.starts_with(b"\xFE\xFF") {
        return Err(language.say(common::UTF_16, &[]));
    }
    Ok(text.strip_prefix(BYTE_ORDER_MARK).unwrap_or(text))
}

/// The lines of a text; LF, CR LF and CR end a line.
pub fn lines(text: &[u8]) -> impl Iterator<Item = &[u8]> {
    let mut rest = Some(text);
    std::iter::from_fn(move || {
        let text = rest?;
        let Some(end) = text.iter().position(|byte| matches!(byte, b'\n' | b'\r')) else {
            rest = None;
            return Some(text);
        };
        let (line, after) = text.split_at(end);
        let ending = if after.starts_with(b"\r\n") { 2 } else { 1 };
        rest = Some(&after[ending..]);
        Some(line)
    })
}

/// What a line says before its comment, in which anything may stand.
pub fn before_comment(line: &[u8], language: Language) -> Result<&str, String> {
    let end = line.iter().position(|&byte| byte == b'#');
    let line = &line[..end.unwrap_or(line.len())];
    std::str::from_utf8(line).map_err(|fault| {
        let place = fault.valid_up_to();
        let byte = format!("{:02x}", line[place]);
        language.say(make::NO_TEXT, &[&(place + 1), &byte])
    })
}

/// A word as an error shows it: letters that are not seen, or are taken for others, by their numbers.
pub fn visible(word: &str) -> String {
    let has_plain = word.bytes().any(|byte| byte.is_ascii_alphanumeric());
    let mut out = String::new();
    for letter in word.chars().take(MOST_LETTERS) {
        let is_unseen = letter.escape_debug().to_string().starts_with("\\u") || letter.is_control();
        if is_unseen || (has_plain && !letter.is_ascii()) {
            out += &format!("<U+{:04X}>", u32::from(letter));
        } else {
            out.push(letter);
        }
    }
    if word.chars().nth(MOST_LETTERS).is_some() {
        out += "..";
    }
    out
}

#[cfg(test)]
mod tests {
    use super::*;

    #[test]
    fn line_ends() {
        let found: Vec<&[u8]> = lines(b"a\nb\r\nc\rd\n\re").collect();
        assert_eq!(found, [&b"a"[..], b"b", b"c", b"d", b"", b"e"]);
        assert_eq!(lines(b"").count(), 1);
    }

    #[test]
    fn letters_that_are_not_seen() {
        assert_eq!(visible("\u{FEFF}class"), "<U+FEFF>class");
        assert_eq!(visible("\u{441}lass"), "<U+0441>lass");
        assert_eq!(visible("\u{200B}"), "<U+200B>");
        assert_eq!(visible("a\u{7}"), "a<U+0007>");
        assert_eq!(visible("врста"), "врста");
        assert_eq!(visible(&"x".repeat(41)), "x".repeat(40) + "..");
    }
}
