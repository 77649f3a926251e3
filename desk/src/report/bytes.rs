//! The bytes of a file around a place.

use crate::language::Language;
use crate::reading::ALIGNMENT_BYTES;
use crate::words::report as words;

const PER_LINE: usize = 16;
/// Lines before and after that of the place.
const BESIDE: usize = 2;

/// Lines of bytes in hexadecimal, each after the place of its first, the byte at the place marked.
pub fn around(file: &[u8], place: usize, language: Language) -> String {
    let line = place / PER_LINE;
    let mut out = String::from("<pre class=\"bytes\">");
    for line in line.saturating_sub(BESIDE)..=line + BESIDE {
        let first = line * PER_LINE;
        if first > file.len() {
            break;
        }
        out += &format!("{first:>5} ");
        for at in first..first + PER_LINE {
            out += &shown(file, at, place, language);
        }
        out.push('\n');
    }
    out + "</pre>\n"
}

fn shown(file: &[u8], at: usize, place: usize, language: Language) -> String {
    let byte = match file.get(at) {
        Some(byte) => format!("{byte:02X}"),
        // no more of a file is read than tells that it is too long
        None if at == file.len() && at < ALIGNMENT_BYTES => language.say(words::FILE_END, &[]),
        None => return String::new(),
    };
    match at == place {
        true => format!(" <b class=\"bad\">{byte}</b>"),
        false => format!(" {byte}"),
    }
}

#[cfg(test)]
mod tests {
    use super::*;

    #[test]
    fn the_byte_is_marked() {
        let text = around(&[0, 171, 2], 1, Language::English);
        assert!(text.contains(" 00 <b class=\"bad\">AB</b> 02 "), "{text}");
    }

    #[test]
    fn a_file_that_is_too_long_has_no_end() {
        let text = around(&[0; ALIGNMENT_BYTES], 8_192, Language::English);
        assert!(
            text.ends_with(" <b class=\"bad\">00</b>\n</pre>\n"),
            "{text}"
        );
    }

    #[test]
    fn a_place_at_the_end_is_marked() {
        let text = around(&[], 0, Language::English);
        assert!(text.contains("<b class=\"bad\">"), "{text}");
    }
}
