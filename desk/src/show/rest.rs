//! The bytes after the last number that could be read, as they are.

use crate::language::Language;
use crate::show::items::name;
use crate::show::line::Line;
use crate::text::file::{Numbers, Stop};
use crate::text::numbers::Faulty;
use crate::words::{show as words, Phrase};

/// How many bytes a line has; a longer run of one byte is counted.
const BYTES: usize = 32;

/// The rest of a file; a line begins at this place, where it is a place of the rest.
pub fn lines(
    bytes: &[u8],
    numbers: &Numbers,
    place: usize,
    is_cut: bool,
    language: Language,
) -> Vec<Line> {
    let place = place.clamp(numbers.end, bytes.len());
    let mut lines = as_they_are(&bytes[..place], numbers.end);
    lines.extend(as_they_are(bytes, place));
    if lines.is_empty() && numbers.stop.is_some() {
        // a line that makes no byte tells that the text need not be whole
        let nothing = "bytes".to_string();
        lines.push(Line::new(bytes.len(), None, nothing, String::new()));
    }
    if let Some(first) = lines.first_mut() {
        first.begins_part = true;
        first.above.extend(reason(bytes, numbers, is_cut, language));
    }
    if let (Some(last), true) = (lines.last_mut(), is_cut) {
        last.below.push(language.say(words::GOES_ON, &[]));
    }
    lines
}

fn as_they_are(bytes: &[u8], from: usize) -> Vec<Line> {
    let mut lines = Vec::new();
    let mut at = from;
    while at < bytes.len() {
        let rest = &bytes[at..];
        let same = rest.iter().take_while(|&&byte| byte == rest[0]).count();
        let (count, written) = match same > BYTES {
            true => (same, format!("bytes {:02x} times {same}", rest[0])),
            false => {
                let some = &rest[..rest.len().min(BYTES)];
                (some.len(), format!("bytes{}", hexadecimal(some)))
            }
        };
        lines.push(Line::new(at, None, written, String::new()));
        at += count;
    }
    lines
}

fn hexadecimal(bytes: &[u8]) -> String {
    bytes.iter().map(|byte| format!(" {byte:02x}")).collect()
}

/// Why these bytes are no numbers of the alignment.
fn reason(bytes: &[u8], numbers: &Numbers, is_cut: bool, language: Language) -> Option<String> {
    match numbers.stop {
        None => {
            let follows = numbers.end < bytes.len();
            follows.then(|| language.say(words::FOLLOWING, &[&numbers.end]))
        }
        Some(Stop::UnknownKind(kind)) => Some(language.say(words::UNKNOWN_KIND, &[&kind])),
        // the text ends there, not the file
        Some(Stop::Faulty(Faulty::Missing | Faulty::BreaksOff, _)) if is_cut => None,
        Some(Stop::Faulty(faulty, field)) => {
            let name = name(numbers.entries.last()?.item, field.name, language);
            let why = language.say(fault(faulty), &[]);
            Some(language.say(words::AT_BYTE, &[&numbers.end, &name, &why]))
        }
    }
}

fn fault(faulty: Faulty) -> Phrase {
    match faulty {
        Faulty::Missing => words::MISSING,
        Faulty::BreaksOff => words::BREAKS_OFF,
        Faulty::NotShortest => words::NOT_SHORTEST,
        Faulty::TooGreat => words::TOO_GREAT,
    }
}
