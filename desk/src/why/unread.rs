//! A file that cannot be read, told: refusals 1 to 4 and 22.

use super::date;
use crate::agreement::Refused;
use crate::language::Language;
use crate::show::number_name;
use crate::text::date::with_dashes;
use crate::text::file::{numbers, Entry, Number, Numbers, Stop};
use crate::text::numbers::Faulty;
use crate::words::{show, why as words};

/// What is wrong, at which number of the file, and what to look at.
pub fn told(refused: &Refused, language: Language) -> Vec<String> {
    let numbers = numbers(&refused.file);
    let (facts, look) = match refused.refusal.number() {
        1 => (too_long(refused, language), words::LOOK_1),
        2 => (faulty(&numbers, language), words::LOOK_2),
        3 => (outside(&numbers, refused, language), words::LOOK_3),
        4 => (more_bytes(&numbers, refused, language), words::LOOK_4),
        _ => (no_day(&numbers, refused, language), words::LOOK_22),
    };
    let look = match is_text(&refused.file) {
        true => words::LOOK_TEXT,
        false => look,
    };
    let look = language.say(look, &[]);
    facts.into_iter().chain([look]).collect()
}

/// The line of the text that mends a contract date; no other fault of reading is mended by a line.
pub fn changes(refused: &Refused) -> Vec<(String, String)> {
    if refused.refusal.number() != 22 {
        return Vec::new();
    }
    let numbers = numbers(&refused.file);
    let number = number_at(&numbers, refused.refusal.place());
    let mended = number.and_then(|(_, number)| date::mended(number.value.into()));
    let change = mended.map(|day| ("date".to_string(), format!("date {}", date::shown(day))));
    change.into_iter().collect()
}

/// Whether a file is a text, taken for the file that is made of it: an alignment has a control character, its class, at
/// its beginning or after the contract date.
fn is_text(file: &[u8]) -> bool {
    let is_written = |byte: &u8| *byte >= b' ' || byte.is_ascii_whitespace();
    let has_words = file.iter().any(u8::is_ascii_graphic);
    has_words && file.iter().all(is_written)
}

/// No more bytes are read than tell that the file is too long.
fn too_long(refused: &Refused, language: Language) -> Vec<String> {
    let sizes = [refused.file.len(), proved::FILE_LENGTH];
    let [there, most] = sizes.map(|size| language.number(size as i128));
    vec![language.say(words::BYTES_THERE, &[&there, &most])]
}

fn faulty(numbers: &Numbers, language: Language) -> Vec<String> {
    let (Some(entry), Some(Stop::Faulty(faulty, field))) = (numbers.entries.last(), numbers.stop)
    else {
        return Vec::new();
    };
    let fault = match faulty {
        Faulty::Missing => show::MISSING,
        Faulty::BreaksOff => show::BREAKS_OFF,
        Faulty::NotShortest => show::NOT_SHORTEST,
        Faulty::TooGreat => show::TOO_GREAT,
    };
    let name = number_name(entry.item, field.name, language);
    let fault = language.say(fault, &[]);
    vec![language.say(show::AT_BYTE, &[&numbers.end, &name, &fault])]
}

fn outside(numbers: &Numbers, refused: &Refused, language: Language) -> Vec<String> {
    let Some((entry, number)) = number_at(numbers, refused.refusal.place()) else {
        return Vec::new();
    };
    let name = number_name(entry.item, number.field.name, language);
    let value = language.number(number.value.into());
    let nearest = language.number(number.field.nearest(number.value).into());
    vec![
        language.say(show::AT_BYTE, &[&number.at, &name, &value]),
        language.say(words::RANGE, &[&number.field.range(language)]),
        language.say(words::PASSES, &[&nearest]),
    ]
}

fn no_day(numbers: &Numbers, refused: &Refused, language: Language) -> Vec<String> {
    let Some((entry, number)) = number_at(numbers, refused.refusal.place()) else {
        return Vec::new();
    };
    let name = number_name(entry.item, number.field.name, language);
    let written = with_dashes(number.value);
    let mut facts = vec![language.say(show::AT_BYTE, &[&number.at, &name, &written])];
    let number_read = number.value.into();
    facts.push(date::reason(number_read, language));
    facts.extend(date::in_other_orders(number_read, language));
    let source = language.say(words::SOURCE_22, &[]);
    facts.push(language.say(words::RANGE, &[&number.field.range(language)]));
    facts.push(language.say(words::RULE_BOOK, &[&source]));
    let passes = date::passes(number_read, language);
    facts.extend(passes.map(|days| language.say(words::PASSES, &[&days])));
    facts.extend(date::asked(number_read).map(|asked| language.say(asked, &[])));
    facts.push(language.say(words::NOT_READ, &[]));
    facts
}

/// The number that begins at a byte, with its item.
fn number_at(numbers: &Numbers, byte: u64) -> Option<(&Entry, &Number)> {
    numbers.entries.iter().find_map(|entry| {
        let number = entry.numbers.iter().find(|number| number.at as u64 == byte);
        number.map(|number| (entry, number))
    })
}

fn more_bytes(numbers: &Numbers, refused: &Refused, language: Language) -> Vec<String> {
    let count = refused.file.len() - numbers.end;
    let count = language.number(count as i128);
    vec![language.say(words::BYTES_FOLLOW, &[&numbers.end, &count])]
}

#[cfg(test)]
mod tests {
    use super::*;

    #[test]
    fn texts() {
        assert!(is_text(b"# a road\r\nclass\t4\n"));
        assert!(is_text("\u{feff}class 4 # пут".as_bytes()));
        assert!(!is_text(b""));
        assert!(!is_text(b"\x04\x03class"));
        assert!(is_text(b"\tclass 4"));
    }
}
