//! A line of a text as the bytes of its item.

use crate::language::Language;
use crate::make::value::{self, Words};
use crate::source::visible;
use crate::text::fields::Field;
use crate::text::lines::{all, named, Line, Role};
use crate::text::numbers::{put, written};
use crate::text::MOST_BYTES;
use crate::words::make as words;
use crate::words::text::NAMED;

/// The word before the number of times.
const TIMES: &str = "times";

pub struct Item {
    pub line: &'static Line,
    pub bytes: Vec<u8>,
    /// Whether `curve` and a half length follow.
    pub has_ending: bool,
    /// Values outside their ranges, in words.
    pub remarks: Vec<String>,
}

impl Item {
    fn new(line: &'static Line) -> Item {
        Item {
            line,
            bytes: Vec::new(),
            has_ending: false,
            remarks: Vec::new(),
        }
    }
}

/// The item of a line; none of a line without words.
pub fn read(line: &str, language: Language) -> Result<Option<Item>, String> {
    let mut words = line.split_whitespace().peekable();
    let Some(keyword) = words.next() else {
        return Ok(None);
    };
    let line = named(keyword).ok_or_else(|| {
        let keywords: Vec<&str> = all().map(|line| line.keyword).collect();
        let values: [&dyn std::fmt::Display; 2] = [&visible(keyword), &keywords.join(", ")];
        language.say(words::UNKNOWN_KEYWORD, &values)
    })?;
    if line.role == Role::Bytes {
        return raw(line, &mut words, language).map(Some);
    }
    let reading = Reading {
        item: Item::new(line),
        words,
        language,
    };
    reading.item().map(Some)
}

struct Reading<'t> {
    item: Item,
    words: Words<'t>,
    language: Language,
}

impl Reading<'_> {
    fn item(mut self) -> Result<Item, String> {
        if let Some(kind) = self.item.line.kind {
            put(kind, &mut self.item.bytes);
        }
        for field in self.item.line.fields {
            self.field(field)?;
        }
        if let Some((word, field)) = &self.item.line.ending {
            self.item.has_ending = self.words.next_if_eq(word).is_some();
            if self.item.has_ending {
                self.field(field)?;
            }
        }
        match self.words.next() {
            None => Ok(self.item),
            Some(word) => {
                let values: [&dyn std::fmt::Display; 2] = [&visible(word), &self.asked()];
                Err(self.language.say(words::TOO_MUCH, &values))
            }
        }
    }

    fn field(&mut self, field: &Field) -> Result<(), String> {
        let language = self.language;
        let of_field = |words: String| {
            let name = language.say(field.name, &[]);
            language.say(NAMED, &[&name, &words])
        };
        let value = value::next(&mut self.words, field, language).map_err(of_field)?;
        let value = value.ok_or_else(|| self.asked())?;
        if !field.is_within(value) {
            let outside = of_field(field.outside(value, language));
            self.item.remarks.push(outside);
        }
        let number = match field.is_signed {
            true => written(value),
            false => value,
        };
        put(number, &mut self.item.bytes);
        Ok(())
    }

    /// What is asked after the line's first word.
    fn asked(&self) -> String {
        let line = self.item.line;
        let name = |field: &Field| self.language.say(field.name, &[]);
        let mut asked: Vec<String> = line.fields.iter().map(name).collect();
        if let Some((word, field)) = &line.ending {
            asked.push(format!("[`{word}` {}]", name(field)));
        }
        let values: [&dyn std::fmt::Display; 3] = [&line.keyword, &asked.join(", "), &line.example];
        self.language.say(words::AFTER_KEYWORD, &values)
    }
}

/// Bytes as they are, so many times.
fn raw(line: &'static Line, words: &mut Words, language: Language) -> Result<Item, String> {
    let mut bytes = Vec::new();
    while let Some(word) = words.next_if(|word| *word != TIMES) {
        let pairs = pairs(word).ok_or_else(|| language.say(words::NO_PAIRS, &[&visible(word)]))?;
        bytes.extend(pairs);
    }
    let times = times(words, language)?;
    if bytes.len().saturating_mul(times) > MOST_BYTES {
        return Err(too_long(language));
    }
    Ok(Item {
        bytes: bytes.repeat(times),
        ..Item::new(line)
    })
}

/// `times` and a number, or nothing.
fn times(words: &mut Words, language: Language) -> Result<usize, String> {
    if words.next().is_none() {
        return Ok(1);
    }
    let number = words.next().and_then(|word| word.parse().ok());
    let alone = number.filter(|_| words.peek().is_none());
    alone.ok_or_else(|| language.say(words::NO_TIMES, &[]))
}

/// The bytes of pairs of hexadecimal digits.
fn pairs(word: &str) -> Option<Vec<u8>> {
    let digit = |byte: &u8| char::from(*byte).to_digit(16).map(|digit| digit as u8);
    let digits: Option<Vec<u8>> = word.as_bytes().iter().map(digit).collect();
    let digits = digits.filter(|digits| digits.len().is_multiple_of(2))?;
    let pairs = digits.chunks_exact(2);
    Some(pairs.map(|pair| 16 * pair[0] + pair[1]).collect())
}

/// The file would be longer than one that has a text.
pub fn too_long(language: Language) -> String {
    let most = language.number(MOST_BYTES as i128);
    language.say(words::FILE_TOO_LONG, &[&most])
}
