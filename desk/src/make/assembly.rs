//! The bytes of the items put together, with the counts of the lists.

use crate::language::Language;
use crate::make::item::{too_long, Item};
use crate::make::order::Order;
use crate::make::Made;
use crate::text::lines::{Part, Role, DATED};
use crate::text::numbers::{number_at, put};
use crate::text::MOST_BYTES;
use crate::words::text::NAMED;
use crate::words::{common, make as words};

/// A list of items: where its first one begins, and how many there are.
#[derive(Clone, Copy)]
struct List {
    part: Part,
    begin: usize,
    count: i64,
}

pub struct Assembly {
    language: Language,
    bytes: Vec<u8>,
    remarks: Vec<String>,
    /// In the order of their first items.
    lists: Vec<List>,
    /// The lists whose count is a line of its own.
    counted: Vec<Part>,
    has_escapes: bool,
    order: Order,
}

impl Assembly {
    pub fn new(language: Language) -> Assembly {
        Assembly {
            language,
            bytes: Vec::new(),
            remarks: Vec::new(),
            lists: Vec::new(),
            counted: Vec::new(),
            has_escapes: false,
            order: Order::new(language),
        }
    }

    pub fn add(&mut self, at: usize, mut item: Item) -> Result<(), String> {
        if self.is_read_as_dated(&item) {
            let words = self.language.say(words::READ_AS_DATED, &[&DATED]);
            item.remarks.push(words);
        }
        match item.line.role {
            Role::Of(part) => {
                self.order.add(at, item.line, part, item.has_ending);
                self.count(part);
            }
            Role::Count(part) => {
                self.counted.push(part);
                self.has_escapes = true;
            }
            Role::Number | Role::Bytes => self.has_escapes = true,
        }
        let language = self.language;
        let remarks = item.remarks.iter();
        let at_line = remarks.map(|remark| language.say(common::AT_LINE, &[&at, remark]));
        self.remarks.extend(at_line);
        self.bytes.extend(item.bytes);
        match self.bytes.len() > MOST_BYTES {
            true => Err(too_long(language)),
            false => Ok(()),
        }
    }

    /// Whether the class at the beginning of the file is the number that a contract date follows.
    fn is_read_as_dated(&self, item: &Item) -> bool {
        let is_first_class = item.line.role == Role::Of(Part::Class) && self.bytes.is_empty();
        is_first_class && matches!(number_at(&item.bytes, 0), Ok((DATED, _)))
    }

    fn count(&mut self, part: Part) {
        if part.count().is_none() {
            return;
        }
        match self.lists.iter_mut().find(|list| list.part == part) {
            Some(list) => list.count += 1,
            None => self.lists.push(List {
                part,
                begin: self.bytes.len(),
                count: 1,
            }),
        }
    }

    /// The file, once all lines are there.
    pub fn finished(mut self) -> Result<Made, String> {
        let mut bytes = Vec::new();
        let mut begin = 0;
        for list in std::mem::take(&mut self.lists) {
            if self.counted.contains(&list.part) {
                continue;
            }
            bytes.extend_from_slice(&self.bytes[begin..list.begin]);
            put(list.count, &mut bytes);
            begin = list.begin;
            self.remark(list);
        }
        bytes.extend_from_slice(&self.bytes[begin..]);
        if !self.has_escapes {
            self.order.fault()?;
        }
        if bytes.len() > MOST_BYTES {
            return Err(too_long(self.language));
        }
        Ok(Made {
            bytes,
            remarks: self.remarks,
        })
    }

    /// A list of more or fewer items than a file may have.
    fn remark(&mut self, list: List) {
        let count = list
            .part
            .count()
            .filter(|field| !field.is_within(list.count));
        if let Some(field) = count {
            let name = self.language.say(field.name, &[]);
            let outside = field.outside(list.count, self.language);
            self.remarks
                .push(self.language.say(NAMED, &[&name, &outside]));
        }
    }
}
