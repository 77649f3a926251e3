//! A file as its numbers, as far as they can be told, however damaged it is.

use crate::text::fields::{self, Field};
use crate::text::lines::{Part, DATED};
use crate::text::numbers::{number_at, signed_value, Faulty};

/// What a number belongs to; items of a list are counted from 0.
#[derive(Clone, Copy, Debug, PartialEq, Eq)]
pub enum Item {
    Single(Part),
    Count(Part),
    Listed(Part, usize),
}

#[derive(Clone, Copy, Debug)]
pub struct Number {
    /// Its first byte.
    pub at: usize,
    pub field: &'static Field,
    pub value: i64,
}

/// An item and its numbers; of one that is not whole those before the fault.
#[derive(Clone, Debug)]
pub struct Entry {
    pub item: Item,
    pub from: usize,
    pub numbers: Vec<Number>,
    pub is_whole: bool,
}

/// Why no more numbers could be told.
#[derive(Clone, Copy, Debug)]
pub enum Stop {
    Faulty(Faulty, &'static Field),
    /// What follows a kind that no element has is not known.
    UnknownKind(i64),
}

pub struct Numbers {
    pub entries: Vec<Entry>,
    pub stop: Option<Stop>,
    /// The first byte that belongs to no number.
    pub end: usize,
}

/// The numbers of a file; one outside its range is a number too.
pub fn numbers(bytes: &[u8]) -> Numbers {
    let mut walk = Walk {
        bytes,
        place: 0,
        entries: Vec::new(),
    };
    let stop = walk.file().err();
    Numbers {
        entries: walk.entries,
        stop,
        end: walk.place,
    }
}

impl Numbers {
    /// Refusal 1 to 4 or 22 with its place, as this reading has it.
    pub fn refusal(&self, length: usize) -> Option<(u32, u64)> {
        let all = self.entries.iter().flat_map(|entry| &entry.numbers);
        let outside = all
            .filter(|number| !number.field.is_within(number.value))
            .map(|number| (number.field.refusal(), number.at as u64))
            .next();
        let at_end = match self.stop {
            Some(_) => Some((2, self.end as u64)),
            None => (self.end < length).then_some((4, self.end as u64)),
        };
        match length > proved::FILE_LENGTH {
            true => Some((1, proved::FILE_LENGTH as u64)),
            false => outside.or(at_end),
        }
    }

    /// The value of a part that is one number, where it is in its range; a contract date stands after the 9.
    pub fn single(&self, part: Part) -> Option<i64> {
        let is_part = |entry: &&Entry| entry.item == Item::Single(part) && entry.is_whole;
        let number = self.entries.iter().find(is_part)?.numbers.last()?;
        number.field.is_within(number.value).then_some(number.value)
    }

    /// How many items of a list are whole.
    pub fn whole_items(&self, part: Part) -> usize {
        let is_listed = |entry: &&Entry| matches!(entry.item, Item::Listed(of, _) if of == part);
        let listed = self.entries.iter().filter(is_listed);
        listed.filter(|entry| entry.is_whole).count()
    }
}

struct Walk<'f> {
    bytes: &'f [u8],
    place: usize,
    entries: Vec<Entry>,
}

impl Walk<'_> {
    fn file(&mut self) -> Result<(), Stop> {
        if let Ok((DATED, _)) = number_at(self.bytes, 0) {
            self.item(Item::Single(Part::Date), Self::contract)?;
        }
        self.single(Part::Class, &fields::CLASS)?;
        self.single(Part::Terrain, &fields::TERRAIN)?;
        self.single(Part::Step, &fields::STEP)?;
        self.single(Part::Ramp, &fields::RAMP)?;
        self.list(Part::Elements, &fields::ELEMENT_COUNT, Self::element)?;
        self.single(Part::Start, &fields::START)?;
        self.list(Part::Tangents, &fields::TANGENT_COUNT, Self::tangent)?;
        self.list(Part::Crossfalls, &fields::POINT_COUNT, Self::point)
    }

    fn contract(&mut self) -> Result<(), Stop> {
        self.take(&fields::LAYOUT)?;
        self.take(&fields::DATE)?;
        Ok(())
    }

    fn single(&mut self, part: Part, field: &'static Field) -> Result<(), Stop> {
        self.item(Item::Single(part), |walk| walk.take(field))?;
        Ok(())
    }

    fn list(
        &mut self,
        part: Part,
        count: &'static Field,
        read: fn(&mut Self, bool) -> Result<(), Stop>,
    ) -> Result<(), Stop> {
        let count = self.item(Item::Count(part), |walk| walk.take(count))?;
        let count = usize::try_from(count).unwrap_or(usize::MAX);
        for index in 0..count {
            let is_last = index + 1 == count;
            self.item(Item::Listed(part, index), |walk| read(walk, is_last))?;
        }
        Ok(())
    }

    fn element(&mut self, _: bool) -> Result<(), Stop> {
        let kind = self.take(&fields::KIND)?;
        if !fields::KIND.is_within(kind) {
            return Err(Stop::UnknownKind(kind));
        }
        self.take(&fields::LENGTH)?;
        if kind == 1 {
            self.take(&fields::RADIUS)?;
        }
        Ok(())
    }

    fn tangent(&mut self, is_last: bool) -> Result<(), Stop> {
        self.take(&fields::LENGTH)?;
        self.take(&fields::GRADE)?;
        if !is_last {
            self.take(&fields::HALF_LENGTH)?;
        }
        Ok(())
    }

    fn point(&mut self, _: bool) -> Result<(), Stop> {
        self.take(&fields::STATION)?;
        self.take(&fields::LEFT)?;
        self.take(&fields::RIGHT)?;
        Ok(())
    }

    /// Reads an item; where that stops, it stays as far as it was read.
    fn item<T>(
        &mut self,
        item: Item,
        read: impl FnOnce(&mut Self) -> Result<T, Stop>,
    ) -> Result<T, Stop> {
        self.entries.push(Entry {
            item,
            from: self.place,
            numbers: Vec::new(),
            is_whole: false,
        });
        let value = read(self)?;
        if let Some(entry) = self.entries.last_mut() {
            entry.is_whole = true;
        }
        Ok(value)
    }

    fn take(&mut self, field: &'static Field) -> Result<i64, Stop> {
        let found = number_at(self.bytes, self.place);
        let (number, next) = found.map_err(|faulty| Stop::Faulty(faulty, field))?;
        let value = match field.is_signed {
            true => signed_value(number),
            false => number,
        };
        if let Some(entry) = self.entries.last_mut() {
            let at = self.place;
            entry.numbers.push(Number { at, field, value });
        }
        self.place = next;
        Ok(value)
    }
}

#[cfg(test)]
mod tests {
    use super::*;

    #[test]
    fn refusals_of_reading() {
        let refusal = |bytes: &[u8]| numbers(bytes).refusal(bytes.len());
        assert_eq!(refusal(&[]), Some((2, 0)));
        assert_eq!(refusal(&[4, 3, 0x80, 0]), Some((2, 2)));
        assert_eq!(refusal(&[4, 9, 0x80, 0]), Some((3, 1)));
        assert_eq!(refusal(&[4; 8_193]), Some((1, 8_192)));
        let crest = include_bytes!("../../../examples/crest.alignment");
        assert_eq!(refusal(crest), None);
        assert_eq!(refusal(&[&crest[..], &[0]].concat()), Some((4, 48)));
    }

    #[test]
    fn a_file_that_begins_with_9() {
        let refusal = |bytes: &[u8]| numbers(bytes).refusal(bytes.len());
        let day = [9, 0xFF, 0xBE, 0xCB, 0x09]; // 2011-12-31
        assert_eq!(numbers(&day).single(Part::Date), Some(20_111_231));
        assert_eq!(refusal(&[9]), Some((2, 1)));
        assert_eq!(refusal(&[9, 0xFF, 0xBE]), Some((2, 1)));
        assert_eq!(refusal(&[9, 0x80, 0]), Some((2, 1)));
        assert_eq!(refusal(&[0x89, 0]), Some((2, 0)));
        assert_eq!(refusal(&[9, 4, 3]), Some((22, 1)));
        assert_eq!(refusal(&[9, 0, 5]), Some((22, 1)));
        assert_eq!(refusal(&[&day[..], &[9]].concat()), Some((3, 5)));
        assert_eq!(refusal(&[&day[..], &[4]].concat()), Some((2, 6)));
        assert_eq!(refusal(&[10, 4]), Some((3, 0)));
        let crest = include_bytes!("../../../examples/crest.alignment");
        let dated = [&day[..], crest].concat();
        assert_eq!(refusal(&dated), None);
        assert_eq!(refusal(&[&dated[..], &[0]].concat()), Some((4, 53)));
        assert_eq!(numbers(crest).single(Part::Date), None);
    }

    #[test]
    fn an_item_that_is_not_whole() {
        let found = numbers(&[4, 3, 0x88, 0x27, 1, 1, 1, 0x90]);
        let last = found.entries.last().expect("entries");
        assert_eq!(last.item, Item::Listed(Part::Elements, 0));
        assert_eq!(
            (last.from, last.numbers.len(), last.is_whole),
            (6, 1, false)
        );
        assert_eq!(found.end, 7);
    }
}
