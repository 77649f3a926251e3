//! The lines of the items that could be read, with their running stations.

use reference::file::Alignment;
use reference::limits::limits;

use crate::between_arcs::{between_arcs, BetweenArcs};
use crate::language::Language;
use crate::show::line::Line;
use crate::show::stations::{curve, spans, Span};
use crate::text::file::{Entry, Item, Number, Numbers};
use crate::text::lines::{self, Part, CURVE};
use crate::why::least;
use crate::words::{common, show as words, Phrase};

/// The items of a file; of one that is not whole its numbers. `road` is none of a file that cannot be read.
pub fn lines(numbers: &Numbers, road: Option<&Alignment>, language: Language) -> Vec<Line> {
    let show = Show {
        numbers,
        road,
        elements: spans(numbers, Part::Elements),
        tangents: spans(numbers, Part::Tangents),
        language,
    };
    let entries = numbers.entries.iter();
    entries.flat_map(|entry| show.entry(entry)).collect()
}

struct Show<'n> {
    numbers: &'n Numbers,
    road: Option<&'n Alignment>,
    elements: Vec<Span>,
    tangents: Vec<Span>,
    language: Language,
}

impl Show<'_> {
    fn entry(&self, entry: &Entry) -> Vec<Line> {
        if !entry.is_whole {
            let numbers = entry.numbers.iter();
            return numbers.map(|n| self.number(entry.item, n)).collect();
        }
        let (written, remark) = match entry.item {
            Item::Single(part) => (line_of(part, entry), String::new()),
            Item::Count(part) => self.count(part, entry),
            Item::Listed(part, index) => (line_of(part, entry), self.remark(part, index, entry)),
        };
        let mut line = Line::new(entry.from, Some(entry.item), written, remark);
        let begins_part = matches!(
            entry.item,
            Item::Single(Part::Start) | Item::Count(Part::Elements | Part::Crossfalls)
        );
        line.begins_part = begins_part || entry.from == 0;
        let outside = entry
            .numbers
            .iter()
            .filter_map(|n| self.outside(entry.item, n));
        line.above = outside.collect();
        vec![line]
    }

    /// A number of an item that is not whole.
    fn number(&self, item: Item, number: &Number) -> Line {
        let written = match number.field.is_signed {
            true => format!("signed {}", number.value),
            false => format!("number {}", number.value),
        };
        let remark = self.name(item, number);
        let mut line = Line::new(number.at, Some(item), written, remark);
        line.begins_part = number.at == 0;
        line.above = self.outside(item, number).into_iter().collect();
        line
    }

    /// A count is written where the items do not come to it.
    fn count(&self, part: Part, entry: &Entry) -> (String, String) {
        let count = entry.numbers.first().map_or(0, |number| number.value);
        let whole = self.numbers.whole_items(part);
        if count > 0 && usize::try_from(count) == Ok(whole) {
            let phrase = match part {
                Part::Elements => words::ELEMENTS,
                Part::Tangents => words::TANGENTS,
                _ => words::POINTS,
            };
            return (String::new(), self.language.say(phrase, &[&count]));
        }
        let keyword = lines::count_of(part).map_or("", |line| line.keyword);
        let remark = self.language.say(words::WHOLE_ITEMS, &[&whole]);
        (format!("{keyword} {count}"), remark)
    }

    fn remark(&self, part: Part, index: usize, entry: &Entry) -> String {
        match part {
            Part::Elements => self.element(index, entry),
            Part::Tangents => self.tangent(index, entry),
            _ => self.language.say(words::POINT, &[&index]),
        }
    }

    fn element(&self, index: usize, entry: &Entry) -> String {
        let (begin, end) = self.elements.get(index).copied().unwrap_or((0, 0));
        let place = self.language.say(words::ELEMENT, &[&index, &begin, &end]);
        match entry.numbers.get(2).map(|radius| radius.value > 0) {
            None => self.between_arcs(index, place),
            Some(true) => self.language.say(words::RIGHT_TURN, &[&place]),
            Some(false) => self.language.say(words::LEFT_TURN, &[&place]),
        }
    }

    /// An element's place; of a clothoid between two arcs also what it is, and the least length that refusal 12 asks for.
    fn between_arcs(&self, index: usize, place: String) -> String {
        let named = self.road.and_then(|road| {
            let least = least::clothoid_at(road, &limits(road), index)?;
            // equal radii, which are no egg curve's, ask for none
            let between = between_arcs(road, index).filter(|_| least > 0)?;
            Some((between, least))
        });
        let Some((between, least)) = named else {
            return place;
        };
        let phrase = match between {
            BetweenArcs::Egg => words::EGG,
            BetweenArcs::FirstOfReversing => words::FIRST_OF_REVERSING,
            BetweenArcs::SecondOfReversing => words::SECOND_OF_REVERSING,
        };
        self.language.say(phrase, &[&place, &least])
    }

    fn tangent(&self, index: usize, entry: &Entry) -> String {
        let (begin, end) = self.tangents.get(index).copied().unwrap_or((0, 0));
        let say = |phrase, values: &[&dyn std::fmt::Display]| self.language.say(phrase, values);
        match entry.numbers.get(2).map(|half| half.value) {
            None => say(words::TANGENT, &[&index, &begin, &end]),
            Some(0) => say(words::TANGENT_TO_VERTEX, &[&index, &begin, &end]),
            Some(half) => {
                let (from, to) = curve(end, half);
                say(words::TANGENT_TO_CURVE, &[&index, &begin, &end, &from, &to])
            }
        }
    }

    /// `byte 5, ramp limit: 25000 is outside 1 to 20,000 ppm`
    fn outside(&self, item: Item, number: &Number) -> Option<String> {
        if number.field.is_within(number.value) {
            return None;
        }
        let outside = number.field.outside(number.value, self.language);
        let name = self.name(item, number);
        let values: [&dyn std::fmt::Display; 3] = [&number.at, &name, &outside];
        Some(self.language.say(words::AT_BYTE, &values))
    }

    /// `tangent 0, grade`
    fn name(&self, item: Item, number: &Number) -> String {
        name(item, number.field.name, self.language)
    }
}

/// An item and one of its fields.
pub fn name(item: Item, field: Phrase, language: Language) -> String {
    let field = language.say(field, &[]);
    let Item::Listed(part, index) = item else {
        return field;
    };
    let kind = match part {
        Part::Elements => common::ELEMENT,
        Part::Tangents => common::TANGENT,
        _ => common::POINT,
    };
    format!("{} {index}, {field}", language.say(kind, &[]))
}

/// What `make` reads: the word of the line and its values; the number before them is in the word.
fn line_of(part: Part, entry: &Entry) -> String {
    let (kind, values) = entry.numbers.split_at(usize::from(part.has_kind()));
    let line = lines::of(part, kind.first().map(|number| number.value));
    let mut words = vec![line.map_or("", |line| line.keyword).to_string()];
    words.extend(values.iter().map(|n| n.field.in_text(n.value)));
    if part == Part::Tangents && values.len() == 3 {
        words.insert(3, CURVE.to_string());
    }
    words.join(" ")
}
