//! Where the items of a file begin and end.

use crate::language::Language;
use crate::text::file::{Item, Numbers};
use crate::text::lines::Part;
use crate::words::show as words;

/// A stretch of the road, in mm.
pub type Span = (i64, i64);

/// Where each whole item of a list begins and ends.
pub fn spans(numbers: &Numbers, part: Part) -> Vec<Span> {
    // an element's length follows its kind
    let place = usize::from(part == Part::Elements);
    let mut end = 0;
    let listed = values(numbers, part).map(|values| {
        let begin = end;
        end += values.get(place).copied().unwrap_or(0);
        (begin, end)
    });
    listed.collect()
}

/// The vertical curve after a tangent that ends at a vertex.
pub fn curve(vertex: i64, half_length: i64) -> Span {
    (vertex - half_length, vertex + half_length)
}

fn values(numbers: &Numbers, part: Part) -> impl Iterator<Item = Vec<i64>> + '_ {
    let entries = numbers.entries.iter().filter(move |entry| {
        entry.is_whole && matches!(entry.item, Item::Listed(of, _) if of == part)
    });
    entries.map(|entry| entry.numbers.iter().map(|number| number.value).collect())
}

/// Every station that is shown of a road that is not turned away is listed by the library.
pub fn hold_against_list(file: &[u8], numbers: &Numbers, language: Language) -> Result<(), String> {
    for station in joints(numbers) {
        let is_listed = |station| proved::next_station(file, station) == Ok(Some(station));
        if !u64::try_from(station).is_ok_and(is_listed) {
            return Err(language.say(words::UNLISTED, &[&station]));
        }
    }
    Ok(())
}

/// Ends of elements, of vertical curves (the vertex where there is none), and crossfall points.
fn joints(numbers: &Numbers) -> Vec<i64> {
    let mut joints: Vec<i64> = spans(numbers, Part::Elements)
        .into_iter()
        .map(|(_, end)| end)
        .collect();
    let tangents = values(numbers, Part::Tangents).zip(spans(numbers, Part::Tangents));
    for (values, (_, vertex)) in tangents {
        let (begin, end) = curve(vertex, values.get(2).copied().unwrap_or(0));
        joints.extend([begin, end]);
    }
    joints.extend(values(numbers, Part::Crossfalls).filter_map(|values| values.first().copied()));
    joints
}
