//! What differs between the heads of two revisions, and their lengths.

use reference::file::Alignment;
use reference::limits::rule_book;

use crate::agreement::Listed;
use crate::language::Language;
use crate::rule_book::{book_name, class_name, terrain_name};
use crate::text::date;
use crate::words::{compare as words, Phrase};

/// A line for each difference.
pub fn words(old: &Listed, new: &Listed, language: Language) -> Vec<String> {
    let heads = head(&old.alignment, language)
        .into_iter()
        .zip(head(&new.alignment, language))
        .filter(|((_, before), (_, after))| before != after)
        .map(|((name, before), (_, after))| language.say(name, &[&before, &after]));
    heads.chain(length(old, new, language)).collect()
}

/// Each number of a head, as it is shown.
fn head(alignment: &Alignment, language: Language) -> [(Phrase, String); 6] {
    let named = |number: i128, name: Phrase| format!("{number} ({})", language.say(name, &[]));
    let class = alignment.class;
    let terrain = alignment.terrain;
    let date = date::of(alignment.contract);
    let date = date.unwrap_or_else(|| language.say(words::NO_DATE, &[]));
    let book = book_name(rule_book(alignment.contract));
    [
        (words::DATE, date),
        (words::RULE_BOOK, language.say(book, &[])),
        (words::CLASS, named(class, class_name(class))),
        (words::TERRAIN, named(terrain, terrain_name(terrain))),
        (words::STEP, language.number(alignment.step)),
        (words::RAMP_LIMIT, language.number(alignment.ramp_limit)),
    ]
}

/// A longer or shorter road moves the stations after the change, so that their rows are gone and new.
fn length(old: &Listed, new: &Listed, language: Language) -> Option<String> {
    let end = |listed: &Listed| listed.rows.last().map_or(0, |row| row.station);
    let change = end(new) - end(old);
    let phrase = match change {
        0 => return None,
        1.. => words::LONGER,
        _ => words::SHORTER,
    };
    Some(language.say(phrase, &[&language.number(change.abs())]))
}

#[cfg(test)]
mod tests {
    use super::*;
    use crate::agreement::{agreed, Agreed};
    use reference::file::Contract;

    const CREST: &[u8] = include_bytes!("../../../examples/crest.alignment");
    const MOUNTAIN: &[u8] = include_bytes!("../../../examples/mountain-access-road.alignment");

    fn listed(file: &[u8]) -> Listed {
        match agreed(file, Language::English) {
            Ok(Agreed::Listed(listed)) => listed,
            _ => panic!("a listed road"),
        }
    }

    #[test]
    fn differences_alone_are_named() {
        let (crest, mountain) = (listed(CREST), listed(MOUNTAIN));
        assert!(words(&crest, &crest, Language::English).is_empty());
        let mut other = listed(CREST);
        other.alignment.terrain = 2;
        other.alignment.ramp_limit = 4_000;
        let expected = [
            "terrain: 3 (mountain terrain) before, 2 (hilly terrain) now",
            "ramp limit: 5,000 ppm before, 4,000 ppm now",
        ];
        assert_eq!(words(&crest, &other, Language::English), expected);
        let dated = |date| {
            let mut road = listed(CREST);
            road.alignment.contract = Contract::Dated(date);
            road
        };
        let expected = [
            "contract date: none before, 2011-12-31 now",
            "rule book: today's rule book before, old handbook now",
        ];
        assert_eq!(
            words(&crest, &dated(20_111_231), Language::English),
            expected
        );
        let expected = ["датум уговора: раније 2012-01-01, сада без датума"];
        assert_eq!(
            words(&dated(20_120_101), &crest, Language::Serbian),
            expected
        );
        let expected = [
            "датум уговора: раније без датума, сада 2011-12-31",
            "правилник: раније важећи правилник, сада стари приручник",
        ];
        assert_eq!(
            words(&crest, &dated(20_111_231), Language::Serbian),
            expected
        );
        let lengths = words(&mountain, &crest, Language::English);
        assert!(lengths.iter().any(|line| line.ends_with("mm shorter")));
    }
}
