//! Why stations are listed.

use reference::file::Alignment;
use reference::stations::{marks, Reason};

use crate::between_arcs::{between_arcs, BetweenArcs};
use crate::language::Language;
use crate::rows::Row;
use crate::words::{report as words, Phrase};

/// A listed station that is more than a multiple of the step.
#[derive(Clone, Debug)]
pub struct Joint {
    pub row: Row,
    pub reasons: Vec<Reason>,
}

/// The joints of a listed road, in order.
pub fn joints(alignment: &Alignment, rows: &[Row]) -> Vec<Joint> {
    let mut marks = marks(alignment);
    marks.sort_by_key(|mark| mark.0);
    let groups = marks.chunk_by(|one, other| one.0 == other.0);
    let joint = |group: &[(i128, Reason)]| {
        let found = rows.binary_search_by_key(&group[0].0, |row| row.station);
        found.ok().map(|place| Joint {
            row: rows[place],
            reasons: reasons(group, alignment),
        })
    };
    groups.filter_map(joint).collect()
}

fn reasons(group: &[(i128, Reason)], alignment: &Alignment) -> Vec<Reason> {
    let is_multiple = is_multiple_of_step(group[0].0, alignment);
    let step = is_multiple.then_some(Reason::MultipleOfStep);
    let marked = group.iter().map(|mark| mark.1);
    marked.chain(step).collect()
}

/// "the multiples of step below T"
fn is_multiple_of_step(station: i128, alignment: &Alignment) -> bool {
    station % alignment.step == 0 && station < alignment.total_length()
}

pub fn in_words(reasons: &[Reason], alignment: &Alignment, language: Language) -> String {
    let words = reasons.iter();
    let words = words.map(|&reason| one_in_words(reason, alignment, language));
    words.collect::<Vec<_>>().join(", ")
}

pub fn one_in_words(reason: Reason, alignment: &Alignment, language: Language) -> String {
    let numbered = |phrase, place: usize| language.say(phrase, &[&place]);
    match reason {
        Reason::Start => language.say(words::START, &[]),
        Reason::End => language.say(words::END, &[]),
        Reason::MultipleOfStep => language.say(words::STEP_MULTIPLE, &[]),
        Reason::ElementEnd(place) => numbered(element_ends(alignment, place), place),
        Reason::CurveStart(place) => numbered(words::CURVE_BEGINS, place),
        Reason::CurveEnd(place) => numbered(words::CURVE_ENDS, place),
        Reason::Vertex(place) => numbered(words::VERTEX_WITHOUT_CURVE, place),
        Reason::CrossfallPoint(place) => numbered(words::CROSSFALL_POINT, place),
    }
}

/// The end of an element; egg curves and reversing bends are named.
fn element_ends(alignment: &Alignment, place: usize) -> Phrase {
    match between_arcs(alignment, place) {
        None => words::ELEMENT_ENDS,
        Some(BetweenArcs::Egg) => words::EGG_ENDS,
        Some(BetweenArcs::FirstOfReversing) => words::REVERSES,
        Some(BetweenArcs::SecondOfReversing) => words::REVERSING_ENDS,
    }
}
