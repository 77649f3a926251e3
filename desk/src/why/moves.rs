//! What else changes when a rule is mended, in words.

use reference::file::{Alignment, Refusal};
use reference::limits::limits;

use super::least;
use crate::language::Language;
use crate::words::{why as words, Phrase};

/// The differences between two roads of as many items, apart from the number that the rule is about.
struct Moves<'a> {
    old: &'a Alignment,
    new: &'a Alignment,
    mended: Refusal,
    language: Language,
    parts: Vec<String>,
}

/// One line: everything that moves.
pub fn moves(old: &Alignment, new: &Alignment, mended: Refusal, language: Language) -> String {
    let mut moves = Moves {
        old,
        new,
        mended,
        language,
        parts: Vec::new(),
    };
    moves.lengths();
    moves.radii();
    moves.profile();
    moves.stations();
    moves.crossfalls();
    moves.consequences();
    if moves.parts.is_empty() {
        moves.tell(words::NOTHING_MOVES, &[]);
    }
    let all = match moves.beyond_least().is_some_and(|beyond| beyond < 0) {
        true => words::MOVES_INSTEAD,
        false => words::MOVES,
    };
    language.say(all, &[&moves.parts.join("; ")])
}

impl Moves<'_> {
    fn tell(&mut self, phrase: Phrase, values: &[i128]) {
        let numbers: Vec<String> = values.iter().map(|&v| self.language.number(v)).collect();
        let values: Vec<&dyn std::fmt::Display> = numbers.iter().map(|n| n as _).collect();
        self.parts.push(self.language.say(phrase, &values));
    }

    /// Whether a number is the one that the rule is about, and has the value that was named.
    fn is_own(&self, rules: &[i128], place: usize) -> bool {
        let is_about = rules.contains(&self.mended.number) && self.mended.place == place as i128;
        is_about && self.beyond_least().is_none_or(|beyond| beyond == 0)
    }

    /// By how much the new number is beyond the least that passes, for the rules that may be mended by more, or by others
    /// instead.
    fn beyond_least(&self) -> Option<i128> {
        let place = self.mended.place as usize;
        let new = &self.new.tangents;
        match self.mended.number {
            10 => Some(self.new.elements[place].radius.abs() - limits(self.old).radius_min),
            14 => Some(new[place].length - least::tangent(self.old, place)),
            15 => Some(new[place].half_length - self.least_half_length(place)),
            _ => None,
        }
    }

    fn least_half_length(&self, vertex: usize) -> i128 {
        let limits = limits(self.old);
        let grades = [vertex, vertex + 1].map(|place| self.old.tangents[place].grade);
        least::half_length(&limits, grades[0], grades[1])
    }

    fn lengths(&mut self) {
        let change = self.new.total_length() - self.old.total_length();
        match change.signum() {
            1 => self.tell(words::ROAD_LONGER, &[change]),
            -1 => self.tell(words::ROAD_SHORTER, &[-change]),
            _ => {}
        }
        let (old, new) = (self.old, self.new);
        for (place, (old, new)) in old.elements.iter().zip(&new.elements).enumerate() {
            if new.length != old.length && !self.is_own(&[5, 8, 9, 11, 12], place) {
                self.tell(words::ELEMENT_LENGTH, &[place as i128, new.length]);
            }
        }
    }

    /// An arc that was one before, with another radius.
    fn radii(&mut self) {
        let (old, new) = (self.old, self.new);
        for (place, (old, new)) in old.elements.iter().zip(&new.elements).enumerate() {
            let is_other = new.kind == old.kind && new.radius != old.radius;
            if is_other && !self.is_own(&[10], place) {
                self.tell(words::ARC_RADIUS, &[place as i128, new.radius]);
            }
        }
    }

    fn profile(&mut self) {
        let (old, new) = (self.old, self.new);
        for (place, (old, new)) in old.tangents.iter().zip(&new.tangents).enumerate() {
            let tangent = place as i128;
            if new.length != old.length && !self.is_own(&[14], place) {
                self.tell(words::TANGENT_LENGTH, &[tangent, new.length]);
            }
            if new.grade != old.grade && !self.is_own(&[13], place) {
                self.tell(words::GRADE, &[tangent, new.grade]);
            }
            if new.half_length != old.half_length && !self.is_own(&[15], place) {
                self.tell(words::HALF_LENGTH, &[tangent, new.half_length]);
            }
        }
    }

    /// Neighbouring points that move by the same are told together.
    fn stations(&mut self) {
        let pairs = self.old.points.iter().zip(&self.new.points);
        let moved: Vec<i128> = pairs.map(|(old, new)| new.station - old.station).collect();
        let mut first = 0;
        for group in moved.chunk_by(|one, other| one == other) {
            let last = first + group.len() - 1;
            if group[0] != 0 && !(self.is_own(&[16], first) && first == last) {
                self.moved(first as i128, last as i128, group[0]);
            }
            first = last + 1;
        }
    }

    fn moved(&mut self, first: i128, last: i128, by: i128) {
        match (first == last, by > 0) {
            (true, true) => self.tell(words::POINT_FORTH, &[first, by]),
            (true, false) => self.tell(words::POINT_BACK, &[first, -by]),
            (false, true) => self.tell(words::POINTS_FORTH, &[first, last, by]),
            (false, false) => self.tell(words::POINTS_BACK, &[first, last, -by]),
        }
    }

    /// Neighbouring points that get the same are told together.
    fn crossfalls(&mut self) {
        let pairs = self.old.points.iter().zip(&self.new.points);
        let new: Vec<Option<(i128, i128)>> = pairs
            .map(|(old, new)| {
                let is_other = (old.left, old.right) != (new.left, new.right);
                is_other.then_some((new.left, new.right))
            })
            .collect();
        let mut first = 0;
        for group in new.chunk_by(|one, other| one == other) {
            let last = first + group.len() - 1;
            let is_own = self.is_own(&[17], first) && first == last;
            if let Some(crossfalls) = group[0].filter(|_| !is_own) {
                self.changed(first as i128, last as i128, crossfalls);
            }
            first = last + 1;
        }
        if self.new.ramp_limit != self.old.ramp_limit {
            self.tell(words::RAMP_LIMIT, &[self.new.ramp_limit]);
        }
    }

    fn changed(&mut self, first: i128, last: i128, (left, right): (i128, i128)) {
        match first == last {
            true => self.tell(words::CROSSFALLS, &[first, left, right]),
            false => self.tell(words::CROSSFALLS_OF_SEVERAL, &[first, last, left, right]),
        }
    }

    fn consequences(&mut self) {
        match self.mended.number {
            10 => self.tell(words::TURNS_LESS, &[]),
            11 | 12 => self.tell(words::TURNS_MORE, &[]),
            // arcs of the same length turn less where their radii are greater
            23 if sizes(self.new) > sizes(self.old) => self.tell(words::TURNS_LESS, &[]),
            23 => self.tell(words::TURNS_MORE, &[]),
            _ => {}
        }
        let change = end_height(self.new) - end_height(self.old);
        let millimetres = (change.abs() + 500_000) / 1_000_000;
        match (change.signum(), change.abs() < 1_000_000) {
            (0, _) => {}
            (_, true) => self.tell(words::END_NEARLY, &[]),
            (1, _) => self.tell(words::END_HIGHER, &[millimetres]),
            _ => self.tell(words::END_LOWER, &[millimetres]),
        }
    }
}

/// The sizes of all radii together.
fn sizes(road: &Alignment) -> i128 {
    let radii = road.elements.iter().map(|element| element.radius.abs());
    radii.sum()
}

/// The height of the road's end in millionths of a millimetre.
fn end_height(road: &Alignment) -> i128 {
    let rises = road
        .tangents
        .iter()
        .map(|tangent| tangent.grade * tangent.length);
    road.start_height * 1_000_000 + rises.sum::<i128>()
}
