//! What was compared.

use std::fmt;

use crate::generate::features::{features, FEATURES};
use crate::generate::valid::bends::{eggs, pairs};
use crate::generate::{MadeFile, FILE_KINDS};
use crate::halves::Halves;
use crate::limits_seen::LimitsSeen;
use crate::marks::MarksSeen;
use crate::pegs_seen::PegsSeen;
use reference::file::{read, Alignment, Refusal};
use reference::marks::marks_of;

pub struct Summary {
    pub files: u64,
    pub files_of_kind: [u64; FILE_KINDS.len()],
    /// Files beginning with 9.
    pub dated_of_kind: [u64; FILE_KINDS.len()],
    /// Files that can be read and have an egg, or a pair of clothoids.
    pub egg_of_kind: [u64; FILE_KINDS.len()],
    pub pair_of_kind: [u64; FILE_KINDS.len()],
    pub accepted_of_kind: [u64; FILE_KINDS.len()],
    /// Files not turned away that have each feature.
    pub features: [u64; FEATURES.len()],
    /// By refusal number.
    pub refused_files: [u64; 25],
    pub refused_calls: [u64; 25],
    pub limits: LimitsSeen,
    pub halves: Halves,
    pub marks: MarksSeen,
    pub pegs: PegsSeen,
    pub row_calls: u64,
    pub next_calls: u64,
    pub list_calls: u64,
    pub listing_runs: u64,
    pub whole_lists: u64,
    pub listed_rows: u64,
    pub longest_list: u64,
    pub blade_places: u64,
}

impl Summary {
    pub fn new() -> Summary {
        Summary {
            files: 0,
            files_of_kind: [0; FILE_KINDS.len()],
            dated_of_kind: [0; FILE_KINDS.len()],
            egg_of_kind: [0; FILE_KINDS.len()],
            pair_of_kind: [0; FILE_KINDS.len()],
            accepted_of_kind: [0; FILE_KINDS.len()],
            features: [0; FEATURES.len()],
            refused_files: [0; 25],
            refused_calls: [0; 25],
            limits: LimitsSeen::new(),
            halves: Halves::default(),
            marks: MarksSeen::new(),
            pegs: PegsSeen::new(),
            row_calls: 0,
            next_calls: 0,
            list_calls: 0,
            listing_runs: 0,
            whole_lists: 0,
            listed_rows: 0,
            longest_list: 0,
            blade_places: 0,
        }
    }

    /// Counts a file, and what the papers say of it.
    pub fn count_file(&mut self, made: &MadeFile, verdict: &Result<Alignment, Refusal>) {
        let named = |place: &usize| FILE_KINDS[*place].0 == made.kind;
        let place = (0..FILE_KINDS.len())
            .find(named)
            .expect("a kind with a name");
        self.files += 1;
        self.files_of_kind[place] += 1;
        self.dated_of_kind[place] += u64::from(made.bytes.first() == Some(&9));
        if let Ok(road) = read(&made.bytes) {
            self.egg_of_kind[place] += u64::from(!eggs(&road.elements).is_empty());
            self.pair_of_kind[place] += u64::from(!pairs(&road.elements).is_empty());
            self.marks.count(&road, marks_of(&road));
        }
        match verdict {
            Err(refusal) => self.refused_files[refusal.number as usize] += 1,
            Ok(road) => {
                self.accepted_of_kind[place] += 1;
                for (count, has) in self.features.iter_mut().zip(features(road)) {
                    *count += u64::from(has);
                }
            }
        }
    }

    /// Counts the limit that a file was made for.
    pub fn count_limit(&mut self, made: &MadeFile) {
        let Some(edge) = made.edge else { return };
        self.limits.count(edge);
        if let (Ok(road), Some((_, speed))) = (read(&made.bytes), made.expected) {
            self.limits.count_row(edge, speed, road.contract);
        }
    }

    pub fn count_refused_call(&mut self, number: i128) {
        self.refused_calls[number as usize] += 1;
    }
}

impl fmt::Display for Summary {
    fn fmt(&self, to: &mut fmt::Formatter<'_>) -> fmt::Result {
        writeln!(
            to,
            "kind            files     dated  with egg with pair  accepted"
        )?;
        let counts = [
            self.files_of_kind,
            self.dated_of_kind,
            self.egg_of_kind,
            self.pair_of_kind,
            self.accepted_of_kind,
        ];
        let row = |counts: [u64; 5]| counts.map(|count| format!("{count:>9}")).join(" ");
        for (place, (_, name, _)) in FILE_KINDS.iter().enumerate() {
            let of_kind = counts.map(|counts| counts[place]);
            writeln!(to, "  {name:<10} {}", row(of_kind))?;
        }
        let all = counts.map(|counts| counts.iter().sum());
        writeln!(to, "  {:<10} {}", "all", row(all))?;
        writeln!(to, "refusal     files     calls")?;
        for number in 1..=24 {
            let (files, calls) = (self.refused_files[number], self.refused_calls[number]);
            writeln!(to, "{number:>7} {files:>9} {calls:>9}")?;
        }
        write!(to, "{}", self.limits)?;
        writeln!(to, "accepted files with               files")?;
        for ((name, _), count) in FEATURES.iter().zip(self.features) {
            writeln!(to, "  {name:<30} {count:>6}")?;
        }
        write!(to, "{}", self.halves)?;
        write!(to, "{}", self.marks)?;
        write!(to, "{}", self.pegs)?;
        writeln!(to, "calls of row: {}", self.row_calls)?;
        writeln!(to, "calls of next station: {}", self.next_calls)?;
        writeln!(to, "calls of list: {}", self.list_calls)?;
        writeln!(to, "runs of the listing program: {}", self.listing_runs)?;
        writeln!(
            to,
            "lists in parts, from 0 to the end: {}",
            self.whole_lists
        )?;
        writeln!(to, "rows of these lists: {}", self.listed_rows)?;
        writeln!(to, "rows of the longest: {}", self.longest_list)?;
        write!(to, "places of the blade: {}", self.blade_places)
    }
}
