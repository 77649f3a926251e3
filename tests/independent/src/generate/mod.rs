//! Files from a seed: valid ones, ones at a limit, damaged ones, absurd ones.

pub mod absurd;
pub mod damage;
pub mod days;
pub mod edges;
pub mod features;
pub mod head;
pub mod numbers;
pub mod order;
pub mod pegs;
pub mod random;
pub mod road;
pub mod stations;
pub mod valid;

#[cfg(test)]
mod tests;

use edges::{Expected, DATES, EDGES, FIRST_RULE};
use head::Head;
use random::Random;
use road::Road;
use valid::speeds::{mixed_road, road_of_any_speed};

/// What a file is made for.
#[derive(Clone, Copy, Debug, PartialEq, Eq)]
pub enum FileKind {
    Valid,
    Designed,
    Mixed,
    Limit,
    Broken,
    Flipped,
    Several,
    Absurd,
    Extreme,
}

/// The kinds with their names, and how many of 100 files are of each.
pub const FILE_KINDS: [(FileKind, &str, usize); 9] = [
    (FileKind::Valid, "valid", 20),
    (FileKind::Designed, "designed", 9),
    (FileKind::Mixed, "mixed", 5),
    (FileKind::Limit, "limit", 40),
    (FileKind::Broken, "broken", 4),
    (FileKind::Flipped, "flipped", 5),
    (FileKind::Several, "several", 8),
    (FileKind::Absurd, "absurd", 2),
    (FileKind::Extreme, "extreme", 7),
];

pub fn kind_named(name: &str) -> Option<FileKind> {
    let entry = FILE_KINDS.iter().find(|(_, named, _)| *named == name)?;
    Some(entry.0)
}

pub fn name_of_kind(kind: FileKind) -> &'static str {
    let entry = FILE_KINDS.iter().find(|(named, _, _)| *named == kind);
    entry.expect("a kind with a name").1
}

/// A file, why it was made, and what the papers must say of it where that is known.
pub struct MadeFile {
    pub kind: FileKind,
    pub bytes: Vec<u8>,
    /// What must be said of it, and with the row of which speed.
    pub expected: Option<(Expected, i128)>,
    /// The limit, and whether the file is outside of it.
    pub edge: Option<(usize, bool)>,
}

fn random_kind(random: &mut Random) -> FileKind {
    let mut number = random.place(100);
    for (kind, _, share) in FILE_KINDS {
        if number < share {
            return kind;
        }
        number -= share;
    }
    FileKind::Valid
}

/// A limit: those of a speed's row most often, then the other rules of a road and its date.
fn random_edge(random: &mut Random) -> usize {
    let places: Vec<usize> = match random.place(20) {
        0..=7 => (0..EDGES.len()).filter(|&p| EDGES[p].of_row).collect(),
        8..=12 => (FIRST_RULE..EDGES.len()).collect(),
        13..=14 => DATES.collect(),
        _ => (0..EDGES.len()).collect(),
    };
    random.pick(&places)
}

/// A road that passes at the speed that it is designed for.
fn passing(kind: FileKind, road: &Road) -> MadeFile {
    MadeFile {
        kind,
        bytes: numbers::file(road),
        expected: Some((Expected::Accepted, road.speed)),
        edge: None,
    }
}

/// The file of an index; `only` holds it to one kind.
pub fn make_file(random: &mut Random, only: Option<FileKind>) -> MadeFile {
    let drawn = random_kind(random);
    let kind = only.unwrap_or(drawn);
    let plain = |bytes| MadeFile {
        kind,
        bytes,
        expected: None,
        edge: None,
    };
    match kind {
        FileKind::Valid => {
            let head = Head::of_class(random);
            passing(kind, &valid::road_of(random, head))
        }
        FileKind::Designed => passing(kind, &road_of_any_speed(random)),
        FileKind::Mixed => plain(numbers::file(&mixed_road(random))),
        FileKind::Limit => {
            let place = random_edge(random);
            let outside = random.chance(50);
            let made = EDGES[place].make(random, outside);
            MadeFile {
                expected: Some((made.expected, made.speed)),
                edge: Some((place, outside)),
                ..plain(made.bytes)
            }
        }
        FileKind::Broken => plain(damage::broken(random)),
        FileKind::Flipped => plain(damage::flipped(random)),
        FileKind::Several => plain(if random.chance(50) {
            order::rules_broken_together(random)
        } else {
            damage::several(random)
        }),
        FileKind::Absurd => plain(absurd::bytes(random)),
        FileKind::Extreme => plain(absurd::extreme(random)),
    }
}
