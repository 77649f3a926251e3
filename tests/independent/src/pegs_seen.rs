//! Which lists of pegs were seen.

use std::fmt;

use crate::generate::pegs::PegList;
use reference::file::Refusal;
use reference::machine::LEAST_BUFFER;
use reference::pegs::MOST_PEGS;

/// A list for a road with its joints, and what was answered.
pub struct Asked<'a> {
    pub list: &'a PegList,
    pub joints: &'a [i128],
    pub answer: Result<usize, Refusal>,
}

/// What is answered to a list.
#[derive(Clone, Copy, PartialEq, Eq)]
enum Outcome {
    Rows,
    ShortBuffer,
    BadPeg,
    RefusedFile,
}

const OUTCOMES: [(Outcome, &str); 4] = [
    (Outcome::Rows, "pegs not refused"),
    (Outcome::ShortBuffer, "pegs refused with 20"),
    (Outcome::BadPeg, "pegs refused with 24"),
    (Outcome::RefusedFile, "pegs of refused files"),
];

type Feature = (Outcome, &'static str, fn(&Asked) -> bool);

const FEATURES: [Feature; 37] = [
    (Outcome::Rows, "no peg", |a| a.count() == 0),
    (Outcome::Rows, "one peg", |a| a.count() == 1),
    (Outcome::Rows, "1,999 pegs", |a| a.count() == MOST_PEGS - 1),
    (Outcome::Rows, "2,000 pegs", |a| a.count() == MOST_PEGS),
    (Outcome::Rows, "a peg at 0", |a| a.any(|peg| peg == 0)),
    (Outcome::Rows, "a peg at T", |a| a.any(|peg| peg == a.end())),
    (Outcome::Rows, "a peg at a joint", |a| a.any_from_joint(0)),
    (Outcome::Rows, "a peg 1 before a joint", |a| {
        a.any_from_joint(-1)
    }),
    (Outcome::Rows, "a peg 1 after a joint", |a| {
        a.any_from_joint(1)
    }),
    (Outcome::Rows, "equal pegs", |a| a.pair(|p, q| p == q)),
    (Outcome::Rows, "equal pegs at a joint", |a| {
        a.pair(|p, q| p == q && a.is_joint(p))
    }),
    (Outcome::Rows, "several pegs, all equal", |a| {
        a.count() > 1 && !a.pair(|p, q| p != q)
    }),
    (Outcome::Rows, "two pegs in one stretch", |a| {
        a.pair(|p, q| p != q && a.joints_between(p, q) == 0)
    }),
    (Outcome::Rows, "1 joint between two pegs", |a| {
        a.pair(|p, q| a.joints_between(p, q) == 1)
    }),
    (Outcome::Rows, "10 joints between two pegs", |a| {
        a.pair(|p, q| a.joints_between(p, q) >= 10)
    }),
    (Outcome::Rows, "100 joints between two pegs", |a| {
        a.pair(|p, q| a.joints_between(p, q) >= 100)
    }),
    (Outcome::Rows, "96 bytes for each peg", |a| {
        a.count() > 0 && a.spare_bytes() == 0
    }),
    (Outcome::Rows, "a byte to spare", |a| a.spare_bytes() == 1),
    (Outcome::Rows, "96 bytes or more to spare", |a| {
        a.spare_bytes() >= 96
    }),
    (Outcome::ShortBuffer, "no byte", |a| a.list.room == 0),
    (Outcome::ShortBuffer, "one byte missing", |a| {
        a.spare_bytes() == -1
    }),
    (Outcome::ShortBuffer, "95 bytes for each peg", |a| {
        a.list.room == 95 * a.count()
    }),
    (Outcome::ShortBuffer, "room for 2,000 of more", |a| {
        a.list.room == LEAST_BUFFER * MOST_PEGS
    }),
    (Outcome::ShortBuffer, "a bad peg too", |a| a.bad_pegs() > 0),
    (Outcome::BadPeg, "the first peg", |a| a.refused_peg() == 0),
    (Outcome::BadPeg, "the last peg", |a| {
        a.refused_peg() == a.count() - 1
    }),
    (Outcome::BadPeg, "falls", |a| a.falls_by() > 0),
    (Outcome::BadPeg, "falls by 1", |a| a.falls_by() == 1),
    (Outcome::BadPeg, "passes T", |a| a.passes_end_by() > 0),
    (Outcome::BadPeg, "T + 1", |a| a.passes_end_by() == 1),
    (Outcome::BadPeg, "over 32 bits", |a| {
        a.passes_end_by() >= 1 << 32
    }),
    (Outcome::BadPeg, "over 63 bits", |a| {
        a.passes_end_by() >= 1 << 63
    }),
    (Outcome::BadPeg, "peg 2,000", |a| {
        a.refused_peg() == MOST_PEGS
    }),
    (Outcome::BadPeg, "an earlier peg of over 2,000", |a| {
        a.refused_peg() < MOST_PEGS && a.count() > MOST_PEGS
    }),
    (Outcome::BadPeg, "several bad pegs", |a| a.bad_pegs() > 1),
    (Outcome::RefusedFile, "a short buffer too", |a| {
        a.spare_bytes() < 0
    }),
    (Outcome::RefusedFile, "a falling list too", |a| {
        a.pair(|p, q| q < p)
    }),
];

impl Asked<'_> {
    fn outcome(&self) -> Outcome {
        match self.answer.map_err(|refusal| refusal.number) {
            Ok(_) => Outcome::Rows,
            Err(20) => Outcome::ShortBuffer,
            Err(24) => Outcome::BadPeg,
            Err(_) => Outcome::RefusedFile,
        }
    }

    fn count(&self) -> usize {
        self.list.pegs.len()
    }

    fn peg(&self, place: usize) -> i128 {
        i128::from(self.list.pegs[place])
    }

    fn any(&self, holds: impl Fn(i128) -> bool) -> bool {
        (0..self.count()).any(|place| holds(self.peg(place)))
    }

    /// Whether something holds of a peg and the next one.
    fn pair(&self, holds: impl Fn(i128, i128) -> bool) -> bool {
        (1..self.count()).any(|place| holds(self.peg(place - 1), self.peg(place)))
    }

    /// T.
    fn end(&self) -> i128 {
        self.joints[self.joints.len() - 1]
    }

    fn is_joint(&self, station: i128) -> bool {
        self.joints.binary_search(&station).is_ok()
    }

    fn any_from_joint(&self, distance: i128) -> bool {
        self.any(|peg| self.is_joint(peg - distance))
    }

    /// Joints strictly between two stations.
    fn joints_between(&self, a: i128, b: i128) -> usize {
        let up_to_a = self.joints.partition_point(|&joint| joint <= a);
        let below_b = self.joints.partition_point(|&joint| joint < b);
        below_b.saturating_sub(up_to_a)
    }

    /// Bytes of the buffer above 96 for each peg.
    fn spare_bytes(&self) -> i128 {
        self.list.room as i128 - (LEAST_BUFFER * self.count()) as i128
    }

    /// The place of a refusal.
    fn refused_peg(&self) -> usize {
        self.answer
            .map_or_else(|refusal| refusal.place as usize, |_| 0)
    }

    fn falls_by(&self) -> i128 {
        self.fall_at(self.refused_peg())
    }

    fn passes_end_by(&self) -> i128 {
        self.peg(self.refused_peg()) - self.end()
    }

    /// How far a peg lies below the one before it.
    fn fall_at(&self, place: usize) -> i128 {
        let before = place.checked_sub(1).map_or(0, |before| self.peg(before));
        before - self.peg(place)
    }

    fn bad_pegs(&self) -> usize {
        let passes_end = |place| self.peg(place) > self.end();
        let is_bad = |place| place >= MOST_PEGS || passes_end(place) || self.fall_at(place) > 0;
        (0..self.count()).filter(|&place| is_bad(place)).count()
    }
}

pub struct PegsSeen {
    rows: u64,
    /// Lists by what is answered.
    outcomes: [u64; OUTCOMES.len()],
    /// Lists that have each feature.
    features: [u64; FEATURES.len()],
}

impl PegsSeen {
    pub fn new() -> PegsSeen {
        PegsSeen {
            rows: 0,
            outcomes: [0; OUTCOMES.len()],
            features: [0; FEATURES.len()],
        }
    }

    pub fn count(&mut self, asked: &Asked) {
        let answered = asked.outcome();
        if answered == Outcome::Rows {
            self.rows += asked.count() as u64;
        }
        for (count, (outcome, _)) in self.outcomes.iter_mut().zip(OUTCOMES) {
            *count += u64::from(outcome == answered);
        }
        for (count, (outcome, _, has)) in self.features.iter_mut().zip(FEATURES) {
            *count += u64::from(outcome == answered && has(asked));
        }
    }
}

impl fmt::Display for PegsSeen {
    fn fmt(&self, to: &mut fmt::Formatter<'_>) -> fmt::Result {
        for ((outcome, name), lists) in OUTCOMES.into_iter().zip(self.outcomes) {
            writeln!(to, "{name:<33} lists")?;
            for ((of, feature, _), count) in FEATURES.iter().zip(self.features) {
                if *of == outcome {
                    writeln!(to, "  {feature:<30} {count:>6}")?;
                }
            }
            writeln!(to, "  {:<30} {lists:>6}", "all")?;
        }
        writeln!(to, "calls of pegs: {}", self.outcomes.iter().sum::<u64>())?;
        writeln!(to, "rows of pegs: {}", self.rows)
    }
}
