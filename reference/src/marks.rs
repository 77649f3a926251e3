//! "Which speeds would it pass?": the seven marks of a file.

use crate::file::{read, Alignment, Refusal};
use crate::limits::{limits_at, SPEEDS};
use crate::rules;

/// "a set of seven marks", one for each of the speeds, in their order.
#[derive(Clone, Copy, Debug, PartialEq, Eq)]
pub struct Marks {
    pub stands: [bool; SPEEDS.len()],
}

impl Marks {
    /// "40 km/h in the lowest bit up to 100 in the seventh"
    pub fn number(self) -> i128 {
        let bits = (0..).zip(self.stands);
        bits.map(|(bit, stands)| i128::from(stands) << bit).sum()
    }

    /// The speeds whose marks stand.
    pub fn speeds(self) -> Vec<i128> {
        let marked = SPEEDS.into_iter().zip(self.stands);
        marked
            .filter_map(|(speed, stands)| stands.then_some(speed))
            .collect()
    }
}

/// "A file that 1 to 4 or 22 turn away gets that refusal."
pub fn marks(file: &[u8]) -> Result<Marks, Refusal> {
    Ok(marks_of(&read(file)?))
}

/// "A mark stands if and only if the file passes every rule after the reading rules".
pub fn marks_of(alignment: &Alignment) -> Marks {
    Marks {
        stands: SPEEDS.map(|speed| first_refusal_at(alignment, speed).is_none()),
    }
}

/// What turns a road away "with that speed's row in place of the class's, lane width included", or none where it
/// passes. The contract, and with it the rule book, stays the file's.
pub fn first_refusal_at(alignment: &Alignment, speed: i128) -> Option<Refusal> {
    let limits = limits_at(speed, alignment.contract);
    rules::judge_with(alignment, &limits).err()
}
