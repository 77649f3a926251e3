//! The seven marks of a file, and which of them were seen.

use std::fmt;

use reference::file::Alignment;
use reference::limits::{limits, limits_at, Limits, SPEEDS};
use reference::marks::Marks;
use reference::rules::judge_with;

/// Every set of seven marks has a number below this.
const SETS: usize = 1 << SPEEDS.len();

pub struct MarksSeen {
    /// Files by their marks as a number.
    files: [u64; SETS],
    /// Files that would have other marks by the lane width of their own class.
    by_lane_width: u64,
}

impl MarksSeen {
    pub fn new() -> MarksSeen {
        MarksSeen {
            files: [0; SETS],
            by_lane_width: 0,
        }
    }

    pub fn count(&mut self, road: &Alignment, marks: Marks) {
        self.files[marks.number() as usize] += 1;
        self.by_lane_width += u64::from(marks_by_own_lane(road) != marks);
    }

    /// The sets that were seen, with how many files have each.
    fn sets(&self) -> impl Iterator<Item = (Marks, u64)> + '_ {
        let counted = self.files.iter().enumerate();
        counted
            .filter(|(_, &files)| files > 0)
            .map(|(number, &files)| (marks_of_number(number), files))
    }

    /// How many files have the mark of each speed, or do not have it.
    fn files_by_mark(&self, wanted: bool) -> [u64; SPEEDS.len()] {
        let mut counts = [0; SPEEDS.len()];
        for (marks, files) in self.sets() {
            for (count, stands) in counts.iter_mut().zip(marks.stands) {
                *count += if stands == wanted { files } else { 0 };
            }
        }
        counts
    }
}

/// The marks with the lane width of the road's own class in every row.
fn marks_by_own_lane(road: &Alignment) -> Marks {
    let lane_width = limits(road).lane_width;
    let passes = |speed| {
        let row = Limits {
            lane_width,
            ..limits_at(speed, road.contract)
        };
        judge_with(road, &row).is_ok()
    };
    Marks {
        stands: SPEEDS.map(passes),
    }
}

fn marks_of_number(number: usize) -> Marks {
    let mut stands = [false; SPEEDS.len()];
    for (bit, stands) in stands.iter_mut().enumerate() {
        *stands = number >> bit & 1 == 1;
    }
    Marks { stands }
}

/// A speed passes although a lower one does not.
fn passes_above_a_gap(marks: Marks) -> bool {
    marks.stands.windows(2).any(|pair| !pair[0] && pair[1])
}

impl fmt::Display for MarksSeen {
    fn fmt(&self, to: &mut fmt::Formatter<'_>) -> fmt::Result {
        let row = |counts: [u64; SPEEDS.len()]| counts.map(|n| format!("{n:>7}")).join(" ");
        writeln!(
            to,
            "mark            {}",
            row(SPEEDS.map(|speed| speed as u64))
        )?;
        writeln!(to, "  stands        {}", row(self.files_by_mark(true)))?;
        writeln!(to, "  does not      {}", row(self.files_by_mark(false)))?;
        writeln!(to, "passes at                           files")?;
        for (marks, files) in self.sets() {
            let speeds: Vec<String> = marks.speeds().iter().map(|s| s.to_string()).collect();
            writeln!(to, "  {:<30} {files:>8}", speeds.join(" "))?;
        }
        let gaps: Vec<u64> = self
            .sets()
            .filter_map(|(marks, files)| passes_above_a_gap(marks).then_some(files))
            .collect();
        writeln!(
            to,
            "sets of marks: {}, where a speed passes and a lower one does not: {} in {} files",
            self.sets().count(),
            gaps.len(),
            gaps.iter().sum::<u64>()
        )?;
        writeln!(
            to,
            "files whose marks the lane width decides: {}",
            self.by_lane_width
        )
    }
}
