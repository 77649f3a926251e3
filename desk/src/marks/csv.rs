//! The marks of several roads with commas, for a spreadsheet.

use super::verdicts::Marked;
use crate::csv::text_cell;

pub const HEAD: &str = "file,design_speed_kmh,speed_kmh,passes,refusal,place\n";

/// A line for each speed: 1 where the road passes, otherwise 0 and the first refusal.
pub fn lines(name: &str, road: &Marked) -> String {
    let begin = format!("{},{}", text_cell(name), road.design_speed());
    let lines = road.verdicts.iter().map(|verdict| {
        let said = match verdict.refusal {
            None => "1,,".to_string(),
            Some(refusal) => format!("0,{},{}", refusal.number, refusal.place),
        };
        format!("{begin},{},{said}\n", verdict.speed)
    });
    lines.collect()
}

/// One line without speeds.
pub fn unread(name: &str, refusal: proved::Refusal) -> String {
    let (number, place) = (refusal.number(), refusal.place());
    format!("{},,,,{number},{place}\n", text_cell(name))
}
