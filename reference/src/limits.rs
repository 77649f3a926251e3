//! "Speed and its row", and the rule book that the contract date picks.

use crate::file::{Alignment, Contract};

/// "Roads contracted before 20120101 were designed by the old handbook, and their repairs must stay under it."
const FIRST_DAY_OF_TODAY: i128 = 20120101;

/// "The contract date picks the rule book."
#[derive(Clone, Copy, Debug, PartialEq, Eq)]
pub enum RuleBook {
    Today,
    OldHandbook,
}

/// "From 20120101 onward, and without a date, the limits are today's."
pub fn rule_book(contract: Contract) -> RuleBook {
    match contract {
        Contract::Undated => RuleBook::Today,
        Contract::Dated(date) if date < FIRST_DAY_OF_TODAY => RuleBook::OldHandbook,
        Contract::Dated(_) => RuleBook::Today,
    }
}

/// What refusal 12 asks of a clothoid.
#[derive(Clone, Copy, Debug, PartialEq, Eq)]
pub enum LeastClothoid {
    /// A min: its square is the least A squared.
    Parameter(i128),
    /// The least length of the old handbook, whatever the radii.
    Length(i128),
}

/// One row of the table, in millimetres and parts per million; `None` stands for "-".
#[derive(Clone, Copy, Debug)]
pub struct Limits {
    pub straight_max: Option<i128>,
    pub straight_min: Option<i128>,
    pub radius_min: i128,
    /// R', from which on -25,000 on both sides is allowed.
    pub radius_both_falling: Option<i128>,
    pub clothoid: LeastClothoid,
    pub arc_min: i128,
    pub grade_max: i128,
    pub sag_radius: i128,
    pub crest_radius: i128,
    pub lane_width: i128,
}

/// The table as printed: lengths in metres, 0 for "-", grade max in tenths of a percent,
/// lane in centimetres.
const TABLE: [[i128; 11]; 7] = [
    [40, 0, 0, 45, 0, 35, 22, 100, 550, 400, 275],
    [50, 0, 0, 75, 0, 55, 28, 90, 900, 800, 300],
    [60, 1200, 120, 120, 0, 75, 33, 80, 1250, 1250, 300],
    [70, 1400, 140, 175, 0, 100, 39, 70, 1800, 2000, 325],
    [80, 1600, 160, 250, 2500, 125, 44, 60, 2500, 3500, 325],
    [90, 1800, 180, 350, 2500, 155, 50, 55, 3250, 5500, 350],
    [100, 2000, 200, 450, 3000, 195, 56, 50, 4250, 8000, 350],
];

/// The old handbook, "second table of source document 003": speed, least clothoid length and R min, in metres.
const OLD_HANDBOOK: [[i128; 3]; 7] = [
    [40, 30, 45],
    [50, 40, 75],
    [60, 50, 120],
    [70, 60, 180],
    [80, 70, 250],
    [90, 90, 350],
    [100, 100, 450],
];

/// "Speed in km/h by terrain 1, 2, 3"
pub fn speed(class: i128, terrain: i128) -> i128 {
    let by_terrain = match class {
        1 => [100, 100, 80],
        2 => [100, 80, 70],
        3 => [80, 60, 50],
        4 => [60, 50, 40],
        _ => panic!("no such class"),
    };
    by_terrain[(terrain - 1) as usize]
}

/// The seven speeds, in km/h.
pub const SPEEDS: [i128; 7] = [40, 50, 60, 70, 80, 90, 100];

/// "The row of the speed decides every limit below."
pub fn limits(alignment: &Alignment) -> Limits {
    limits_at(
        speed(alignment.class, alignment.terrain),
        alignment.contract,
    )
}

/// The row of a speed in the rule book of a contract.
pub fn limits_at(speed: i128, contract: Contract) -> Limits {
    match rule_book(contract) {
        RuleBook::Today => limits_of_today(speed),
        RuleBook::OldHandbook => limits_of_old_handbook(speed),
    }
}

fn limits_of_today(speed: i128) -> Limits {
    let row = row_of(&TABLE, speed);
    let metres = |column: usize| row[column] * 1_000;
    let metres_or_none = |column: usize| (row[column] != 0).then_some(row[column] * 1_000);
    Limits {
        straight_max: metres_or_none(1),
        straight_min: metres_or_none(2),
        radius_min: metres(3),
        radius_both_falling: metres_or_none(4),
        clothoid: LeastClothoid::Parameter(metres(5)),
        arc_min: metres(6),
        grade_max: row[7] * 1_000,
        sag_radius: metres(8),
        crest_radius: metres(9),
        lane_width: row[10] * 10,
    }
}

/// "Before it, R min at 70 km/h is 180 m, and in refusal 12 A min gives way to a least clothoid length"; all else
/// is as today.
fn limits_of_old_handbook(speed: i128) -> Limits {
    let [_, clothoid_length, radius_min] = row_of(&OLD_HANDBOOK, speed);
    Limits {
        radius_min: radius_min * 1_000,
        clothoid: LeastClothoid::Length(clothoid_length * 1_000),
        ..limits_of_today(speed)
    }
}

fn row_of<const COLUMNS: usize>(table: &[[i128; COLUMNS]; 7], speed: i128) -> [i128; COLUMNS] {
    let row = table.iter().find(|row| row[0] == speed);
    *row.expect("a row for every speed")
}
