//! `why --limits`: the speeds and the limits as tables.

use reference::file::Contract;
use reference::limits::{limits_at, speed, SPEEDS};

use crate::language::Language;
use crate::rule_book::{class_name, clothoid_limit, other_contract, terrain_name};
use crate::words::{limits as words, Phrase};

/// The speeds, today's limits, and those of the old handbook that are other; an empty line between them.
pub fn tables(language: Language) -> String {
    let line = |phrase| language.say(phrase, &[]) + "\n";
    let parts = [
        table(&speed_rows(language)),
        line(words::TODAY_TABLE),
        table(&limit_rows(language)),
        line(words::OLD_TABLE),
        table(&old_rows(language)),
    ];
    parts.join("\n")
}

/// Rows of cells, the first of them the head.
fn table(rows: &[Vec<String>]) -> String {
    let mut out = String::new();
    for (place, row) in rows.iter().enumerate() {
        out += &format!("| {} |\n", row.join(" | "));
        if place == 0 {
            out += &format!("|{}\n", "---|".repeat(row.len()));
        }
    }
    out
}

fn speed_rows(language: Language) -> Vec<Vec<String>> {
    let terrains = (1..=3).map(|terrain| language.say(terrain_name(terrain), &[]));
    let head = [language.say(words::SPEED_BY, &[])]
        .into_iter()
        .chain(terrains);
    let row = |class| {
        let name = language.say(class_name(class), &[]);
        let speeds = (1..=3).map(|terrain| speed(class, terrain).to_string());
        [format!("{class} {name}")]
            .into_iter()
            .chain(speeds)
            .collect()
    };
    [head.collect()]
        .into_iter()
        .chain((1..=4).map(row))
        .collect()
}

const HEAD: [(Phrase, &str); 11] = [
    (words::SPEED, "km/h"),
    (words::STRAIGHT_MAX, "m"),
    (words::STRAIGHT_MIN, "m"),
    (words::RADIUS_MIN, "m"),
    (words::RADIUS_BOTH_FALLING, "m"),
    (words::CLOTHOID_MIN, "m"),
    (words::ARC_MIN, "m"),
    (words::GRADE_MAX, "%"),
    (words::SAG_RADIUS, "m"),
    (words::CREST_RADIUS, "m"),
    (words::LANE, "m"),
];

const OLD_HEAD: [(Phrase, &str); 3] = [
    (words::SPEED, "km/h"),
    (words::RADIUS_MIN, "m"),
    (words::CLOTHOID_LENGTH_MIN, "m"),
];

/// A head, then the row of each speed.
fn rows(
    head: &[(Phrase, &str)],
    row: fn(i128, Language) -> Vec<String>,
    language: Language,
) -> Vec<Vec<String>> {
    let cells = head.iter();
    let head = cells.map(|(name, unit)| format!("{}, {unit}", language.say(*name, &[])));
    let rows = SPEEDS.map(|speed| row(speed, language));
    [head.collect()].into_iter().chain(rows).collect()
}

fn limit_rows(language: Language) -> Vec<Vec<String>> {
    rows(&HEAD, limit_row, language)
}

fn limit_row(speed: i128, language: Language) -> Vec<String> {
    let row = limits_at(speed, Contract::Undated);
    let metres = |value: i128| language.number(value / 1_000);
    let metres_or_none = |value: Option<i128>| value.map_or("-".to_string(), metres);
    vec![
        speed.to_string(),
        metres_or_none(row.straight_max),
        metres_or_none(row.straight_min),
        metres(row.radius_min),
        metres_or_none(row.radius_both_falling),
        metres(clothoid_limit(row.clothoid).1),
        metres(row.arc_min),
        language.decimals(row.grade_max / 1_000, 1),
        metres(row.sag_radius),
        metres(row.crest_radius),
        language.decimals(row.lane_width / 10, 2),
    ]
}

fn old_rows(language: Language) -> Vec<Vec<String>> {
    rows(&OLD_HEAD, old_row, language)
}

fn old_row(speed: i128, language: Language) -> Vec<String> {
    let row = limits_at(speed, other_contract(Contract::Undated));
    let (_, clothoid) = clothoid_limit(row.clothoid);
    let limits = [row.radius_min, clothoid].map(|value| language.number(value / 1_000));
    [speed.to_string()].into_iter().chain(limits).collect()
}
