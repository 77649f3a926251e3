//! The head of a page: what the file says of the whole road, and the limits of its speed.

use reference::file::Alignment;

use super::page::Writer;
use super::shown;
use crate::help;
use crate::rows::Row;
use crate::rule_book::{book_line, class_name, lines, terrain_name};
use crate::text::date;
use crate::words::report as words;
use crate::words::text::DATE;

/// Facts, then limits; a refused road has no rows.
pub fn write(page: &mut Writer, alignment: &Alignment, rows: &[Row]) {
    let mut facts = facts(page, alignment, rows);
    let lines = lines(
        alignment.class,
        alignment.terrain,
        alignment.contract,
        page.language,
    );
    facts.extend(lines.into_iter().map(|line| (line.name, line.value)));
    facts.push((page.say(words::MADE_BY), version()));
    page.facts(&facts);
}

fn facts(page: &Writer, alignment: &Alignment, rows: &[Row]) -> Vec<(String, String)> {
    let language = page.language;
    let fact = |name, value: String| (page.say(name), value);
    let metres = |value| shown::metres(value, language);
    let count = |count: usize| language.number(count as i128);
    let date = date::of(alignment.contract);
    let mut facts: Vec<_> = date.map(|date| fact(DATE, date)).into_iter().collect();
    let book = book_line(alignment.contract, language);
    facts.push((book.name, book.value));
    facts.extend([
        fact(words::CLASS, page.say(class_name(alignment.class))),
        fact(words::TERRAIN, page.say(terrain_name(alignment.terrain))),
        fact(words::LENGTH, metres(alignment.total_length())),
        fact(words::STEP, metres(alignment.step)),
        fact(
            words::RAMP_LIMIT,
            shown::percent(alignment.ramp_limit, language),
        ),
        fact(words::ELEMENTS, count(alignment.elements.len())),
        fact(words::TANGENTS, count(alignment.tangents.len())),
        fact(words::POINTS, count(alignment.points.len())),
    ]);
    let heights = || rows.iter().map(|row| row.height);
    if let (Some(lowest), Some(highest)) = (heights().min(), heights().max()) {
        let height = |value| format!("{} m", language.thousandths(value));
        facts.push(fact(words::ROW_COUNT, count(rows.len())));
        facts.push(fact(words::LOWEST, height(lowest)));
        facts.push(fact(words::HIGHEST, height(highest)));
    }
    facts
}

/// The command's name and version.
fn version() -> String {
    let version = help::version();
    version.lines().next().unwrap_or("voardusk").to_string()
}
