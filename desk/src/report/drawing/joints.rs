//! The table below the drawings: stations and heights of the joints, then of other rows where there is room, and the
//! reasons why they are listed.

use reference::stations::Reason;

use super::canvas::{Anchor, Size};
use super::columns::Column;
use super::heads::{self, Entry};
use super::path::Path;
use super::sheet::{Detail, Sheet, LEFT, RIGHT};
use super::text_width;
use crate::language::Language;
use crate::report::shown::station;
use crate::rows::Row;
use crate::words::{report as words, Phrase};

/// Between the drawings and the table, for the lines from the stations to their columns.
const LEADERS: f64 = 17.0;

/// A row of the table: its name, and a list's row as it stands there.
type Numbers = (Phrase, fn(&Row, Language) -> String);

const NUMBERS: [Numbers; 4] = [
    (words::STATION, |row, _| station(row.station)),
    (words::AXIS_HEIGHT, |row, language| {
        language.thousandths(row.height)
    }),
    (words::LEFT_EDGE_HEIGHT, |row, language| {
        language.thousandths(row.left_edge)
    }),
    (words::RIGHT_EDGE_HEIGHT, |row, language| {
        language.thousandths(row.right_edge)
    }),
];

/// What the table says of a reason: the item's number, or a dot where there is none.
enum Told {
    Dot,
    Number(usize),
}

type Reasons = (Phrase, fn(Reason) -> Option<Told>);

const REASONS: [Reasons; 7] = [
    (words::START_OR_END, |reason| match reason {
        Reason::Start | Reason::End => Some(Told::Dot),
        _ => None,
    }),
    (words::STEP_MULTIPLE, |reason| match reason {
        Reason::MultipleOfStep => Some(Told::Dot),
        _ => None,
    }),
    (words::ELEMENT_END, |reason| match reason {
        Reason::ElementEnd(place) => Some(Told::Number(place)),
        _ => None,
    }),
    (words::CURVE_BEGINNING, |reason| match reason {
        Reason::CurveStart(place) => Some(Told::Number(place)),
        _ => None,
    }),
    (words::CURVE_END, |reason| match reason {
        Reason::CurveEnd(place) => Some(Told::Number(place)),
        _ => None,
    }),
    (words::VERTEX, |reason| match reason {
        Reason::Vertex(place) => Some(Told::Number(place)),
        _ => None,
    }),
    (words::POINT, |reason| match reason {
        Reason::CrossfallPoint(place) => Some(Told::Number(place)),
        _ => None,
    }),
];

pub fn draw(sheet: &mut Sheet) {
    if sheet.columns.is_empty() {
        return;
    }
    let columns = std::mem::take(&mut sheet.columns);
    joint_lines(sheet, &columns);
    // the edges of a long road stand in its list
    let shown = if sheet.detail == Detail::Strip { 2 } else { 4 };
    for (phrase, number) in &NUMBERS[..shown] {
        let language = sheet.view.language;
        let texts = columns
            .iter()
            .map(|column| (column.x, number(&column.row, language)));
        row(sheet, *phrase, texts.collect(), Anchor::End, &[]);
    }
    for (phrase, told) in &REASONS {
        reason_row(sheet, &columns, *phrase, *told);
    }
}

/// Lines from the top of the drawings down to the columns.
fn joint_lines(sheet: &mut Sheet, columns: &[Column]) {
    let mut lines = Path::default();
    for column in columns.iter().filter(|column| column.is_joint()) {
        lines.upright(sheet.x(column.row.station as f64), sheet.top, sheet.y);
        lines.line_to(column.x, sheet.y + LEADERS - 2.0);
    }
    sheet.canvas.path_behind("joint", lines);
    sheet.y += LEADERS;
}

fn reason_row(
    sheet: &mut Sheet,
    columns: &[Column],
    phrase: Phrase,
    told: fn(Reason) -> Option<Told>,
) {
    let mut dots = Vec::new();
    let mut texts = Vec::new();
    for column in columns {
        for reason in &column.reasons {
            match told(*reason) {
                Some(Told::Dot) => dots.push(column.x),
                Some(Told::Number(number)) => texts.push((column.x, number.to_string())),
                None => {}
            }
        }
    }
    if !dots.is_empty() || !texts.is_empty() {
        row(sheet, phrase, texts, Anchor::Middle, &dots);
    }
}

/// A row of the table: its name, upright texts and dots, each at its place along the row.
fn row(sheet: &mut Sheet, phrase: Phrase, texts: Vec<(f64, String)>, anchor: Anchor, dots: &[f64]) {
    let top = sheet.y + 2.0;
    let name = Entry::Words(sheet.say(phrase));
    let below = heads::put(&mut sheet.canvas, top - 1.0, LEFT - 4.0, &[name]);
    let widths = texts.iter().map(|(_, text)| upright_width(text));
    let height = widths.fold(below - top, f64::max);
    let middle = top + height / 2.0;
    let y = if anchor == Anchor::Middle {
        middle
    } else {
        top
    };
    for (x, text) in &texts {
        sheet.canvas.put_upright(*x, y, anchor, text);
    }
    let mut path = Path::default();
    for &x in dots {
        path.dot(x, middle);
    }
    sheet.canvas.path("rows", path);
    sheet.y = top + height + 2.0;
    let mut line = Path::default();
    line.level(sheet.y, 0.0, RIGHT);
    sheet.canvas.path("grid", line);
}

fn upright_width(text: &str) -> f64 {
    text_width::width(text) * Size::Small.units()
}
