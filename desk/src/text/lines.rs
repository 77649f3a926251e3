//! The lines of a text: the word that each begins with, and the fields after it.

use crate::text::fields::{self, Field};

/// A part of the file, in the file's order.
#[derive(Clone, Copy, Debug, PartialEq, Eq, PartialOrd, Ord)]
pub enum Part {
    Date,
    Class,
    Terrain,
    Step,
    Ramp,
    Elements,
    Start,
    Tangents,
    Crossfalls,
}

impl Part {
    pub const ALL: [Part; 9] = [
        Part::Date,
        Part::Class,
        Part::Terrain,
        Part::Step,
        Part::Ramp,
        Part::Elements,
        Part::Start,
        Part::Tangents,
        Part::Crossfalls,
    ];

    /// The field that counts the items of a list; none of a part that is one number.
    pub fn count(self) -> Option<&'static Field> {
        match self {
            Part::Elements => Some(&fields::ELEMENT_COUNT),
            Part::Tangents => Some(&fields::TANGENT_COUNT),
            Part::Crossfalls => Some(&fields::POINT_COUNT),
            _ => None,
        }
    }

    /// A file may be without a contract date.
    pub fn is_optional(self) -> bool {
        self == Part::Date
    }

    /// Whether a number stands before the fields of the part or of its items.
    pub fn has_kind(self) -> bool {
        matches!(self, Part::Date | Part::Elements)
    }
}

/// What a line is to the file.
#[derive(Clone, Copy, Debug, PartialEq, Eq)]
pub enum Role {
    /// A part, or an item of its list.
    Of(Part),
    /// A list's count, in place of the computed one.
    Count(Part),
    /// A number or a signed value that stands for itself.
    Number,
    /// Bytes as they are.
    Bytes,
}

pub struct Line {
    pub keyword: &'static str,
    pub role: Role,
    /// The number before the fields: an element's kind, or the 9 before a contract date.
    pub kind: Option<i64>,
    pub fields: &'static [Field],
    /// The word and the field that may follow: `curve` and a half length.
    pub ending: Option<(&'static str, Field)>,
    pub example: &'static str,
}

const fn line(
    keyword: &'static str,
    role: Role,
    fields: &'static [Field],
    example: &'static str,
) -> Line {
    Line {
        keyword,
        role,
        kind: None,
        fields,
        ending: None,
        example,
    }
}

const fn element(
    keyword: &'static str,
    kind: i64,
    fields: &'static [Field],
    example: &'static str,
) -> Line {
    Line {
        kind: Some(kind),
        ..line(keyword, Role::Of(Part::Elements), fields, example)
    }
}

const fn tangent(example: &'static str) -> Line {
    let fields = &[fields::LENGTH, fields::GRADE];
    Line {
        ending: Some((CURVE, fields::HALF_LENGTH)),
        ..line("tangent", Role::Of(Part::Tangents), fields, example)
    }
}

/// "A file beginning with 9 has the contract date next".
pub const DATED: i64 = 9;

/// The word before a half length.
pub const CURVE: &str = "curve";

/// The lines of a whole alignment, in the file's order.
pub const WHOLE: &[Line] = &[
    Line {
        kind: Some(DATED),
        ..line(
            "date",
            Role::Of(Part::Date),
            &[fields::DATE],
            "date 2011-12-31",
        )
    },
    line("class", Role::Of(Part::Class), &[fields::CLASS], "class 4"),
    line(
        "terrain",
        Role::Of(Part::Terrain),
        &[fields::TERRAIN],
        "terrain 3",
    ),
    line("step", Role::Of(Part::Step), &[fields::STEP], "step 50000"),
    line("ramp", Role::Of(Part::Ramp), &[fields::RAMP], "ramp 5000"),
    element("straight", 0, &[fields::LENGTH], "straight 200000"),
    element("clothoid", 2, &[fields::LENGTH], "clothoid 30000"),
    element(
        "arc",
        1,
        &[fields::LENGTH, fields::RADIUS],
        "arc 40000 -175000",
    ),
    line(
        "start",
        Role::Of(Part::Start),
        &[fields::START],
        "start 500000",
    ),
    tangent("tangent 100000 20000 curve 20000"),
    line(
        "crossfall",
        Role::Of(Part::Crossfalls),
        &[fields::STATION, fields::LEFT, fields::RIGHT],
        "crossfall 0 -25000 -25000",
    ),
];

/// Lines for files that no desk would send.
pub const ESCAPES: &[Line] = &[
    line(
        "elements",
        Role::Count(Part::Elements),
        &[fields::ELEMENT_COUNT],
        "elements 5",
    ),
    line(
        "tangents",
        Role::Count(Part::Tangents),
        &[fields::TANGENT_COUNT],
        "tangents 2",
    ),
    line(
        "crossfalls",
        Role::Count(Part::Crossfalls),
        &[fields::POINT_COUNT],
        "crossfalls 2",
    ),
    line("number", Role::Number, &[fields::NUMBER], "number 300"),
    line("signed", Role::Number, &[fields::SIGNED], "signed -5"),
    line("bytes", Role::Bytes, &[], "bytes 80 00 times 9"),
];

/// Every line, those of a whole alignment first.
pub fn all() -> impl Iterator<Item = &'static Line> {
    WHOLE.iter().chain(ESCAPES)
}

pub fn named(keyword: &str) -> Option<&'static Line> {
    all().find(|line| line.keyword == keyword)
}

/// The line of a part, or of a list's items of a kind.
pub fn of(part: Part, kind: Option<i64>) -> Option<&'static Line> {
    WHOLE
        .iter()
        .find(|line| line.role == Role::Of(part) && line.kind == kind)
}

/// The line of a list's count.
pub fn count_of(part: Part) -> Option<&'static Line> {
    ESCAPES.iter().find(|line| line.role == Role::Count(part))
}
