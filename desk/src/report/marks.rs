//! The items that a refused file's findings name.

use crate::why::Finding;

/// An item of one of the three lists.
#[derive(Clone, Copy, Debug, PartialEq, Eq)]
pub enum Item {
    /// The plan count stands for the end of the plan.
    Element(usize),
    Tangent(usize),
    Vertex(usize),
    Point(usize),
    /// Where the tangents end.
    ProfileEnd,
}

/// An item with the numbers of its findings, counted from 1.
#[derive(Clone, Debug, PartialEq, Eq)]
pub struct Mark {
    pub item: Item,
    pub numbers: String,
}

/// The item that a refusal's place counts.
fn item(finding: &Finding) -> Option<Item> {
    let place = usize::try_from(finding.place).ok()?;
    match finding.number {
        6 => Some(Item::ProfileEnd),
        5 | 7..=12 | 19 | 23 => Some(Item::Element(place)),
        13 | 14 => Some(Item::Tangent(place)),
        15 => Some(Item::Vertex(place)),
        16..=18 => Some(Item::Point(place)),
        _ => None,
    }
}

/// A mark for each item that is named, with all its findings.
pub fn marks(findings: &[Finding]) -> Vec<Mark> {
    let mut marks: Vec<Mark> = Vec::new();
    for (index, finding) in findings.iter().enumerate() {
        let Some(item) = item(finding) else { continue };
        let number = (index + 1).to_string();
        match marks.iter_mut().find(|mark| mark.item == item) {
            Some(mark) => mark.numbers += &format!(", {number}"),
            None => marks.push(Mark {
                item,
                numbers: number,
            }),
        }
    }
    marks
}
