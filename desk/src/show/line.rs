//! A line of the text, with the comments around it.

use crate::text::file::Item;

/// Where a remark begins.
const COLUMN: usize = 40;

pub struct Line {
    /// The first byte that the line stands for.
    pub from: usize,
    /// None of bytes that are no number.
    pub item: Option<Item>,
    /// Whether an empty line comes before.
    pub begins_part: bool,
    pub above: Vec<String>,
    /// What `make` reads; empty where the remark alone is shown.
    pub written: String,
    pub remark: String,
    pub below: Vec<String>,
}

impl Line {
    pub fn new(from: usize, item: Option<Item>, written: String, remark: String) -> Line {
        Line {
            from,
            item,
            begins_part: false,
            above: Vec::new(),
            written,
            remark,
            below: Vec::new(),
        }
    }

    pub fn print(&self, out: &mut String) {
        if self.begins_part {
            out.push('\n');
        }
        comments(&self.above, out);
        let line = match (self.written.as_str(), self.remark.as_str()) {
            (written, "") => written.to_string(),
            ("", remark) => format!("# {remark}"),
            (written, remark) => format!("{written:<COLUMN$}# {remark}"),
        };
        out.push_str(&line);
        out.push('\n');
        comments(&self.below, out);
    }
}

/// Each on a line of its own.
pub fn comments(lines: &[String], out: &mut String) {
    for line in lines {
        out.push_str("# ");
        out.push_str(line);
        out.push('\n');
    }
}
