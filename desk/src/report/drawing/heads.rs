//! What stands at the left of a band: its name, its unit, and what its lines are.

use super::canvas::{Anchor, Canvas, Label, Size};
use super::path::Path;
use super::text_width;

pub enum Entry {
    Words(String),
    /// A line's class and name.
    Line(&'static str, String),
}

/// The distance of two lines of text.
pub const PITCH: f64 = 11.5;

/// Puts entries below each other; gives where they end.
pub fn put(canvas: &mut Canvas, top: f64, room: f64, entries: &[Entry]) -> f64 {
    let mut y = top;
    for entry in entries {
        match entry {
            Entry::Words(words) => y = put_words(canvas, 0.0, y, room, words),
            Entry::Line(class, words) => {
                let mut sample = Path::default();
                sample.level(y + PITCH - 4.0, 0.0, 16.0);
                canvas.path(class, sample);
                y = put_words(canvas, 20.0, y, room - 20.0, words);
            }
        }
    }
    y
}

fn put_words(canvas: &mut Canvas, x: f64, top: f64, room: f64, words: &str) -> f64 {
    let mut y = top;
    for line in wrapped(words, room / Size::Small.units()) {
        y += PITCH;
        let label = Label::new(x, y - 1.0, Anchor::Start, line).sized(Size::Small);
        canvas.put(&label.styled("y"));
    }
    y
}

/// Words in lines that are at most so wide, in parts of the letters' size; a longer word stands alone.
pub fn wrapped(words: &str, room: f64) -> Vec<String> {
    let mut lines: Vec<String> = Vec::new();
    for word in words.split(' ') {
        match lines.last_mut() {
            Some(line) if text_width::width(line) + text_width::width(word) + 0.4 <= room => {
                line.push(' ');
                line.push_str(word);
            }
            _ => lines.push(word.to_string()),
        }
    }
    lines
}

#[cfg(test)]
mod tests {
    use super::*;

    #[test]
    fn lines_of_words() {
        assert_eq!(wrapped("element ends", 20.0), vec!["element ends"]);
        assert_eq!(wrapped("element ends", 5.0), vec!["element", "ends"]);
    }
}
