//! One SVG document of three drawings: the profile, the blade between two rows, and the same with a row left out.

use super::blade_drawings::greatest_share;
use super::drawing::canvas::shown as coordinate;
use super::drawing::sheet::{self, Detail, Drawing, WIDTH};
use super::drawing::style;
use super::html::escaped;
use super::strips::scales;
use super::view::View;
use crate::agreement::Listed;
use crate::language::Language;

/// The room of the profile.
const ROOM: f64 = 190.0;

pub fn svg(listed: &Listed, language: Language) -> String {
    let view = View::of_listed(listed, language);
    let end = view.reach();
    let scales = scales(&view, &[(0, end)], ROOM);
    let mut drawings = vec![sheet::draw(&view, 0, end, Detail::ProfileOnly, scales)];
    drawings.extend(greatest_share(&view));
    stacked(&drawings)
}

/// Drawings below each other in one document.
fn stacked(drawings: &[Drawing]) -> String {
    let mut body = String::new();
    let mut y = 10.0;
    for drawing in drawings {
        let (top, elements) = (coordinate(y), drawing.canvas.elements());
        body += &format!("<g transform=\"translate(0 {top})\">{elements}</g>\n");
        y += drawing.height + 26.0;
    }
    let title = drawings.first().map_or("", |drawing| &drawing.title);
    let (width, height) = (coordinate(WIDTH + 20.0), coordinate(y));
    format!(
        "<svg xmlns=\"http://www.w3.org/2000/svg\" viewBox=\"-10 0 {width} {height}\" width=\"{width}\" height=\"{height}\" role=\"img\">\n\
         <title>{}</title>\n<style>{}</style>\n<rect x=\"-10\" width=\"{width}\" height=\"{height}\" fill=\"#fff\"/>\n{body}</svg>\n",
        escaped(title),
        style::STYLE,
    )
}

#[cfg(test)]
mod tests {
    use super::*;
    use crate::agreement::{agreed, Agreed};

    #[test]
    fn the_crest() {
        let file = include_bytes!("../../../examples/crest.alignment");
        let Ok(Agreed::Listed(listed)) = agreed(file, Language::English) else {
            panic!("the crest is listed")
        };
        let svg = svg(&listed, Language::English);
        assert!(svg.contains("50.25 mm apart; proved: at most 1 + 50.00 mm"));
        assert!(svg.contains("128.25 mm apart"));
    }
}
