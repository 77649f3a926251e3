//! The data of an SVG path, in tenths of a unit; after its first point each is told from the one before, which is shorter.

use super::canvas::{tenths, tenths_shown};

#[derive(Clone, Default)]
pub struct Path {
    pub data: String,
    last: (i64, i64),
}

impl Path {
    pub fn is_empty(&self) -> bool {
        self.data.is_empty()
    }

    pub fn move_to(&mut self, x: f64, y: f64) {
        self.last = (tenths(x), tenths(y));
        self.data.push('M');
        self.write_numbers(&[self.last.0, self.last.1]);
    }

    pub fn line_to(&mut self, x: f64, y: f64) {
        let (x, y) = (tenths(x), tenths(y));
        match (x - self.last.0, y - self.last.1) {
            (across, 0) => self.write('h', &[across]),
            (0, up) => self.write('v', &[up]),
            (across, up) => self.write('l', &[across, up]),
        }
        self.last = (x, y);
    }

    /// A parabola whose tangents at both ends meet at the middle point.
    pub fn parabola_to(&mut self, middle: (f64, f64), end: (f64, f64)) {
        let [middle, end] = [middle, end].map(|(x, y)| (tenths(x), tenths(y)));
        let (x, y) = self.last;
        self.write('q', &[middle.0 - x, middle.1 - y, end.0 - x, end.1 - y]);
        self.last = end;
    }

    /// A vertical line.
    pub fn upright(&mut self, x: f64, from: f64, to: f64) {
        self.move_to(x, from);
        self.line_to(x, to);
    }

    /// A horizontal line.
    pub fn level(&mut self, y: f64, from: f64, to: f64) {
        self.move_to(from, y);
        self.line_to(to, y);
    }

    /// A dot, where the style has round ends.
    pub fn dot(&mut self, x: f64, y: f64) {
        self.move_to(x, y);
        self.write('h', &[0]);
    }

    pub fn close(&mut self) {
        self.data.push('z');
    }

    /// A line through points.
    pub fn through(points: impl IntoIterator<Item = (f64, f64)>) -> Path {
        let mut path = Path::default();
        for (x, y) in points {
            if path.is_empty() {
                path.move_to(x, y);
            } else {
                path.line_to(x, y);
            }
        }
        path
    }

    /// A level line over each stretch, at its height, joined by upright lines.
    pub fn steps(stretches: impl IntoIterator<Item = (f64, f64, f64)>) -> Path {
        let mut path = Path::default();
        let mut reached = 0.0;
        for (from, to, y) in stretches {
            if path.is_empty() {
                path.move_to(from, y);
            } else if tenths(y) != path.last.1 {
                let last = path.last.1 as f64 / 10.0;
                path.line_to(reached, last);
                path.line_to(reached, y);
            }
            reached = to;
        }
        if !path.is_empty() {
            let last = path.last.1 as f64 / 10.0;
            path.line_to(reached, last);
        }
        path
    }

    /// The area between this line and a level one below it.
    pub fn down_to(mut self, y: f64, start: f64) -> Path {
        if !self.is_empty() {
            let end = self.last.0 as f64 / 10.0;
            self.line_to(end, y);
            self.line_to(start, y);
            self.close();
        }
        self
    }

    fn write(&mut self, letter: char, numbers: &[i64]) {
        self.data.push(letter);
        self.write_numbers(numbers);
    }

    /// A sign stands for the blank before a number.
    fn write_numbers(&mut self, numbers: &[i64]) {
        for (index, number) in numbers.iter().enumerate() {
            if index > 0 && *number >= 0 {
                self.data.push(' ');
            }
            self.data += &tenths_shown(*number);
        }
    }
}

#[cfg(test)]
mod tests {
    use super::*;

    #[test]
    fn each_point_from_the_one_before() {
        let path = Path::through([(1.0, 2.0), (3.04, 1.5), (3.0, 4.0), (0.0, 4.0)]);
        assert_eq!(path.data, "M1 2l2-.5v2.5h-3");
    }

    #[test]
    fn steps_of_one_height_are_one_line() {
        let path = Path::steps([(0.0, 2.0, 5.0), (2.0, 4.0, 5.0), (4.0, 6.0, 3.0)]);
        assert_eq!(path.data, "M0 5h4v-2h2");
        assert_eq!(path.down_to(9.0, 0.0).data, "M0 5h4v-2h2v6h-6z");
    }
}
