//! The lines of a road for drawing, from the items themselves, so that a refused road has them too. What is printed as a
//! number never comes from here.

use reference::file::{Alignment, Kind};
use reference::fraction::Fraction;
use reference::road::{curvature_at_ends, element_starts, tangent_starts};

use crate::between_arcs::{between_arcs, BetweenArcs};

/// A vertex between two tangents; lengths in mm, grades as parts of one.
#[derive(Clone, Copy, Debug)]
pub struct Vertex {
    pub station: f64,
    pub height: f64,
    pub half_length: f64,
    pub before: f64,
    pub after: f64,
}

impl Vertex {
    pub fn from(&self) -> f64 {
        self.station - self.half_length
    }

    pub fn to(&self) -> f64 {
        self.station + self.half_length
    }

    fn holds(&self, station: f64) -> bool {
        self.half_length > 0.0 && (station - self.station).abs() <= self.half_length
    }

    fn height_in_curve(&self, station: f64) -> f64 {
        let past = station - self.from();
        let prolonged = self.height + self.before * (station - self.station);
        prolonged + (self.after - self.before) * past * past / (4.0 * self.half_length)
    }

    /// Where the curve is level, if it is.
    fn summit(&self) -> Option<f64> {
        let past = -self.before * 2.0 * self.half_length / (self.after - self.before);
        (past > 0.0 && past < 2.0 * self.half_length).then_some(self.from() + past)
    }
}

/// The axis in height.
pub struct Profile {
    start_height: f64,
    start_grade: f64,
    end: f64,
    pub vertices: Vec<Vertex>,
}

impl Profile {
    pub fn new(alignment: &Alignment) -> Profile {
        let grade = |place: usize| alignment.tangents[place].grade as f64 / 1e6;
        let starts = tangent_starts(alignment);
        let mut height = alignment.start_height as f64;
        let mut vertices = Vec::new();
        for (place, pair) in alignment.tangents.windows(2).enumerate() {
            height += pair[0].length as f64 * grade(place);
            vertices.push(Vertex {
                station: starts[place + 1] as f64,
                height,
                half_length: pair[0].half_length as f64,
                before: grade(place),
                after: grade(place + 1),
            });
        }
        Profile {
            start_height: alignment.start_height as f64,
            start_grade: grade(0),
            end: starts.last().copied().unwrap_or(0) as f64,
            vertices,
        }
    }

    pub fn height(&self, station: f64) -> f64 {
        if let Some(vertex) = self.vertices.iter().find(|vertex| vertex.holds(station)) {
            return vertex.height_in_curve(station);
        }
        let before = self.vertices.iter().rfind(|v| v.station <= station);
        match before {
            None => self.start_height + self.start_grade * station,
            Some(vertex) => vertex.height + vertex.after * (station - vertex.station),
        }
    }

    /// The stations from one to another between which the axis is one straight or one parabola, both ends among them.
    pub fn breaks(&self, from: f64, to: f64) -> Vec<f64> {
        let to = to.min(self.end);
        let ends = self.vertices.iter().flat_map(|vertex| {
            let middle = (vertex.half_length == 0.0).then_some(vertex.station);
            middle.into_iter().chain([vertex.from(), vertex.to()])
        });
        let mut breaks: Vec<f64> = ends.filter(|&s| from < s && s < to).collect();
        breaks.extend([from, to]);
        breaks.sort_by(f64::total_cmp);
        breaks.dedup();
        breaks.retain(|&station| station <= to);
        breaks
    }

    /// The lowest and the highest of axis and vertices from one station to another.
    pub fn range(&self, from: f64, to: f64) -> (f64, f64) {
        let summits = self.vertices.iter().filter_map(Vertex::summit);
        let mut stations: Vec<f64> = summits.filter(|&s| from < s && s < to).collect();
        stations.extend(self.breaks(from, to));
        let vertices = self
            .vertices
            .iter()
            .filter(|v| from < v.station && v.station < to);
        let heights = stations.iter().map(|&station| self.height(station));
        let heights = heights.chain(vertices.map(|vertex| vertex.height));
        heights.fold((f64::MAX, f64::MIN), |(low, high), height| {
            (low.min(height), high.max(height))
        })
    }
}

/// An element of the plan with its curvature at both ends, in parts of one per mm.
#[derive(Clone, Copy, Debug)]
pub struct Bend {
    pub from: i128,
    pub to: i128,
    pub kind: Kind,
    pub between_arcs: Option<BetweenArcs>,
    /// In mm, positive for a right turn; 0 where the element is no arc.
    pub radius: i128,
    pub at_start: f64,
    pub at_end: f64,
}

/// The elements; a clothoid runs from the curvature at its start to that at its end.
pub fn bends(alignment: &Alignment) -> Vec<Bend> {
    let starts = element_starts(alignment);
    let bend = |place: usize| {
        let element = alignment.elements[place];
        let (at_start, at_end) = curvature_at_ends(alignment, place);
        Bend {
            from: starts[place],
            to: starts[place + 1],
            kind: element.kind,
            between_arcs: between_arcs(alignment, place),
            radius: element.radius,
            at_start: per_mm(at_start),
            at_end: per_mm(at_end),
        }
    };
    (0..alignment.elements.len()).map(bend).collect()
}

/// Millionths per metre in parts of one per mm.
fn per_mm(curvature: Fraction) -> f64 {
    curvature.numerator as f64 / curvature.denominator as f64 / 1e9
}
