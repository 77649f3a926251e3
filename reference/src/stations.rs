//! "Listed stations, ascending, each one time".

use std::collections::BTreeSet;

use crate::file::Alignment;
use crate::road;

/// Why a station is listed; the number is the element, vertex or crossfall point, counted from 0.
#[derive(Clone, Copy, Debug, PartialEq, Eq)]
pub enum Reason {
    Start,
    End,
    MultipleOfStep,
    ElementEnd(usize),
    CurveStart(usize),
    CurveEnd(usize),
    Vertex(usize),
    CrossfallPoint(usize),
}

/// "0, T, [..] all element ends, both ends of each curve with h > 0, each vertex with h = 0, all
/// crossfall points", without the multiples of step; in the paper's order.
pub fn marks(alignment: &Alignment) -> Vec<(i128, Reason)> {
    let mut marks = vec![(0, Reason::Start), (alignment.total_length(), Reason::End)];
    let ends = &road::element_starts(alignment)[1..];
    marks.extend((ends.iter().enumerate()).map(|(place, &end)| (end, Reason::ElementEnd(place))));
    let starts = road::tangent_starts(alignment);
    for vertex in 0..alignment.tangents.len() - 1 {
        let station = starts[vertex + 1];
        let half_length = alignment.tangents[vertex].half_length;
        if half_length > 0 {
            marks.push((station - half_length, Reason::CurveStart(vertex)));
            marks.push((station + half_length, Reason::CurveEnd(vertex)));
        } else {
            marks.push((station, Reason::Vertex(vertex)));
        }
    }
    let points = alignment.points.iter().enumerate();
    marks.extend(points.map(|(place, point)| (point.station, Reason::CrossfallPoint(place))));
    marks
}

fn marked_stations(alignment: &Alignment) -> Vec<i128> {
    let marks = marks(alignment).into_iter();
    marks.map(|(station, _)| station).collect()
}

/// All listed stations.
pub fn listed_stations(alignment: &Alignment) -> BTreeSet<i128> {
    let mut stations: BTreeSet<i128> = marked_stations(alignment).into_iter().collect();
    // "the multiples of step below T"
    let mut multiple = 0;
    while multiple < alignment.total_length() {
        stations.insert(multiple);
        multiple += alignment.step;
    }
    stations
}

/// "the least listed station not below that one, or that there is none"
pub fn next_station(alignment: &Alignment, station: i128) -> Option<i128> {
    let multiple = (station + alignment.step - 1) / alignment.step * alignment.step;
    let multiple_below_end = (multiple < alignment.total_length()).then_some(multiple);
    marked_stations(alignment)
        .into_iter()
        .filter(|&marked| marked >= station)
        .chain(multiple_below_end)
        .min()
}
