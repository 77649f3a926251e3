//! A road as the bytes of a file.

use reference::file::{Alignment, Contract, Kind};

use crate::text::lines::DATED;
use crate::text::numbers::{put, written};

/// The file of a road whose numbers are in their ranges.
pub fn file(road: &Alignment) -> Vec<u8> {
    let mut out = Vec::new();
    for number in numbers(road) {
        put(number, &mut out);
    }
    out
}

/// The numbers of a file, in order.
fn numbers(road: &Alignment) -> Vec<i64> {
    let plain = |value: i128| value as i64;
    let signed = |value: i128| written(value as i64);
    let mut all = match road.contract {
        Contract::Undated => Vec::new(),
        Contract::Dated(date) => vec![DATED, plain(date)],
    };
    all.extend([road.class, road.terrain, road.step, road.ramp_limit].map(plain));
    all.push(road.elements.len() as i64);
    for element in &road.elements {
        match element.kind {
            Kind::Straight => all.extend([0, plain(element.length)]),
            Kind::Arc => all.extend([1, plain(element.length), signed(element.radius)]),
            Kind::Clothoid => all.extend([2, plain(element.length)]),
        }
    }
    all.extend([signed(road.start_height), road.tangents.len() as i64]);
    for (place, tangent) in road.tangents.iter().enumerate() {
        all.extend([plain(tangent.length), signed(tangent.grade)]);
        if place + 1 < road.tangents.len() {
            all.push(plain(tangent.half_length));
        }
    }
    all.push(road.points.len() as i64);
    for point in &road.points {
        let sides = [point.left, point.right].map(signed);
        all.extend([plain(point.station), sides[0], sides[1]]);
    }
    all
}

#[cfg(test)]
mod tests {
    use super::*;

    #[test]
    fn a_file_that_is_read_is_written_again() {
        let mountain = include_bytes!("../../../../examples/mountain-access-road.alignment");
        let road = reference::file::read(mountain).expect("a file that can be read");
        assert_eq!(file(&road), mountain);
    }

    #[test]
    fn a_dated_file_is_written_again() {
        let crest = include_bytes!("../../../../examples/crest.alignment");
        let mut dated = vec![9];
        put(20_090_514, &mut dated);
        dated.extend(crest);
        let road = reference::file::read(&dated).expect("a file that can be read");
        assert_eq!(file(&road), dated);
    }
}
