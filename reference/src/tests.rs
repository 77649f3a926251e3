//! The starred items and the sample list of document 01, and requests A.1 to A.5.

mod contract_date;
mod marks;
mod pegs;
mod reversing_bends_and_eggs;
mod two_rule_books;

use crate::file::{read, Refusal};
use crate::fraction::Fraction;
use crate::machine::{accept, list, next_station, printed_list, row, Answer, PartAnswer};
use crate::{blade, road, stations};

/// A number in shortest form.
fn number(value: u64) -> Vec<u8> {
    let mut bytes = Vec::new();
    let mut rest = value;
    while rest >= 128 {
        bytes.push((rest % 128) as u8 + 128);
        rest /= 128;
    }
    bytes.push(rest as u8);
    bytes
}

fn signed(value: i64) -> u64 {
    if value >= 0 {
        2 * value as u64
    } else {
        (-2 * value - 1) as u64
    }
}

/// A file of numbers, given in groups.
fn file(groups: &[&[u64]]) -> Vec<u8> {
    let numbers = groups.concat();
    numbers.iter().flat_map(|&value| number(value)).collect()
}

fn refused(number: i128, place: i128) -> Option<Refusal> {
    Some(Refusal { number, place })
}

fn verdict(file: &[u8]) -> Option<Refusal> {
    accept(file).err()
}

/// A straight with two tangents, as in the paper's sample.
fn two_tangents(grade: i64, half_length: u64, next_grade: i64) -> Vec<u8> {
    let fall = signed(-25_000);
    file(&[
        &[4, 3, 50_000, 5_000],
        &[1, 0, 200_000],
        &[signed(500_000), 2],
        &[100_000, signed(grade), half_length],
        &[100_000, signed(next_grade)],
        &[2, 0, fall, fall, 200_000, fall, fall],
    ])
}

/// One bend at 40 km/h, superelevated throughout.
fn one_bend(radius: i64, clothoid: u64) -> Vec<u8> {
    one_bend_of(&[4, 3], radius, clothoid)
}

/// One bend of a road that begins with the numbers given, up to its terrain.
fn one_bend_of(beginning: &[u64], radius: i64, clothoid: u64) -> Vec<u8> {
    let length = 50_000 + 2 * clothoid + 60_000 + 50_000;
    let (left, right) = (signed(25_000), signed(-25_000));
    file(&[
        beginning,
        &[50_000, 5_000],
        &[5, 0, 50_000, 2, clothoid],
        &[1, 60_000, signed(radius)],
        &[2, clothoid, 0, 50_000],
        &[signed(0), 1, length, signed(0)],
        &[2, 0, left, right, length, left, right],
    ])
}

/// A level straight at 40 km/h, from one crossfall on both sides to another.
fn straight(length: u64, first: i64, last: i64) -> Vec<u8> {
    let (first, last) = (signed(first), signed(last));
    file(&[
        &[4, 3, 50_000, 5_000],
        &[1, 0, length],
        &[signed(0), 1, length, signed(0)],
        &[2, 0, first, first, length, last, last],
    ])
}

#[test]
fn shape_of_numbers() {
    assert_eq!(number(300), [0xac, 0x02]);
    assert_eq!(verdict(&[0x80, 0x00]), refused(2, 0));
    assert_eq!(verdict(&[]), refused(2, 0));
    assert_eq!(verdict(&[1, 1, 0x80]), refused(2, 2));
    assert_eq!(verdict(&[1, 1]), refused(2, 2));
    let above = [0x80, 0x80, 0x80, 0x80, 0x10];
    assert_eq!(verdict(&above), refused(2, 0));
    let greatest = [0xff, 0xff, 0xff, 0xff, 0x0f];
    assert_eq!(verdict(&greatest), refused(3, 0));
    assert_eq!(verdict(&[0; 8_193]), refused(1, 8_192));
    assert_eq!(verdict(&[0; 8_192]), refused(3, 0));
}

#[test]
fn least_radius() {
    assert_eq!(verdict(&one_bend(45_000, 27_300)), None);
    assert_eq!(verdict(&one_bend(44_999, 27_300)), refused(10, 2));
}

#[test]
fn least_clothoid() {
    assert_eq!(verdict(&one_bend(45_000, 27_223)), None);
    assert_eq!(verdict(&one_bend(45_000, 27_222)), refused(12, 1));
}

#[test]
fn least_vertical_curve() {
    assert_eq!(verdict(&two_tangents(20_000, 8_000, -20_000)), None);
    assert_eq!(
        verdict(&two_tangents(20_000, 7_999, -20_000)),
        refused(15, 0)
    );
}

#[test]
fn steepest_grade() {
    assert_eq!(verdict(&two_tangents(100_000, 0, 100_000)), None);
    assert_eq!(verdict(&two_tangents(100_000, 0, 100_001)), refused(13, 1));
}

#[test]
fn steepest_ramp() {
    assert_eq!(verdict(&straight(27_500, -25_000, 25_000)), None);
    assert_eq!(verdict(&straight(27_499, -25_000, 25_000)), refused(18, 0));
}

#[test]
fn halves_go_away_from_zero() {
    // Drops of -71.5, 71.5, -68.75 and 68.75.
    for (crossfall, rounded) in [(-26_000, -72), (26_000, 72), (-25_000, -69), (25_000, 69)] {
        let alignment = accept(&straight(1_000, crossfall, crossfall)).unwrap();
        assert_eq!(road::drop(&alignment, 500, |p| p.left).rounded(), rounded);
    }
    assert_eq!(Fraction::new(-275, 4).rounded(), -69);
}

/// From -7/4 to 7/4.
#[test]
fn quarters_around_zero() {
    let rounded = [-2, -2, -1, -1, -1, -1, 0, 0, 0, 1, 1, 1, 1, 2, 2];
    for (quarters, rounded) in (-7..=7).zip(rounded) {
        assert_eq!(Fraction::new(quarters, 4).rounded(), rounded, "{quarters}");
        assert_eq!(Fraction::new(-quarters, -4).rounded(), rounded);
    }
}

/// "All rounded numbers change their definition": a grade of 0.5, a crossfall of 26,000.5 and a curvature of 312.5.
#[test]
fn halves_of_grade_crossfall_and_curvature() {
    for (sign, rounded) in [(-1, [-1, -26_001, -313]), (1, [1, 26_001, 313])] {
        let curve = accept(&two_tangents(0, 20_000, sign)).unwrap();
        let ramp = accept(&straight(1_000, sign * 26_000, sign * 26_001)).unwrap();
        let bend = read(&one_bend(sign * 3_200_000, 30_000)).unwrap();
        let halves = [
            road::grade(&curve, 100_000),
            road::crossfall(&ramp, 500, |p| p.left),
            road::curvature(&bend, 100_000),
        ];
        assert_eq!(halves.map(Fraction::rounded), rounded);
    }
}

/// A height of 0.5 and drops of 71.5: the printed edge is 1 + 72, 1 mm from the exact 72. "The blade still has to
/// stay as close to the design as before."
#[test]
fn edge_of_two_halves() {
    for (sign, line) in [
        (-1, "500 -1 -1000 -26000 -26000 -73 -73 0\n"),
        (1, "500 1 1000 26000 26000 73 73 0\n"),
    ] {
        let mut alignment = accept(&straight(1_000, sign * 26_000, sign * 26_000)).unwrap();
        let sign = i128::from(sign);
        alignment.tangents[0].grade = sign * 1_000;
        assert_eq!(road::line(&alignment, 500), line);
        let (from, to) = ((500, sign * 73), (1_000, sign * 73));
        let mut between = 500..=1_000;
        assert!(between.all(|x| blade::within(&alignment, from, to, x, |p| p.left)));
    }
}

#[test]
fn curvature_halfway() {
    let alignment = accept(&one_bend(50_000, 30_000)).unwrap();
    assert_eq!(road::curvature(&alignment, 65_000).rounded(), 10_000);
    assert_eq!(road::curvature(&alignment, 155_000).rounded(), 10_000);
}

#[test]
fn longest_straight_at_60() {
    let at_60 = |length| {
        let mut bytes = straight(length, -25_000, -25_000);
        bytes[1] = 1;
        bytes
    };
    assert_eq!(verdict(&at_60(1_200_000)), None);
    assert_eq!(verdict(&at_60(1_200_001)), refused(8, 0));
}

const SAMPLE_LIST: &str = "\
0 500000 20000 -25000 -25000 499931 499931 0
50000 501000 20000 -25000 -25000 500931 500931 0
80000 501600 20000 -25000 -25000 501531 501531 0
100000 501800 0 -25000 -25000 501731 501731 0
120000 501600 -20000 -25000 -25000 501531 501531 0
150000 501000 -20000 -25000 -25000 500931 500931 0
200000 500000 -20000 -25000 -25000 499931 499931 0
";

#[test]
fn sample_list() {
    assert_eq!(
        printed_list(&two_tangents(20_000, 20_000, -20_000)),
        SAMPLE_LIST
    );
}

#[test]
fn sample_list_in_parts() {
    let sample = two_tangents(20_000, 20_000, -20_000);
    let mut buffer = vec![0; 100];
    let mut text = Vec::new();
    let mut station = Some(0);
    while let Some(from) = station {
        match list(&sample, from, &mut buffer) {
            PartAnswer::Rows(length, next) => {
                text.extend_from_slice(&buffer[..length]);
                station = next.map(|next| next as u64);
            }
            refusal => panic!("{refusal:?}"),
        }
    }
    assert_eq!(text, SAMPLE_LIST.as_bytes());
}

#[test]
fn row_and_next_station_of_the_sample() {
    let sample = two_tangents(20_000, 20_000, -20_000);
    let mut buffer = vec![7; 96];
    let expected = "0 500000 20000 -25000 -25000 499931 499931 0\n";
    assert_eq!(row(&sample, 0, &mut buffer), Answer::Line(expected.len()));
    assert_eq!(&buffer[..expected.len()], expected.as_bytes());
    assert!(buffer[expected.len()..].iter().all(|&byte| byte == 7));
    let beyond = Refusal {
        number: 21,
        place: 0,
    };
    let short = Refusal {
        number: 20,
        place: 0,
    };
    assert_eq!(row(&sample, 200_001, &mut buffer), Answer::Refused(beyond));
    assert_eq!(
        row(&sample, 200_001, &mut buffer[..95]),
        Answer::Refused(short)
    );
    assert_eq!(next_station(&sample, 80_001), Answer::Station(100_000));
    assert_eq!(next_station(&sample, 200_000), Answer::Station(200_000));
    assert_eq!(next_station(&sample, u64::MAX), Answer::NoStation);
}

#[test]
fn next_station_agrees_with_the_list() {
    let alignment = read(&two_tangents(20_000, 20_000, -20_000)).unwrap();
    let listed = stations::listed_stations(&alignment);
    for station in (0..201_000).step_by(7) {
        let least = listed.range(station..).next().copied();
        assert_eq!(stations::next_station(&alignment, station), least);
    }
}
