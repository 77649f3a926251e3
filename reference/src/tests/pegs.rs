//! Lists of pegs.

use super::{file, one_bend, refused, signed, straight, two_tangents, SAMPLE_LIST};
use crate::file::Refusal;
use crate::machine::{row, Answer};
use crate::pegs::{pegs, MOST_PEGS};

/// What the buffers hold before a call.
const LENT: u8 = 7;

/// The sample of document 01; T is 200,000.
fn sample() -> Vec<u8> {
    two_tangents(20_000, 20_000, -20_000)
}

/// The rows in a buffer of so many bytes; the bytes after them, and after a refusal all bytes, are as lent.
fn rows_in(room: usize, file: &[u8], stations: &[u64]) -> Result<String, Refusal> {
    let mut buffer = vec![LENT; room];
    let answer = pegs(file, stations, &mut buffer);
    let later = buffer.split_off(answer.unwrap_or(0));
    assert!(later.iter().all(|&byte| byte == LENT));
    answer.map(|_| String::from_utf8(buffer).expect("rows of text"))
}

/// The rows with 96 bytes for each peg.
fn rows(file: &[u8], stations: &[u64]) -> Result<String, Refusal> {
    rows_in(96 * stations.len(), file, stations)
}

/// The line that the single call gives.
fn single(file: &[u8], station: u64) -> String {
    let mut line = vec![LENT; 96];
    let Answer::Line(length) = row(file, station, &mut line) else {
        panic!("no row at {station}");
    };
    line.truncate(length);
    String::from_utf8(line).expect("a line of text")
}

/// What turns a list of the sample away, with 96 bytes for each peg.
fn refusal(stations: &[u64]) -> Option<Refusal> {
    rows(&sample(), stations).err()
}

#[test]
fn pegs_at_the_listed_stations() {
    let listed = [0, 50_000, 80_000, 100_000, 120_000, 150_000, 200_000];
    assert_eq!(rows(&sample(), &listed), Ok(SAMPLE_LIST.to_string()));
}

/// "The answer for each peg is the row that the single call gives."
#[test]
fn each_row_is_the_single_call_s() {
    let dense: Vec<u64> = (79_990..80_010).chain(119_990..120_010).collect();
    let bend = one_bend(50_000, 30_000);
    let sparse: Vec<u64> = (0..=220_000).step_by(311).collect();
    for (file, stations) in [(sample(), dense), (bend, sparse)] {
        let singles: String = stations.iter().map(|&s| single(&file, s)).collect();
        assert_eq!(rows(&file, &stations), Ok(singles));
    }
}

/// "Their total length is returned, 0 for no pegs."
#[test]
fn no_pegs() {
    for room in [0, 1, 95, 96, 1_000] {
        let mut buffer = vec![LENT; room];
        assert_eq!(pegs(&sample(), &[], &mut buffer), Ok(0));
        assert_eq!(buffer, vec![LENT; room]);
    }
}

#[test]
fn total_length_and_later_bytes() {
    let (first, second) = (single(&sample(), 5), single(&sample(), 199_999));
    let mut buffer = vec![LENT; 250];
    let total = first.len() + second.len();
    assert_eq!(pegs(&sample(), &[5, 199_999], &mut buffer), Ok(total));
    assert_eq!(buffer[..total], *(first + &second).as_bytes());
    assert_eq!(buffer[total..], vec![LENT; 250 - total]);
}

/// "ascending, equal ones allowed"
#[test]
fn equal_pegs() {
    for station in [0, 1, 80_000, 100_000, 200_000] {
        let line = single(&sample(), station);
        assert_eq!(rows(&sample(), &[station; 3]), Ok(line.repeat(3)));
    }
    let both = single(&sample(), 9).repeat(2) + &single(&sample(), 10).repeat(2);
    assert_eq!(rows(&sample(), &[9, 9, 10, 10]), Ok(both));
}

#[test]
fn falling_lists() {
    assert_eq!(refusal(&[1, 0]), refused(24, 1));
    assert_eq!(refusal(&[5, 5, 4]), refused(24, 2));
    assert_eq!(refusal(&[5, 4, 3, 2]), refused(24, 1));
    assert_eq!(refusal(&[0, 80_000, 79_999, 80_000]), refused(24, 2));
    assert_eq!(refusal(&[200_000, 0]), refused(24, 1));
}

#[test]
fn lists_that_pass_the_end() {
    assert_eq!(refusal(&[200_000]), None);
    assert_eq!(refusal(&[200_000, 200_000]), None);
    assert_eq!(refusal(&[200_001]), refused(24, 0));
    assert_eq!(refusal(&[0, 200_000, 200_001]), refused(24, 2));
    assert_eq!(refusal(&[0, 200_001, 200_002]), refused(24, 1));
}

/// The end is T and no listed station before it, on a road of 1 mm too.
#[test]
fn shortest_road() {
    let road = straight(1, -25_000, -25_000);
    let (start, end) = (single(&road, 0), single(&road, 1));
    assert_eq!(rows(&road, &[0, 1, 1]), Ok(start + &end.repeat(2)));
    assert_eq!(rows(&road, &[0, 1, 2]).err(), refused(24, 2));
}

/// Whatever their low bits are.
#[test]
fn huge_stations() {
    for huge in [1 << 31, 1 << 32, 1 << 63, u64::MAX - 200_000, u64::MAX] {
        for station in [huge, huge.saturating_add(100_000)] {
            assert_eq!(refusal(&[station]), refused(24, 0));
            assert_eq!(refusal(&[100_000, station, 100_000]), refused(24, 1));
            assert_eq!(refusal(&[100_000, 99_999, station]), refused(24, 1));
        }
    }
}

/// "its place being the first bad peg": it falls or passes T, whichever comes first.
#[test]
fn first_of_several_bad_pegs() {
    assert_eq!(refusal(&[200_001, 0, 200_001]), refused(24, 0));
    assert_eq!(refusal(&[1, 0, 200_001]), refused(24, 1));
    assert_eq!(refusal(&[0, 200_001, 0]), refused(24, 1));
    // Beyond T and below its forerunner.
    assert_eq!(refusal(&[0, 200_002, 200_001]), refused(24, 1));
}

/// "up to 2,000", "peg 2,000 being bad"
#[test]
fn longest_list() {
    let line = single(&sample(), 100_000);
    let full = [100_000; MOST_PEGS];
    assert_eq!(rows(&sample(), &full), Ok(line.repeat(2_000)));
    for longer in [2_001, 2_002, 5_000] {
        assert_eq!(refusal(&vec![100_000; longer]), refused(24, 2_000));
    }
}

/// Peg 2,000 is bad; an earlier bad one comes first, and a later one does not matter.
#[test]
fn longer_lists_with_bad_pegs() {
    let list = |bad: usize, station| {
        let mut stations = vec![100_000; 2_100];
        stations[bad] = station;
        refusal(&stations)
    };
    for station in [99_999, 200_001] {
        assert_eq!(list(1, station), refused(24, 1));
        assert_eq!(list(1_998, station), refused(24, 1_998));
        assert_eq!(list(1_999, station), refused(24, 1_999));
        assert_eq!(list(2_000, station), refused(24, 2_000));
        assert_eq!(list(2_001, station), refused(24, 2_000));
    }
}

/// "a buffer with less than 96 bytes for each peg", however few the rows need
#[test]
fn least_room() {
    let refusal_in = |room, stations: &[u64]| rows_in(room, &sample(), stations).err();
    for count in [1, 2, 3, 100, 1_999, 2_000] {
        let stations = vec![0; count];
        assert_eq!(refusal_in(96 * count, &stations), None);
        assert_eq!(refusal_in(96 * count + 1, &stations), None);
        for room in [0, 1, 95, 95 * count, 96 * (count - 1), 96 * count - 1] {
            assert_eq!(refusal_in(room, &stations), refused(20, 0));
        }
    }
}

/// "for each peg" of the list as given, also where it is longer than 2,000.
#[test]
fn least_room_of_longer_lists() {
    let refusal_in = |room| rows_in(room, &sample(), &[0; 2_001]).err();
    assert_eq!(refusal_in(96 * 2_000), refused(20, 0));
    assert_eq!(refusal_in(96 * 2_001 - 1), refused(20, 0));
    assert_eq!(refusal_in(96 * 2_001), refused(24, 2_000));
}

/// 20 comes before 24.
#[test]
fn short_buffer_and_bad_peg() {
    for stations in [&[200_001][..], &[1, 0], &[u64::MAX, 0, 3]] {
        let room = 96 * stations.len();
        let short = rows_in(room - 1, &sample(), stations).err();
        assert_eq!(short, refused(20, 0));
        assert_ne!(rows_in(room, &sample(), stations).err(), short);
    }
}

/// "After the file's own refusals": of reading, of the date and of the rules.
#[test]
fn the_file_s_own_refusals_first() {
    let too_steep = two_tangents(100_001, 0, 100_001);
    let no_day = file(&[&[9, 20110229, 4, 3]]);
    let pair_of_one_turn = file(&[
        &[4, 3, 50_000, 5_000, 8],
        &[0, 100_000, 2, 60_000, 1, 60_000, signed(90_000)],
        &[2, 60_000, 2, 60_000, 1, 60_000, signed(90_000)],
        &[2, 60_000, 0, 100_000],
        &[signed(0), 1, 560_000, signed(0)],
        &[2, 0, signed(-25_000), signed(-25_000)],
        &[560_000, signed(-25_000), signed(-25_000)],
    ]);
    for (file, number, place) in [
        (vec![0; 8_193], 1, 8_192),
        (vec![], 2, 0),
        (too_steep, 13, 0),
        (no_day, 22, 1),
        (pair_of_one_turn, 23, 4),
    ] {
        for stations in [&[][..], &[0], &[u64::MAX, 0], &[0; 2_001]] {
            for room in [0, 95, 96 * stations.len()] {
                let answer = rows_in(room, &file, stations);
                assert_eq!(answer.err(), refused(number, place));
            }
        }
    }
}
