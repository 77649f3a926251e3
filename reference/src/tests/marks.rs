//! The seven marks, and the row of each speed.

use super::{file, one_bend_of, refused, signed, straight, two_tangents, verdict};
use crate::file::Contract::{Dated, Undated};
use crate::file::{read, Kind, Refusal};
use crate::limits::{limits_at, speed, LeastClothoid, Limits, SPEEDS};
use crate::marks::{first_refusal_at, marks, marks_of, Marks};

fn number(file: &[u8]) -> i128 {
    marks(file).expect("a file that can be read").number()
}

fn speeds(file: &[u8]) -> Vec<i128> {
    marks(file).expect("a file that can be read").speeds()
}

/// What each of the seven speeds says of a road.
fn refusals(file: &[u8]) -> [Option<Refusal>; 7] {
    let alignment = read(file).expect("a file that can be read");
    SPEEDS.map(|speed| first_refusal_at(&alignment, speed))
}

/// The table of document 01, as it is printed there.
const PRINTED: [&str; 7] = [
    "| 40 | - | - | 45 | - | 35 | 22 | 10 | 550 | 400 | 2.75 |",
    "| 50 | - | - | 75 | - | 55 | 28 | 9 | 900 | 800 | 3.00 |",
    "| 60 | 1200 | 120 | 120 | - | 75 | 33 | 8 | 1250 | 1250 | 3.00 |",
    "| 70 | 1400 | 140 | 175 | - | 100 | 39 | 7 | 1800 | 2000 | 3.25 |",
    "| 80 | 1600 | 160 | 250 | 2500 | 125 | 44 | 6 | 2500 | 3500 | 3.25 |",
    "| 90 | 1800 | 180 | 350 | 2500 | 155 | 50 | 5.5 | 3250 | 5500 | 3.50 |",
    "| 100 | 2000 | 200 | 450 | 3000 | 195 | 56 | 5 | 4250 | 8000 | 3.50 |",
];

/// "30, 40, 50, 60, 70, 90, 100 m for 40 to 100 km/h"
const CLOTHOID_LENGTHS: [i128; 7] = [30, 40, 50, 60, 70, 90, 100];

/// A printed cell in thousandths, none for "-".
fn thousandths(cell: &str) -> Option<i128> {
    let (whole, decimals) = cell.split_once('.').unwrap_or((cell, ""));
    let digits = format!("{whole}{decimals:0<3}");
    (whole != "-").then(|| digits.parse().expect("a number"))
}

/// The ten limits of a row: lengths in mm, grade max in ppm.
fn cells(limits: &Limits) -> [Option<i128>; 10] {
    let (LeastClothoid::Parameter(clothoid) | LeastClothoid::Length(clothoid)) = limits.clothoid;
    [
        limits.straight_max,
        limits.straight_min,
        Some(limits.radius_min),
        limits.radius_both_falling,
        Some(clothoid),
        Some(limits.arc_min),
        Some(limits.grade_max),
        Some(limits.sag_radius),
        Some(limits.crest_radius),
        Some(limits.lane_width),
    ]
}

#[test]
fn rows_as_printed() {
    for (place, line) in PRINTED.into_iter().enumerate() {
        let printed: Vec<&str> = line.trim_matches('|').split('|').map(str::trim).collect();
        let speed: i128 = printed[0].parse().unwrap();
        assert_eq!(speed, SPEEDS[place]);
        let mut row: Vec<Option<i128>> = printed[1..].iter().map(|c| thousandths(c)).collect();
        // A thousandth of a metre is 1 mm, one of a percent 10 ppm.
        row[6] = row[6].map(|grade| grade * 10);
        let today = limits_at(speed, Undated);
        assert_eq!(cells(&today).to_vec(), row, "{speed}");
        assert!(matches!(today.clothoid, LeastClothoid::Parameter(_)));
        // "Before it, R min at 70 km/h is 180 m, and in refusal 12 A min gives way to a least clothoid length"
        if speed == 70 {
            row[2] = Some(180_000);
        }
        row[4] = Some(CLOTHOID_LENGTHS[place] * 1_000);
        let old = limits_at(speed, Dated(20111231));
        assert_eq!(cells(&old).to_vec(), row, "{speed}");
        assert!(matches!(old.clothoid, LeastClothoid::Length(_)));
    }
}

#[test]
fn lowest_bit_is_40() {
    let alone = |place| {
        let mut stands = [false; 7];
        stands[place] = true;
        Marks { stands }
    };
    let numbers = [0, 1, 2, 3, 4, 5, 6].map(|place| alone(place).number());
    assert_eq!(numbers, [1, 2, 4, 8, 16, 32, 64]);
    let stands = [true; 7];
    assert_eq!(Marks { stands }.number(), 127);
    assert_eq!(alone(5).speeds(), [90]);
}

/// "a straight of 1,500 m fails at 70 and passes at 80"
#[test]
fn straight_of_1500() {
    let long = straight(1_500_000, -25_000, -25_000);
    assert_eq!(speeds(&long), [40, 50, 80, 90, 100]);
    assert_eq!(number(&long), 0b1110011);
    let too_long = refused(8, 0);
    let expected = [None, None, too_long, too_long, None, None, None];
    assert_eq!(refusals(&long), expected);
}

/// 40 and 50 km/h have no straight max.
#[test]
fn longest_straights() {
    let marked = |length| number(&straight(length, -25_000, -25_000));
    for (length, set) in [
        (1_200_000, 0b1111111),
        (1_200_001, 0b1111011),
        (1_400_000, 0b1111011),
        (1_400_001, 0b1110011),
        (1_600_000, 0b1110011),
        (1_600_001, 0b1100011),
        (1_800_000, 0b1100011),
        (1_800_001, 0b1000011),
        (2_000_000, 0b1000011),
        (2_000_001, 0b0000011),
    ] {
        assert_eq!(marked(length), set, "{length}");
    }
}

/// The sample of document 01: a change of grade of 40,000 with h = 20,000 has crest R 1,000 m; 800 m is asked at 50
/// km/h and 1,250 m at 60.
#[test]
fn marks_of_the_sample() {
    assert_eq!(speeds(&two_tangents(20_000, 20_000, -20_000)), [40, 50]);
    assert_eq!(speeds(&two_tangents(20_000, 8_000, -20_000)), [40]);
    assert_eq!(number(&two_tangents(20_000, 7_999, -20_000)), 0);
    assert_eq!(
        speeds(&two_tangents(-20_000, 20_000, 20_000)),
        [40, 50],
        "sag"
    );
}

#[test]
fn steepest_grades() {
    let steepest = [100_000, 90_000, 80_000, 70_000, 60_000, 55_000, 50_000];
    for (place, grade) in steepest.into_iter().enumerate() {
        let below = SPEEDS[..place].to_vec();
        assert_eq!(speeds(&two_tangents(grade + 1, 0, grade + 1)), below);
        let with_it = SPEEDS[..=place].to_vec();
        assert_eq!(speeds(&two_tangents(-grade, 0, -grade)), with_it);
    }
}

/// An arc of 60,000 with clothoids long enough for any radius.
#[test]
fn least_radii() {
    let today = [45_000, 75_000, 120_000, 175_000, 250_000, 350_000, 450_000];
    let mut old = today;
    old[3] = 180_000;
    for (beginning, least) in [
        (&[1, 1][..], today),
        (&[9, 20120101, 4, 3], today),
        (&[9, 20111231, 4, 3], old),
    ] {
        for (place, radius) in least.into_iter().enumerate() {
            let bend = |radius| speeds(&one_bend_of(beginning, radius, 900_000));
            assert_eq!(bend(radius), SPEEDS[..=place]);
            assert_eq!(bend(radius - 1), SPEEDS[..place]);
        }
    }
}

/// Beside a radius of 1,000,000 A min asks for 1,225, 3,025, 5,625, 10,000, 15,625, 24,025 and 38,025.
#[test]
fn least_clothoids() {
    let today = [1_225, 3_025, 5_625, 10_000, 15_625, 24_025, 38_025];
    let old = CLOTHOID_LENGTHS.map(|length| length * 1_000);
    for (beginning, least) in [
        (&[2, 3][..], today.map(|length| length as u64)),
        (&[9, 19500101, 2, 3], old.map(|length| length as u64)),
    ] {
        for (place, length) in least.into_iter().enumerate() {
            let bend = |length| speeds(&one_bend_of(beginning, 1_000_000, length));
            assert_eq!(bend(length), SPEEDS[..=place]);
            assert_eq!(bend(length - 1), SPEEDS[..place]);
        }
    }
}

/// -25,000 on both sides of an arc: from 2,500 m at 80 and 90 km/h, from 3,000 m at 100, at no other speed.
#[test]
fn both_sides_falling() {
    let marked = |radius| {
        let (fall, length) = (signed(-25_000), 400_000);
        number(&file(&[
            &[4, 3, 50_000, 5_000, 5],
            &[0, 100_000, 2, 60_000, 1, 80_000, signed(radius)],
            &[2, 60_000, 0, 100_000],
            &[signed(0), 1, length, signed(0)],
            &[2, 0, fall, fall, length, fall, fall],
        ]))
    };
    for (radius, set) in [
        (2_499_999, 0),
        (2_500_000, 0b0110000),
        (2_999_999, 0b0110000),
        (3_000_000, 0b1110000),
        (-3_000_000, 0b1110000),
    ] {
        assert_eq!(marked(radius), set, "{radius}");
    }
}

/// "lane width included": a change of 50,000 at a ramp limit of 5,000 needs ten lane widths.
#[test]
fn lane_width_of_the_speed() {
    for (length, set) in [
        (27_499, 0b0000000),
        (27_500, 0b0000001),
        (29_999, 0b0000001),
        (30_000, 0b0000111),
        (32_499, 0b0000111),
        (32_500, 0b0011111),
        (34_999, 0b0011111),
        (35_000, 0b1111111),
    ] {
        for (class, terrain) in [(4, 3), (1, 1)] {
            let mut ramp = straight(length, -25_000, 25_000);
            (ramp[0], ramp[1]) = (class, terrain);
            assert_eq!(number(&ramp), set, "{length}");
        }
    }
    let between = refusals(&straight(31_000, -25_000, 25_000));
    assert_eq!(between[2..4], [None, refused(18, 0)]);
}

/// The road's own class and terrain do not matter, and the mark of their speed says whether it is turned away.
#[test]
fn own_speed() {
    for length in [27_499, 28_000, 31_000, 33_000, 1_300_000, 1_700_000] {
        let mut road = straight(length, -25_000, 25_000);
        let first = marks(&road);
        for (class, terrain) in (1..=4).flat_map(|c| (1..=3).map(move |t| (c, t))) {
            (road[0], road[1]) = (class, terrain);
            assert_eq!(marks(&road), first);
            let own = speed(class.into(), terrain.into());
            let stands = marks(&road).unwrap().speeds().contains(&own);
            assert_eq!(stands, verdict(&road).is_none(), "{length} {own}");
            assert_eq!(first_refusal_at(&read(&road).unwrap(), own), verdict(&road));
        }
    }
}

/// "A file that 1 to 4 or 22 turn away gets that refusal."
#[test]
fn reading_refusals() {
    let mut longer = straight(1_000, -25_000, -25_000);
    let end = longer.len() as i128;
    longer.push(0);
    for (file, number, place) in [
        (vec![0; 8_193], 1, 8_192),
        (vec![], 2, 0),
        (vec![0x80, 0], 2, 0),
        (vec![5], 3, 0),
        (vec![9, 0], 22, 1),
        (longer, 4, end),
    ] {
        assert_eq!(marks(&file).err(), refused(number, place));
    }
}

/// A refusal of no row leaves no mark.
#[test]
fn refused_at_every_speed() {
    let mut road = read(&straight(1_000, -25_000, -25_000)).unwrap();
    assert_eq!(marks_of(&road).number(), 127);
    road.points[0].left = 24_999;
    assert_eq!(marks_of(&road).number(), 0);
    road.elements[0].kind = Kind::Clothoid;
    assert_eq!(
        SPEEDS.map(|speed| first_refusal_at(&road, speed)),
        [refused(7, 0); 7]
    );
}
