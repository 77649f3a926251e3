//! Limits on both sides of 20120101.

use super::{one_bend_of, refused, verdict};
use crate::file::Contract::{self, Dated, Undated};
use crate::file::{read, Kind, Refusal};
use crate::limits::{limits_at, rule_book, LeastClothoid, RuleBook, SPEEDS};
use crate::rules::judge_all;

const OF_TODAY: [Contract; 4] = [Undated, Dated(20120101), Dated(20120102), Dated(20991231)];
const OLD: [Contract; 3] = [Dated(19500101), Dated(20111230), Dated(20111231)];

#[test]
fn the_date_picks_the_rule_book() {
    assert_eq!(OF_TODAY.map(rule_book), [RuleBook::Today; 4]);
    assert_eq!(OLD.map(rule_book), [RuleBook::OldHandbook; 3]);
}

#[test]
fn least_radius_of_each_book() {
    let radii = |contract| SPEEDS.map(|speed| limits_at(speed, contract).radius_min / 1_000);
    for contract in OF_TODAY {
        assert_eq!(radii(contract), [45, 75, 120, 175, 250, 350, 450]);
    }
    for contract in OLD {
        assert_eq!(radii(contract), [45, 75, 120, 180, 250, 350, 450]);
    }
}

#[test]
fn least_clothoid_of_each_book() {
    let clothoids = |contract| SPEEDS.map(|speed| limits_at(speed, contract).clothoid);
    let parameters = [35, 55, 75, 100, 125, 155, 195].map(|a| LeastClothoid::Parameter(a * 1_000));
    let lengths = [30, 40, 50, 60, 70, 90, 100].map(|l| LeastClothoid::Length(l * 1_000));
    for contract in OF_TODAY {
        assert_eq!(clothoids(contract), parameters);
    }
    for contract in OLD {
        assert_eq!(clothoids(contract), lengths);
    }
}

#[test]
fn every_other_limit_is_in_both_books() {
    for speed in SPEEDS {
        let [today, old] = [Undated, Dated(20111231)].map(|contract| limits_at(speed, contract));
        let straights = |limits: crate::limits::Limits| (limits.straight_max, limits.straight_min);
        assert_eq!(straights(today), straights(old));
        assert_eq!(today.radius_both_falling, old.radius_both_falling);
        assert_eq!(today.arc_min, old.arc_min);
        assert_eq!(today.grade_max, old.grade_max);
        assert_eq!(today.sag_radius, old.sag_radius);
        assert_eq!(today.crest_radius, old.crest_radius);
        assert_eq!(today.lane_width, old.lane_width);
    }
}

/// Class and terrain of the speeds that a file can have.
const ROWS: [[u64; 2]; 6] = [[4, 3], [4, 2], [4, 1], [2, 3], [2, 2], [1, 1]];

fn today(row: [u64; 2], radius: i64, clothoid: u64) -> [Vec<u8>; 3] {
    let [class, terrain] = row;
    [
        one_bend_of(&[class, terrain], radius, clothoid),
        one_bend_of(&[9, 20120101, class, terrain], radius, clothoid),
        one_bend_of(&[9, 20991231, class, terrain], radius, clothoid),
    ]
}

fn old(row: [u64; 2], radius: i64, clothoid: u64) -> [Vec<u8>; 2] {
    let [class, terrain] = row;
    [19500101, 20111231].map(|date| one_bend_of(&[9, date, class, terrain], radius, clothoid))
}

#[test]
fn radius_at_70() {
    let row = [2, 3];
    for sign in [1, -1] {
        for file in today(row, sign * 174_999, 70_000) {
            assert_eq!(verdict(&file), refused(10, 2));
        }
        for file in old(row, sign * 179_999, 70_000) {
            assert_eq!(verdict(&file), refused(10, 2));
        }
    }
    for radius in [175_000, 179_999, 180_000] {
        assert!(today(row, radius, 70_000)
            .iter()
            .all(|file| verdict(file).is_none()));
    }
    assert!(old(row, 180_000, 70_000)
        .iter()
        .all(|file| verdict(file).is_none()));
}

/// "A min gives way to a least clothoid length", whatever the radius.
#[test]
fn clothoid_length_by_the_old_handbook() {
    let least = [30_000, 40_000, 50_000, 60_000, 70_000, 100_000];
    for (row, least) in ROWS.into_iter().zip(least) {
        for radius in [450_000, 10_000_000] {
            for file in old(row, radius, least) {
                assert_eq!(verdict(&file), None, "{row:?}");
            }
            for file in old(row, radius, least - 1) {
                assert_eq!(verdict(&file), refused(12, 1), "{row:?}");
            }
            for file in today(row, radius, least - 1) {
                assert_eq!(verdict(&file), None, "{row:?}");
            }
        }
    }
}

/// At 50 km/h and radius 75,000 A min asks for 40,334 of length: the one place where the old handbook asks for less.
#[test]
fn sharpest_bend_at_50() {
    let row = [4, 2];
    for (clothoid, refusal) in [
        (40_000, refused(12, 1)),
        (40_333, refused(12, 1)),
        (40_334, None),
    ] {
        for file in today(row, 75_000, clothoid) {
            assert_eq!(verdict(&file), refusal);
        }
        for file in old(row, 75_000, clothoid) {
            assert_eq!(verdict(&file), None);
        }
    }
}

/// A least clothoid length is asked also where the elements are out of order; A min needs the arc.
#[test]
fn clothoids_out_of_order() {
    let mut road = read(&one_bend_of(&[4, 3], 45_000, 20_000)).unwrap();
    road.elements[2].kind = Kind::Straight;
    let judged = |contract| {
        let mut road = road.clone();
        road.contract = contract;
        judge_all(&road)
    };
    let refusals = [(7, 2), (12, 1), (12, 3)].map(|(number, place)| Refusal { number, place });
    let old = judged(Dated(20111231));
    assert_eq!(old.broken, refusals);
    assert_eq!(old.not_asked, [23, 9, 19]);
    for contract in OF_TODAY {
        let today = judged(contract);
        assert_eq!(today.broken, refusals[..1]);
        assert_eq!(today.not_asked, [23, 9, 12, 19]);
    }
}
