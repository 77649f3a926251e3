//! Reversing bends and egg curves: refusals 7, 23, 9 and 12, and the curvature at both ends of a clothoid.

use std::collections::BTreeSet;

use super::{file, refused, signed, verdict};
use crate::file::{read, Alignment, Element, Kind, Refusal};
use crate::machine::accept;
use crate::road::{arc_of_clothoid, arcs_of_egg, arcs_of_pair, curvature, pair_of_clothoid};
use crate::rules::judge_all;

const STRAIGHT: (u64, i64) = (200_000, 0);

fn arc(radius: i64) -> (u64, i64) {
    (60_000, radius)
}

/// Clothoids and straights by their lengths, arcs by length and radius; `kinds` are their kinds as digits. Every
/// arc is superelevated, and between arcs the crossfall changes evenly.
fn road(beginning: &[u64], kinds: &str, elements: &[(u64, i64)]) -> Vec<u8> {
    let mut plan = Vec::new();
    let mut points: Vec<(u64, i64)> = Vec::new();
    let mut station = 0;
    for (kind, &(length, radius)) in digits(kinds).into_iter().zip(elements) {
        plan.extend([kind, length]);
        if kind == 1 {
            plan.push(signed(radius));
            let side = radius.signum() * 25_000;
            points.extend([(station, side), (station + length, side)]);
        }
        station += length;
    }
    let last = points.len() - 1;
    points[0].0 = 0;
    points[last].0 = station;
    let crossfalls: Vec<u64> = points
        .iter()
        .flat_map(|&(station, left)| [station, signed(left), signed(-left)])
        .collect();
    file(&[
        beginning,
        &[50_000, 20_000, elements.len() as u64],
        &plan,
        &[signed(0), 1, station, signed(0), points.len() as u64],
        &crossfalls,
    ])
}

fn digits(kinds: &str) -> Vec<u64> {
    let digit = |kind: char| u64::from(kind.to_digit(10).expect("a digit"));
    kinds.chars().map(digit).collect()
}

/// Two arcs with one clothoid between them; the egg is element 3.
fn egg_of(beginning: &[u64], first: i64, length: u64, second: i64) -> Vec<u8> {
    let (before, after) = ((60_000, 0), (60_000, 0));
    let elements = [
        STRAIGHT,
        before,
        arc(first),
        (length, 0),
        arc(second),
        after,
        STRAIGHT,
    ];
    road(beginning, "0212120", &elements)
}

fn egg(first: i64, length: u64, second: i64) -> Vec<u8> {
    egg_of(&[4, 3], first, length, second)
}

/// Two arcs with two clothoids between them, elements 3 and 4.
fn pair(first: i64, lengths: [u64; 2], second: i64) -> Vec<u8> {
    let (before, after) = ((60_000, 0), (60_000, 0));
    let [one, two] = lengths;
    let elements = [
        STRAIGHT,
        before,
        arc(first),
        (one, 0),
        (two, 0),
        arc(second),
        after,
        STRAIGHT,
    ];
    road(&[4, 3], "02122120", &elements)
}

#[test]
fn eggs_and_reversing_bends_pass() {
    assert_eq!(verdict(&egg(100_000, 30_000, 60_000)), None);
    assert_eq!(verdict(&egg(-60_000, 30_000, -100_000)), None);
    assert_eq!(verdict(&pair(100_000, [30_000; 2], -60_000)), None);
    assert_eq!(verdict(&pair(-100_000, [30_000; 2], 100_000)), None);
}

/// A level road at 40 km/h of elements that keep every other rule.
fn road_of_kinds(kinds: &[u64]) -> Alignment {
    let mut alignment = read(&egg(100_000, 30_000, 60_000)).unwrap();
    let element = |kind: &u64| Element {
        kind: [Kind::Straight, Kind::Arc, Kind::Clothoid][*kind as usize],
        length: 100_000,
        radius: if *kind == 1 { 100_000 } else { 0 },
    };
    alignment.elements = kinds.iter().map(element).collect();
    alignment
}

/// The place of refusal 7, where it is broken.
fn place_of_7(kinds: &[u64]) -> Option<usize> {
    let broken = judge_all(&road_of_kinds(kinds)).broken;
    let refusal = broken.iter().find(|refusal| refusal.number == 7);
    refusal.map(|refusal| refusal.place as usize)
}

#[test]
fn kinds_in_order() {
    for kinds in [
        "0",
        "02120",
        "021202120",
        "0212120",
        "021212120",
        "02122120",
        "02122122120",
        "0212122120",
        "0212212120",
        "02122120212120",
    ] {
        assert_eq!(place_of_7(&digits(kinds)), None, "{kinds}");
    }
}

#[test]
fn kinds_out_of_order() {
    for (kinds, place) in [
        ("1", 0),
        ("2", 0),
        ("2120", 0),
        ("00", 1),
        ("010", 1),
        ("0200", 2),
        ("02210", 2),
        ("02100", 3),
        ("021120", 3),
        ("0212200", 5),
        ("02122220", 5),
        ("021211", 5),
        ("02122110", 6),
        ("021200", 5),
        ("021201", 5),
        ("021212202", 7),
        ("02122122220", 8),
    ] {
        assert_eq!(place_of_7(&digits(kinds)), Some(place), "{kinds}");
    }
}

#[test]
fn kinds_that_stop_short() {
    for kinds in [
        "02", "021", "0212", "02121", "021212", "02122", "021221", "0212212", "021202",
    ] {
        assert_eq!(place_of_7(&digits(kinds)), Some(kinds.len()), "{kinds}");
    }
}

/// Every allowed order up to a length: a straight, then bends; within a bend one or two clothoids from arc to arc.
fn allowed_orders(longest: usize) -> BTreeSet<Vec<u64>> {
    let mut orders = BTreeSet::new();
    let mut begun = vec![vec![0]];
    while let Some(order) = begun.pop() {
        if order.len() > longest {
            continue;
        }
        let next: &[&[u64]] = match order.last() {
            Some(0) => &[&[2, 1]],
            _ => &[&[2, 0], &[2, 1], &[2, 2, 1]],
        };
        begun.extend(next.iter().map(|more| [&order, *more].concat()));
        if order.last() == Some(&0) {
            orders.insert(order);
        }
    }
    orders
}

/// "the first element whose kind no allowed order, however long, can have after the kinds before it, or the plan
/// count where it stops short"
#[test]
fn place_of_a_wrong_kind() {
    const LONGEST: usize = 7;
    // Any beginning of an allowed order needs at most three kinds more.
    let orders = allowed_orders(LONGEST + 3);
    let beginnings: BTreeSet<&[u64]> = orders
        .iter()
        .flat_map(|order| (0..=order.len()).map(|length| &order[..length]))
        .collect();
    for length in 1..=LONGEST {
        for number in 0..3_u64.pow(length as u32) {
            let kinds: Vec<u64> = (0..length as u32)
                .map(|place| number / 3_u64.pow(place) % 3)
                .collect();
            let wrong = (0..length).find(|&place| !beginnings.contains(&kinds[..=place]));
            let short = (!orders.contains(&kinds)).then_some(length);
            assert_eq!(place_of_7(&kinds), wrong.or(short), "{kinds:?}");
        }
    }
}

/// 200 elements can end with a straight: 48 bends, one of them a reversing one.
#[test]
fn as_many_elements_as_a_file_can_hold() {
    let full = "02122120".to_string() + &"2120".repeat(48);
    assert_eq!(full.len(), 200);
    assert_eq!(place_of_7(&digits(&full)), None);
    let short = "02122120".to_string() + &"2120".repeat(47) + "2122";
    assert_eq!(place_of_7(&digits(&short)), Some(200));
}

#[test]
fn eggs_refused_with_23() {
    for (first, second) in [
        (60_000, 60_000),
        (-60_000, -60_000),
        (60_000, -60_000),
        (100_000, -60_000),
        (-60_000, 100_000),
        (1_000_001, 60_000),
        (60_000, 1_000_001),
        (-1_000_001, -1_000_000),
        (10_000_000, 9_999_999),
    ] {
        let road = egg(first, 60_000, second);
        assert_eq!(verdict(&road), refused(23, 3), "{first} {second}");
    }
    for (first, second) in [
        (1_000_000, 60_000),
        (60_000, 1_000_000),
        (-999_999, -1_000_000),
        (60_000, 60_001),
    ] {
        assert_eq!(
            verdict(&egg(first, 60_000, second)),
            None,
            "{first} {second}"
        );
    }
}

#[test]
fn pairs_refused_with_23() {
    for (first, second) in [(60_000, 60_000), (60_000, 100_000), (-100_000, -60_000)] {
        let road = pair(first, [60_000; 2], second);
        assert_eq!(verdict(&road), refused(23, 4), "{first} {second}");
    }
    // A radius over 1,000,000 is refused beside an egg alone.
    for (first, second) in [(10_000_000, -10_000_000), (-60_000, 1_000_001)] {
        assert_eq!(verdict(&pair(first, [60_000; 2], second)), None);
    }
}

/// "right after 7", the first clothoid first.
#[test]
fn order_of_23() {
    let refusals = |numbers: &[(i128, i128)]| -> Vec<Refusal> {
        let refusal = |&(number, place): &(i128, i128)| Refusal { number, place };
        numbers.iter().map(refusal).collect()
    };
    // An egg of radius 44,999 on both sides at 40 km/h, then a pair of one turn.
    let elements = [
        STRAIGHT,
        (60_000, 0),
        arc(44_999),
        (60_000, 0),
        arc(44_999),
        (60_000, 0),
        (60_000, 0),
        arc(60_000),
        (60_000, 0),
        STRAIGHT,
    ];
    let mut road = read(&road(&[4, 3], "0212122120", &elements)).unwrap();
    let places = [(23, 3), (23, 6), (10, 2), (10, 4)];
    assert_eq!(judge_all(&road).broken, refusals(&places));
    // With an arc for the last straight the plan stops short.
    road.elements[9].kind = Kind::Arc;
    let judgement = judge_all(&road);
    assert_eq!(judgement.broken[0], refusals(&[(7, 10)])[0]);
    assert_eq!(judgement.not_asked, [23, 9, 12, 19]);
}

/// At 40 km/h A min squared is 1,225,000,000. With radii 70,000 and 50,000 a length of 7,000 reaches it just so,
/// with 100,000 and 60,000 one of 8,166 2/3.
#[test]
fn least_egg() {
    for (first, second, least) in [(70_000, 50_000, 7_000), (100_000, 60_000, 8_167)] {
        for (one, other) in [(first, second), (second, first), (-first, -second)] {
            assert_eq!(verdict(&egg(one, least, other)), None);
            assert_eq!(verdict(&egg(one, least - 1, other)), refused(12, 3));
        }
    }
    // Radii just beside equal: every length reaches A min.
    assert_eq!(verdict(&egg(60_000, 1, 60_001)), None);
}

/// "under the old handbook its length must reach the table's"
#[test]
fn least_egg_by_the_old_handbook() {
    for (row, least) in [([4, 3], 30_000), ([4, 2], 40_000), ([4, 1], 50_000)] {
        let [class, terrain] = row;
        let old = [9, 20111231, class, terrain];
        let egg_long = |length| egg_of(&old, 200_000, length, 199_999);
        assert_eq!(verdict(&egg_long(least)), None);
        assert_eq!(verdict(&egg_long(least - 1)), refused(12, 3));
    }
}

/// Each clothoid of a pair is judged with its own arc: radius 45,000 asks for 27,223, radius 50,000 for 24,500.
#[test]
fn least_clothoids_of_a_pair() {
    for (lengths, refusal) in [
        ([27_223, 24_500], None),
        ([27_222, 24_500], refused(12, 3)),
        ([27_223, 24_499], refused(12, 4)),
    ] {
        assert_eq!(verdict(&pair(45_000, lengths, -50_000)), refusal);
        assert_eq!(verdict(&pair(-45_000, lengths, 50_000)), refusal);
    }
}

/// At 60 km/h straight min is 120,000. The straight, element 7, has arcs 5 and 9 nearest.
#[test]
fn straight_after_a_reversing_bend() {
    let between = |second: i64, third: i64, fourth: i64, straight: u64| {
        let clothoid = (60_000, 0);
        let elements = [
            STRAIGHT,
            clothoid,
            arc(200_000),
            clothoid,
            clothoid,
            arc(second),
            clothoid,
            (straight, 0),
            clothoid,
            arc(third),
            clothoid,
            arc(fourth),
            clothoid,
            STRAIGHT,
        ];
        road(&[4, 1], "02122120212120", &elements)
    };
    let passes = |third: i64, straight| verdict(&between(-200_000, third, 2 * third, straight));
    assert_eq!(passes(-200_000, 120_000), None);
    assert_eq!(passes(-200_000, 119_999), refused(9, 7));
    assert_eq!(passes(200_000, 1), None);
}

/// From 10,000 to 20,000 along 30,000, both ways and both turns.
#[test]
fn curvature_of_an_egg() {
    let rising = accept(&egg(100_000, 30_000, 50_000)).unwrap();
    let falling = accept(&egg(-50_000, 30_000, -100_000)).unwrap();
    // The egg begins at 200,000 + 60,000 + 60,000.
    for (distance, value) in [
        (0, 10_000),
        (3, 10_001),
        (10_000, 13_333),
        (15_000, 15_000),
        (20_000, 16_667),
        (30_000, 20_000),
        (30_001, 20_000),
    ] {
        let rounded = |road, station| curvature(road, station).rounded();
        assert_eq!(rounded(&rising, 320_000 + distance), value);
        assert_eq!(rounded(&falling, 350_000 - distance), -value);
    }
}

/// From 10,000 to 12,500 along 20,000: after 4 it is 10,000.5.
#[test]
fn half_on_an_egg() {
    for (sign, rounded) in [(1, 10_001), (-1, -10_001)] {
        let road = accept(&egg(sign * 100_000, 20_000, sign * 80_000)).unwrap();
        assert_eq!(curvature(&road, 320_004).rounded(), rounded);
        assert_eq!(curvature(&road, 320_004).denominator, 2);
    }
}

/// From 10,000 to 0 along 30,000, then from 0 to -20,000 along 40,000.
#[test]
fn curvature_of_a_reversing_bend() {
    let road = accept(&pair(100_000, [30_000, 40_000], -50_000)).unwrap();
    for (distance, value) in [
        (0, 10_000),
        (15_000, 5_000),
        (29_997, 1),
        (30_000, 0),
        (30_001, -1),
        (50_000, -10_000),
        (70_000, -20_000),
    ] {
        assert_eq!(curvature(&road, 320_000 + distance).rounded(), value);
    }
}

/// The greatest radii that an egg and a pair can have, and the longest clothoid: no product is too wide.
#[test]
fn widest_curvature() {
    let road = accept(&egg(999_999, 9_000_001, 1_000_000)).unwrap();
    assert_eq!(curvature(&road, 4_999_999).rounded(), 1_000);
    let mut road = accept(&pair(9_999_999, [60_000; 2], -9_999_998)).unwrap();
    road.elements[3].length = 9_999_999;
    road.elements[4].length = 9_999_997;
    assert_eq!(curvature(&road, 320_001).rounded(), 100);
    assert_eq!(curvature(&road, 320_000 + 19_999_995).rounded(), -100);
}

#[test]
fn arcs_beside_clothoids() {
    let radii = |arcs: Option<(Element, Element)>| arcs.map(|(a, b)| (a.radius, b.radius));
    let road = accept(&egg(100_000, 30_000, 60_000)).unwrap();
    let eggs = [1, 3, 5].map(|place| radii(arcs_of_egg(&road, place)));
    assert_eq!(eggs, [None, Some((100_000, 60_000)), None]);
    assert!([1, 3, 5]
        .iter()
        .all(|&p| pair_of_clothoid(&road, p).is_none()));
    let road = accept(&pair(100_000, [30_000; 2], -60_000)).unwrap();
    let clothoids = [1, 3, 4, 6];
    assert!(clothoids.iter().all(|&p| arcs_of_egg(&road, p).is_none()));
    let pairs = clothoids.map(|place| pair_of_clothoid(&road, place));
    assert_eq!(pairs, [None, Some(3), Some(3), None]);
    assert_eq!(radii(arcs_of_pair(&road, 3)), Some((100_000, -60_000)));
    let own = clothoids.map(|place| arc_of_clothoid(&road, place).radius);
    assert_eq!(own, [100_000, 100_000, -60_000, -60_000]);
}
