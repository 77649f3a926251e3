//! Mendings of the sample files and of roads made for a case.

use reference::file::{read, Alignment, Contract, Kind, Refusal};
use reference::rules::{judge, judge_all};

use super::{all_mended, mended, Mending, Obstacle};

fn road(file: &[u8]) -> Alignment {
    read(file).expect("a file that can be read")
}

fn mountain_road() -> Alignment {
    road(include_bytes!(
        "../../../../examples/mountain-access-road.alignment"
    ))
}

/// A contract under the old handbook.
const OLD: Contract = Contract::Dated(20_090_514);

fn mending(road: &Alignment, number: i128, place: i128) -> Mending {
    let judgement = judge_all(road);
    let broken = Refusal { number, place };
    assert!(judgement.broken.contains(&broken), "{:?}", judgement.broken);
    mended(road, &judgement, broken)
}

fn found(road: &Alignment, number: i128, place: i128) -> Alignment {
    match mending(road, number, place) {
        Mending::Found(road) => road,
        Mending::Obstacle(obstacle) => panic!("{obstacle:?}"),
    }
}

/// Each with the refusal that turns it away.
const SAMPLES: [(&[u8], i128, i128); 14] = [
    (
        include_bytes!("../../../../examples/refusal-06.alignment"),
        6,
        0,
    ),
    (
        include_bytes!("../../../../examples/refusal-08.alignment"),
        8,
        0,
    ),
    (
        include_bytes!("../../../../examples/refusal-09.alignment"),
        9,
        4,
    ),
    (
        include_bytes!("../../../../examples/refusal-10.alignment"),
        10,
        2,
    ),
    (
        include_bytes!("../../../../examples/refusal-11.alignment"),
        11,
        2,
    ),
    (
        include_bytes!("../../../../examples/refusal-12.alignment"),
        12,
        1,
    ),
    (
        include_bytes!("../../../../examples/refusal-13.alignment"),
        13,
        0,
    ),
    (
        include_bytes!("../../../../examples/refusal-14.alignment"),
        14,
        1,
    ),
    (
        include_bytes!("../../../../examples/refusal-15.alignment"),
        15,
        0,
    ),
    (
        include_bytes!("../../../../examples/refusal-16.alignment"),
        16,
        5,
    ),
    (
        include_bytes!("../../../../examples/refusal-17.alignment"),
        17,
        5,
    ),
    (
        include_bytes!("../../../../examples/refusal-18.alignment"),
        18,
        0,
    ),
    (
        include_bytes!("../../../../examples/refusal-19.alignment"),
        19,
        2,
    ),
    (
        include_bytes!("../../../../examples/refusal-23.alignment"),
        23,
        3,
    ),
];

#[test]
fn sample_files() {
    for (file, number, place) in SAMPLES {
        let mended = found(&road(file), number, place);
        assert!(judge(&mended).is_ok(), "{number}");
    }
}

/// Under the old handbook some of them break rule 12 too.
#[test]
fn sample_files_under_the_old_handbook() {
    for (file, number, place) in SAMPLES {
        let mut road = road(file);
        road.contract = OLD;
        let judgement = judge_all(&road);
        assert!(judgement.broken.contains(&Refusal { number, place }));
        let (mended, after) = all_mended(&road, &judgement);
        assert!(after.broken.is_empty(), "{number}: {:?}", after.broken);
        assert!(judge(&mended).is_ok() && mended.contract == OLD);
    }
}

/// A radius and a clothoid that today's rule book allows are mended together.
#[test]
fn both_limits_of_the_old_handbook_at_once() {
    let mut road = mountain_road();
    (road.class, road.terrain, road.contract) = (2, 3, Contract::Undated); // 70 km/h
    road.elements.truncate(5);
    for (element, length) in road
        .elements
        .iter_mut()
        .zip([200_000, 59_999, 60_000, 59_999, 200_002])
    {
        element.length = length;
    }
    road.elements[2].radius = 175_000;
    road.tangents.truncate(1);
    (road.tangents[0].length, road.tangents[0].half_length) = (580_000, 0);
    road.points.truncate(2);
    for (point, station) in road.points.iter_mut().zip([0, 580_000]) {
        (point.station, point.left, point.right) = (station, 40_000, -40_000);
    }
    assert!(judge(&road).is_ok(), "{:?}", judge_all(&road));
    road.contract = OLD;
    let judgement = judge_all(&road);
    let broken: Vec<(i128, i128)> = judgement
        .broken
        .iter()
        .map(|r| (r.number, r.place))
        .collect();
    assert_eq!(broken, [(10, 2), (12, 1), (12, 3)]);
    let (mended, after) = all_mended(&road, &judgement);
    assert!(after.broken.is_empty());
    assert_eq!(mended.elements[2].radius, 180_000);
    assert_eq!(
        [1, 3].map(|place| mended.elements[place].length),
        [60_000; 2]
    );
}

#[test]
fn points_beyond_a_longer_element_move() {
    let mut road = mountain_road();
    road.elements[13].length = 15_312; // one less than A min squared / R asks for
    for point in &mut road.points[14..] {
        point.station -= 10_688;
    }
    road.tangents[5].length -= 10_688;
    let mended = found(&road, 12, 13);
    assert_eq!(mended.elements[13].length, 15_313);
    assert_eq!(mended.points[13].station, road.points[13].station);
    assert_eq!(mended.points[14].station, road.points[14].station + 1);
    assert_eq!(mended.tangents[4].length, road.tangents[4].length + 1);
    assert!(judge(&mended).is_ok());
}

#[test]
fn a_longer_curve_takes_from_the_nearest_tangent_that_can_give() {
    let mut road = mountain_road();
    road.tangents[2].grade = -60_000; // the change at vertex 1 asks for more than tangent 2 has room for
    let mended = found(&road, 15, 1);
    assert_eq!(mended.tangents[1].half_length, 31_600);
    assert_eq!(mended.tangents[2].length, 56_600);
    assert_eq!(mended.tangents[1].length, 128_530);
}

#[test]
fn a_longer_ramp_moves_its_first_point_where_the_second_begins_an_arc() {
    let mut road = mountain_road();
    road.points[1].station = 90_000;
    let mended = found(&road, 18, 1);
    assert_eq!(mended.points[1].station, 95_850 - 15_584);
    assert_eq!(mended.points[2].station, 95_850);
}

#[test]
fn crossfalls_of_an_arc_change_together() {
    let mut road = mountain_road();
    for point in &mut road.points[10..12] {
        (point.left, point.right) = (71_000, -71_000);
    }
    let mended = found(&road, 17, 11);
    let crossfalls = [10, 11].map(|place| (mended.points[place].left, mended.points[place].right));
    assert_eq!(crossfalls, [(70_000, -70_000); 2]);
}

#[test]
fn the_rest_follows_an_element_that_was_changed() {
    let mut road = mountain_road();
    road.elements[8].length += 5_000;
    let mended = found(&road, 6, 0);
    assert_eq!(mended.points[8].station, road.points[8].station);
    assert_eq!(mended.points[9].station, road.points[9].station + 5_000);
    assert!(judge(&mended).is_ok());
}

#[test]
fn several_rules_at_once() {
    let mut road = mountain_road();
    road.elements[2].radius = 40_000;
    road.elements[6].length = 20_000;
    road.tangents[1].grade = 110_000;
    road.points[4].left = 20_000;
    road.ramp_limit = 9_000;
    let (mended, after) = all_mended(&road, &judge_all(&road));
    assert!(after.broken.is_empty(), "{:?}", after.broken);
    assert!(judge(&mended).is_ok());
}

#[test]
fn elements_that_are_missing() {
    let mut short = mountain_road();
    short.elements.truncate(20);
    let found = mending(&short, 7, 20);
    assert!(matches!(found, Mending::Obstacle(Obstacle::NoCandidate)));
    let mut two_wrong = mountain_road();
    two_wrong.elements[5].kind = Kind::Straight;
    two_wrong.elements[6].kind = Kind::Straight;
    let found = mending(&two_wrong, 7, 5);
    assert!(matches!(found, Mending::Obstacle(Obstacle::NoCandidate)));
}

/// Both tangents are shorter than the least half length.
#[test]
fn no_room_for_a_curve() {
    let mut crest = road(include_bytes!("../../../../examples/crest.alignment"));
    crest.elements[0].length = 60_000;
    crest.points[1].station = 60_000;
    for (tangent, grade) in crest.tangents.iter_mut().zip([100_000, -100_000]) {
        (tangent.length, tangent.grade) = (30_000, grade);
    }
    crest.tangents[0].half_length = 40_000;
    let found = mending(&crest, 14, 0);
    let sum = Refusal {
        number: 6,
        place: 0,
    };
    assert!(matches!(found, Mending::Obstacle(Obstacle::Breaks(broken)) if broken == sum));
}

fn egg_road(before: i128, after: i128) -> Alignment {
    let mut road = road(include_bytes!("../../../../examples/refusal-23.alignment"));
    (road.elements[2].radius, road.elements[4].radius) = (before, after);
    road
}

fn egg_radii(road: &Alignment) -> (i128, i128) {
    (road.elements[2].radius, road.elements[4].radius)
}

/// Radii that are too great or equal become the nearest that pass, and the greater one stays the greater.
#[test]
fn radii_beside_an_egg() {
    let most = 1_000_000;
    for (radii, nearest) in [
        ((50_000, 1_000_001), (50_000, most)),
        ((10_000_000, 60_000), (most, 60_000)),
        ((1_100_000, 1_200_000), (most - 1, most)),
        ((1_200_000, 1_100_000), (most, most - 1)),
        ((most, 1_200_000), (most - 1, most)),
        ((50_000, 50_000), (50_001, 50_000)),
        ((most, most), (most - 1, most)),
    ] {
        let mended = found(&egg_road(radii.0, radii.1), 23, 3);
        assert_eq!(egg_radii(&mended), nearest);
        assert!(judge(&mended).is_ok());
    }
}

/// A left bend keeps its turn; the least radius becomes greater, not smaller.
#[test]
fn an_egg_to_the_left_at_the_least_radius() {
    let mut road = egg_road(-45_000, -45_000);
    for point in &mut road.points {
        std::mem::swap(&mut point.left, &mut point.right);
    }
    let mended = found(&road, 23, 3);
    assert_eq!(egg_radii(&mended), (-45_001, -45_000));
    assert!(judge(&mended).is_ok());
}

/// Two eggs with one arc between them, all radii equal: another radius of that arc mends both.
#[test]
fn two_eggs_at_once() {
    let mut road = egg_road(50_000, 50_000);
    let (egg, arc) = (road.elements[3], road.elements[4]);
    road.elements.splice(5..5, [egg, arc]);
    road.tangents[1].length += egg.length + arc.length;
    for point in &mut road.points[5..] {
        point.station += egg.length + arc.length;
    }
    let judgement = judge_all(&road);
    let broken: Vec<_> = judgement
        .broken
        .iter()
        .map(|r| (r.number, r.place))
        .collect();
    assert_eq!(broken, [(23, 3), (23, 5)]);
    let (mended, after) = all_mended(&road, &judgement);
    assert!(after.broken.is_empty(), "{:?}", after.broken);
    assert!(judge(&mended).is_ok());
}

/// Arcs that turn to the wrong side have to be designed anew.
#[test]
fn wrong_turns_around_clothoids() {
    let opposite = mending(&egg_road(50_000, -60_000), 23, 3);
    assert!(matches!(opposite, Mending::Obstacle(Obstacle::NoCandidate)));
    let mut same = road(include_bytes!("../../../../examples/hairpin.alignment"));
    same.elements[5].radius = 45_000;
    for place in [4, 7] {
        let pair = mending(&same, 23, place);
        assert!(matches!(pair, Mending::Obstacle(Obstacle::NoCandidate)));
    }
}

/// −2.5 % on both sides is for radii that no egg may have: the crossfall changes with the radius.
#[test]
fn an_egg_beside_an_arc_that_falls_to_both_sides() {
    let mut road = egg_road(400_000, 3_000_000);
    (road.class, road.terrain) = (1, 3); // 80 km/h
    for element in &mut road.elements {
        element.length = 200_000;
    }
    let ends = [
        0, 200_000, 400_000, 600_000, 800_000, 1_000_000, 1_200_000, 1_400_000,
    ];
    for (point, station) in road.points.iter_mut().zip(ends) {
        point.station = station;
    }
    for point in &mut road.points[4..] {
        (point.left, point.right) = (-25_000, -25_000);
    }
    road.tangents.truncate(1);
    (road.tangents[0].length, road.tangents[0].half_length) = (1_400_000, 0);
    let mended = found(&road, 23, 3);
    assert_eq!(egg_radii(&mended), (400_000, 1_000_000));
    let crossfalls = [4, 5].map(|place| (mended.points[place].left, mended.points[place].right));
    assert_eq!(crossfalls, [(25_000, -25_000); 2]);
    assert!(judge(&mended).is_ok());
}

/// A radius that becomes R min may not become that of the egg's other arc.
#[test]
fn a_small_radius_beside_an_egg() {
    let mended = found(&egg_road(45_000, 44_999), 10, 4);
    assert_eq!(egg_radii(&mended), (45_000, 45_001));
    let road = egg_road(44_000, 43_000);
    let (mended, after) = all_mended(&road, &judge_all(&road));
    assert!(after.broken.is_empty(), "{:?}", after.broken);
    assert_eq!(egg_radii(&mended), (45_000, 45_001));
}

/// A second arc that becomes a clothoid may have a third one beside it: the order is asked first.
#[test]
fn kinds_of_the_wider_order() {
    let mut road = road(include_bytes!("../../../../examples/hairpin.alignment"));
    road.elements[5].kind = Kind::Clothoid;
    road.elements[5].radius = 0;
    let mended = found(&road, 7, 5);
    assert_eq!(mended.elements[5].kind, Kind::Arc);
    assert_eq!(mended.elements[5].radius, -45_000);
    assert!(judge(&mended).is_ok());
}
