//! The generator itself: what it makes, and that it reaches everything.

use std::collections::BTreeSet;

use super::absurd::extreme;
use super::days::{contract_under, day_or_none};
use super::edges::plan::change_kind;
use super::edges::EDGES;
use super::head::Head;
use super::numbers::{file, numbers};
use super::pegs::{joints, peg_list};
use super::random::Random;
use super::valid::bends::{eggs, kinds_run, pairs};
use super::valid::speeds::road_of_any_speed;
use super::valid::{random_road, road_of};
use super::{make_file, FileKind};
use crate::compare::refusal_at;
use reference::day::is_day;
use reference::file::{read, GREATEST_NUMBER};
use reference::limits::{rule_book, RuleBook, SPEEDS};
use reference::machine::accept;
use reference::marks::{first_refusal_at, marks};
use reference::pegs::pegs;
use reference::rules::judge_all;

#[test]
fn valid_roads_are_accepted() {
    for index in 0..3_000 {
        let mut random = Random::for_file(7, index);
        let head = Head::of_class(&mut random);
        let bytes = file(&road_of(&mut random, head));
        assert!(accept(&bytes).is_ok(), "index {index}");
    }
}

#[test]
fn roads_pass_at_the_speed_that_they_are_designed_for() {
    let mut counts = [0; SPEEDS.len()];
    for index in 0..3_000 {
        let road = road_of_any_speed(&mut Random::for_file(31, index));
        assert_eq!(first_refusal_at(&road, road.speed), None, "index {index}");
        let place = SPEEDS.iter().position(|&speed| speed == road.speed);
        counts[place.expect("one of the speeds")] += 1;
    }
    assert!(counts.iter().all(|&count| count > 350), "{counts:?}");
}

#[test]
fn many_valid_roads_have_eggs_and_pairs() {
    let mut counts = [0; 3];
    for index in 0..3_000 {
        let road = random_road(&mut Random::for_file(29, index));
        let has = [eggs(&road.elements), pairs(&road.elements)].map(|places| !places.is_empty());
        counts[0] += u64::from(has[0]);
        counts[1] += u64::from(has[1]);
        counts[2] += u64::from(has == [false, false]);
    }
    assert!(counts.iter().all(|&count| count > 600), "{counts:?}");
}

#[test]
fn both_sides_of_every_limit_are_as_expected() {
    for (place, edge) in EDGES.iter().enumerate() {
        for index in 0..20 {
            for outside in [false, true] {
                let mut random = Random::for_file(place as u64, index);
                let made = edge.make(&mut random, outside);
                let refusal = refusal_at(&made.bytes, made.speed);
                assert!(
                    made.expected.holds(refusal),
                    "{} outside {outside} index {index}: {:?}, {refusal:?}",
                    edge.name,
                    made.expected
                );
            }
        }
    }
}

#[test]
fn limits_of_rules_begin_where_said() {
    assert!(EDGES[super::FIRST_RULE].name.starts_with("5 "));
    assert!(EDGES[super::FIRST_RULE - 1].name.starts_with("4 "));
    assert_eq!(EDGES[super::DATES.start].name, "2 date");
    assert_eq!(EDGES[super::DATES.end - 1].name, "3 second date");
}

#[test]
fn a_file_is_made_again_from_seed_and_index() {
    for index in 0..200 {
        let make = || make_file(&mut Random::for_file(3, index), None).bytes;
        assert_eq!(make(), make());
    }
}

#[test]
fn lists_of_pegs_are_answered_in_every_way() {
    let mut counts = [0; 3];
    for index in 0..3_000 {
        let mut random = Random::for_file(37, index);
        let head = Head::of_class(&mut random);
        let road = road_of(&mut random, head);
        let list = peg_list(&mut random, Some(&road), &joints(Some(&road)));
        let answer = pegs(&file(&road), &list.pegs, &mut vec![0; list.room]);
        counts[match answer.map_err(|refusal| refusal.number) {
            Ok(_) => 0,
            Err(20) => 1,
            Err(24) => 2,
            Err(number) => panic!("index {index}: {number}"),
        }] += 1;
    }
    assert!(counts.iter().all(|&count| count > 400), "{counts:?}");
}

/// The generator's own word on the kinds against the reference's.
#[test]
fn kinds_run_where_refusal_7_passes_them() {
    let mut counts = [0; 2];
    for index in 0..20_000 {
        let mut random = Random::for_file(23, index);
        let Ok(mut road) = read(&extreme(&mut random)) else {
            continue;
        };
        if random.chance(50) {
            let place = random.place(road.elements.len());
            change_kind(&mut random, &mut road.elements[place]);
        }
        let broken = judge_all(&road).broken;
        let refused = broken.iter().any(|refusal| refusal.number == 7);
        assert_eq!(kinds_run(&road.elements), !refused, "index {index}");
        counts[usize::from(refused)] += 1;
    }
    assert!(counts.iter().all(|&count| count > 3_000), "{counts:?}");
}

#[test]
fn numbers_of_a_road_are_read_back() {
    for index in 0..200 {
        let road = random_road(&mut Random::for_file(11, index));
        let again = read(&file(&road)).expect("a file that can be read");
        let written = |road| numbers(road).iter().map(|n| n.written).collect::<Vec<_>>();
        assert_eq!(written(&road), written(&again));
    }
}

#[test]
fn days_are_days_and_the_others_are_none() {
    for index in 0..20_000 {
        let mut random = Random::for_file(13, index);
        for wanted in [true, false] {
            let date = day_or_none(&mut random, wanted);
            assert!(is_day(date) == wanted && date <= GREATEST_NUMBER, "{date}");
        }
    }
}

#[test]
fn a_contract_is_under_the_rule_book_asked_for() {
    for index in 0..2_000 {
        let mut random = Random::for_file(17, index);
        for book in [RuleBook::Today, RuleBook::OldHandbook] {
            let contract = contract_under(&mut random, book);
            assert_eq!(rule_book(contract), book, "{contract:?}");
        }
    }
}

#[test]
fn about_half_of_the_files_are_dated() {
    let dated = |index| {
        let made = make_file(&mut Random::for_file(19, index), None);
        made.bytes.first() == Some(&9)
    };
    let count = (0..5_000).filter(|&index| dated(index)).count();
    assert!((2_500..3_000).contains(&count), "{count}");
}

#[test]
fn one_kind_alone_can_be_asked_for() {
    let mut random = Random::for_file(5, 1);
    let made = make_file(&mut random, Some(FileKind::Absurd));
    assert!(made.kind == FileKind::Absurd && made.edge.is_none());
}

/// Straight max and R' alone let a speed pass above one that does not: that leaves 24 sets.
#[test]
fn every_set_of_marks_that_can_be_is_made() {
    let mut sets = BTreeSet::new();
    for index in 0..20_000 {
        let made = make_file(&mut Random::for_file(37, index), None);
        sets.extend(marks(&made.bytes).map(|marks| marks.number()));
    }
    assert_eq!(sets.len(), 24, "{sets:?}");
}

/// Both sides of every limit of a row, at every speed whose row has it.
#[test]
fn limits_of_a_row_are_met_at_every_speed() {
    for (place, edge) in EDGES.iter().enumerate().filter(|(_, edge)| edge.of_row) {
        let mut speeds = BTreeSet::new();
        for index in 0..300 {
            let mut random = Random::for_file(place as u64, index);
            speeds.insert(edge.make(&mut random, true).speed);
        }
        let least = match edge.name {
            "10 at 70 of one book" | "12 by length alone" => 1,
            "19 at another speed" => 4,
            "8 straight max" | "8 at another speed" | "9 straight min" | "9 nearest arcs" => 5,
            "18 narrower lane" => 6,
            _ => 7,
        };
        assert_eq!(speeds.len(), least, "{} {speeds:?}", edge.name);
    }
}
