//! What `marks` prints, and what it does where the two readings differ.

use proved::SPEEDS;

use super::by_class::judged_at;
use super::verdicts::{agreed, hold_against, Agreed, Marked};
use super::{csv, text};
use crate::language::Language;
use crate::make;

const CREST: &[u8] = include_bytes!("../../../examples/crest.alignment");
const DATED: &[u8] = include_bytes!("../../../examples/contract-of-2009.alignment");
const EGG: &[u8] = include_bytes!("../../../examples/egg.alignment");
const SHORT_STRAIGHT: &[u8] = include_bytes!("../../../examples/refusal-09.alignment");
const SHORT_ARC: &[u8] = include_bytes!("../../../examples/refusal-11.alignment");
const SHORT_CLOTHOID: &[u8] = include_bytes!("../../../examples/refusal-12.alignment");
const STEEP: &[u8] = include_bytes!("../../../examples/refusal-13.alignment");
const WRONG_CROSSFALL: &[u8] = include_bytes!("../../../examples/refusal-19.alignment");
const WRONG_EGG: &[u8] = include_bytes!("../../../examples/refusal-23.alignment");
const LONG_STRAIGHT: &[u8] = include_bytes!("../../../examples/long-straight.alignment");
const LONG_STRAIGHT_TEXT: &str = include_str!("../../../examples/long-straight.txt");

fn marked(file: &[u8]) -> Box<Marked> {
    match agreed(file, Language::English).expect("agreement") {
        Agreed::Marked(road) => road,
        Agreed::Unread(refusal) => panic!("{refusal}"),
    }
}

fn made(text: &str) -> Vec<u8> {
    let made = make::file(text.as_bytes(), Language::English);
    made.expect("a text that can be made").bytes
}

/// What is printed at a speed.
fn at(file: &[u8], speed: &str) -> String {
    let table = text::table(&marked(file), Language::English);
    let line = table.lines().find(|line| line.trim().starts_with(speed));
    let said = line.and_then(|line| line.split_once("  "));
    said.map_or(String::new(), |(_, said)| said.trim().to_string())
}

#[test]
fn a_straight_that_fails_at_70_and_passes_at_80() {
    let table = text::table(&marked(LONG_STRAIGHT), Language::English);
    let expected = "\
connecting road, mountain terrain; today's rule book: no contract date
 40 km/h                passes
 50 km/h                passes
 60 km/h                R 8 4: a straight is too long: element 4; straight max 1,200 m
 70 km/h, design speed  R 8 4: a straight is too long: element 4; straight max 1,400 m
 80 km/h                passes
 90 km/h                R 18 1: the crossfall changes faster than the ramp limit allows: crossfall point 1; lane width 3.50 m
100 km/h                R 10 2: the radius of an arc is too small: element 2; R min 450 m
";
    assert_eq!(table, expected);
}

#[test]
fn in_serbian() {
    let table = text::table(&marked(LONG_STRAIGHT), Language::Serbian);
    let lines: Vec<&str> = table.lines().collect();
    let own = " 70 km/h, рачунска брзина  R 8 4: правац је предугачак: елемент 4; највећа дужина правца 1.400 m";
    assert_eq!(lines[4], own);
    assert_eq!(lines[5], " 80 km/h                   пролази");
}

/// Class and terrain change which speed is the design speed, and no verdict.
#[test]
fn class_and_terrain_do_not_count() {
    let verdicts = marked(LONG_STRAIGHT).verdicts;
    for (class, terrain, speed) in [(1, 1, 100), (2, 2, 80), (3, 2, 60), (4, 3, 40)] {
        let text = LONG_STRAIGHT_TEXT
            .replace("class 2", &format!("class {class}"))
            .replace("terrain 3", &format!("terrain {terrain}"));
        let road = marked(&made(&text));
        assert_eq!((road.verdicts, road.design_speed()), (verdicts, speed));
    }
}

/// R min at 70 km/h is 175 m today and 180 m in the old handbook.
#[test]
fn the_contract_date_stays() {
    let bend = |date: &str| {
        made(&format!(
            "{date}class 4\nterrain 3\nstep 50000\nramp 10000\nstraight 150000\nclothoid 60000\narc 100000 179000\n\
             clothoid 60000\nstraight 130000\nstart 0\ntangent 500000 20000\ncrossfall 0 40000 -40000\n\
             crossfall 500000 40000 -40000\n"
        ))
    };
    assert_eq!(at(&bend("date 2012-01-01\n"), "70"), "passes");
    let old = "R 10 2: the radius of an arc is too small: element 2; R min 180 m";
    assert_eq!(at(&bend("date 2011-12-31\n"), "70"), old);
    let table = text::table(&marked(DATED), Language::English);
    let first = table.lines().next();
    assert_eq!(
        first,
        Some("access road, hilly terrain; old handbook: contracted 2009-06-15")
    );
    assert_eq!(at(DATED, "50"), "passes");
    let clothoid = "R 12 1: a clothoid is too short: element 1; A min 55 m";
    // without the 9 and the four bytes of the date
    assert_eq!(at(&DATED[5..], "50"), clothoid);
}

/// The limit beside a refusal is that of the speed; a rule that is the same at every speed has none.
#[test]
fn limits_of_speeds() {
    let ending = |file: &[u8], speed| {
        let said = at(file, speed);
        let (number, rest) = said.split_once(':').expect("a refusal");
        let limit = rest.split_once("; ").map_or("", |(_, limit)| limit);
        format!("{number}; {limit}")
    };
    let sag = made(&LONG_STRAIGHT_TEXT.replace("curve 110000", "curve 20000"));
    for (file, speed, expected) in [
        (LONG_STRAIGHT, "60", "R 8 4; straight max 1,200 m"),
        (SHORT_STRAIGHT, "80", "R 9 4; straight min 160 m"),
        (EGG, "70", "R 10 4; R min 175 m"),
        (SHORT_ARC, "40", "R 11 2; arc min 22 m"),
        (SHORT_CLOTHOID, "40", "R 12 1; A min 35 m"),
        (STEEP, "40", "R 13 0; grade max 10.0 %"),
        (CREST, "60", "R 15 0; crest R 1,250 m"),
        (&sag, "80", "R 15 1; sag R 2,500 m"),
        (LONG_STRAIGHT, "90", "R 18 1; lane width 3.50 m"),
        (
            WRONG_CROSSFALL,
            "40",
            "R 19 2; R' (−2.5 % on both sides) none",
        ),
        (WRONG_EGG, "40", "R 23 3; "),
    ] {
        assert_eq!(ending(file, speed), expected);
    }
}

#[test]
fn a_file_that_cannot_be_read() {
    for file in [&b""[..], &CREST[..20], &[9, 0]] {
        let Agreed::Unread(refusal) = agreed(file, Language::English).expect("agreement") else {
            panic!("it is read");
        };
        assert_eq!(proved::next_station(file, 0), Err(refusal));
        let line = csv::unread("a", refusal);
        assert_eq!(
            line,
            format!("a,,,,{},{}\n", refusal.number(), refusal.place())
        );
    }
}

#[test]
fn with_commas() {
    let lines = csv::lines("a,b", &marked(LONG_STRAIGHT));
    assert_eq!(lines.lines().nth(3), Some("\"a,b\",70,70,0,8,4"));
    assert_eq!(lines.lines().nth(4), Some("\"a,b\",70,80,1,,"));
    assert_eq!(lines.lines().count(), 7);
    let fields = csv::HEAD.trim_end().split(',').count();
    assert!(lines
        .lines()
        .all(|line| line.matches(',').count() == fields));
}

/// The library's answers for one road against the second reading of another.
#[test]
fn where_the_readings_differ() {
    let marks = |file| proved::marks(file).expect("marks");
    let judged = |file| SPEEDS.map(|speed| judged_at(file, speed));
    let held = |marks, judged, road| hold_against(marks, judged, road, Language::English);
    let (long, crest) = (marked(LONG_STRAIGHT), marked(CREST));
    let same = held(marks(LONG_STRAIGHT), judged(LONG_STRAIGHT), &long);
    assert_eq!(same, Ok(()));
    assert_eq!(held(marks(CREST), judged(CREST), &crest), Ok(()));
    let mark = Err("at 80 km/h: does not pass and passes".to_string());
    assert_eq!(held(marks(CREST), judged(LONG_STRAIGHT), &long), mark);
    let mark = Err("at 80 km/h: passes and R 15 0".to_string());
    assert_eq!(held(marks(LONG_STRAIGHT), judged(CREST), &crest), mark);
    let refusal = Err("at 60 km/h: R 15 0 and R 8 4".to_string());
    assert_eq!(held(marks(LONG_STRAIGHT), judged(CREST), &long), refusal);
    let refusal = Err("at 60 km/h: R 8 4 and R 15 0".to_string());
    assert_eq!(held(marks(CREST), judged(LONG_STRAIGHT), &crest), refusal);
}
