//! What `why` prints.

use reference::file::{read, Contract, Kind, Refusal};
use reference::limits::{limits_at, speed};
use reference::rules::judge_all;

use super::mending::{all_mended, mended, Mending};
use super::{least, limits, moves, text};
use crate::agreement::{agreed, Agreed};
use crate::language::Language;
use crate::make;

fn printed(file: &[u8], language: Language) -> String {
    match agreed(file, language).expect("agreement") {
        Agreed::Listed(listed) => text::kept(&listed, language),
        Agreed::Refused(refused) => text::broken(&refused, language),
    }
}

/// One right bend between two straights; `head` has the contract date, if any, and the class and the terrain.
fn bend(head: &str, clothoids: [i128; 2], arc: i128, radius: i128) -> Vec<u8> {
    let [first, second] = clothoids;
    let length = 260_000 + first + arc + second;
    let text = format!(
        "{head}
step 50000
ramp 10000
straight 130000
clothoid {first}
arc {arc} {radius}
clothoid {second}
straight 130000
start 500000
tangent {length} 20000
crossfall 0 40000 -40000
crossfall {length} 40000 -40000
"
    );
    made(&text)
}

fn made(text: &str) -> Vec<u8> {
    let made = make::file(text.as_bytes(), Language::English);
    made.expect("a text that can be made").bytes
}

/// The line of what is printed that begins so.
fn line(text: &str, word: &str) -> String {
    let found = text.lines().find_map(|line| line.trim().strip_prefix(word));
    found.unwrap_or("no such line").to_string()
}

const CREST: &[u8] = include_bytes!("../../../examples/crest.alignment");
const CLOTHOID: &[u8] = include_bytes!("../../../examples/refusal-12.alignment");

#[test]
fn a_road_that_keeps_every_rule() {
    let line = printed(CREST, Language::English);
    assert_eq!(line, "keeps every rule: 200,000 mm long, 7 rows\n");
}

#[test]
fn a_finding() {
    let text = printed(CLOTHOID, Language::English);
    let expected = "R 12 1: a clothoid is too short: element 1
  length 27,222 mm, from station 102,778 to 130,000; its arc is element 2 (radius 45,000 mm); length × radius is 1,224,990,000 mm²
  limit: A min 35 m at 40 km/h (access road, mountain terrain; today's rule book: no contract date), so length × radius at least 1,225,000,000 mm²
  rule book: annex 2, chapter 10, „Минимални параметар клотоиде min A (m)“; A² = R × L: annex 2, 6.3; design speed: annex 2, table 3-03
  passes: length 27,223 mm or more (A min² / radius, rounded up), now 1 mm less
  then: the road becomes 1 mm longer; tangent 0 becomes 150,001 mm long; points 2 to 5 move 1 mm towards the end; the bend turns by a greater angle; heights beyond change: the road's end by less than 1 mm
  change: element 1: clothoid 27223
  change: tangent 0: tangent 150001 30000 curve 15000
  change: point 2: crossfall 130001 60000 -60000
  change: point 3: crossfall 170001 60000 -60000
  change: point 4: crossfall 200001 -25000 -25000
  change: point 5: crossfall 300001 -25000 -25000
";
    assert_eq!(text, expected);
}

#[test]
fn a_finding_by_the_old_handbook() {
    let text = include_str!("../../../examples/refusal-12.txt");
    let file = made(&format!("date 2009-05-14\n{text}"));
    let expected = "R 12 1: a clothoid is too short: element 1
  length 27,222 mm, from station 102,778 to 130,000
  limit: least clothoid length 30 m at 40 km/h (access road, mountain terrain; old handbook: contracted 2009-05-14)
  old handbook: second table of source document 003, „Lmin (m)“, for roads contracted before 2012-01-01; design speed: annex 2, table 3-03
  passes: length 30,000 mm or more, now 2,778 mm less
  then: the road becomes 2,778 mm longer; tangent 0 becomes 152,778 mm long; points 2 to 5 move 2,778 mm towards the end; the bend turns by a greater angle; heights beyond change: the road's end is 83 mm higher
  change: element 1: clothoid 30000
  change: tangent 0: tangent 152778 30000 curve 15000
  change: point 2: crossfall 132778 60000 -60000
  change: point 3: crossfall 172778 60000 -60000
  change: point 4: crossfall 202778 -25000 -25000
  change: point 5: crossfall 302778 -25000 -25000
";
    assert_eq!(printed(&file, Language::English), expected);
}

#[test]
fn dated_roads_that_keep_every_rule() {
    let [old, today] = ["2011-12-31", "2012-01-01"].map(|day| {
        let text = include_str!("../../../examples/crest.txt");
        let file = made(&format!("date {day}\n{text}"));
        [Language::English, Language::Serbian].map(|language| printed(&file, language))
    });
    let rest = "200,000 mm long, 7 rows\n";
    let book = "old handbook: contracted 2011-12-31";
    assert_eq!(old[0], format!("keeps every rule ({book}): {rest}"));
    let book = "today's rule book: contracted 2012-01-01";
    assert_eq!(today[0], format!("keeps every rule ({book}): {rest}"));
    assert!(old[1].contains("(стари приручник: уговор од 2011-12-31)"));
}

/// The days on both sides of the limit between the rule books, and no day.
const DAYS: [Option<i128>; 3] = [None, Some(20_111_231), Some(20_120_101)];

/// The value that `why` names for a clothoid and for a radius passes, and one less does not, at every speed.
#[test]
fn what_is_named_passes_and_one_less_does_not() {
    for (class, terrain) in (1..=4).flat_map(|class| [1, 2, 3].map(|terrain| (class, terrain))) {
        for day in DAYS {
            let contract = day.map_or(Contract::Undated, Contract::Dated);
            let date = day.map_or(String::new(), |day| format!("date {day}\n"));
            let head = format!("{date}class {class}\nterrain {terrain}");
            let limits = limits_at(speed(class, terrain), contract);
            let (arc, radius) = (limits.arc_min, limits.radius_min);
            let least = least::clothoid(&limits, radius);
            let long = 200_000;
            is_told(12, 1, "length", least, |l| {
                bend(&head, [l, long], arc, radius)
            });
            is_told(12, 3, "length", least, |l| {
                bend(&head, [long, l], arc, radius)
            });
            is_told(10, 2, "radius", radius, |r| bend(&head, [long; 2], arc, r));
        }
    }
}

/// Whether one less than a number is refused and told with the number, and the number, put in by `why`'s changes or as
/// it is, keeps every rule.
fn is_told(rule: i128, place: i128, quantity: &str, least: i128, road: impl Fn(i128) -> Vec<u8>) {
    let refused = printed(&road(least - 1), Language::English);
    assert!(
        refused.starts_with(&format!("R {rule} {place}: ")),
        "{refused}"
    );
    let number = Language::English.number(least);
    let passes = format!("{quantity} {number} mm or more");
    assert!(line(&refused, "passes: ").starts_with(&passes), "{refused}");
    assert!(line(&refused, "passes: ").ends_with("now 1 mm less"));
    let kept = printed(&road(least), Language::English);
    assert!(kept.starts_with("keeps every rule"), "{kept}");
    let old = read(&road(least - 1)).expect("a file that can be read");
    let broken = Refusal {
        number: rule,
        place,
    };
    let Mending::Found(new) = mended(&old, &judge_all(&old), broken) else {
        panic!("a road with the least value");
    };
    let element = new.elements[place as usize];
    let value = if rule == 10 {
        element.radius
    } else {
        element.length
    };
    assert_eq!(value, least);
}

/// Under the old handbook the radius does not matter to a clothoid.
#[test]
fn a_clothoid_by_the_old_handbook_at_any_radius() {
    for radius in [45_000, 1_000_000, 10_000_000] {
        let head = "date 2009-05-14\nclass 4\nterrain 3";
        let text = printed(
            &bend(head, [29_999, 30_000], 40_000, radius),
            Language::English,
        );
        assert!(text.starts_with("R 12 1: "), "{text}");
        let passes = "length 30,000 mm or more, now 1 mm less";
        assert_eq!(line(&text, "passes: "), passes);
    }
}

#[test]
fn what_would_keep_the_rule_by_the_other_book() {
    let text = |head, clothoid, radius| {
        printed(
            &bend(head, [clothoid, 200_000], 60_000, radius),
            Language::English,
        )
    };
    let today = "contracted on 2012-01-01 or later, this element would keep this rule: ";
    let before = "contracted before 2012-01-01, this element would keep this rule: ";
    let none = "no such line";
    // 70 km/h: R min 175 and 180 m
    let old_at_70 = "date 2009-05-14\nclass 2\nterrain 3";
    let book = "R min 175 m in today's rule book";
    assert_eq!(line(&text(old_at_70, 200_000, 175_000), today), book);
    assert_eq!(line(&text(old_at_70, 200_000, 174_999), today), none);
    // 40 km/h: A min 35 m, so 24,500 mm at a radius of 50 m, and 30 m
    let old_at_40 = "date 2009-05-14\nclass 4\nterrain 3";
    let book = "A min 35 m in today's rule book";
    assert_eq!(line(&text(old_at_40, 24_500, 50_000), today), book);
    assert_eq!(line(&text(old_at_40, 24_499, 50_000), today), none);
    // 50 km/h: A min 55 m, so 40,334 mm at a radius of 75 m, and 40 m
    let book = "least clothoid length 40 m in the old handbook";
    let undated = text("class 4\nterrain 2", 40_000, 75_000);
    let order = [
        "length 4",
        "limit: ",
        "rule book: ",
        before,
        "passes: ",
        "then: ",
    ];
    let lines = undated.lines().skip(1).zip(order);
    assert!(lines
        .into_iter()
        .all(|(line, word)| line.trim().starts_with(word)));
    for head in ["class 4\nterrain 2", "date 2012-01-01\nclass 4\nterrain 2"] {
        assert_eq!(line(&text(head, 40_000, 75_000), before), book);
        assert_eq!(line(&text(head, 39_999, 75_000), before), none);
    }
}

/// A limit of a dated road says its rule book and where it stands there, or that both have it.
#[test]
fn limits_of_dated_roads() {
    let told = |day: &str, text: &str, word: &str| {
        let file = made(&format!("date {day}\n{text}"));
        line(&printed(&file, Language::English), word)
    };
    let radius = include_str!("../../../examples/refusal-10.txt");
    let arc = include_str!("../../../examples/refusal-11.txt");
    assert_eq!(
        told("2009-05-14", radius, "limit: "),
        "R min 45 m at 40 km/h (access road, mountain terrain; old handbook: contracted 2009-05-14)"
    );
    assert_eq!(
        told("2009-05-14", radius, "old handbook: "),
        "second table of source document 003, „Rmin (m)“, for roads contracted before 2012-01-01; design speed: annex 2, table 3-03"
    );
    assert_eq!(
        told("2015-06-30", radius, "limit: "),
        "R min 45 m at 40 km/h (access road, mountain terrain; today's rule book: contracted 2015-06-30)"
    );
    let today = told("2015-06-30", radius, "rule book: ");
    assert!(today.starts_with("annex 2, chapter 10, „Минимални радијус min R (m)“"));
    assert_eq!(
        told("2009-05-14", arc, "limit: "),
        "arc min 22 m at 40 km/h (access road, mountain terrain; contracted 2009-05-14, the same in both rule books)"
    );
}

#[test]
fn items_and_lines_are_the_same_in_every_language() {
    let lines = |language, word: &str| -> Vec<String> {
        let text = printed(CLOTHOID, language);
        let lines = text.lines().filter_map(|line| line.strip_prefix(word));
        lines.map(str::to_string).collect()
    };
    let english = lines(Language::English, "  change: ");
    assert_eq!(english.len(), 6);
    assert_eq!(english, lines(Language::Serbian, "  измена: "));
    assert_eq!(english, lines(Language::SerbianLatin, "  izmena: "));
}

/// What is changed where there is no room for the least value is not told as what follows from it.
#[test]
fn no_room_for_the_least_value() {
    let mut road = read(CREST).expect("a file that can be read");
    road.elements[0].length = 60_000;
    road.points[1].station = 60_000;
    for (tangent, grade) in road.tangents.iter_mut().zip([100_000, -100_000]) {
        (tangent.length, tangent.grade) = (30_000, grade);
    }
    road.tangents[0].half_length = 20_000; // 40,000 is the least, and 30,000 has room
    let broken = Refusal {
        number: 15,
        place: 0,
    };
    let Mending::Found(new) = mended(&road, &judge_all(&road), broken) else {
        panic!("a smaller change of grade");
    };
    let line = moves::moves(&road, &new, broken, Language::English);
    let expected = "instead, since there is no room for that: tangent 1 gets a grade of 0 ppm; \
        heights beyond change: the road's end is 3,000 mm higher";
    assert_eq!(line, expected);
}

#[test]
fn files_that_cannot_be_read() {
    let said = |file: &[u8], words: &str| {
        let text = printed(file, Language::English);
        assert!(text.contains(words), "{text}");
    };
    said(&[], "byte 0, class: the file ends where this number is due");
    said(&[4, 3, 0x80], "byte 2, step: the number breaks off");
    said(
        &CREST[..20],
        "byte 19, tangent 0, grade: the number breaks off",
    );
    said(
        &[4, 3, 5],
        "byte 2, step: 5\n  range: 1,000 to 100,000 mm\n  passes: 1,000\n",
    );
    said(
        &[CREST, &[0; 3]].concat(),
        "byte 48: the last number ends before it; bytes from there on: 3",
    );
    said(&[0; 9_000], "the file has at least 8,193 bytes");
    said(&[9], "byte 1, contract date: the file ends where this number is due\n  look at: a file cut short");
    said(
        &[9, 0x80, 0],
        "byte 1, contract date: the number is not in shortest form",
    );
    said(b"\tclass 4", "look at: whether this is a text");
}

#[test]
fn a_contract_date_that_is_no_day() {
    let file = include_bytes!("../../../examples/refusal-22.alignment");
    let expected = "R 22 1: the contract date is no day from 1950 to 2099: byte 1
  byte 1, contract date: 2009-02-29
  2009 is no leap year: its February has 28 days
  range: a day from 1950-01-01 to 2099-12-31
  rule book: no such limit; document 02, A.1: a day of the Gregorian calendar
  passes: 2009-02-28 (old handbook) or 2009-03-01 (old handbook)
  nothing after the date was read: the other rules are asked once it is a day
  look at: the contract; the order year, month, day; a file without a contract date begins with its class, not with 9
  change: date: date 2009-02-28
";
    assert_eq!(printed(file, Language::English), expected);
    let line_of = |language, word| line(&printed(file, language), word);
    let change = "date: date 2009-02-28";
    assert_eq!(line_of(Language::Serbian, "измена: "), change);
    assert_eq!(line_of(Language::SerbianLatin, "izmena: "), change);
}

/// The day would decide the rule book, or cannot be told from the number.
#[test]
fn a_contract_date_that_the_contract_alone_tells() {
    for (date, rest) in [
        ("2011-12-32", ", since the day decides the rule book"),
        ("2009-15-06", ", since the day decides the rule book"),
        ("31122011", ", since the day decides the rule book"),
        ("1949-12-31", ""),
        ("2015-13-13", ""),
        ("0", ""),
        ("4294967295", ""),
    ] {
        let file = made(&format!("date {date}\nclass 4\nterrain 3\nbytes"));
        let text = printed(&file, Language::English);
        assert!(text.starts_with("R 22 1: "), "{text}");
        assert_eq!(line(&text, "the contract has to tell the day"), rest);
        assert!(!text.contains("change: "), "{text}");
    }
    let text = printed(&made("date 31122011\nbytes"), Language::English);
    let day = "2011-12-31";
    assert_eq!(line(&text, "read as day, month, year it is "), day);
    assert_eq!(line(&text, "passes: "), "2011-12-31 (old handbook)");
    let text = printed(&made("date 2009\nbytes"), Language::English);
    assert_eq!(line(&text, "passes: "), "no such line");
}

#[test]
fn rules_that_were_not_asked() {
    let file = include_bytes!("../../../examples/refusal-16.alignment");
    let text = printed(file, Language::English);
    assert!(text.ends_with("is broken: 18, 19\n"));
}

const WRONG_EGG: &[u8] = include_bytes!("../../../examples/refusal-23.alignment");

/// The sample of refusal 23 with other radii.
fn egg(before: i128, after: i128) -> Vec<u8> {
    let text = include_str!("../../../examples/refusal-23.txt");
    let before = format!("arc 40000 {before}\n");
    let after = format!("arc 40000 {after}\n");
    let text = text.replace("arc 40000 50000\n", &before);
    made(&text.replace("arc 40000 1000001\n", &after))
}

#[test]
fn an_egg_curve_that_does_not_fit_its_arcs() {
    let expected = "R 23 3: an egg curve or a pair of clothoids does not fit its arcs: element 3
  length 30,000 mm, from station 170,000 to 200,000; egg curve between element 2 (radius 50,000 mm) and element 4 (radius 1,000,001 mm): a radius over the limit
  limit: one clothoid between two arcs (egg curve): arcs of the same turn, radii that differ, each at most 1,000,000 mm
  rule book: annex 2, 6.3, „Јајаста \"O\" - крива“, between arcs of the same turn and different radii; the greatest radius is document 02's (A.3)
  passes: radius 1,000,000 mm or less, now 1 mm more
  then: element 4 gets a radius of 1,000,000 mm; the bend turns by a greater angle
  change: element 4: arc 40000 1000000
";
    assert_eq!(printed(WRONG_EGG, Language::English), expected);
    let change = "element 4: arc 40000 1000000";
    let line_of = |language, word| line(&printed(WRONG_EGG, language), word);
    assert_eq!(line_of(Language::Serbian, "измена: "), change);
    assert_eq!(line_of(Language::SerbianLatin, "izmena: "), change);
}

/// What an egg curve may not have, all of it told at once, and what passes.
#[test]
fn egg_curves_told() {
    let told = |before, after, words: &str| {
        let text = printed(&egg(before, after), Language::English);
        assert!(text.starts_with("R 23 3: "), "{text}");
        let numbers = text.lines().nth(1).unwrap_or("");
        assert!(numbers.ends_with(words), "{text}");
        line(&text, "passes: ")
    };
    let equal = told(50_000, 50_000, ": equal radii");
    assert!(equal.contains("the designer has to decide: one arc with radius 50,000 mm"));
    let both = "one radius 1,000,000 mm or less, the other 999,999 mm or less, and not the same";
    assert_eq!(
        told(1_100_000, 1_200_000, ": a radius over the limit"),
        both
    );
    assert_eq!(
        told(1_000_000, 1_200_000, ": a radius over the limit"),
        both
    );
    assert_eq!(
        told(
            2_000_000,
            2_000_000,
            ": equal radii, a radius over the limit"
        ),
        both
    );
    let opposite =
        "between these arcs two clothoids (reversing bend), or clothoid, straight, clothoid";
    assert_eq!(told(50_000, -60_000, ": opposite turns"), opposite);
    let all = ": opposite turns, equal radii, a radius over the limit";
    assert_eq!(told(-2_000_000, 2_000_000, all), opposite);
}

#[test]
fn pairs_between_arcs_of_the_same_turn() {
    let source = include_str!("../../../examples/hairpin.txt");
    let told = |radius: &str| {
        let file = made(&source.replace("arc 104700 -45000", &format!("arc 104700 {radius}")));
        printed(&file, Language::English)
    };
    let text = told("45000");
    let numbers = "length 38,500 mm, from station 151,650 to 190,150; with element 3 a pair of clothoids between \
        element 2 (radius 55,000 mm) and element 5 (radius 45,000 mm): the same turn";
    assert!(
        text.starts_with("R 23 4: ") && text.contains("\nR 23 7: "),
        "{text}"
    );
    assert!(text.contains(numbers), "{text}");
    // 35,000² × 10,000 / (45,000 × 55,000), rounded up
    let egg = "between these arcs one clothoid of 4,950 mm or more (egg curve), or clothoid, straight, clothoid";
    assert_eq!(line(&text, "passes: "), egg);
    let straight = "between these arcs clothoid, straight, clothoid";
    assert_eq!(line(&told("55000"), "passes: "), straight);
    assert!(text.contains("lines have to be added or taken away"));
}

/// The least length of an egg curve passes, and one less does not, at every speed and in both rule books.
#[test]
fn the_least_length_of_an_egg_curve() {
    for (class, terrain) in (1..=4).flat_map(|class| [1, 2, 3].map(|terrain| (class, terrain))) {
        for day in DAYS {
            let contract = day.map_or(Contract::Undated, Contract::Dated);
            let date = day.map_or(String::new(), |day| format!("date {day}\n"));
            let limits = limits_at(speed(class, terrain), contract);
            let radii = [limits.radius_min, 999_983];
            let least = least::egg(&limits, radii[0], radii[1]);
            is_told(12, 3, "length", least, |length| {
                let arc = limits.arc_min;
                let whole = 660_000 + 2 * arc + length;
                made(&format!(
                    "{date}class {class}\nterrain {terrain}\nstep 50000\nramp 10000
straight 130000
clothoid 200000
arc {arc} {}
clothoid {length}
arc {arc} {}
clothoid 200000
straight 130000
start 500000
tangent {whole} 20000
crossfall 0 40000 -40000
crossfall {whole} 40000 -40000
",
                    radii[0], radii[1]
                ))
            });
        }
    }
}

#[test]
fn a_short_egg_curve() {
    let text =
        include_str!("../../../examples/egg.txt").replace("clothoid 40000 ", "clothoid 18749 ");
    let text = printed(&made(&text), Language::English);
    let numbers =
        "egg curve between element 2 (radius −300,000 mm) and element 4 (radius −150,000 mm); \
        length × R1 × R2 is 843,705,000,000,000 mm³";
    assert!(text.contains(numbers), "{text}");
    assert!(
        text.contains("so length × R1 × R2 at least A min² × |R1 − R2| = 843,750,000,000,000 mm³")
    );
    let passes =
        "length 18,750 mm or more (A min² × |R1 − R2| / (R1 × R2), rounded up), now 1 mm less";
    assert!(text.contains(passes), "{text}");
}

/// Which kinds may stand at a place: one where an element is wrong, several where the plan stops short.
#[test]
fn kinds_that_are_due() {
    let source = include_str!("../../../examples/refusal-23.txt");
    let short = made(&source.replace("clothoid 30000\nstraight 100000\n\n", "clothoid 30000\n\n"));
    let text = printed(&short, Language::English);
    assert!(text.contains("\nR 7 6: "), "{text}");
    let due = "the last element is a clothoid; a straight, an arc or a clothoid is due next";
    assert!(text.contains(due), "{text}");
    let three = "clothoid 31500             # reversing bend: these two meet at 151650\n";
    let source = include_str!("../../../examples/hairpin.txt");
    let text = printed(
        &made(&source.replace(three, &three.repeat(2))),
        Language::English,
    );
    assert!(
        text.contains("R 7 5: ") && text.contains("there is a clothoid where an arc is due"),
        "{text}"
    );
}

/// The nearest arcs of a straight, each beside an egg curve.
#[test]
fn a_straight_between_bends_with_egg_curves() {
    let source = include_str!("../../../examples/refusal-09.txt");
    let bend = "clothoid 40000\narc 40000 150000\nclothoid 40000\n";
    let egg =
        "clothoid 40000\narc 40000 300000\nclothoid 40000\narc 40000 150000\nclothoid 40000\n";
    let text = source.replace(bend, egg).replace("620000", "780000");
    let text = printed(&made(&text), Language::English);
    let arcs = "the arcs before and after it are element 4 (radius 150,000 mm) and element 8 (radius 300,000 mm)";
    assert!(text.starts_with("R 9 6: ") && text.contains(arcs), "{text}");
    assert_eq!(line(&text, "change: element 6: "), "straight 120000");
}

/// Elements out of order: a clothoid that the old handbook asks to be longer is told all the same.
#[test]
fn clothoids_out_of_order_by_the_old_handbook() {
    let elements = |head: &str| {
        made(&format!(
            "{head}class 4\nterrain 3\nstep 50000\nramp 10000\nclothoid 20000\nstraight 80000\n\
             start 500000\ntangent 100000 20000\ncrossfall 0 25000 -25000\ncrossfall 100000 25000 -25000\n"
        ))
    };
    let old = printed(&elements("date 2009-05-14\n"), Language::English);
    assert!(old.starts_with("R 7 0: "), "{old}");
    let passes = "\n  passes: length 30,000 mm or more, now 10,000 mm less\n";
    assert!(old.contains("\nR 12 0: ") && old.contains(passes), "{old}");
    assert!(!old.contains("would keep this rule"), "{old}");
    assert!(old.ends_with("is broken: 23, 9, 19\n"), "{old}");
    let today = printed(&elements(""), Language::English);
    assert!(!today.contains("\nR 12 "), "{today}");
    assert!(today.ends_with("is broken: 23, 9, 12, 19\n"), "{today}");
}

/// An element that becomes a clothoid may be too short for one: that is mended after the order.
#[test]
fn a_clothoid_that_was_none_by_the_old_handbook() {
    let head = "date 2009-05-14\nclass 4\nterrain 3";
    let file = bend(head, [25_000, 40_000], 60_000, 60_000);
    let mut road = read(&file).expect("a file that can be read");
    road.elements[1].kind = Kind::Straight;
    let judgement = judge_all(&road);
    let broken = Refusal {
        number: 7,
        place: 1,
    };
    let Mending::Found(new) = mended(&road, &judgement, broken) else {
        panic!("a clothoid of the same length");
    };
    let clothoid = (new.elements[1].kind, new.elements[1].length);
    assert_eq!(clothoid, (Kind::Clothoid, 25_000));
    let (new, after) = all_mended(&road, &judgement);
    assert_eq!((new.elements[1].length, after.broken.len()), (30_000, 0));
}

#[test]
fn tables_of_limits() {
    let tables = limits::tables(Language::English);
    assert!(tables.contains("\n| 4 access road | 60 | 50 | 40 |\n"));
    let at_90 = "\n| 90 | 1,800 | 180 | 350 | 2,500 | 155 | 50 | 5.5 | 3,250 | 5,500 | 3.50 |\n";
    assert!(tables.contains(at_90));
    let old = "least clothoid length, m |\n|---|---|---|\n| 40 | 45 | 30 |\n";
    assert!(tables.contains(old));
    assert!(
        tables.contains("\n| 70 | 180 | 60 |\n") && tables.ends_with("\n| 100 | 450 | 100 |\n")
    );
}
