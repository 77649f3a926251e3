//! Whole pages: their labels, their words, and files of every kind.

use super::drawing::canvas::{Anchor, Area, Label, Size};
use super::drawing::sheet::WIDTH;
use super::marks::marks;
use super::sample::{dated, Chance, Sample};
use super::view::View;
use super::{page, refused};
use crate::language::Language;
use crate::why::Finding;

const CREST: &[u8] = include_bytes!("../../../examples/crest.alignment");
const MOUNTAIN: &[u8] = include_bytes!("../../../examples/mountain-access-road.alignment");
const LONG: &[u8] = include_bytes!("../../../examples/long-access-road.alignment");
const DATED: &[u8] = include_bytes!("../../../examples/contract-of-2009.alignment");
const EGG: &[u8] = include_bytes!("../../../examples/egg.alignment");
const HAIRPIN: &[u8] = include_bytes!("../../../examples/hairpin.alignment");
const LONG_STRAIGHT: &[u8] = include_bytes!("../../../examples/long-straight.alignment");
const LANGUAGES: [Language; 2] = [Language::English, Language::Serbian];

/// The text between two others.
fn between<'a>(text: &'a str, before: &str, after: &str) -> Option<&'a str> {
    let from = text.find(before)? + before.len();
    let length = text[from..].find(after)?;
    Some(&text[from..from + length])
}

fn coordinate(text: &str, before: &str) -> f64 {
    let number = between(text, before, "\"").or(between(text, before, ")"));
    number.and_then(|number| number.parse().ok()).unwrap_or(0.0)
}

/// The areas of all texts of a drawing, from what is written.
fn areas(svg: &str) -> Vec<(String, Area)> {
    let groups = svg.split("<g ").skip(1);
    groups
        .flat_map(|group| {
            let (attributes, body) = group.split_once('>').expect("a group");
            let body = body.split("</g>").next().unwrap_or("");
            let texts = body.split("<text ").skip(1);
            texts.map(|text| area(attributes, text)).collect::<Vec<_>>()
        })
        .collect()
}

fn area(attributes: &str, text: &str) -> (String, Area) {
    let class = between(attributes, "class=\"", "\"").expect("a class");
    let words = between(text, ">", "<")
        .expect("words")
        .replace("&#39;", "'");
    let has = |name| class.split(' ').any(|class| class == name);
    let size = match class.split(' ').next() {
        Some("t") => Size::Title,
        Some("n") => Size::Plain,
        _ => Size::Small,
    };
    let anchor = match (has("m"), has("e")) {
        (true, _) => Anchor::Middle,
        (false, true) => Anchor::End,
        (false, false) => Anchor::Start,
    };
    let (x, y) = (coordinate(text, "x=\""), coordinate(text, "y=\""));
    let area = Label::new(x, y, anchor, words.clone()).sized(size).area();
    match between(attributes, "translate(0 ", ")") {
        None => (words, area),
        Some(y) => (words, turned(area, y.parse().expect("a number"))),
    }
}

/// A text that reads upwards from a height.
fn turned(area: Area, y: f64) -> Area {
    Area {
        left: area.top,
        right: area.bottom,
        top: y - area.right,
        bottom: y - area.left,
    }
}

/// No label over another and none outside, in every drawing of a page; gives how many there are.
fn checked_labels(html: &str) -> usize {
    let drawings = html.split("<svg ").skip(1);
    drawings
        .map(|svg| {
            let height: f64 = between(svg, "viewBox=\"0 0 920 ", "\"")
                .expect("a box")
                .parse()
                .expect("a height");
            let areas = areas(svg);
            for (place, (words, one)) in areas.iter().enumerate() {
                let is_inside = one.left >= -0.1
                    && one.right <= WIDTH + 0.1
                    && one.top >= -0.1
                    && one.bottom <= height + 0.1;
                assert!(is_inside, "{words} is outside: {one:?}");
                for (others, other) in &areas[place + 1..] {
                    assert!(
                        !is_over(one, other),
                        "{words} over {others}: {one:?} {other:?}"
                    );
                }
            }
            areas.len()
        })
        .sum()
}

/// Coordinates are written with one decimal.
fn is_over(one: &Area, other: &Area) -> bool {
    let smaller = Area {
        left: one.left + 0.11,
        top: one.top + 0.11,
        right: one.right - 0.11,
        bottom: one.bottom - 0.11,
    };
    smaller.meets(other)
}

#[test]
fn no_label_over_another_on_the_sample_roads() {
    for file in [CREST, MOUNTAIN, LONG, DATED, EGG, HAIRPIN] {
        for language in LANGUAGES {
            let page = page("road", file, language).expect("agreed");
            assert!(!page.is_refused);
            assert!(checked_labels(&page.html) > 100);
        }
    }
}

#[test]
fn straight_roads_of_every_length() {
    let mut chance = Chance(1);
    for round in 0..120 {
        let length = chance.length(7);
        let step = chance.within(1_000.max(length as i64 / 3_000), 100_000) as u64;
        let first = chance.within(0, length as i64 - 1) as u64;
        let half_length = first.min(length - first).min(1_000_000);
        let most = (half_length * 5).min(100_000) as i64;
        let tangents = match first {
            0 => vec![(length, chance.within(-100_000, 100_000), 0)],
            _ => vec![
                (first, chance.within(0, most / 2), half_length),
                (length - first, chance.within(-most / 2, 0), 0),
            ],
        };
        let sample = Sample::straight(length, step, &tangents);
        let page = page("road", &sample.file(), LANGUAGES[round % 2]).expect("agreed");
        assert!(!page.is_refused, "{length} {tangents:?}");
        checked_labels(&page.html);
    }
}

/// Numbers in their ranges, in any order.
fn any_road(chance: &mut Chance) -> Sample {
    let digits = chance.within(1, 7) as u32;
    let ranges = [(1, 4), (1, 3), (1_000, 100_000), (1, 20_000)];
    let counts = [(1, 14), (1, 9), (2, 12)].map(|(low, high)| 0..chance.within(low, high));
    let [elements, tangents, points] = counts;
    Sample {
        head: ranges.map(|(low, high)| chance.within(low, high) as u64),
        elements: elements.map(|_| any_element(chance, digits)).collect(),
        start_height: chance.within(-500_000, 3_000_000),
        tangents: tangents.map(|_| any_tangent(chance, digits)).collect(),
        points: points.map(|_| any_point(chance, digits)).collect(),
    }
}

fn any_element(chance: &mut Chance, digits: u32) -> (u64, u64, i64) {
    let turn = [1, -1][chance.within(0, 1) as usize];
    let radius = turn * chance.within(10_000, 1_000_000);
    (chance.within(0, 2) as u64, chance.length(digits), radius)
}

fn any_tangent(chance: &mut Chance, digits: u32) -> (u64, i64, u64) {
    let grade = chance.within(-120_000, 120_000);
    (chance.length(digits), grade, chance.length(digits.min(6)))
}

fn any_point(chance: &mut Chance, digits: u32) -> (u64, i64, i64) {
    let [left, right] = [(); 2].map(|()| chance.within(-80_000, 80_000));
    (chance.length(digits), left, right)
}

#[test]
fn refused_roads_of_every_kind() {
    let mut chance = Chance(2);
    for round in 0..300 {
        let file = any_road(&mut chance).file();
        let file = match chance.within(0, 2) {
            0 => file,
            1 => dated(20_111_231, &file),
            _ => dated(20_120_101, &file),
        };
        let page = page("road", &file, LANGUAGES[round % 2]).expect("agreed");
        assert!(page.is_refused);
        assert!(checked_labels(&page.html) > 10);
    }
}

#[test]
fn the_head_has_the_contract_date_and_its_rule_book() {
    let fact = |name: &str, value: &str| format!("<div><b>{name}</b> <span>{value}</span></div>\n");
    let old = page("road", DATED, Language::English).expect("agreed").html;
    let date = fact("contract date", "2009-06-15");
    assert!(old.contains(&(date + &fact("rule book", "old handbook"))));
    let today = dated(20_120_101, CREST);
    let today = page("road", &today, Language::Serbian)
        .expect("agreed")
        .html;
    assert!(today.contains(&fact("датум уговора", "2012-01-01")));
    assert!(today.contains(&fact("правилник", "важећи правилник")));
    let plain = page("road", CREST, Language::English).expect("agreed").html;
    assert!(!plain.contains("<b>contract date</b>"));
    assert!(plain.contains(&fact(
        "rule book",
        "today&#39;s rule book (no contract date)"
    )));
}

#[test]
fn a_contract_date_that_is_no_day_shows_its_bytes() {
    let page = page("road", &dated(20_110_230, CREST), Language::English).expect("agreed");
    assert!(page.is_refused);
    assert!(page.html.contains("<p>Refused: R 22 1 (byte 1)</p>"));
    let bytes = "    0  09 <b class=\"bad\">96</b> B7 CB 09 04 03 ";
    assert!(page.html.contains(bytes), "{}", page.html);
    assert!(!page.html.contains("design speed"));
}

#[test]
fn damaged_files() {
    let mut chance = Chance(3);
    for _ in 0..300 {
        let mut file = MOUNTAIN.to_vec();
        for _ in 0..chance.within(1, 3) {
            let place = chance.within(0, file.len() as i64 - 1) as usize;
            file[place] = chance.within(0, 255) as u8;
        }
        file.truncate(chance.within(0, 2 * file.len() as i64) as usize);
        let page = page("road", &file, Language::English).expect("agreed");
        checked_labels(&page.html);
    }
}

#[test]
fn the_items_that_findings_name_are_marked() {
    let file = Sample::straight(200_000, 50_000, &[(120_000, 20_000, 1), (80_000, 0, 0)]).file();
    let alignment = reference::file::read(&file).expect("a file");
    let finding = |number, place| Finding {
        number,
        place,
        title: String::new(),
        facts: Vec::new(),
        changes: Vec::new(),
    };
    let findings = [
        finding(6, 0),
        finding(8, 0),
        finding(13, 1),
        finding(15, 0),
        finding(17, 1),
        finding(18, 1),
    ];
    let view = View::of_items(&alignment, marks(&findings), Language::English);
    let svg = refused::drawings(&view)[0].svg();
    let areas = areas(&svg);
    for numbers in ["1", "2", "3", "4", "5, 6"] {
        assert!(areas.iter().any(|(words, _)| words == numbers), "{numbers}");
    }
    assert!(checked_labels(&svg) > 10);
}

#[test]
fn a_page_stands_alone() {
    let page = page("<a&b>'.alignment", CREST, Language::Serbian).expect("agreed");
    assert!(page.html.starts_with("<!DOCTYPE html>\n<html lang=\"sr\">"));
    assert!(page.html.contains("&lt;a&amp;b&gt;&#39;.alignment</h1>"));
    for absent in ["<script", "src=", "href=", "url("] {
        assert!(!page.html.contains(absent), "{absent}");
    }
}

#[test]
fn a_file_that_cannot_be_read_shows_its_bytes() {
    let page = page("empty", &[], Language::English).expect("agreed");
    assert!(page.is_refused);
    assert!(page.html.contains("R 2 0") && page.html.contains("end of the file"));
}

#[test]
fn the_speeds_at_which_a_road_would_pass() {
    let html = |file| page("road", file, Language::English).expect("agreed").html;
    let own = "<tr class=\"own\"><th>40 km/h, design speed</th><td>passes</td></tr>\n";
    assert!(html(CREST).contains(own));
    let refused = html(LONG_STRAIGHT);
    let own = "<tr class=\"own\"><th>70 km/h, design speed</th>\
               <td class=\"fails\">R 8 4: a straight is too long: element 4; straight max 1,400 m</td></tr>\n";
    let next = "<tr><th>80 km/h</th><td>passes</td></tr>\n";
    assert!(refused.contains(&(own.to_string() + next)), "{refused}");
    let table = "<table class=\"speeds\">";
    assert!(refused.contains(table) && !html(&CREST[..20]).contains(table));
}

#[test]
fn every_row_of_the_list_is_told() {
    let page = page("road", CREST, Language::English).expect("agreed");
    assert!(page.html.contains(
        "<tr><td>100000<td>501800<td>0<td>-25000<td>-25000<td>501731<td>501731<td>0<td>\n"
    ));
    assert!(page
        .html
        .contains("<td>end, element 0 ends, crossfall point 1\n"));
}

#[test]
fn egg_curves_and_reversing_bends_are_named() {
    let said = |file, language, words: &[&str]| {
        let html = page("road", file, language).expect("agreed").html;
        for words in words {
            assert!(html.contains(words), "{words}");
        }
    };
    let egg = "<td>-6667<td>element 3 ends (egg curve), crossfall point 4, multiple of the step\n";
    said(EGG, Language::English, &[egg, ">egg<"]);
    let reversing = [
        "<td>0<td>element 3 ends (reversing bend: curvature 0)\n",
        "<td>-22222<td>element 4 ends (reversing bend), crossfall point 4\n",
        ">S bend<",
    ];
    said(HAIRPIN, Language::English, &reversing);
    let reversing = [
        "крај елемента 6 (прекретна S-крива: закривљеност 0)",
        ">S-крива<",
    ];
    said(HAIRPIN, Language::Serbian, &reversing);
}

/// The curvature is drawn from one arc's to the other's, and through 0 where two clothoids meet.
#[test]
fn curvature_of_clothoids_between_arcs() {
    let ends = |file| {
        let alignment = reference::file::read(file).expect("a file");
        let radius = |curvature: f64| match curvature == 0.0 {
            true => 0,
            false => (1.0 / curvature).round() as i128,
        };
        let bends = super::lines::bends(&alignment).into_iter();
        let ends = bends.map(|bend| (radius(bend.at_start), radius(bend.at_end)));
        ends.collect::<Vec<_>>()
    };
    assert_eq!(ends(EGG)[3], (-300_000, -150_000));
    let hairpin = ends(HAIRPIN);
    assert_eq!(hairpin[3..5], [(55_000, 0), (0, -45_000)]);
    assert_eq!(hairpin[6..8], [(-45_000, 0), (0, 60_000)]);
}
