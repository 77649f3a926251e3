use super::*;
use crate::make;

fn example(name: &str) -> Vec<u8> {
    let folder = concat!(env!("CARGO_MANIFEST_DIR"), "/../examples");
    std::fs::read(format!("{folder}/{name}.alignment")).expect("an example")
}

fn shown_text(file: &[u8]) -> String {
    text(file, Language::English).expect("both readings agree")
}

fn made(source: &str) -> Vec<u8> {
    let made = make::file(source.as_bytes(), Language::English);
    made.expect("a text that can be made").bytes
}

/// The first line below the mark that is no comment.
fn marked(text: &str, number: u32) -> String {
    let mark = format!("# refusal {number} here: ");
    let mut lines = text.lines().skip_while(|line| !line.starts_with(&mark));
    let line = lines.find(|line| !line.starts_with('#'));
    line.unwrap_or("no mark").to_string()
}

#[test]
fn each_refusal_is_marked_where_it_is() {
    let items = [
        "bytes 00",
        "bytes d0 86 83 00",
        "ramp 25000",
        "bytes 00",
        "arc 10000000 300000 # element 10, from 100000000 to 110000000",
        "",
        "arc 100000 50000",
        "straight 1200001",
        "straight 119999",
        "arc 40000 44999",
        "arc 21999 50000",
        "clothoid 27222 # element 1, from 102778 to 130000",
        "tangent 150000 100001 curve 30000",
        "tangent 35000 -20000 curve 20000 # tangent 1, from 100000 to vertex 1 at 135000; curve from 115000 to 155000",
        "tangent 150000 20000 curve 7999",
        "crossfall 299000 -25000 -25000 # point 5",
        "crossfall 300000 -25000 -24000",
        "crossfall 0 -25000 -25000",
        "arc 40000 50000",
    ];
    const OTHERS: [(u32, &str); 2] = [
        (22, "date 2009-02-29"),
        (
            23,
            "clothoid 30000 # element 3, from 170000 to 200000, egg curve",
        ),
    ];
    for (number, item) in (1..).zip(items).chain(OTHERS) {
        let text = shown_text(&example(&format!("refusal-{number:02}")));
        let line = marked(&text, number);
        let words: Vec<&str> = line.split_whitespace().collect();
        assert!(words.join(" ").starts_with(item), "{number}: {line}");
        assert_eq!(text.matches(" here: ").count(), 1, "{number}");
    }
}

#[test]
fn a_mark_at_the_end_of_a_list() {
    let sums = shown_text(&example("refusal-06"));
    let end = "tangent 149000 -20000                   # tangent 1, from 150000 to 299000\n# refusal 6 here:";
    assert!(sums.contains(end));
    let short = made(
        "class 4\nterrain 3\nstep 1000\nramp 1\nstraight 5\nclothoid 5\nstart 0\ntangent 10 0\ncrossfall 0 0 0\ncrossfall 10 0 0",
    );
    let end =
        "clothoid 5                              # element 1, from 5 to 10\n# refusal 7 here:";
    assert!(shown_text(&short).contains(end));
}

#[test]
fn egg_curves_and_reversing_bends() {
    let lines = |name: &str, language| {
        let text = text(&example(name), language).expect("both readings agree");
        let lines = text.lines().map(|line| {
            let words: Vec<&str> = line.split_whitespace().collect();
            words.join(" ")
        });
        lines.collect::<Vec<_>>()
    };
    let english = lines("hairpin", Language::English);
    let first = "clothoid 31500 # element 3, from 120150 to 151650, first clothoid of a reversing bend, least length 22273";
    let second = "clothoid 38500 # element 4, from 151650 to 190150, second clothoid of a reversing bend, least length 27223";
    assert!(english.iter().any(|line| line == first));
    assert!(english.iter().any(|line| line == second));
    let egg = "clothoid 40000 # element 3, from 250000 to 290000, egg curve, least length 18750";
    assert!(lines("egg", Language::English)
        .iter()
        .any(|line| line == egg));
    let egg =
        "clothoid 40000 # element 3, od 250000 do 290000, jajasta kriva, najmanja dužina 18750";
    assert!(lines("egg", Language::SerbianLatin)
        .iter()
        .any(|line| line == egg));
    // a clothoid before a straight has its arc alone
    let last = "clothoid 28875 # element 9, from 392325 to 421200";
    assert!(english.iter().any(|line| line == last));
}

/// Contracted before 2012, the least length is the old handbook's, whatever the radii.
#[test]
fn an_egg_curve_by_the_old_handbook() {
    let source = include_str!("../../../examples/egg.txt");
    let text = shown_text(&made(&format!("date 2009-05-14\n{source}")));
    assert!(text.contains("to 290000, egg curve, least length 50000\n"));
}

#[test]
fn a_listed_road() {
    let text = shown_text(&example("crest"));
    assert!(
        text.starts_with("# bytes: 48\n# access road, mountain terrain\n# rule book: today's rule book (no contract date)\n# design speed: 40 km/h\n")
    );
    assert!(text.contains("# lane width: 2.75 m\n") && text.contains("# elements: 1\n"));
    assert!(!text.contains("refusal"));
}

/// The crest with a contract date.
fn dated(date: &str) -> Vec<u8> {
    let crest = shown_text(&example("crest"));
    made(&format!("date {date}\n{crest}"))
}

#[test]
fn a_dated_road() {
    let text = shown_text(&dated("20111231"));
    assert!(text.contains("\n\ndate 2011-12-31\nclass 4\nterrain 3\n"));
    let head = "# bytes: 53\n# access road, mountain terrain\n# rule book: old handbook\n# design speed: 40 km/h\n";
    assert!(text.starts_with(head), "{text}");
    assert!(text.contains("# least clothoid length: 30 m\n") && !text.contains("A min"));
    assert!(!text.contains("refusal"));
    let text = shown_text(&dated("2012-01-01"));
    assert!(text.contains("# rule book: today's rule book\n") && text.contains("# A min: 35 m\n"));
}

#[test]
fn a_contract_date_that_is_no_day() {
    let range = "a day from 1950-01-01 to 2099-12-31";
    for date in ["2011-02-30", "0", "1949-12-31", "2100-01-01", "4294967295"] {
        let file = dated(date);
        let text = shown_text(&file);
        let told =
            format!("# byte 1, contract date: {date} is not {range}\ndate {date}\nclass 4\n");
        assert!(text.contains(&told), "{text}");
        assert_eq!(marked(&text, 22), format!("date {date}"));
        assert!(!text.contains("design speed"));
        assert_eq!(made(&text), file);
    }
}

#[test]
fn a_dated_file_that_breaks_off() {
    let file = dated("2011-12-31");
    let layout = "\n\nnumber 9                                # layout\n";
    let due = "# byte 1, contract date: the file ends where this number is due\nbytes\n";
    assert!(shown_text(&file[..1]).contains(layout));
    assert!(shown_text(&file[..1]).ends_with(due));
    let text = shown_text(&file[..3]);
    let broken =
        "# byte 1, contract date: the number breaks off at the end of the file\nbytes ff be\n";
    assert!(text.contains(layout) && text.ends_with(broken), "{text}");
    assert_eq!(marked(&text, 2), "bytes ff be");
    let text = shown_text(&file[..5]);
    let class = "# byte 5, class: the file ends where this number is due\nbytes\n";
    assert!(text.contains("\ndate 2011-12-31\n") && text.ends_with(class));
    for length in 0..file.len() {
        assert_eq!(made(&shown_text(&file[..length])), &file[..length]);
    }
}

#[test]
fn a_class_that_is_no_class() {
    let dated = shown_text(&made("date 2011-12-31\nclass 9\nbytes"));
    assert_eq!(marked(&dated, 3), "class 9");
    let plain = shown_text(&made("class 10\nbytes"));
    assert_eq!(marked(&plain, 3), "class 10");
}

#[test]
fn a_number_outside_its_range_is_named() {
    let file = made(
        "class 4\nterrain 3\nstep 1000\nramp 1\nstraight 5\nstart 0\ntangent 10 150000\ncrossfall 0 90000 0\nbytes",
    );
    let text = shown_text(&file);
    let grade = "# refusal 3 here: a number is outside its range\n# byte 11, tangent 0, grade: 150000 is outside −120,000 to 120,000 ppm\ntangent 10 150000 ";
    assert!(text.contains(grade));
    assert!(text.contains(
        "# byte 14, number of crossfall points: 1 is outside 2 to 200\n# crossfall points: 1\n"
    ));
    assert!(text.contains("left crossfall: 90000 is outside"));
    assert_eq!(made(&text), file);
}

#[test]
fn an_item_that_breaks_off() {
    let crest = example("crest");
    let text = shown_text(&crest[..12]);
    let rest = "\nelements 1                              # whole: 0\nnumber 0                                # element 0, kind\n\n# refusal 2 here: a number breaks off, is not in shortest form or is too great\n# byte 9, element 0, length: the number breaks off at the end of the file\nbytes c0 9a";
    assert!(shown_text(&crest[..11]).contains(rest), "{text}");
    let ended = "# byte 12, start height: the file ends where this number is due\nbytes\n";
    assert!(text.ends_with(ended), "{text}");
}

#[test]
fn an_unknown_kind() {
    let file = made("class 4\nterrain 3\nstep 1000\nramp 1\nelements 2\nnumber 7\nbytes 01 02");
    let text = shown_text(&file);
    let kind = "# refusal 3 here: a number is outside its range\n# byte 6, element 0, kind: 7 is outside 0 to 2\nnumber 7 ";
    assert!(text.contains(kind));
    assert!(text.contains("# no element has kind 7, so what follows cannot be told\nbytes 01 02\n"));
}

#[test]
fn a_file_that_is_too_long_is_shown_in_part() {
    let file = [4; MOST_BYTES + 1];
    let text = shown_text(&file);
    assert!(text.starts_with("# the file is longer than 65,536 bytes;"));
    assert!(text.ends_with("# the file goes on here\n"));
    assert_eq!(made(&text), &file[..MOST_BYTES]);
}

#[test]
fn readings_that_differ_are_told() {
    let english = Language::English;
    let told = hold_against(None, &numbers(&[]), 0, english);
    assert_eq!(told, Err("read and R 2 0".to_string()));
    let told = stations::hold_against_list(
        &example("crest"),
        &numbers(&example("long-access-road")),
        english,
    );
    assert_eq!(told, Err("2600350 is no listed station".to_string()));
}
