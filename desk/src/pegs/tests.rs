//! Lists as people write and export them, and what is said of a list that is refused.

use std::ffi::OsString;

use super::list::{read, List, MOST_TEXT};
use super::{csv, refused};
use crate::call::Call;
use crate::language::Language;

const CREST: &[u8] = include_bytes!("../../../examples/crest.alignment");
const MOUNTAIN: &[u8] = include_bytes!("../../../examples/mountain-access-road.alignment");
const HAIRPIN: &[u8] = include_bytes!("../../../examples/mountain-hairpin.pegs");
const BEND: &[u8] = include_bytes!("../../../examples/mountain-bend.csv");
const FALLING: &[u8] = include_bytes!("../../../examples/refusal-24.csv");

fn list(text: &str) -> List {
    read(text.as_bytes(), Language::English).expect(text)
}

fn stations(text: &str) -> Vec<u64> {
    list(text).pegs.iter().map(|peg| peg.station).collect()
}

/// The lines of the pegs in their text.
fn lines(text: &str) -> Vec<usize> {
    list(text).pegs.iter().map(|peg| peg.line).collect()
}

fn wrong(text: &str) -> String {
    read(text.as_bytes(), Language::English).expect_err(text)
}

/// What the library answers of a list.
fn answered(file: &[u8], list: &List) -> Result<Vec<u8>, proved::Refusal> {
    let stations: Vec<u64> = list.pegs.iter().map(|peg| peg.station).collect();
    let mut buffer = vec![0; stations.len() * proved::LINE_LENGTH];
    proved::pegs(file, &stations, &mut buffer).map(<[u8]>::to_vec)
}

/// What is said of a list that is refused, after its number and place.
fn said(file: &[u8], text: &str, language: Language) -> String {
    let list = read(text.as_bytes(), language).expect(text);
    let refusal = answered(file, &list).expect_err(text);
    let words = ["road", "pegs"].map(OsString::from).to_vec();
    let call = Call::read("voardusk pegs", &[], words, language).expect("a call");
    refused::words(&call, file, &list, refusal)
}

#[test]
fn one_station_a_line() {
    let expected = [0, 95_850, 95_850, 120_500];
    for text in [
        "0\n95850\n95850\n120500",
        "0+000.000\r\n0+095.850\r\n95.850m\r\n120,5 m\r\n",
        "\u{FEFF}0\r95850\r\r0+095,850\r120.5m\r",
        "station\n0\n95850\n95850\n120500\n",
        "\n\n Chainage (mm) \n0\n \n95850\n0+095,850\n\"120500\"\n;;\n",
        "стационажа [m]\n0\n95.85\n95.850m\n0+120,5\n",
        "СТАЦИОНАЖА, м\n0\n95,85\n95.850\n120,5 m\n",
        "0+000,000\n0+095,850\n0+095,850\n0+120,500",
    ] {
        assert_eq!(stations(text), expected, "{text}");
    }
    assert_eq!(stations(""), []);
    assert_eq!(stations("station\n"), []);
    assert_eq!(stations(" \n;\n"), []);
    assert_eq!(stations("18446744073709551615"), [u64::MAX]);
}

#[test]
fn columns() {
    for text in [
        "name,station\nP1,0\nP2,95850\n",
        "P1,0\nP2,95850",
        "P1;0+000,000\nP2;0+095,850",
        "\"station\";\"name\"\n\"0\";\"P;1\"\n\"95850\";\"P2\"\n;\n",
        "name\tSTACIONAŽA_m\theight\nP1\t0\t1.5\nP2\t95.850\t2",
        "station_mm,axis_height_mm\n0,742315\n95850,748306\n",
        "0;\n95850;left\n",
        "station;\n0;\n95850;\n",
        "station,\n0,\n95850,P2\n",
        "station;name;;\n0;P1\n95850;;;;\n",
        "left;P1;0+000\n;;0+095.850",
    ] {
        assert_eq!(stations(text), [0, 95_850], "{text}");
    }
    assert_eq!(lines("\nname,station\n\nP1,0\n,\nP2,95850\n"), [4, 6]);
}

/// What stands beside a station keeps its bytes, and there is a cell for each head.
#[test]
fn cells_beside_the_station() {
    let beside = list("name;station;code\nP1;0;7\n;5\nP3;9;;;\n");
    assert_eq!(beside.heads, [&b"name"[..], b"code"]);
    let cells: Vec<&[Vec<u8>]> = beside.pegs.iter().map(|peg| &peg.cells[..]).collect();
    let expected = [["P1", "7"], ["", ""], ["P3", ""]];
    assert_eq!(
        cells,
        expected.map(|row| row.map(|cell| cell.as_bytes().to_vec()))
    );
    let no_text = read(b"\x8Aabac;0", Language::English).expect("a list");
    assert_eq!(no_text.heads, [b"column_1"]);
    assert_eq!(no_text.pegs[0].cells, [b"\x8Aabac"]);
}

/// A number of metres is never taken for one of millimetres, nor a decimal comma for the end of a column.
#[test]
fn metres_without_a_unit() {
    let decimals = "is no whole number of millimetres; metres are written with their unit, as `95.850m` or `0+095.850`, or stand under the head `station_m`";
    for (text, line, cell) in [
        ("95.850", 1, "95.850"),
        ("0\n95.850", 2, "95.850"),
        ("P1;95,850", 1, "95,850"),
        ("P1;95,85", 1, "95,85"),
        ("station_mm\n95.0", 2, "95.0"),
        ("name,station\nP1,\"1,200\"", 2, "1,200"),
        ("0\n95,850", 2, "95,850"),
    ] {
        assert_eq!(wrong(text), format!("line {line}: `{cell}` {decimals}"));
    }
    for text in [
        "95,850",
        "95850,501750",
        "1.200,5",
        "95.850,12",
        "km 0+095.850,7",
        "95,850 m",
        "1,0+095.850",
        "95'850,12",
        "St. 95,850",
    ] {
        let several = "line 1: columns 1 and 2 may both be the station: a head line has to name it";
        assert!(wrong(text).starts_with(several), "{text}");
    }
    for text in [
        "P1,0\nP2,95,850",
        "name,station\nP1,95,850",
        "station,name\n95,850,P1",
    ] {
        let columns = "line 2: columns here: 3, in the first line: 2; decimals are written behind";
        assert!(wrong(text).starts_with(columns), "{text}");
    }
    for (text, number) in [
        ("station,name\n95,850", "95,850"),
        ("station,peg\n0,1", "0,1"),
        ("station_m,height\n95,742315", "95,742315"),
        ("station_mm,code\n0+095,850", "0+095,850"),
        ("station, m, name\n120,5 m,P1", "120,5 m"),
    ] {
        let comma = format!("line 2: `{number}` may be one number with a decimal comma:");
        assert!(wrong(text).starts_with(&comma), "{text}");
    }
    for text in [
        "station_mm,peg\n95850,2",
        "station,peg\n95850, 2",
        "\"station\",\"peg\"\n\"95850\",\"2\"",
        "station;peg\n95850;2",
        "chainage,peg\n0+095.850,2",
        "station_m,peg\n95.850,2",
        "station,peg\n95.850m,2",
        "peg,station\n2,95850",
    ] {
        assert_eq!(stations(text), [95_850], "{text}");
    }
    let comma = wrong("station_m\n1,200");
    assert!(
        comma.starts_with("line 2: `1,200`: the comma may begin the decimals"),
        "{comma}"
    );
    assert!(wrong("station_m\n0.0005").starts_with("line 2: `0.0005` is no station:"));
}

#[test]
fn what_is_no_list() {
    for (text, expected) in [
        ("x", "line 1: `x` is no station, and no head line"),
        (
            "\n\nstation_km\n0.5",
            "line 3: `station_km` is no station, and no head line",
        ),
        (
            "name,height\nP1,0",
            "line 1: `name,height` is no station, and no head line",
        ),
        (
            "0\nx",
            "line 2: `x` is no station: a whole number of millimetres",
        ),
        ("0\n-5", "line 2: `-5` is no station:"),
        ("9585O", "line 1: `9585O` is no station:"),
        ("P1,0\nP2", "line 2: column 2 has no station"),
        ("station,name\n,P1", "line 2: column 1 has no station"),
        ("\"0", "line 1: a quote is not closed"),
        ("P1,0\n\"P2,5", "line 2: a quote is not closed"),
        (
            "station;chainage\n0;0",
            "line 1: columns 1 and 2 are both headed",
        ),
        ("0\n20000 # left", "line 2: `20000 # left` is no station:"),
        (
            "0 500000 20000 -25000",
            "line 1: `0 500000 20000 -25000` is no station:",
        ),
        ("\u{FEFF}\u{FEFF}0", "line 1: `<U+FEFF>0` is no station"),
        (
            "18446744073709551616",
            "line 1: `18446744073709551616` is no station:",
        ),
    ] {
        let wrong = wrong(text);
        assert!(wrong.starts_with(expected), "{text}: {wrong}");
    }
    let no_list = |text: &[u8]| read(text, Language::English).expect_err("no list");
    assert!(no_list(CREST).starts_with("line 1: this is no text; the alignment file comes first"));
    assert!(no_list(b"\xFF\xFE0\0").starts_with("the text is in UTF-16"));
    assert!(no_list(b"0\n\xE9").starts_with("line 2: `\u{FFFD}` is no station:"));
    let long = no_list(&vec![b'\n'; MOST_TEXT + 1]);
    assert_eq!(long, "the text is longer than 4,000,000 bytes");
    assert!(read(&vec![b'\n'; MOST_TEXT], Language::English).is_ok());
}

/// Each row is the one of a single call, also of pegs with one station.
#[test]
fn rows_of_single_calls() {
    for text in [HAIRPIN, BEND] {
        let list = read(text, Language::English).expect("a list");
        let mut line = [0; proved::LINE_LENGTH];
        let rows: Vec<u8> = list
            .pegs
            .iter()
            .flat_map(|peg| {
                proved::row(MOUNTAIN, peg.station, &mut line)
                    .expect("a row")
                    .to_vec()
            })
            .collect();
        assert_eq!(answered(MOUNTAIN, &list), Ok(rows));
    }
}

#[test]
fn with_commas() {
    let list = read(BEND, Language::English).expect("a list");
    let rows = answered(MOUNTAIN, &list).expect("rows");
    let table = String::from_utf8(csv::table(&rows, &list)).expect("text");
    let lines: Vec<&str> = table.lines().collect();
    assert_eq!(lines.len(), 8);
    assert!(lines[0].ends_with(",curvature_millionths_per_m,name,what"));
    assert!(lines[1].starts_with("64350,746337,"));
    assert!(lines[1].ends_with(",0,B1,\"clothoid begins, right bend\""));
    assert_eq!(
        lines[2].replace("B2L", "B2R").replace("left", "right"),
        lines[3]
    );
    let empty = String::from_utf8(csv::table(b"", &List::default())).expect("text");
    assert_eq!(empty, format!("{}\n", crate::rows::HEAD));
}

#[test]
fn the_bad_peg_and_what_mends_it() {
    let falling = std::str::from_utf8(FALLING).expect("text");
    let expected = "pegs: refused with 24 at place 3: peg 4 (line 5), station 144050, lies below the peg before it, station 175550 (line 4); stations have to ascend: sort the list by station";
    assert_eq!(said(MOUNTAIN, falling, Language::English), expected);
    let beyond = "pegs: refused with 24 at place 1: peg 2 (line 3), station 200001, is beyond the road's end, 200000; take out the pegs beyond it, or see whether the list is of this road";
    assert_eq!(said(CREST, "0\n\n200001\n5", Language::English), beyond);
    let far = said(CREST, "18446744073709551615", Language::English);
    assert!(
        far.contains("station 18446744073709551615, is beyond the road's end, 200000;"),
        "{far}"
    );
    let latin = said(CREST, "7\n5", Language::SerbianLatin);
    assert!(latin.starts_with("pegs: odbijanje 24, mesto 1: 2. kočić (2. red teksta), stacionaža 5, manja je od prethodne, 7 (1. red teksta);"), "{latin}");
}

/// 2,000 pegs are answered; of more, the first is refused that is bad, and peg 2,000, counted from 0, is.
#[test]
fn two_thousand_pegs() {
    let pegs = |count: usize| "100\n".repeat(count);
    assert_eq!(list(&pegs(2_000)).pegs.len(), 2_000);
    assert!(answered(CREST, &list(&pegs(2_000))).is_ok());
    let too_many = "pegs: refused with 24 at place 2000: peg 2,001 (line 2001) is one too many: a list has at most 2,000 pegs; split it into several lists";
    for count in [2_001, 100_000] {
        assert_eq!(said(CREST, &pegs(count), Language::English), too_many);
    }
    let falls = pegs(1_999) + "99\n" + &pegs(10);
    assert!(said(CREST, &falls, Language::English)
        .contains("at place 1999: peg 2,000 (line 2000), station 99, lies below"));
    // the last of them lies beyond the road's end, and is one too many first
    assert_eq!(
        said(CREST, &(pegs(2_000) + "200001\n"), Language::English),
        too_many
    );
    assert!(said(CREST, &(pegs(2_000) + "50\n"), Language::Serbian)
        .contains("2.001. кочић (2001. ред текста) је сувишан"));
}

/// The file's own refusals come before that of the list.
#[test]
fn a_refused_file() {
    let road = include_bytes!("../../../examples/refusal-15.alignment");
    let words = said(road, "7\n5", Language::English);
    assert!(
        words.starts_with("road: refused with 15 at vertex 0:"),
        "{words}"
    );
    let none = answered(road, &List::default()).expect_err("a refusal");
    assert_eq!(none.number(), 15);
}
