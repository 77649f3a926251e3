use super::*;
use crate::text::numbers::put;

const CREST: &str = "class 4\nterrain 3\nstep 50 m\nramp 0.5 %\nstraight 200 m\nstart 500 m\n\
    tangent 100 m 2 % curve 20m\ntangent 100,0 m -2%\n\
    crossfall 0 -2.5 % -2,5%\ncrossfall 200 m -25000 -25000 ppm";

fn made(text: &str) -> Made {
    file(text.as_bytes(), Language::English).expect("a text that can be made")
}

fn wrong(text: &[u8]) -> String {
    file(text, Language::English).expect_err("a text that is turned away")
}

#[test]
fn metres_and_percent() {
    let crest = include_bytes!("../../../examples/crest.alignment");
    let made = made(CREST);
    assert_eq!(made.bytes, crest);
    assert!(made.remarks.is_empty());
}

#[test]
fn marks_line_ends_and_blanks() {
    let crest = include_bytes!("../../../examples/crest.alignment");
    for end in ["\r\n", "\r", "\n\n"] {
        let text = CREST.replace('\n', end).replace(' ', "\u{A0}\t");
        assert_eq!(made(&format!("\u{FEFF}{text}{end}")).bytes, crest);
    }
    let comment = [CREST.as_bytes(), b" # \xE9\xFF"].concat();
    let made = file(&comment, Language::Serbian);
    assert_eq!(made.expect("a comment is passed over").bytes, crest);
}

#[test]
fn values_outside_their_ranges_are_made_and_named() {
    let made = made(&CREST.replace("ramp 0.5 %", "ramp 2.5 %"));
    let remark = "line 4: ramp limit: 25000 is outside 1 to 20,000 ppm";
    assert_eq!(made.remarks, [remark]);
    assert_eq!(made.bytes.len(), 49);
}

/// The bytes of a file that a contract date was put before.
fn dated(date: i64, file: &[u8]) -> Vec<u8> {
    let mut bytes = vec![9];
    put(date, &mut bytes);
    bytes.extend_from_slice(file);
    bytes
}

#[test]
fn contract_dates() {
    let crest = include_bytes!("../../../examples/crest.alignment");
    for date in ["2011-12-31", "20111231"] {
        let made = made(&format!("date {date}\n{CREST}"));
        assert_eq!(made.bytes, dated(20_111_231, crest));
        assert!(made.remarks.is_empty());
    }
    let range = "a day from 1950-01-01 to 2099-12-31";
    for (written, date, shown) in [
        ("2011-02-30", 20_110_230, "2011-02-30"),
        ("20110230", 20_110_230, "2011-02-30"),
        ("0", 0, "0"),
        ("4294967295", 4_294_967_295, "4294967295"),
    ] {
        let made = made(&format!("date {written}\n{CREST}"));
        assert_eq!(made.bytes, dated(date, crest));
        let remark = format!("line 1: contract date: {shown} is not {range}");
        assert_eq!(made.remarks, [remark]);
    }
    let class = made(&CREST.replace("class 4", "class 9")).remarks;
    let read = "line 1: a file that begins with 9 is read as one with a contract date";
    assert_eq!(class, ["line 1: class: 9 is outside 1 to 4", read]);
    let class = made("date 2011-12-31\nclass 9\nbytes").remarks;
    assert_eq!(class, ["line 2: class: 9 is outside 1 to 4"]);
    let alone = made("date 2011-12-31\nbytes");
    assert_eq!(alone.bytes, dated(20_111_231, &[]));
}

#[test]
fn what_is_wrong_is_named_with_its_line() {
    assert!(wrong(b"class 4\r\rklass 4").starts_with("line 3: `klass` begins no line;"));
    assert!(wrong("class 4\n\u{FEFF}terrain 3".as_bytes()).starts_with("line 2: `<U+FEFF>terrain`"));
    assert!(wrong(b"class 4\nterr\xE9 3").starts_with("line 2: byte 5 of the line, e9 hexadecimal"));
    assert!(wrong(b"arc 5").starts_with("line 1: after `arc` come: length, radius;"));
    assert!(wrong(b"date").starts_with("line 1: after `date` come: contract date;"));
    assert!(wrong(b"date 31.12.2011.").starts_with("line 1: contract date: `31.12.2011.` is no"));
    assert!(wrong(b"class 4 5").starts_with("line 1: `5` is too much; after `class`"));
    assert!(wrong(b"step 1,200 m").starts_with("line 1: step: `1,200 m`: the comma may"));
    assert!(wrong(b"bytes 0").starts_with("line 1: `0`: bytes are pairs"));
    assert!(wrong(b"bytes 00 times 3 4").starts_with("line 1: after `times`"));
    assert!(wrong(b"bytes 00 times 65537").starts_with("line 1: the file would be longer"));
    assert!(wrong(b"\xFF\xFEc").starts_with("the text is in UTF-16"));
}

#[test]
fn order_and_wholeness() {
    let without = |line: &str| wrong(CREST.replace(line, "").as_bytes());
    assert!(without("terrain 3")
        .starts_with("the text has no terrain; a whole text has, in this order, [date], class,"));
    assert!(without("straight 200 m").starts_with("the text has no straight/clothoid/arc;"));
    assert!(
        without(" curve 20m").starts_with("line 7: a tangent that another one follows has `curve`")
    );
    assert!(wrong(b"terrain 3\nclass 4")
        .starts_with("line 2: `class` comes too late; the order is [date], class, terrain,"));
    assert!(wrong(b"class 4\ndate 2011-12-31").starts_with("line 2: `date` comes too late;"));
    assert!(wrong(b"date 20111231\ndate 20111231").starts_with("line 2: a second `date`"));
    assert!(wrong(b"class 4\nclass 4").starts_with("line 2: a second `class`"));
    let curve = CREST.replace("-2%", "-2% curve 0");
    assert_eq!(
        wrong(curve.as_bytes()),
        "line 8: the last tangent has no `curve`"
    );
}

#[test]
fn lines_that_are_written_as_they_stand() {
    let text = "class 4\nelements 5\nstraight 1\nnumber 300\nsigned -5\nbytes 80 00 times 2\nbytes";
    let bytes = [4, 5, 0, 1, 0xAC, 2, 9, 0x80, 0, 0x80, 0];
    assert_eq!(made(text).bytes, bytes);
    assert_eq!(made("bytes").bytes, []);
    assert_eq!(made("crossfall 0 0 0\nbytes").bytes, [1, 0, 0, 0]);
}

#[test]
fn the_lines_of_the_help_can_be_made() {
    for line in crate::text::lines::all() {
        let text = format!("{0}\n{0}\nbytes", line.example);
        assert!(made(&text).remarks.is_empty(), "{text}");
    }
}
