//! Days, and how a date is read: refusals 2, 3 and 22.

use super::{file, number, one_bend_of, refused, two_tangents, verdict};
use crate::day::is_day;
use crate::file::{read, Contract};
use crate::machine::{list, next_station, printed_list, row, Answer, PartAnswer};

#[test]
fn days() {
    for day in [
        19500101, 19500131, 19500228, 19520229, 19990101, 20000229, 20010228, 20040229, 20110430,
        20111231, 20120101, 20120229, 20991231,
    ] {
        assert!(is_day(day), "{day}");
    }
}

#[test]
fn numbers_that_are_no_day() {
    for number in [
        0,
        1,
        9,
        19491231,
        19500001,
        19500100,
        19510229,
        20000230,
        20010229,
        20110431,
        20110631,
        20110931,
        20111131,
        20110132,
        20110001,
        20111301,
        20110100,
        20119999,
        20991232,
        20991301,
        21000101,
        21000228,
        201111,
        201112311,
        31122011,
        4_294_967_295,
        -20111231,
    ] {
        assert!(!is_day(number), "{number}");
    }
}

/// 150 years of 365 days, and 37 leap days from 1952 to 2096.
#[test]
fn count_of_days() {
    let count = (0..=30_000_000).filter(|&number| is_day(number)).count();
    assert_eq!(count, 54_787);
    assert_eq!(count, 150 * 365 + (1952..=2096).step_by(4).count());
}

/// Every day's successor is found by the calendar's own rules, from the first day to the last.
#[test]
fn one_day_follows_another() {
    let (mut year, mut month, mut day) = (1950, 1, 1);
    let mut expected = 19500101;
    for number in (0..=30_000_000).filter(|&number| is_day(number)) {
        assert_eq!(number, expected);
        let february = if year % 4 == 0 { 29 } else { 28 };
        let lengths = [31, february, 31, 30, 31, 30, 31, 31, 30, 31, 30, 31];
        day += 1;
        if day > lengths[month - 1] {
            (month, day) = (month + 1, 1);
        }
        if month > 12 {
            (year, month) = (year + 1, 1);
        }
        expected = year * 10_000 + month as i128 * 100 + day;
    }
    assert_eq!(expected, 21000101);
}

/// The sample of document 01 with a date.
fn dated_sample(date: u64) -> Vec<u8> {
    let sample = two_tangents(20_000, 20_000, -20_000);
    [file(&[&[9, date]]), sample].concat()
}

#[test]
fn a_date_is_read() {
    let plain = two_tangents(20_000, 20_000, -20_000);
    assert_eq!(read(&plain).unwrap().contract, Contract::Undated);
    for date in [19500101, 20111231, 20120101, 20991231] {
        let alignment = read(&dated_sample(date)).unwrap();
        assert_eq!(alignment.contract, Contract::Dated(date.into()));
        assert_eq!((alignment.class, alignment.terrain), (4, 3));
        assert_eq!(printed_list(&dated_sample(date)), printed_list(&plain));
    }
}

#[test]
fn no_day_is_refused_at_the_date() {
    for date in [
        0,
        1,
        9,
        127,
        128,
        19491231,
        20010229,
        21000101,
        4_294_967_295,
    ] {
        assert_eq!(verdict(&dated_sample(date)), refused(22, 1), "{date}");
    }
}

#[test]
fn nine_alone_breaks_off() {
    assert_eq!(verdict(&[9]), refused(2, 1));
    assert_eq!(verdict(&[0x89, 0x00]), refused(2, 0));
    assert_eq!(verdict(&[0x89]), refused(2, 0));
}

/// A date that breaks off, is not in shortest form or exceeds the greatest number is refused with 2.
#[test]
fn refusal_2_comes_before_22() {
    let dates: [&[u8]; 6] = [
        &[0x80],
        &[0x80, 0x00],
        &[0x80, 0x80, 0x80, 0x80, 0x10],
        &[0xff, 0xff, 0xff, 0xff, 0xff, 0x00],
        &[0xff, 0xbe, 0xcb],
        &[0xff, 0xbe, 0xcb, 0x89, 0x00],
    ];
    assert_eq!(number(20111231)[..3], [0xff, 0xbe, 0xcb]);
    for date in dates {
        let bytes = [&[9], date].concat();
        assert_eq!(verdict(&bytes), refused(2, 1), "{date:x?}");
    }
    let (date, after) = (number(20111231), 5);
    assert_eq!(verdict(&[&[9], &date[..]].concat()), refused(2, after));
}

/// "is refused with 22 as it is read, before any later number"
#[test]
fn refusal_22_comes_before_later_numbers() {
    let rests: [&[u8]; 6] = [&[], &[0], &[5], &[0x80], &[0x80, 0x00], &[4, 3, 1]];
    for rest in rests {
        let no_day = [&[9], &number(20110229)[..], rest].concat();
        assert_eq!(verdict(&no_day), refused(22, 1), "{rest:x?}");
    }
    let mut longest = dated_sample(0);
    longest.resize(8_192, 0);
    assert_eq!(verdict(&longest), refused(22, 1));
    longest.push(0);
    assert_eq!(verdict(&longest), refused(1, 8_192));
}

#[test]
fn class_after_a_day() {
    let with_class = |class| file(&[&[9, 20111231, class]]);
    assert_eq!(verdict(&with_class(0)), refused(3, 5));
    assert_eq!(verdict(&with_class(5)), refused(3, 5));
    assert_eq!(verdict(&with_class(9)), refused(3, 5));
    assert_eq!(verdict(&with_class(4)), refused(2, 6));
    let mut longer = dated_sample(20111231);
    let end = longer.len() as i128;
    longer.push(0);
    assert_eq!(verdict(&longer), refused(4, end));
}

#[test]
fn any_other_first_number_is_the_class() {
    for first in [0, 5, 8, 10, 11, 20111231, 4_294_967_295] {
        let bytes = file(&[&[first, 20111231, 4, 3, 50_000, 5_000]]);
        assert_eq!(verdict(&bytes), refused(3, 0), "{first}");
    }
}

#[test]
fn places_from_5_on_do_not_count_the_date() {
    let bend = one_bend_of(&[9, 20111231, 4, 3], 44_999, 60_000);
    assert_eq!(verdict(&bend), refused(10, 2));
}

/// "every refusal leaves lent buffers untouched"
#[test]
fn refusal_22_leaves_the_buffer() {
    let no_day = dated_sample(20110229);
    let refusal = refused(22, 1).unwrap();
    let mut buffer = vec![7; 96];
    assert_eq!(row(&no_day, 0, &mut buffer), Answer::Refused(refusal));
    assert_eq!(row(&no_day, 0, &mut buffer[..5]), Answer::Refused(refusal));
    assert_eq!(next_station(&no_day, 0), Answer::Refused(refusal));
    assert_eq!(list(&no_day, 0, &mut buffer), PartAnswer::Refused(refusal));
    assert_eq!(printed_list(&no_day), "R 22 1\n");
    assert_eq!(buffer, [7; 96]);
}
