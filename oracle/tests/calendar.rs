//! Sheets in the crews' calendars: dates, origins that are none, the text, and numbers 20, 31 and 51.

mod common;

use common::*;
use oracle::board::Board;
use oracle::calendar::{calendar, days, Date, Origin};

fn stamp(origin: [u32; 5], minutes: u32) -> String {
    Origin::of(origin).stamp(minutes)
}

/// Dates that are known from elsewhere: seconds since 1970 that are round in some way.
#[test]
fn known_dates() {
    let since = |seconds: u64| stamp([1970, 1, 1, 0, 0], (seconds / 60) as u32);
    assert_eq!(since(0), "19700101T000000Z");
    assert_eq!(since(86_399), "19700101T235900Z");
    assert_eq!(since(86_400), "19700102T000000Z");
    assert_eq!(since(68_169_600), "19720229T000000Z");
    assert_eq!(since(951_782_400), "20000229T000000Z");
    assert_eq!(since(1_000_000_000), "20010909T014600Z");
    assert_eq!(since(1_234_567_890), "20090213T233100Z");
    assert_eq!(since(2_147_483_647), "20380119T031400Z");
    assert_eq!(since(4_102_444_740), "20991231T235900Z");
    assert_eq!(since(4_102_444_800), "21000101T000000Z");
    assert_eq!(since(4_107_542_400), "21000301T000000Z");
}

/// Ends of months, of common and leap years, and of the years that an origin may have.
#[test]
fn ends() {
    let next = |origin: [u32; 3]| {
        let [year, month, day] = origin;
        stamp([year, month, day, 23, 59], 1)
    };
    assert_eq!(next([2023, 2, 28]), "20230301T000000Z");
    assert_eq!(next([2024, 2, 28]), "20240229T000000Z");
    assert_eq!(next([2024, 2, 29]), "20240301T000000Z");
    assert_eq!(next([2000, 2, 28]), "20000229T000000Z");
    assert_eq!(next([2024, 4, 30]), "20240501T000000Z");
    assert_eq!(next([2024, 12, 31]), "20250101T000000Z");
    assert_eq!(next([2099, 12, 31]), "21000101T000000Z");
    // The years bind the origin only, and 2100 is no leap year.
    assert_eq!(stamp([2099, 12, 31, 23, 59], 84_961), "21000301T000000Z");
    assert_eq!(stamp([2099, 12, 31, 23, 59], 84_960), "21000228T235900Z");
    assert_eq!(stamp([2099, 12, 31, 23, 59], 3_200_000), "21060201T051900Z");
}

/// All days from 1970 to 2099: 130 years, of which 32 have a leap day; and what is no such date.
#[test]
fn origins() {
    let to_last = days().take_while(|date| date.year < 2100);
    assert_eq!(to_last.count(), 130 * 365 + 32);
    let leaps = days().take_while(|date| date.year < 2100);
    let leaps = leaps.filter(|date| (date.month, date.day) == (2, 29));
    let leaps: Vec<u32> = leaps.map(|date| date.year).collect();
    assert_eq!(leaps, (1972..2100).step_by(4).collect::<Vec<u32>>());
    let is_one = |origin: [u32; 5]| Origin::of(origin).is_one();
    for origin in [
        [1970, 1, 1, 0, 0],
        [2099, 12, 31, 23, 59],
        [2000, 2, 29, 12, 0],
        [2024, 2, 29, 0, 59],
        [2024, 4, 30, 23, 0],
    ] {
        assert!(is_one(origin), "{origin:?}");
    }
    let huge = u32::MAX;
    for origin in [
        [1969, 12, 31, 23, 59],
        [2100, 1, 1, 0, 0],
        [0, 1, 1, 0, 0],
        [huge, 1, 1, 0, 0],
        [70, 1, 1, 0, 0],
        [2024, 0, 1, 0, 0],
        [2024, 13, 1, 0, 0],
        [2024, huge, 1, 0, 0],
        [2024, 1, 0, 0, 0],
        [2024, 1, 32, 0, 0],
        [2024, 4, 31, 0, 0],
        [2024, 2, 30, 0, 0],
        [2023, 2, 29, 0, 0],
        [2024, 1, huge, 0, 0],
        [2024, 1, 1, 24, 0],
        [2024, 1, 1, huge, 0],
        [2024, 1, 1, 0, 60],
        [2024, 1, 1, 0, huge],
    ] {
        assert!(!is_one(origin), "{origin:?}");
    }
    let date = |year, month, day| Date { year, month, day };
    assert_eq!(date(1999, 12, 31).next(), date(2000, 1, 1));
}

#[test]
fn the_text_and_the_numbers() {
    let mut two = plan(2, &[ordinary(1, -7, 0)]);
    two.ponds[1] = u32::MAX;
    let fresh = Board::fresh();
    let done = after(&two, &fresh, &[event(1_439, 0, &[]), event(1_446, 1, &[])]);
    let origin = Origin::of([2024, 2, 28, 0, 0]);
    let text = calendar(&two, &done, &origin).unwrap();
    let wanted = "BEGIN:VCALENDAR\r\nVERSION:2.0\r\nPRODID:-//Ponds//Sheets//EN\r\n\
        BEGIN:VEVENT\r\nUID:0-20240228T235900Z\r\nDTSTAMP:20240228T235900Z\r\n\
        DTSTART:20240228T235900Z\r\nSUMMARY:Point 0 0\r\nEND:VEVENT\r\n\
        BEGIN:VEVENT\r\nUID:1-20240229T000600Z\r\nDTSTAMP:20240229T000600Z\r\n\
        DTSTART:20240229T000600Z\r\nSUMMARY:Point 1 4294967295\r\nEND:VEVENT\r\n\
        END:VCALENDAR\r\n";
    assert_eq!(text, wanted);
    // 20, then 31, then 51.
    let none = Origin::of([2024, 2, 30, 0, 0]);
    assert_eq!(calendar(&two, &done, &none), Err(51));
    let half = after(&two, &fresh, &[event(0, 0, &[])]);
    assert_eq!(calendar(&two, &half, &none), Err(31));
    let mut bad = half;
    bad.clock = 1;
    assert_eq!(calendar(&two, &bad, &none), Err(20));
    assert_eq!(calendar(&two, &bad, &origin), Err(20));
}
