//! The reader of iCalendar text: known dates, good texts, and texts with one thing wrong.

use compare::icalendar::{day_number, day_of, events, fault, minute_number, read};
use oracle::calendar::days;
use oracle::plan::{Ordinary, Plan};

#[test]
fn known_dates() {
    assert_eq!(day_number(1970, 1, 1), Some(0));
    assert_eq!(day_number(2000, 2, 29), Some(11_016));
    assert_eq!(day_number(2000, 3, 1), Some(11_017));
    assert_eq!(day_number(2038, 1, 19), Some(24_855));
    assert_eq!(day_number(2100, 3, 1), Some(47_541));
    for (year, month, day) in [
        (2023, 2, 29),
        (2100, 2, 29),
        (2024, 2, 30),
        (2024, 4, 31),
        (2024, 0, 1),
        (2024, 13, 1),
        (2024, 1, 0),
        (2024, 12, 32),
    ] {
        assert_eq!(day_number(year, month, day), None);
    }
    assert_eq!(minute_number([1970, 1, 2, 0, 1]), Some(1_441));
    assert_eq!(minute_number([2001, 9, 9, 1, 46]), Some(16_666_666));
    assert_eq!(minute_number([1970, 1, 1, 24, 0]), None);
    assert_eq!(minute_number([1970, 1, 1, 0, 60]), None);
}

/// The formula and the walk from day to day, until 2107.
#[test]
fn all_days() {
    for (number, date) in (0..50_000).zip(days()) {
        let [year, month, day] = [date.year, date.month, date.day].map(i64::from);
        assert_eq!(day_number(year, month, day), Some(number));
        assert_eq!(day_of(number), (year, month, day));
    }
}

const GOOD: &str = "BEGIN:VCALENDAR\r\nVERSION:2.0\r\nPRODID:-//Ponds//Sheets//EN\r\n\
    BEGIN:VEVENT\r\nUID:0-20240229T235900Z\r\nDTSTAMP:20240229T235900Z\r\n\
    DTSTART:20240229T235900Z\r\nSUMMARY:Point 0 7\r\nEND:VEVENT\r\n\
    BEGIN:VEVENT\r\nUID:1-20240301T000600Z\r\nDTSTAMP:20240301T000600Z\r\n\
    DTSTART:20240301T000600Z\r\nSUMMARY:Point 1 0\r\nEND:VEVENT\r\n\
    END:VCALENDAR\r\n";

/// The sheet of that text: point 1 comes 7 minutes after point 0.
fn sheet() -> Vec<u8> {
    let (x, d, y) = (1, -7, 0);
    let plan = Plan {
        ponds: vec![7, 0],
        ordinary: vec![Ordinary { x, d, y }],
        ..Plan::default()
    };
    let events = [
        compare::events::record(1, 0, 0),
        compare::events::record(8, 1, 0),
    ];
    [&plan.to_bytes()[..], &[255; 16], &events.concat()].concat()
}

#[test]
fn good_texts() {
    let origin = [2024, 2, 29, 23, 58];
    assert_eq!(fault(&sheet(), origin, GOOD.as_bytes()), None);
    assert_eq!(events(GOOD.as_bytes()).unwrap()[1].summary, "Point 1 0");
    // As RFC 5545 allows them elsewhere: lines that are folded, names in small letters, parameters.
    let folded = GOOD.replace("SUMMARY:Point", "sum\r\n MARY:Po\r\n\tint");
    assert_eq!(fault(&sheet(), origin, folded.as_bytes()), None);
    let with = GOOD.replace("SUMMARY:", "SUMMARY;LANGUAGE=en;X=\"a:b;c\":");
    let read = read(with.as_bytes()).unwrap();
    let summary = &read.inside[0].properties[3];
    assert_eq!(summary.parameters, ["LANGUAGE=en", "X=\"a:b;c\""]);
    assert_eq!(summary.value, "Point 0 7");
}

#[test]
fn wrong_texts() {
    let origin = [2024, 2, 29, 23, 58];
    let long = format!("SUMMARY:Point 0 7{}", " ".repeat(59));
    for (from, to) in [
        ("\r\n", "\n"),
        ("\r\n", "\r"),
        ("SUMMARY:Point 0 7", &long),
        ("SUMMARY:Point 0 7", "SUMMARY:Point 0 8"),
        ("SUMMARY:Point 0 7", "SUMMARY:Point 0  7"),
        ("SUMMARY:Point 0 7", "SUMMARY:Point 0\\, 7"),
        ("SUMMARY:Point 0 7", "SUMMARY:Point 0, 7"),
        ("SUMMARY:Point 0 7", "SUMMARY;LANGUAGE=en:Point 0 7"),
        ("SUMMARY:Point 0 7", "SUMMARY Point 0 7"),
        ("UID:1-", "UID:01-"),
        ("UID:1-20240301T000600Z", "UID:0-20240229T235900Z"),
        (
            "VERSION:2.0\r\nPRODID:-//Ponds//Sheets//EN",
            "PRODID:-//Ponds//Sheets//EN\r\nVERSION:2.0",
        ),
        ("VERSION:2.0\r\n", ""),
        ("//EN", "//EN\r\nMETHOD:PUBLISH"),
        ("20240301T000600Z", "20240301T000600"),
        ("20240301T000600Z", "20240301T000601Z"),
        ("20240301T000600Z", "20240301T000700Z"),
        ("20240301T000600Z", "20240230T000600Z"),
        ("20240229T235900Z", "20240229T236000Z"),
        ("DTSTAMP:20240301", "DTSTAMP:20240302"),
        ("DTSTART:20240301T000600Z", "DTSTART;VALUE=DATE:20240301"),
        ("END:VCALENDAR\r\n", "END:VCALENDAR"),
        ("END:VCALENDAR\r\n", ""),
        ("END:VCALENDAR\r\n", "END:VCALENDAR\r\n\r\n"),
        ("END:VCALENDAR\r\n", "END:VEVENT\r\n"),
        ("BEGIN:VCALENDAR", " BEGIN:VCALENDAR"),
        ("VEVENT", "VTODO"),
    ] {
        let text = GOOD.replace(from, to);
        assert_ne!(text, GOOD);
        assert!(fault(&sheet(), origin, text.as_bytes()).is_some(), "{text}");
    }
    let text = GOOD.as_bytes();
    assert!(fault(&sheet(), [2024, 2, 29, 23, 57], text).is_some());
    assert!(fault(&sheet(), [2024, 2, 30, 23, 58], text).is_some());
    assert!(fault(&sheet()[..80], origin, text).is_some());
    assert!(fault(&sheet()[16..], origin, text).is_some());
    // A line of 75 octets is as long as one may be.
    let full = |extra: usize| {
        let line = format!("SUMMARY:{}", "x".repeat(67 + extra));
        events(GOOD.replace("SUMMARY:Point 0 7", &line).as_bytes())
    };
    assert!(full(0).is_ok() && full(1).is_err());
}
