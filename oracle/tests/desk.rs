//! The program `desk`: its words, what goes to which output, and how it ends.

mod common;

use common::*;
use oracle::calendar::Origin;
use oracle::desk::Verb;
use std::io::Write;
use std::process::{Command, Stdio};

/// Standard output, standard error and status of the program.
fn desk(words: &[&str], input: &[u8]) -> (Vec<u8>, String, i32) {
    let mut child = Command::new(env!("CARGO_BIN_EXE_oracle-desk"))
        .args(words)
        .stdin(Stdio::piped())
        .stdout(Stdio::piped())
        .stderr(Stdio::piped())
        .spawn()
        .unwrap();
    // It may end without reading.
    let _ = child.stdin.take().unwrap().write_all(input);
    let ended = child.wait_with_output().unwrap();
    let errors = String::from_utf8(ended.stderr).unwrap();
    (ended.stdout, errors, ended.status.code().unwrap())
}

/// A verb that prints lines: standard error stays empty.
fn printed(words: &[&str], input: &[u8]) -> (String, i32) {
    let (output, errors, status) = desk(words, input);
    assert_eq!(errors, "");
    (String::from_utf8(output).unwrap(), status)
}

/// What goes to standard error, where standard output stays empty.
fn refused(words: &[&str], input: &[u8]) -> (String, i32) {
    let (output, errors, status) = desk(words, input);
    assert_eq!(output, []);
    (errors, status)
}

fn said(text: &str, status: i32) -> (String, i32) {
    (text.to_string(), status)
}

#[test]
fn words() {
    let of = |words: &[&str]| Verb::of(words);
    assert_eq!(of(&["test"]), Some(Verb::Test));
    assert_eq!(of(&["worst"]), Some(Verb::Worst));
    for (word, number) in [
        ("0", 0),
        ("30", 30),
        ("4294967295", u32::MAX),
        ("0000000000000000000007", 7),
        ("00004294967295", u32::MAX),
    ] {
        assert_eq!(of(&["day", word]), Some(Verb::Day(number)));
    }
    assert_eq!(of(&["import"]), Some(Verb::Import));
    assert_eq!(of(&["close"]), Some(Verb::Close));
    let origin = ["calendar", "2024", "02", "029", "0", "4294967295"];
    let numbers = Origin::of([2024, 2, 29, 0, u32::MAX]);
    assert_eq!(of(&origin), Some(Verb::Calendar(numbers)));
    assert_eq!(of(&["lighter"]), Some(Verb::Lighter));
    assert_eq!(of(&["pack"]), Some(Verb::Pack));
    let none: [&[&str]; 34] = [
        &[],
        &[""],
        &["Test"],
        &["tests"],
        &["test", "0"],
        &["test", ""],
        &["worst", "worst"],
        &["import", "sheet.csv"],
        &["imports"],
        &["close", "0"],
        &["day"],
        &["0", "day"],
        &["day", ""],
        &["day", "4294967296"],
        &["day", "18446744073709551616"],
        &["day", "-0"],
        &["day", "-1"],
        &["day", "+1"],
        &["day", "1x"],
        &["day", " 1"],
        &["day", "1 "],
        &["day", "0x1"],
        &["day", "1", "1"],
        &["day", "\u{0661}"],
        &["lighter", "0"],
        &["Lighter"],
        &["pack", "plan.list"],
        &["packs"],
        &["calendar"],
        &["calendar", "2024", "1", "1", "0"],
        &["calendar", "2024", "1", "1", "0", "0", "0"],
        &["calendar", "2024", "1", "1", "0", "4294967296"],
        &["calendar", "2024", "-1", "1", "0", "0"],
        &["calendar", "2024", "", "1", "0", "0"],
    ];
    let file = haul().to_bytes();
    for words in none {
        assert_eq!(of(words), None);
        let (errors, status) = refused(words, &file);
        assert_eq!((errors.lines().count(), status), (1, 2), "{words:?}");
        let verbs = [
            "test", "worst", "day", "import", "close", "calendar", "lighter", "pack",
        ];
        for verb in verbs {
            assert!(errors.contains(verb) && errors.ends_with('\n'));
        }
    }
}

#[test]
fn the_plan_test() {
    let test = |file: &[u8]| printed(&["test"], file);
    let file = |points, rest: &[_]| plan(points, rest).to_bytes();
    assert_eq!(test(&haul().to_bytes()), said("test yes 31\n", 0));
    let unwaited = haul_with(&[]).to_bytes();
    assert_eq!(test(&unwaited), said("test pair 0 3 0\n", 0));
    let cycle = [ordinary(0, -5, 1), ordinary(1, -5, 0)];
    assert_eq!(test(&file(2, &cycle)), said("test cycle 0\n", 0));
    let wide = [link(0, 1, 4_097, 1)];
    assert_eq!(test(&file(2, &wide)), said("test 13\n", 1));
    assert_eq!(test(&[]), said("plan 1 0\n", 1));
    assert_eq!(test(&[1; 1_128 * 16 + 1]), said("plan 2 0\n", 1));
    assert_eq!(test(&[1; 1_129 * 16]), said("plan 3 0\n", 1));
    // The whole input is the plan file: a mark is a bad record.
    let marked = [haul().to_bytes(), vec![255; 16]].concat();
    assert_eq!(test(&marked), said("plan 4 9\n", 1));
}

#[test]
fn the_worst_minute() {
    let file = haul().to_bytes();
    assert_eq!(printed(&["worst"], &file), said("worst 60 30\n", 0));
    let unwaited = haul_with(&[]).to_bytes();
    assert_eq!(printed(&["worst"], &unwaited), said("worst 60\n", 1));
    assert_eq!(printed(&["worst"], &file[1..]), said("plan 2 0\n", 1));
}

#[test]
fn the_day() {
    let file = haul().to_bytes();
    let with = |events: &[[u8; 16]]| [&file[..], &[255; 16], &events.concat()].concat();
    let (output, errors, status) = desk(&["day", "015"], &file);
    let events = [event(0, 0, &[]), event(10, 1, &[]), event(45, 3, &[2])];
    assert_eq!((output, &errors[..], status), (with(&events), "", 0));
    let (output, errors, status) = desk(&["day", "31"], &file);
    assert_eq!((output, &errors[..], status), (with(&[]), "", 0));
    let unwaited = haul_with(&[]).to_bytes();
    assert_eq!(refused(&["day", "0"], &unwaited), said("day 60\n", 1));
    let wide = plan(2, &[link(0, 1, 4_097, 1)]).to_bytes();
    assert_eq!(refused(&["day", "9"], &wide), said("day 13\n", 1));
    assert_eq!(refused(&["day", "9"], &[7; 32]), said("plan 4 0\n", 1));
}

#[test]
fn the_import() {
    let import = |text: &[u8]| desk(&["import"], text);
    let mut records = records(2, &[ordinary(1, -7, 0)]);
    records[1].code = (26 * 10 + 3) * 10_000 + 1_706;
    let text = b"point,0,,,,\r\npoint,1,,,,\"KD1705\"\r\nordinary,1,0,-7,,\r\n";
    assert_eq!(import(text), (bytes(&records), String::new(), 0));
    let refused = |text: &[u8]| refused(&["import"], text);
    assert_eq!(refused(b""), said("import 1 0\n", 1));
    assert_eq!(refused(&text[1..]), said("import 42 0\n", 1));
    assert_eq!(
        refused(b"point,0,,,,\r\npoint,1,,,,Nov-26"),
        said("import 43 1\n", 1)
    );
    assert_eq!(
        refused(b"point,0,,,,\r\npoint,2,,,,"),
        said("import 8 1\n", 1)
    );
    assert_eq!(
        refused(&b"point,0,,,,\r\n".repeat(1_129)),
        said("import 3 0\n", 1)
    );
}

#[test]
fn the_made_plan() {
    let file = |rest: &[_]| bytes(&records(3, rest));
    let typed = file(&[ordinary(2, -3, 1), ordinary(1, -4, 0)]);
    let made = file(&[ordinary(1, -4, 0), ordinary(2, -7, 0), ordinary(2, -3, 1)]);
    assert_eq!(desk(&["close"], &typed), (made, String::new(), 0));
    let close = |input: &[u8]| refused(&["close"], input);
    assert_eq!(close(&haul().to_bytes()), said("close 61\n", 1));
    let cycle = file(&[ordinary(0, 3, 1), ordinary(1, -4, 0)]);
    assert_eq!(close(&cycle), said("close 62\n", 1));
    let far = file(&[ordinary(0, 100_000, 1), ordinary(1, 1, 2)]);
    assert_eq!(close(&far), said("close 63\n", 1));
    assert_eq!(close(&far[16..]), said("plan 8 0\n", 1));
}

#[test]
fn the_calendar() {
    let words = ["calendar", "2024", "2", "29", "23", "59"];
    let sheet = |events: &[u8]| [&haul().to_bytes()[..], &[255; 16], events].concat();
    let day = [event(0, 0, &[]), event(12, 1, &[]), event(47, 3, &[2])];
    let (text, errors, status) = desk(&words, &sheet(&day.concat()));
    assert_eq!((&errors[..], status), ("", 0));
    let text = String::from_utf8(text).unwrap();
    assert!(text.starts_with("BEGIN:VCALENDAR\r\nVERSION:2.0\r\nPRODID:-//Ponds//Sheets//EN\r\n"));
    assert!(text.contains("\r\nUID:3-20240301T004600Z\r\nDTSTAMP:20240301T004600Z\r\n"));
    // Refused events and an unfinished last record are left aside.
    let refused_too = [&day.concat()[..], &[255; 16], &day[0], &day[1][..15]].concat();
    assert_eq!(desk(&words, &sheet(&refused_too)).0, text.as_bytes());
    let calendar = |words: &[&str], input: &[u8]| refused(words, input);
    assert_eq!(
        calendar(&words, &sheet(&day[..2].concat())),
        said("calendar 31\n", 1)
    );
    // Without the mark there are no events.
    assert_eq!(
        calendar(&words, &haul().to_bytes()),
        said("calendar 31\n", 1)
    );
    let none = ["calendar", "2023", "2", "29", "23", "59"];
    assert_eq!(
        calendar(&none, &sheet(&day.concat())),
        said("calendar 51\n", 1)
    );
    assert_eq!(calendar(&none, &sheet(&[])), said("calendar 31\n", 1));
    assert_eq!(calendar(&none, &[255; 32]), said("plan 1 0\n", 1));
    assert_eq!(
        calendar(&none, &haul().to_bytes()[1..]),
        said("plan 2 0\n", 1)
    );
}

#[test]
fn the_lighter_plan() {
    // Record 5 says no more than 3 and 4 together, but goes last: 3 and 4 are needed before it.
    let file = |rest: &[_]| bytes(&records(3, rest));
    let heavy = file(&[ordinary(1, -4, 0), ordinary(2, -3, 1), ordinary(2, -7, 0)]);
    let light = file(&[ordinary(1, -4, 0), ordinary(2, -3, 1)]);
    let (output, errors, status) = desk(&["lighter"], &heavy);
    assert_eq!(
        (output, &errors[..], status),
        (light.clone(), "dropped 5\n", 0)
    );
    // Nothing more goes, and nothing is said.
    assert_eq!(desk(&["lighter"], &light), (light, String::new(), 0));
    let loose = file(&[ordinary(2, -6, 0), ordinary(2, -7, 1), ordinary(1, 0, 0)]);
    let left = file(&[ordinary(2, -7, 1), ordinary(1, 0, 0)]);
    assert_eq!(
        desk(&["lighter"], &loose),
        (left, "dropped 3\n".to_string(), 0)
    );
    let lighter = |input: &[u8]| refused(&["lighter"], input);
    let unwaited = haul_with(&[]).to_bytes();
    assert_eq!(lighter(&unwaited), said("lighter 60\n", 1));
    let wide = plan(2, &[link(0, 1, 4_097, 1), ordinary(0, 0, 1)]).to_bytes();
    assert_eq!(lighter(&wide), said("lighter 13\n", 1));
    assert_eq!(lighter(&unwaited[16..]), said("plan 8 0\n", 1));
}

#[test]
fn the_packed_listing() {
    let pack = |listing: &[u8]| desk(&["pack"], listing);
    assert_eq!(pack(b""), (vec![], String::new(), 0));
    let listing = b"point 0 7 # the pond\r\n\tordinary 1 -5  0\nmark";
    let mut packed = bytes(&[ordinary(1, -5, 0)]);
    packed.splice(..0, [1, 0, 0, 0, 0, 0, 0, 0, 0, 0, 0, 0, 7, 0, 0, 0]);
    packed.extend([255; 16]);
    assert_eq!(pack(listing), (packed, String::new(), 0));
    let refused = |listing: &[u8]| refused(&["pack"], listing);
    assert_eq!(
        refused(b"mark\n\nevent 0 255 none\nmark 1\n"),
        said("pack: expected none or a point, 0 to 254, at line 3\n", 1)
    );
    let usage =
        "usage: a listing for pack has at most 65536 bytes and makes at most 4096 records.\n";
    assert_eq!(refused(&b"mark\n".repeat(4_097)), said(usage, 2));
    assert_eq!(refused(&[b'x'; 65_537]), said(usage, 2));
}
