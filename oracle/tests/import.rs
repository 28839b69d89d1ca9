//! Sheets from the growers' office (document 02): every reading that is settled, each number at its edge, the quoting against
//! a reader that goes byte by byte, and plans said as text.

mod common;

use common::*;
use oracle::import::{fields, import, lines};
use oracle::plan::{Plan, RawRecord};

/// The refusal of a text, (0, 0) if there is none.
fn refusal_of(text: impl AsRef<[u8]>) -> (u32, u32) {
    import(text.as_ref()).err().unwrap_or((0, 0))
}

/// The records of a text that is accepted.
fn records_of(text: &str) -> Vec<RawRecord> {
    let plan = import(text.as_bytes()).expect(text);
    plan.to_records()
}

/// Three points, then this line, without a CR LF at the end.
fn after_three(line: &str) -> String {
    let points = (0..3).map(|k| format!("point,{k},,,,\r\n"));
    points.collect::<String>() + line
}

/// The number that this line gives after three points; the line is named, or nothing is.
fn of_line(line: &str) -> u32 {
    let (number, at) = refusal_of(after_three(line));
    assert_eq!(at, if number == 0 { 0 } else { 3 }, "{line}");
    // The same with its CR LF and with good lines after it.
    let more = after_three(line) + "\r\n";
    assert_eq!(refusal_of(&more), (number, at), "{line}");
    if !line.starts_with("point") && number >= 40 {
        let more = more + "ordinary,0,1,5,,\r\nordinary,1,2,5,,\r\n";
        assert_eq!(refusal_of(&more), (number, at), "{line}");
    }
    number
}

#[test]
fn the_haul() {
    let text = "point,0,,,,\r\n\
                point,1,0,0,0,\r\n\
                \"point\",\"2\",\"\",\"\",\"\",\"\"\r\n\
                point,03,-0,00,-000,AA0000\r\n\
                link,1,2,20,50,\r\n\
                ordinary,1,0,-10,,\r\n\
                ordinary,2,3,\"5\",,\r\n\
                ordinary,3,2,0000000000000000015,,\r\n\
                wait,3,2,35,,";
    let mut expected = haul();
    expected.ponds[3] = 1;
    assert_eq!(import(text.as_bytes()), Ok(expected.clone()));
    assert_eq!(import(format!("{text}\r\n").as_bytes()), Ok(expected));
}

#[test]
fn ends_of_lines() {
    // The reader's own 1; a blank line is one field.
    assert_eq!(refusal_of(""), (1, 0));
    assert_eq!(refusal_of("\r\n"), (41, 0));
    assert_eq!(refusal_of("point,0,,,,"), (0, 0));
    assert_eq!(refusal_of("point,0,,,,\r\n"), (0, 0));
    assert_eq!(refusal_of("point,0,,,,\r\n\r\n"), (41, 1));
    assert_eq!(refusal_of("\r\npoint,0,,,,"), (41, 0));
    assert_eq!(refusal_of("point,0,,,,\r\n\r\npoint,1,,,,"), (41, 1));
    // Alone, anywhere.
    for lone in ["\r", "\n", "\n\r", "\r\r\n", "\r\r", "\n\n"] {
        assert_eq!(refusal_of(lone), (40, 0), "{lone:?}");
        assert_eq!(refusal_of(format!("point,0,,,,{lone}")), (40, 0));
        assert_eq!(
            refusal_of(format!("point,0,,,,\r\n{lone}point,1,,,,")),
            (40, 1)
        );
        assert_eq!(refusal_of(format!("point,0,{lone},,,")), (40, 0));
        assert_eq!(refusal_of(format!("po{lone}int,0,,,,")), (40, 0));
        assert_eq!(refusal_of(format!("point,0,\"{lone}\",,,")), (40, 0));
        assert_eq!(refusal_of(format!("point,0,,,,\"\"{lone}")), (40, 0));
    }
    assert_eq!(refusal_of("point,0,,,,\r\n\n"), (40, 1));
    assert_eq!(refusal_of("point,0,,,,\n\r\n"), (40, 0));
    // A line break inside quotes: at the line where the field began.
    assert_eq!(refusal_of("point,0,,,,\"\r\n\""), (40, 0));
    assert_eq!(
        refusal_of("point,0,,,,\r\npoint,1,\"\r\n\",,,\r\n"),
        (40, 1)
    );
    // An end of a line in the middle of what a quote would have closed later.
    assert_eq!(
        refusal_of("point,0,,,,\"AA0001\r\npoint,1,,,,\"AA0001\"\r\n"),
        (40, 0)
    );
}

#[test]
fn number_40_quoting() {
    let good = ["\"ordinary\",0,1,5,,", "ordinary,\"0\",1,\"-5\",\"\",\"\""];
    for line in good {
        assert_eq!(of_line(line), 0, "{line}");
    }
    let broken = [
        // A quote inside a field that did not begin with one.
        "ordi\"nary,0,1,5,,",
        "ordinary\",0,1,5,,",
        "ordinary,0,1\"\",5,,",
        "ordinary,0,1, \"5\",,",
        "ordinary,0,1,5,,\u{e9}\"",
        // Something after a closing quote.
        "\"ordinary\"x,0,1,5,,",
        "\"ordinary\" ,0,1,5,,",
        "ordinary,\"0\"\"\"1,1,5,,",
        "ordinary,0,1,5,,\"\"x",
        "ordinary,0,1,5,,\"\"\u{0}",
        // Never closed.
        "\"",
        "\"\"\"",
        "ordinary,0,1,5,,\"",
        "ordinary,0,1,5,,\"\"\"",
        "\"ordinary,0,1,5,,",
        "ordinary,0,1,5,\",",
        "ordinary,0,1,5,,\"x\"\"",
        "\"ordinary\",\"0\",\"1\",\"5\",\"\",\"",
    ];
    for line in broken {
        assert_eq!(of_line(line), 40, "{line}");
    }
    // Before 41, 42 and 43 of the same line, though after them on an earlier one.
    for line in ["\"", "a,b\"", "Point,0,1,5,,\"", "ordinary,0,1,5,x,\"x\"y"] {
        assert_eq!(of_line(line), 40, "{line}");
        for (earlier, number) in [("a", 41), ("a,,,,,", 42), ("point,0,,,,a", 43)] {
            assert_eq!(refusal_of(format!("{earlier}\r\n{line}")), (number, 0));
        }
        // But before the reader's own.
        assert_eq!(refusal_of(format!("wait,9,9,9,9,\r\n{line}")), (40, 1));
    }
}

#[test]
fn number_41_columns() {
    for count in (1..20).filter(|count| *count != 5) {
        let commas = ",".repeat(count);
        assert_eq!(of_line(&commas), 41);
        assert_eq!(of_line(&format!("ordinary{commas}x")), 41);
    }
    assert_eq!(of_line("ordinary"), 41);
    assert_eq!(of_line(",,,,,"), 42);
    assert_eq!(of_line("ordinary,,,,,x"), 43);
    // A comma in quotes separates nothing.
    assert_eq!(of_line("ordinary,0,1,5,\",\""), 41);
    assert_eq!(of_line("ordinary,0,1,5,,\",\""), 43);
    assert_eq!(of_line("\"ordinary,0,1,5,,\""), 41);
    // Before 42 and 43.
    assert_eq!(of_line("Ordinary,0,1,5,,x,"), 41);
}

#[test]
fn number_42_words_and_numbers() {
    for word in [
        "",
        "\"\"",
        "Point",
        "POINT",
        "poin",
        "points",
        " point",
        "point ",
        "pond",
        "1",
        "\"po\"\"int\"",
        "p\u{f6}int",
        "ordinar",
        "waits",
        "link\u{0}",
        "\u{feff}point",
    ] {
        assert_eq!(of_line(&format!("{word},3,,,,")), 42, "{word}");
        assert_eq!(of_line(&format!("{word},3,,,,AA0001")), 42, "{word}");
    }
    let bad = [
        "-",
        "+",
        "+5",
        "--5",
        "5-",
        " 5",
        "5 ",
        "5.",
        "5.0",
        "5e1",
        "0x5",
        "a",
        "1\u{0}",
        "\t1",
        "1_0",
        "\u{0661}",
        "\" \"",
        "\"\"\"\"",
        "\"5\"\"\"",
        "\"1,0\"",
    ];
    for text in bad {
        for column in 1..5 {
            let mut line = ["ordinary", "0", "1", "5", "0", ""];
            line[column] = text;
            assert_eq!(of_line(&line.join(",")), 42, "{line:?}");
            // 42 comes before 43.
            line[5] = "x";
            assert_eq!(of_line(&line.join(",")), 42, "{line:?}");
        }
    }
    // Bytes that are no text.
    for byte in [128, 195, 255, 0, 9, 11, 12, 31, 127] {
        for column in 0..6 {
            let mut line = ["ordinary", "0", "1", "5", "0", ""].map(|one| one.as_bytes().to_vec());
            line[column].push(byte);
            let text = [after_three("").into_bytes(), line.join(&b',')].concat();
            let number = if column == 5 { 43 } else { 42 };
            assert_eq!(refusal_of(text), (number, 3));
        }
    }
}

#[test]
fn number_42_what_a_place_holds() {
    // Points: what fits and is wrong is the reader's 8.
    for (text, number) in [
        ("1", 0),
        ("0001", 0),
        ("3", 8),
        ("255", 8),
        ("256", 42),
        ("-1", 42),
        ("-255", 42),
        ("4294967296", 42),
        ("4294967297", 42),
        ("18446744073709551617", 42),
        ("340282366920938463463374607431768211457", 42),
    ] {
        assert_eq!(of_line(&format!("ordinary,{text},2,5,,")), number, "{text}");
        assert_eq!(of_line(&format!("ordinary,2,{text},5,,")), number, "{text}");
    }
    assert_eq!(of_line("ordinary,-0,-00,5,,"), 9);
    // Numbers: what fits and is wrong is the reader's 11, and 7 in a column that has to be 0.
    for (text, of_first, of_second) in [
        ("100000", 0, 7),
        ("-100000", 0, 7),
        ("100001", 11, 7),
        ("2147483647", 11, 7),
        ("-2147483648", 11, 7),
        ("2147483648", 42, 42),
        ("-2147483649", 42, 42),
        ("4294967295", 42, 42),
        ("4294967296", 42, 42),
        ("-4294967296", 42, 42),
        ("9999999999", 42, 42),
        ("10000000000", 42, 42),
        ("18446744073709551616", 42, 42),
    ] {
        let zeros = "0".repeat(30);
        let longer = match text.strip_prefix('-') {
            Some(digits) => format!("-{zeros}{digits}"),
            None => format!("{zeros}{text}"),
        };
        for text in [text, &longer] {
            assert_eq!(of_line(&format!("ordinary,0,1,{text},,")), of_first);
            assert_eq!(of_line(&format!("ordinary,0,1,5,{text},")), of_second);
        }
    }
    for zero in ["", "\"\"", "0", "-0", "000000000000000000000", "\"-0\""] {
        assert_eq!(
            of_line(&format!("ordinary,{zero},1,{zero},{zero},{zero}")),
            if zero.is_empty() || zero == "\"\"" {
                0
            } else {
                43
            }
        );
    }
    // Millions of zeros are zeros.
    let long = "0".repeat(1_000_000);
    assert_eq!(of_line(&format!("ordinary,{long},{long}1,-{long}5,,")), 0);
    assert_eq!(of_line(&format!("ordinary,{long},{long}1,1{long},,")), 42);
}

#[test]
fn number_43_pond_codes() {
    let code = |text: &str| records_of(&format!("point,0,,,,{text}"))[0].code;
    for (text, expected) in [
        ("", 0),
        ("\"\"", 0),
        ("AA0000", 1),
        ("AA0001", 2),
        ("AA9999", 10_000),
        ("AB0000", 10_001),
        ("AZ0000", 250_001),
        ("BA0000", 260_001),
        ("ZZ9999", 6_760_000),
        ("\"KD1705\"", (26 * 10 + 3) * 10_000 + 1_706),
    ] {
        assert_eq!(code(text), expected, "{text}");
    }
    // Dates of any shape a spreadsheet writes, and what is close to a code.
    for text in [
        "2026-11-15",
        "15/11/2026",
        "15.11.2026",
        "11/15/26",
        "15-Nov-26",
        "Nov-26",
        "1-Jan",
        "Jan 1",
        "1. Jan",
        "45976",
        "\"45,976\"",
        "2026-11-15T00:00:00",
        "JA2026",
        "ja2026",
        "Ja2026",
        "jA2026",
        "JAN2026",
        "JA202",
        "JA20266",
        "J22026",
        "1A2026",
        "JA202x",
        "JA20 6",
        " JA2026",
        "JA2026 ",
        "0",
        "1",
        "-0",
        "AA-001",
        "AA+001",
        "\"AA\"\"0001\"",
        "\"\"\"\"",
        "@A0000",
        "[A0000",
        "A@0000",
        "A[0000",
        "AA/000",
        "AA:000",
        "AA000/",
        "AA000:",
        "\u{c4}A000",
        "AA\u{661}0",
    ] {
        let shape = text.len() == 6 && text == "JA2026";
        let number = if shape { 0 } else { 43 };
        assert_eq!(of_line(&format!("point,3,,,,{text}")), number, "{text}");
        // Of two bad columns 42 comes first, whatever their order.
        if !shape {
            assert_eq!(of_line(&format!("point,3,,,x,{text}")), 42);
        }
    }
    // What has the shape is a code, and the reader says where it may stand.
    assert_eq!(of_line("ordinary,0,1,5,,AA0000"), 7);
    // Each shape has its own number, and none is that of no pond.
    let mut seen = std::collections::BTreeSet::from([0]);
    for first in b'A'..=b'Z' {
        for second in b'A'..=b'Z' {
            for digits in ["0000", "0001", "0010", "0100", "1000", "9999"] {
                let text = [&[first, second], digits.as_bytes()].concat();
                let text = String::from_utf8(text).unwrap();
                assert!(seen.insert(code(&text)), "{text}");
            }
        }
    }
    assert_eq!(seen.last(), Some(&6_760_000));
}

#[test]
fn the_readers_own_numbers() {
    assert_eq!(refusal_of(""), (1, 0));
    assert_eq!(refusal_of(after_three("point,2,,,,")), (8, 3));
    assert_eq!(refusal_of(after_three("point,3,1,,,")), (7, 3));
    assert_eq!(
        refusal_of(after_three("wait,0,1,1,,\r\nlink,0,1,1,2,")),
        (10, 3)
    );
    assert_eq!(
        refusal_of(after_three("link,0,1,1,2,\r\npoint,3,,,,")),
        (5, 4)
    );
    assert_eq!(refusal_of(after_three("link,0,0,1,2,")), (9, 3));
    assert_eq!(
        refusal_of(after_three("ordinary,0,1,5,,\r\nordinary,0,1,6,,\r\n")),
        (15, 4)
    );
    let points = |count| -> String { (0..count).map(|k| format!("point,{k},,,,\r\n")).collect() };
    assert_eq!(refusal_of(points(32)), (0, 0));
    assert_eq!(refusal_of(points(33)), (6, 32));
    // Points 0 to 255 fit, so there can be more lines than a file has room for.
    let long = |count: usize| "point,0,,,,\r\n".repeat(count);
    assert_eq!(refusal_of(long(1_128)), (8, 1));
    assert_eq!(refusal_of(long(1_129)), (3, 0));
    assert_eq!(refusal_of(long(5_000)), (3, 0));
    // All lines come first, also those past the room.
    assert_eq!(refusal_of(long(5_000) + "point,0,,,"), (41, 5_000));
    assert_eq!(refusal_of(long(5_000) + "point,0,,,,x"), (43, 5_000));
}

/// Text to lines to fields, byte by byte with a state beside it; else the line at which the quoting is broken.
fn by_bytes(text: &[u8]) -> Result<Vec<Vec<Vec<u8>>>, usize> {
    #[derive(PartialEq)]
    enum At {
        Begin,
        Plain,
        Quoted,
        Closed,
    }
    let mut lines = Vec::new();
    let mut line = Vec::new();
    let mut field = Vec::new();
    let mut at = At::Begin;
    let mut k = 0;
    while k < text.len() {
        let (byte, next) = (text[k], text.get(k + 1));
        k += 1;
        match (byte, &at) {
            (b'\r' | b'\n', At::Quoted) => return Err(lines.len()),
            (b'\r', _) if next == Some(&b'\n') => {
                k += 1;
                line.push(std::mem::take(&mut field));
                lines.push(std::mem::take(&mut line));
                at = At::Begin;
                if k == text.len() {
                    return Ok(lines);
                }
            }
            (b'\r' | b'\n', _) => return Err(lines.len()),
            (b'"', At::Begin) => at = At::Quoted,
            (b'"', At::Plain) => return Err(lines.len()),
            (b'"', At::Quoted) => at = At::Closed,
            (b'"', At::Closed) => {
                field.push(b'"');
                at = At::Quoted;
            }
            (byte, At::Quoted) => field.push(byte),
            (b',', _) => {
                line.push(std::mem::take(&mut field));
                at = At::Begin;
            }
            (_, At::Closed) => return Err(lines.len()),
            (byte, _) => {
                field.push(byte);
                at = At::Plain;
            }
        }
    }
    if at == At::Quoted {
        return Err(lines.len());
    }
    if !text.is_empty() {
        line.push(field);
        lines.push(line);
    }
    Ok(lines)
}

/// The same by this program's way.
fn by_cutting(text: &[u8]) -> Result<Vec<Vec<Vec<u8>>>, usize> {
    let all = lines(text).map(fields).enumerate();
    all.map(|(k, fields)| fields.ok_or(k)).collect()
}

/// Every text of up to eight bytes out of five.
#[test]
fn quoting_of_all_short_texts() {
    let mut broken = 0;
    for length in 0..=8u32 {
        for number in 0..5usize.pow(length) {
            let byte = |k| b"\",\r\nx"[number / 5usize.pow(k) % 5];
            let text: Vec<u8> = (0..length).map(byte).collect();
            let expected = by_bytes(&text);
            // No more fields are kept than one too many.
            assert_eq!(
                by_cutting(&text),
                expected.clone().map(|mut lines| {
                    lines.iter_mut().for_each(|line| line.truncate(7));
                    lines
                })
            );
            broken += usize::from(expected.is_err());
            // 40 at the same line, unless an earlier line is bad otherwise: none of these has a kind word.
            let (number, at) = refusal_of(&text);
            match expected {
                Err(0) => assert_eq!((number, at), (40, 0)),
                Ok(lines) if lines.is_empty() => assert_eq!((number, at), (1, 0)),
                _ => assert!((41..=42).contains(&number) && at == 0),
            }
        }
    }
    assert!(broken > 100_000);
}

/// A plan's text with fields quoted or not, numbers with zeros in front, zeros left out.
fn said(random: &mut Random, plan: &Plan) -> Vec<u8> {
    let mut lines = Vec::new();
    for record in plan.to_records() {
        let kind = ["point", "link", "ordinary", "wait"][usize::from(record.kind) - 1];
        let mut columns = vec![kind.to_string()];
        let numbers = [
            i64::from(record.a),
            i64::from(record.b),
            i64::from(record.first),
            i64::from(record.second),
        ];
        for number in numbers {
            let sign = if number < 0 || (number == 0 && random.below(4) == 0) {
                "-"
            } else {
                ""
            };
            let zeros = "0".repeat(random.below(3));
            columns.push(match random.below(3) {
                0 if number == 0 => String::new(),
                _ => format!("{sign}{zeros}{}", number.abs()),
            });
        }
        columns.push(match record.code.checked_sub(1) {
            None => String::new(),
            Some(code) => {
                let letter = |place: u32| char::from(b'A' + (place % 26) as u8);
                let (first, second) = (letter(code / 260_000), letter(code / 10_000));
                format!("{first}{second}{:04}", code % 10_000)
            }
        });
        let quoted = columns.iter().map(|column| match random.below(3) {
            0 => format!("\"{column}\""),
            _ => column.clone(),
        });
        lines.push(quoted.collect::<Vec<_>>().join(","));
    }
    let end = ["", "\r\n"][random.below(2)];
    (lines.join("\r\n") + end).into_bytes()
}

#[test]
fn every_plan_can_be_said() {
    let mut random = Random::new(1);
    for _ in 0..500 {
        let most = random.between(1, 100_000);
        let mut plan = random_plan(&mut random, most);
        for pond in &mut plan.ponds {
            *pond = [0, 1, 10_000, 10_001, 6_760_000, 1][random.below(6)];
            if random.below(2) == 0 {
                *pond = random.below(6_760_001) as u32;
            }
        }
        let text = said(&mut random, &plan);
        assert_eq!(import(&text), Ok(plan));
    }
}
