//! Draws comma-separated texts for `desk import`: good sheets, each refusal at each column, ends of lines, cuts, lengths.

use crate::asks::{self, ask, Ask};
use crate::draw::Draw;
use crate::inputs;
use crate::links;
use crate::plans::{self, Sizes, FULL};
use oracle::import::import;
use oracle::plan::{Plan, OLD_ORDINARIES, RECORD, ROOM};

/// A line has so many columns.
const COLUMNS: usize = 6;
/// The largest pond code of the shape.
const CODES: u32 = 6_760_000;
/// Kinds of batches.
pub const KINDS: usize = 23;
/// `desk import` reads so many bytes at once.
const PIECE: usize = 16_384;

/// A text as the fields of its lines, as they stand there, quotes included; CR LF between the lines.
#[derive(Clone)]
struct Text {
    lines: Vec<Vec<Vec<u8>>>,
    /// Has the last line its CR LF?
    ended: bool,
}

impl Text {
    fn bytes(&self) -> Vec<u8> {
        let lines: Vec<Vec<u8>> = self.lines.iter().map(|line| line.join(&b',')).collect();
        let mut bytes = lines.join(&b"\r\n"[..]);
        if self.ended {
            bytes.extend(b"\r\n");
        }
        bytes
    }
}

/// How the fields of a text are written.
#[derive(Clone, Copy)]
struct Style {
    /// How often a field is quoted, out of four.
    quoted: usize,
    /// Zeros in front, a minus before 0, 0 for nothing.
    odd_numbers: bool,
}

const PLAIN: Style = Style {
    quoted: 0,
    odd_numbers: false,
};

fn style(draw: &mut Draw) -> Style {
    Style {
        quoted: draw.pick(&[0, 1, 2, 4]),
        odd_numbers: draw.one_in(2),
    }
}

fn quoted(field: &[u8]) -> Vec<u8> {
    [b"\"", field, b"\""].concat()
}

/// A number as it may be written.
fn digits(draw: &mut Draw, style: Style, number: i64) -> String {
    if !style.odd_numbers {
        return if number == 0 && draw.one_in(2) {
            String::new()
        } else {
            number.to_string()
        };
    }
    let zeros = "0".repeat(draw.pick(&[0, 0, 1, 2, 12]));
    match (number, draw.below(3)) {
        (0, 0) => String::new(),
        (0, 1) => format!("-{zeros}0"),
        (..=-1, _) => format!("-{zeros}{}", -number),
        _ => format!("{zeros}{number}"),
    }
}

/// A pond code as it is written; none if no code has the number.
fn code(number: u32) -> Option<String> {
    let Some(place) = number.checked_sub(1) else {
        return Some(String::new());
    };
    let letters = place / 10_000;
    let letter = |place: u32| char::from(b'A' + place as u8);
    let (first, second) = (letters / 26, letters % 26);
    (first < 26).then(|| format!("{}{}{:04}", letter(first), letter(second), place % 10_000))
}

/// The text of a file's records; none if a record cannot be said.
fn said(draw: &mut Draw, file: &[u8], style: Style) -> Option<Text> {
    let mut lines = Vec::new();
    for record in file.chunks_exact(RECORD) {
        let word = |at: usize| [0, 1, 2, 3].map(|place| record[at + place]);
        let kinds = ["", "point", "link", "ordinary", "wait"];
        let kind = kinds.get(usize::from(record[0]))?;
        if kind.is_empty() || record[3] != 0 {
            return None;
        }
        let mut fields = vec![kind.to_string()];
        fields.push(digits(draw, style, record[1].into()));
        fields.push(digits(draw, style, record[2].into()));
        fields.push(digits(draw, style, i32::from_le_bytes(word(4)).into()));
        fields.push(digits(draw, style, i32::from_le_bytes(word(8)).into()));
        fields.push(code(u32::from_le_bytes(word(12)))?);
        let written = fields.into_iter().map(|field| {
            if draw.below(4) < style.quoted {
                quoted(field.as_bytes())
            } else {
                field.into_bytes()
            }
        });
        lines.push(written.collect());
    }
    Some(Text {
        lines,
        ended: draw.one_in(2),
    })
}

/// With pond codes that can be said.
fn coded(draw: &mut Draw, mut plan: Plan) -> Plan {
    for pond in &mut plan.ponds {
        let any = draw.below(CODES as usize + 1) as u32;
        *pond = draw.pick(&[0, 1, 10_000, 10_001, CODES, any, any]);
    }
    plan
}

/// The text of a plan.
fn sheet_of(draw: &mut Draw, plan: Plan, style: Style) -> Text {
    let file = coded(draw, plan).to_bytes();
    said(draw, &file, style).expect("its codes can be said")
}

/// The text of a small plan.
fn sheet(draw: &mut Draw) -> Text {
    let (plan, style) = (inputs::small_good(draw), style(draw));
    sheet_of(draw, plan, style)
}

/// The number that a text gives, 0 if it is accepted: to know what a case is one of.
fn number(text: &[u8]) -> u32 {
    import(text).err().map_or(0, |refusal| refusal.0)
}

fn case(what: &str) -> String {
    format!("import: {what}")
}

/// Where a refusal is put, and in which way.
fn in_column(what: &str, column: usize) -> String {
    format!("import: {what}, column {column}")
}

/// Asks for a text that is made to be refused in some way: the case counts if it is.
fn refusal(what: &str, text: &Text, wanted: u32, case: String) -> Ask {
    let bytes = text.bytes();
    let cases = if number(&bytes) == wanted {
        vec![case]
    } else {
        Vec::new()
    };
    ask("import", what, bytes, cases)
}

pub fn batch(draw: &mut Draw, kind: usize) -> Vec<Ask> {
    match kind {
        0 => good(draw),
        1 => readers_own(draw),
        2..=9 => quoting(draw, kind - 2),
        10 => columns(draw),
        11 => words(draw),
        12 => numbers(draw),
        13 => edges(draw),
        14 => codes(draw),
        15 => ends(draw),
        16 => two_faults(draw),
        17 => long(draw),
        18 => one_long_line(draw),
        19 => noise(draw),
        20 => each_cut(draw),
        21 => pieces(draw),
        _ => each_byte(draw),
    }
}

/// Good sheets, small and large.
fn good(draw: &mut Draw) -> Vec<Ask> {
    let sizes = Sizes {
        points: 25,
        ordinary: 300,
        ..FULL
    };
    let plans = [
        plans::haul(draw),
        plans::passing(draw),
        inputs::small_good(draw),
        plans::passing_larger(draw),
        plans::star(draw, sizes, false),
        plans::full(draw),
        plans::trucks(draw, 3, true),
        plans::trucks(draw, 8, false),
        plans::ringed(draw, 2),
        plans::ringed(draw, 3),
    ];
    let mut asks = Vec::new();
    for (k, plan) in plans.into_iter().enumerate() {
        let (records, ordinary) = (plan.records(), plan.ordinary.len());
        let shapes = links::shapes(&plan);
        let style = match k {
            0 => Style {
                quoted: 2,
                odd_numbers: true,
            },
            1 => PLAIN,
            _ => style(draw),
        };
        let mut text = sheet_of(draw, plan, style);
        text.ended = k % 2 == 0;
        let mut cases = Vec::new();
        let end = if text.ended { "with" } else { "without" };
        cases.push(case(&format!("a last line {end} CR LF")));
        cases.extend(shapes.into_iter().map(case));
        let has = |test: &dyn Fn(&[u8]) -> bool| text.lines.iter().flatten().any(|one| test(one));
        if has(&|field| field.starts_with(b"\"")) {
            cases.push(case("quoted fields"));
        }
        if has(&|field| field.starts_with(b"00")) {
            cases.push(case("zeros in front"));
        }
        if has(&|field| field == b"-0") {
            cases.push(case("-0"));
        }
        if has(&|field| field.len() == 6 && field[0].is_ascii_uppercase()) {
            cases.push(case("pond codes"));
        }
        if ordinary > OLD_ORDINARIES {
            cases.push(case("more than 256 ordinary records"));
        }
        if records == FULL.records() {
            cases.push(case("a full plan"));
        }
        asks.push(ask("import", "a good sheet", text.bytes(), cases));
    }
    asks
}

/// The reader's own numbers that a text can give.
pub const READERS: [u32; 10] = [1, 3, 5, 6, 7, 8, 9, 10, 11, 15];

/// A text for each of the reader's own numbers.
fn readers_own(draw: &mut Draw) -> Vec<Ask> {
    let mut asks = Vec::new();
    for wanted in READERS {
        let bytes = loop {
            let file = match wanted {
                3 => {
                    let file = inputs::small_good(draw).to_bytes();
                    let last = file[file.len() - RECORD..].to_vec();
                    [file, last.repeat(ROOM)].concat()
                }
                _ => asks::refused(draw, wanted),
            };
            // Points may have codes that cannot be said.
            let mut file = file;
            for record in file.chunks_exact_mut(RECORD).filter(|r| r[0] == 1) {
                record[12..].fill(0);
            }
            let style = style(draw);
            let text = said(draw, &file, style).map(|text| text.bytes());
            if let Some(bytes) = text.filter(|bytes| number(bytes) == wanted) {
                break bytes;
            }
        };
        let what = format!("the reader's {wanted}");
        asks.push(ask("import", &what, bytes, Vec::new()));
    }
    asks
}

/// Ways to break the quoting of a field.
const BROKEN: [&str; 8] = [
    "a quote inside a field",
    "bytes after a closing quote",
    "a quote never closed",
    "CR in quotes",
    "LF in quotes",
    "CR LF in quotes",
    "CR alone",
    "LF alone",
];

/// One way, at each column, on the first, the last or some other line.
fn quoting(draw: &mut Draw, way: usize) -> Vec<Ask> {
    let mut asks = Vec::new();
    for column in 0..COLUMNS {
        let mut text = sheet(draw);
        let last = text.lines.len() - 1;
        let any = draw_line(draw, &text);
        let line = draw.pick(&[0, last, any]);
        let field = &mut text.lines[line][column];
        *field = broken(draw, way, field);
        let what = BROKEN[way];
        asks.push(refusal(what, &text, 40, in_column(what, column)));
    }
    asks
}

fn draw_line(draw: &mut Draw, text: &Text) -> usize {
    draw.below(text.lines.len())
}

fn broken(draw: &mut Draw, way: usize, field: &[u8]) -> Vec<u8> {
    let bare: Vec<u8> = field.iter().copied().filter(|byte| *byte != b'"').collect();
    let put = |draw: &mut Draw, bytes: &[u8], what: &[u8], from: usize| {
        let at = from.min(bytes.len()) + draw.below(bytes.len() - from.min(bytes.len()) + 1);
        [&bytes[..at], what, &bytes[at..]].concat()
    };
    match way {
        0 => {
            // Not at its beginning: that would begin a quoted one.
            let bare = if bare.is_empty() { b"0".to_vec() } else { bare };
            let quotes: &[u8] = draw.pick(&[b"\"", b"\"\"", b"\"x\""]);
            put(draw, &bare, quotes, 1)
        }
        1 => {
            let after: &[u8] =
                draw.pick(&[b"x", b" ", b"0", b"\0", b"\x80", b"\"\"x", b" \"", b"-"]);
            [&quoted(&bare)[..], after].concat()
        }
        2 => {
            let more: &[u8] = draw.pick(&[b"", b"", b"\"\"", b"x"]);
            [b"\"", &bare[..], more].concat()
        }
        3..=5 => {
            let end: &[u8] = [&b"\r"[..], b"\n", b"\r\n"][way - 3];
            quoted(&put(draw, &bare, end, 0))
        }
        _ => {
            let end: &[u8] = [&b"\r"[..], b"\n"][way - 6];
            let field = if draw.one_in(3) { quoted(&bare) } else { bare };
            let quoted = field.starts_with(b"\"");
            // Before a quoted field or after it, anywhere in another.
            match (quoted, draw.one_in(2)) {
                (true, true) => [end, &field].concat(),
                (true, false) => [&field, end].concat(),
                (false, _) => put(draw, &field, end, 0),
            }
        }
    }
}

/// Other numbers of columns than six.
fn columns(draw: &mut Draw) -> Vec<Ask> {
    let mut asks = Vec::new();
    for way in 0..7 {
        let mut text = sheet(draw);
        let line = draw_line(draw, &text);
        let what = match way {
            0 => {
                text.lines[line].remove(draw.below(COLUMNS));
                "five columns"
            }
            1 => {
                let any: &[u8] = draw.pick(&[b"", b"\"\"", b"0", b"x", b"\",\""]);
                let at = draw.below(COLUMNS + 1);
                text.lines[line].insert(at, any.to_vec());
                "seven columns"
            }
            2 => {
                text.lines.insert(line, vec![Vec::new()]);
                "a blank line in the middle"
            }
            3 => {
                text.lines.push(vec![Vec::new()]);
                text.ended = true;
                "a blank last line"
            }
            4 => {
                text.lines = vec![vec![Vec::new()]];
                text.ended = true;
                "only CR LF"
            }
            5 => {
                text.lines[line].resize(draw.pick(&[8, 40, 300]), Vec::new());
                "many columns"
            }
            _ => {
                // A comma in quotes is none.
                let column = draw.below(COLUMNS - 1);
                let second = text.lines[line].remove(column + 1);
                let first = &text.lines[line][column];
                let both = [&first[..], b",", &second].concat();
                let bare: Vec<u8> = both.into_iter().filter(|byte| *byte != b'"').collect();
                text.lines[line][column] = quoted(&bare);
                "a comma in quotes"
            }
        };
        asks.push(refusal(what, &text, 41, case(&format!("41, {what}"))));
    }
    asks
}

/// Kind words that are none.
const WORDS: [(&str, &[&[u8]]); 6] = [
    ("empty", &[b"", b"\"\""]),
    ("in capitals", &[b"Point", b"POINT", b"Ordinary", b"linK"]),
    (
        "longer or shorter",
        &[b"points", b"poin", b"ordinar", b"waits", b"p", b"li"],
    ),
    (
        "with spaces",
        &[b" point", b"point ", b"\"wait \"", b"link\t"],
    ),
    (
        "with doubled quotes",
        &[b"\"po\"\"int\"", b"\"\"\"point\"\"\"", b"\"\"\"\""],
    ),
    (
        "other",
        &[
            b"1",
            b"kind",
            b"pond",
            b"\xef\xbb\xbfpoint",
            b"p\xf6int",
            b"link\0",
        ],
    ),
];

fn words(draw: &mut Draw) -> Vec<Ask> {
    let mut asks = Vec::new();
    for (way, all) in WORDS {
        let mut text = sheet(draw);
        let line = draw_line(draw, &text);
        text.lines[line][0] = draw.pick(all).to_vec();
        // What else is bad on the line comes later.
        if draw.one_in(3) {
            text.lines[line][COLUMNS - 1] = b"x".to_vec();
        }
        let what = format!("42, a kind word, {way}");
        asks.push(refusal("a kind word", &text, 42, case(&what)));
    }
    asks
}

/// Numbers that cannot be read.
const NUMBERS: [(&str, &[&[u8]]); 8] = [
    ("a plus", &[b"+5", b"+0", b"+", b"\"+1\""]),
    ("a minus too many", &[b"-", b"--5", b"5-", b"- 5"]),
    ("spaces", &[b" 5", b"5 ", b"\t5", b" ", b"\" \""]),
    ("a fraction", &[b"5.", b"5.0", b".5", b"5e1", b"\"1,0\""]),
    (
        "past 32 bits",
        &[b"4294967296", b"-4294967296", b"4294967301", b"8589934592"],
    ),
    (
        "past 64 bits",
        &[
            b"18446744073709551616",
            b"-18446744073709551616",
            b"18446744073709551621",
            b"340282366920938463463374607431768211456",
        ],
    ),
    (
        "letters",
        &[
            b"0x5",
            b"a",
            b"/",
            b":",
            b"-:",
            b"1_0",
            b"AA0001",
            b"2026-11-15",
        ],
    ),
    (
        "strange bytes",
        &[
            b"5\0",
            b"\xb2",
            b"5\xff",
            b"\xef\xbc\x95",
            b"\"\"\"\"",
            b"\"5\"\"\"",
        ],
    ),
];

/// Each way to be no number, two ways at each of their columns.
fn numbers(draw: &mut Draw) -> Vec<Ask> {
    let mut ways = NUMBERS;
    draw.shuffle(&mut ways);
    let mut asks = Vec::new();
    for (k, (way, all)) in ways.into_iter().enumerate() {
        let column = 1 + k % 4;
        let mut text = sheet(draw);
        let line = draw_line(draw, &text);
        text.lines[line][column] = draw.pick(all).to_vec();
        let what = "42, a number that is none";
        let mut ask = refusal(what, &text, 42, in_column(what, column));
        if !ask.cases.is_empty() {
            ask.cases.push(case(&format!("42, a number, {way}")));
        }
        asks.push(ask);
    }
    asks
}

/// Numbers at the edge of what their place holds, and one past it.
fn edges(draw: &mut Draw) -> Vec<Ask> {
    let mut asks = Vec::new();
    for column in 1..COLUMNS - 1 {
        let points = column < 3;
        let fits: [&str; 3] = if points {
            ["255", "0", "-0"]
        } else {
            ["2147483647", "-2147483648", "-2147483647"]
        };
        let past: [&str; 6] = if points {
            ["256", "-1", "257", "65536", "4294967296", "512"]
        } else {
            [
                "2147483648",
                "-2147483649",
                "4294967295",
                "4294967296",
                "-4294967296",
                "9999999999",
            ]
        };
        for (which, wanted) in [(draw.pick(&fits), false), (draw.pick(&past), true)] {
            let mut text = sheet(draw);
            let line = draw_line(draw, &text);
            let zeros = "0".repeat(draw.pick(&[0, 0, 0, 30]));
            let written = match which.strip_prefix('-') {
                Some(size) => format!("-{zeros}{size}"),
                None => format!("{zeros}{which}"),
            };
            text.lines[line][column] = written.into_bytes();
            let what = if wanted {
                "42, one past what a place holds"
            } else {
                "as much as a place holds"
            };
            let bytes = text.bytes();
            let refused = number(&bytes) == 42;
            let cases = match refused == wanted {
                true => vec![in_column(what, column)],
                false => Vec::new(),
            };
            asks.push(ask("import", what, bytes, cases));
        }
    }
    asks
}

/// Pond codes of another shape.
const CODES_OF_ANOTHER_SHAPE: [(&str, &[&[u8]]); 9] = [
    (
        "a date",
        &[
            b"2026-11-15",
            b"15/11/2026",
            b"15.11.2026",
            b"11/15/26",
            b"15-11",
            b"11-2026",
            b"2026-11-15T00:00:00",
        ],
    ),
    (
        "a date with a month's name",
        &[
            b"15-Nov-26",
            b"Nov-26",
            b"NOV-26",
            b"1-Jan",
            b"Jan 1",
            b"\"Nov 15, 2026\"",
        ],
    ),
    (
        "a number",
        &[b"45976", b"\"45,976\"", b"0", b"-0", b"1", b"000000"],
    ),
    ("small letters", &[b"aa0001", b"Aa0001", b"aA0001"]),
    ("too short", &[b"AA001", b"AAA001", b"AA000", b"A"]),
    ("too long", &[b"AA00001", b"AA00011"]),
    (
        "letters for digits",
        &[
            b"A00001", b"0A0001", b"AA000x", b"AA000A", b"AAA000", b"AAO001",
        ],
    ),
    (
        "neighbours of letters and digits",
        &[
            b"@A0001", b"[A0001", b"A@0001", b"A[0001", b"AA/000", b"AA:000", b"AA000/", b"AA000:",
        ],
    ),
    (
        "strange bytes",
        &[
            b" AA0001",
            b"AA0001 ",
            b"AA0 01",
            b"\xc4A0001",
            b"AA000\xb2",
            b"AA0001\0",
            b"\"AA\"\"0001\"",
            b"\"\"\"\"",
            b"\xff",
            b"AA\xd9\xa1000",
        ],
    ),
];

fn codes(draw: &mut Draw) -> Vec<Ask> {
    let mut asks = Vec::new();
    for (what, all) in CODES_OF_ANOTHER_SHAPE {
        let mut text = sheet(draw);
        // A date comes where a pond stands, most often.
        let points = text.lines.iter().filter(|line| line[0].contains(&b'p'));
        let points = points.count().max(1);
        let line = if draw.one_in(4) {
            draw_line(draw, &text)
        } else {
            draw.below(points)
        };
        let mut field = draw.pick(all).to_vec();
        if draw.one_in(4) && !field.contains(&b'"') {
            field = quoted(&field);
        }
        text.lines[line][COLUMNS - 1] = field;
        asks.push(refusal(what, &text, 43, case(&format!("43, {what}"))));
    }
    asks
}

/// Ends of lines of every kind.
fn ends(draw: &mut Draw) -> Vec<Ask> {
    let text = sheet(draw);
    let whole = Text {
        ended: true,
        ..text.clone()
    };
    let whole = whole.bytes();
    // Somewhere among the lines.
    let breaks: Vec<usize> = (0..whole.len() - 1)
        .filter(|&at| whole[at..].starts_with(b"\r\n"))
        .collect();
    let at = draw.pick(&breaks);
    let last = whole.len() - 2;
    let with = |at: usize, end: &[u8]| [&whole[..at], end, &whole[at + 2..]].concat();
    let all: [(&str, Vec<u8>); 11] = [
        ("LF for CR LF", with(at, b"\n")),
        ("CR for CR LF", with(at, b"\r")),
        ("LF CR for CR LF", with(at, b"\n\r")),
        ("CR CR LF", with(at, b"\r\r\n")),
        ("CR LF LF", with(at, b"\r\n\n")),
        ("CR LF CR", with(at, b"\r\n\r")),
        ("LF at the end", with(last, b"\n")),
        ("CR at the end", with(last, b"\r")),
        ("CR LF twice at the end", with(last, b"\r\n\r\n")),
        (
            "LF everywhere",
            whole
                .iter()
                .copied()
                .filter(|byte| *byte != b'\r')
                .collect(),
        ),
        (
            "one more before the text",
            [draw.pick(&[&b"\r\n"[..], b"\n", b"\r"]), &whole[..]].concat(),
        ),
    ];
    let asked = all.into_iter().map(|(what, bytes)| {
        let cases = vec![case(&format!("ends of lines, {what}"))];
        ask("import", what, bytes, cases)
    });
    asked.collect()
}

/// Two faults on one line, or on two: which comes first.
fn two_faults(draw: &mut Draw) -> Vec<Ask> {
    let mut asks = Vec::new();
    for (first, second) in [(40, 41), (40, 43), (41, 42), (42, 43), (43, 40), (42, 41)] {
        for same in [true, false] {
            let mut text = sheet(draw);
            let count = text.lines.len();
            let line = draw.below(count);
            let other = if same { line } else { (line + 1) % count };
            for (line, fault) in [(line, first), (other, second)] {
                let line = &mut text.lines[line];
                match fault {
                    40 => {
                        let way = draw.below(BROKEN.len());
                        let column = draw.below(3);
                        line[column] = broken(draw, way, &line[column].clone());
                    }
                    41 => line.push(Vec::new()),
                    42 => line[1 + draw.below(4)] = b"x".to_vec(),
                    _ => line[COLUMNS - 1] = b"1-Jan".to_vec(),
                }
            }
            let how = if same { "one line" } else { "two lines" };
            let what = format!("two faults on {how}");
            asks.push(ask("import", &what, text.bytes(), vec![case(&what)]));
        }
    }
    // Lines come before the reader's own numbers, also those past the room.
    let mut text = sheet(draw);
    text.lines[0][1] = b"200".to_vec();
    if let Some(last) = text.lines.last_mut() {
        last[COLUMNS - 1] = b"1-Jan".to_vec();
    }
    let what = "the reader's number on an earlier line";
    asks.push(refusal(what, &text, 43, case(what)));
    asks
}

/// As many lines as there is room for, and one more; far more, with a bad one at the end.
fn long(draw: &mut Draw) -> Vec<Ask> {
    let mut asks = Vec::new();
    let (plan, style) = (plans::full(draw), style(draw));
    let full = sheet_of(draw, plan, style);
    for (count, what) in [(ROOM, "1,128 lines"), (ROOM + 1, "1,129 lines")] {
        let mut text = full.clone();
        let last = text.lines[text.lines.len() - 1].clone();
        text.lines.resize(count, last);
        asks.push(ask("import", what, text.bytes(), vec![case(what)]));
    }
    let mut text = full;
    let last = text.lines[text.lines.len() - 1].clone();
    text.lines.resize(draw.pick(&[1_130, 4_000, 18_000]), last);
    if let Some(last) = text.lines.last_mut() {
        last[draw.below(COLUMNS)] = b"x".to_vec();
    }
    let what = "a bad line past the room";
    asks.push(ask("import", what, text.bytes(), vec![case(what)]));
    asks
}

/// One long line, of up to two megabytes.
fn one_long_line(draw: &mut Draw) -> Vec<Ask> {
    let size = draw.pick(&[30_000, 110_001, 300_000, 2_000_003]);
    let zeros = b"0".repeat(size);
    let mut good = sheet(draw);
    good.lines[0][2] = [b"-", &zeros[..]].concat();
    let mut bytes = vec![("zeros", good.bytes())];
    let (way, piece): (&str, &[u8]) = draw.pick(&[
        ("commas", b","),
        ("quotes", b"\""),
        ("doubled quotes and commas", b"\"\","),
        ("bytes past 127", b"\xff"),
        ("CR", b"\r"),
        ("digits", b"9"),
    ]);
    let mut text = sheet(draw);
    let line = draw_line(draw, &text);
    text.lines[line][draw.below(COLUMNS)] = piece.repeat(size / piece.len());
    bytes.push((way, text.bytes()));
    let asked = bytes.into_iter().map(|(what, bytes)| {
        let what = format!("one long line, {what}");
        ask("import", &what, bytes, vec![case("one long line")])
    });
    asked.collect()
}

/// What stands at the end of a piece: the bytes, and how many of them are the piece's.
const CUTS: [(&str, &[u8], usize); 4] = [
    ("CR at the end of a piece", b"\r\n", 1),
    ("CR LF at the end of a piece", b"\r\n", 2),
    ("a quote at the end of a piece", b"\"", 1),
    ("a comma at the end of a piece", b",", 1),
];

/// Bytes that mean something where the next piece is read, and now and then the text ends there.
fn pieces(draw: &mut Draw) -> Vec<Ask> {
    let mut asks = Vec::new();
    for (what, bytes, own) in CUTS {
        let mut text = sheet(draw);
        text.ended = true;
        text.lines[0][COLUMNS - 1] = quoted(b"AA0001");
        let with_zeros = |zeros: usize| {
            let mut text = text.clone();
            text.lines[0][2] = [b"-", &b"0".repeat(zeros)[..]].concat();
            text.bytes()
        };
        // Behind the zeros of the first line.
        let plain = with_zeros(1);
        let from = text.lines[0][..2].join(&b',').len() + 2;
        let places: Vec<usize> = (from..plain.len())
            .filter(|&at| plain[at..].starts_with(bytes))
            .collect();
        let at = draw.pick(&places) + own;
        let more = draw.pick(&[1, 2]) * PIECE - at % PIECE;
        let mut input = with_zeros(1 + more);
        if draw.one_in(4) {
            input.truncate(at + more);
        }
        asks.push(ask("import", what, input, vec![case(what)]));
    }
    asks
}

/// Bytes that mean something, in any order, alone or in a good text.
fn noise(draw: &mut Draw) -> Vec<Ask> {
    let mut asks = Vec::new();
    for k in 0..8 {
        let mut bytes = Vec::new();
        for _ in 0..1 + draw.below(30) {
            let any = [draw.byte()];
            let all: [&[u8]; 12] = [
                b"\"", b"\"", b",", b",", b"\r\n", b"\r", b"\n", b"point", b"0", b"-", b"AA0001",
                &any,
            ];
            bytes.extend(draw.pick(&all));
        }
        if k % 2 == 0 {
            let text = sheet(draw).bytes();
            let at = draw.below(text.len() + 1);
            bytes = [&text[..at], &bytes, &text[at..]].concat();
        }
        asks.push(ask("import", "noise", bytes, Vec::new()));
    }
    asks
}

/// A text of two short lines.
fn short(draw: &mut Draw) -> Vec<u8> {
    let points = 1 + draw.below(2);
    let mut plan = Plan {
        ponds: vec![0; points],
        ..Plan::default()
    };
    plan.ponds[0] = 1 + draw.below(CODES as usize) as u32;
    let style = Style {
        quoted: 1,
        odd_numbers: draw.one_in(2),
    };
    let file = plan.to_bytes();
    let mut text = said(draw, &file, style).expect("its codes can be said");
    let code = &mut text.lines[0][COLUMNS - 1];
    if !code.contains(&b'"') {
        *code = quoted(code);
    }
    text.ended = draw.one_in(2);
    text.bytes()
}

/// A short text cut at each length.
fn each_cut(draw: &mut Draw) -> Vec<Ask> {
    let text = short(draw);
    let cut = |length: usize| {
        let what = format!("a text cut at {length}");
        ask(
            "import",
            &what,
            text[..length].to_vec(),
            vec![case("a cut at each byte")],
        )
    };
    (0..text.len()).map(cut).collect()
}

/// Each byte of a short text changed.
fn each_byte(draw: &mut Draw) -> Vec<Ask> {
    let text = short(draw);
    let mut asks = Vec::new();
    for place in 0..text.len() {
        let was = text[place];
        let any = draw.byte();
        let telling = [
            b'"', b',', b'\r', b'\n', b'0', b'-', b'A', b' ', 0, 255, any,
        ];
        let other: Vec<u8> = telling.into_iter().filter(|byte| *byte != was).collect();
        let mut bytes = text.clone();
        bytes[place] = draw.pick(&other);
        let what = format!("byte {place} changed");
        asks.push(ask("import", &what, bytes, vec![case("a byte changed")]));
    }
    asks
}

/// The cases that must come up, besides what is said.
pub fn cases() -> Vec<String> {
    let mut all: Vec<String> = [
        "quoted fields",
        "zeros in front",
        "-0",
        "pond codes",
        "a last line with CR LF",
        "a last line without CR LF",
        "more than 256 ordinary records",
        "a full plan",
        "41, five columns",
        "41, seven columns",
        "41, a blank line in the middle",
        "41, a blank last line",
        "41, only CR LF",
        "41, many columns",
        "41, a comma in quotes",
        "ends of lines, LF for CR LF",
        "ends of lines, CR for CR LF",
        "ends of lines, LF CR for CR LF",
        "ends of lines, CR CR LF",
        "ends of lines, CR LF LF",
        "ends of lines, CR LF CR",
        "ends of lines, LF at the end",
        "ends of lines, CR at the end",
        "ends of lines, CR LF twice at the end",
        "ends of lines, LF everywhere",
        "ends of lines, one more before the text",
        "two faults on one line",
        "two faults on two lines",
        "the reader's number on an earlier line",
        "1,128 lines",
        "1,129 lines",
        "a bad line past the room",
        "one long line",
        "CR at the end of a piece",
        "CR LF at the end of a piece",
        "a quote at the end of a piece",
        "a comma at the end of a piece",
        "a cut at each byte",
        "a byte changed",
    ]
    .map(case)
    .to_vec();
    all.extend(WORDS.map(|(way, _)| case(&format!("42, a kind word, {way}"))));
    all.extend(NUMBERS.map(|(way, _)| case(&format!("42, a number, {way}"))));
    all.extend(CODES_OF_ANOTHER_SHAPE.map(|(way, _)| case(&format!("43, {way}"))));
    for what in BROKEN {
        all.extend((0..COLUMNS).map(|column| in_column(what, column)));
    }
    for what in [
        "42, a number that is none",
        "42, one past what a place holds",
        "as much as a place holds",
    ] {
        all.extend((1..COLUMNS - 1).map(|column| in_column(what, column)));
    }
    all
}
