//! Draws what `desk pack` is asked: listings as people type them, with one fault, with two, and as large as they may be.

use crate::asks::{self, Ask};
use crate::draw::Draw;
use oracle::pack::{lines, pack, words, Refused, EXPECTED, LONGEST, MOST};

/// Kinds of batches, without the one of wrong usage.
pub const KINDS: usize = 8;

/// What a word stands for.
#[derive(Clone, Copy, PartialEq, Eq)]
enum Place {
    Point,
    Signed,
    Unsigned,
    Told,
    Set,
}

use Place::{Point, Set, Signed, Told, Unsigned};

const LINES: [(&str, &[Place]); 6] = [
    ("point", &[Point, Unsigned]),
    ("link", &[Point, Signed, Signed, Point]),
    ("ordinary", &[Point, Signed, Point]),
    ("wait", &[Point, Point, Signed]),
    ("mark", &[]),
    ("event", &[Unsigned, Told, Set]),
];

impl Place {
    /// The number of what is expected there.
    fn number(self) -> usize {
        match self {
            Point => 3,
            Signed => 4,
            Unsigned => 5,
            Told => 6,
            Set => 7,
        }
    }

    /// The least and the largest that it holds.
    fn limits(self) -> (i64, i64) {
        match self {
            Point => (0, 255),
            Signed => (i64::from(i32::MIN), i64::from(i32::MAX)),
            Unsigned => (0, i64::from(u32::MAX)),
            Told => (0, 254),
            Set => (0, 31),
        }
    }
}

/// Words that no place takes, besides those past its limits.
const NONE: [&str; 20] = [
    "x",
    "+1",
    "0x1",
    "1x",
    "-",
    "--1",
    "1-",
    "-+1",
    "1.0",
    "1,",
    ",1",
    "1,,2",
    "1,2,1",
    "3,03",
    "None",
    "nones",
    "none,1",
    "18446744073709551616",
    "-18446744073709551616",
    "\u{0661}",
];

const ANY: &[Place] = &[Point, Signed, Unsigned, Told, Set];

/// Words that are just none, and the places where they are asked.
const NEARLY: [(&str, &[Place]); 23] = [
    ("-0", &[Point]),
    ("-0", &[Unsigned]),
    ("-0", &[Told]),
    ("-0", &[Set]),
    ("+1", &[Point, Unsigned, Told, Set]),
    ("+1", &[Signed]),
    ("-", &[Signed]),
    ("--1", &[Signed]),
    ("-+1", &[Signed]),
    ("0x1", ANY),
    ("1.0", ANY),
    ("none", &[Point, Signed, Unsigned]),
    ("None", &[Told, Set]),
    ("nones", &[Told, Set]),
    ("18446744073709551616", ANY),
    (",", &[Set]),
    ("1,", &[Set]),
    (",1", &[Set]),
    ("1,,2", &[Set]),
    ("1,2,1", &[Set]),
    ("3,03", &[Set]),
    ("none,1", &[Set]),
    ("1,none", &[Set]),
];

type Line = Vec<Vec<u8>>;

/// How a listing is typed.
#[derive(Clone, Copy)]
struct Style {
    odd_gaps: bool,
    zeros: bool,
    comments: bool,
}

fn style(draw: &mut Draw) -> Style {
    Style {
        odd_gaps: draw.one_in(2),
        zeros: draw.one_in(2),
        comments: draw.one_in(2),
    }
}

fn number_word(draw: &mut Draw, number: i64, style: Style, signed: bool) -> Vec<u8> {
    let zeros = match style.zeros && draw.one_in(2) {
        true => draw.pick(&[1, 2, 9, 20]),
        false => 0,
    };
    let minus = number < 0 || number == 0 && signed && style.zeros && draw.one_in(2);
    let digits = number.unsigned_abs().to_string();
    let sign = if minus { "-" } else { "" };
    format!("{sign}{}{digits}", "0".repeat(zeros)).into_bytes()
}

fn word(draw: &mut Draw, place: Place, style: Style) -> Vec<u8> {
    let (low, high) = place.limits();
    match place {
        Told | Set if draw.one_in(4) => b"none".to_vec(),
        Set => {
            let mut points: Vec<i64> = (low..=high).collect();
            draw.shuffle(&mut points);
            let count = draw.pick(&[1, 1, 2, 3, 32]);
            let points: Vec<Vec<u8>> = points[..count]
                .iter()
                .map(|point| number_word(draw, *point, style, false))
                .collect();
            points.join(&b","[..])
        }
        _ => {
            let number = match draw.below(3) {
                0 => draw.between(0, 40),
                1 => 0,
                _ => draw.edgy(low, high),
            };
            number_word(draw, number, style, place == Signed)
        }
    }
}

fn line(draw: &mut Draw, kind: usize, style: Style) -> Line {
    let (name, places) = LINES[kind];
    let mut line = vec![name.as_bytes().to_vec()];
    line.extend(places.iter().map(|place| word(draw, *place, style)));
    line
}

/// Lines of all kinds, in any order.
fn all_kinds(draw: &mut Draw, style: Style) -> Vec<Line> {
    let mut lines: Vec<Line> = (0..LINES.len())
        .map(|kind| line(draw, kind, style))
        .collect();
    for _ in 0..draw.below(4) {
        let kind = draw.below(LINES.len());
        lines.push(line(draw, kind, style));
    }
    draw.shuffle(&mut lines);
    lines
}

fn gap(draw: &mut Draw, style: Style) -> &'static [u8] {
    let all: [&[u8]; 5] = [b" ", b"\t", b"  ", b"\t\t ", b" \t  "];
    if style.odd_gaps {
        draw.pick(&all)
    } else {
        b" "
    }
}

fn comment(draw: &mut Draw) -> Vec<u8> {
    let mut bytes = b"#".to_vec();
    for _ in 0..draw.below(6) {
        let any = [draw.byte()];
        let all: [&[u8]; 6] = [b"#", b" mark", b"\r", b" \t", b"point 1", &any];
        bytes.extend(draw.pick(&all));
    }
    bytes.retain(|byte| *byte != b'\n');
    bytes
}

/// The bytes of the lines, with empty lines and comments between them.
fn typed(draw: &mut Draw, lines: &[Line], style: Style) -> Vec<u8> {
    let mut bytes = Vec::new();
    let mixed = draw.one_in(2);
    let both: [&[u8]; 2] = [b"\n", b"\r\n"];
    let end = draw.pick(&both);
    let ends = |draw: &mut Draw, bytes: &mut Vec<u8>| {
        let other = draw.pick(&both);
        bytes.extend(if mixed { other } else { end });
    };
    for line in lines {
        while style.comments && draw.one_in(4) {
            if draw.one_in(2) {
                bytes.extend(gap(draw, style));
            }
            if draw.one_in(2) {
                bytes.extend(comment(draw));
            }
            ends(draw, &mut bytes);
        }
        if style.odd_gaps && draw.one_in(3) {
            bytes.extend(gap(draw, style));
        }
        for (k, word) in line.iter().enumerate() {
            if k > 0 {
                bytes.extend(gap(draw, style));
            }
            bytes.extend(word);
        }
        if style.odd_gaps && draw.one_in(3) {
            bytes.extend(gap(draw, style));
        }
        if style.comments && draw.one_in(3) {
            bytes.extend(comment(draw));
        }
        ends(draw, &mut bytes);
    }
    if draw.one_in(3) {
        bytes.pop();
        if bytes.last() == Some(&b'\r') {
            bytes.pop();
        }
    }
    bytes
}

/// The number under which a listing is refused, 0 if it is good, 8 if it is too much.
fn number(listing: &[u8]) -> usize {
    match pack(listing) {
        Ok(_) => 0,
        Err(Refused::Line(expected, _)) => expected,
        Err(Refused::TooMuch) => 8,
    }
}

fn case(what: &str) -> String {
    format!("pack: {what}")
}

fn ask(what: &str, listing: Vec<u8>, cases: Vec<String>) -> Ask {
    asks::ask("pack", what, listing, cases)
}

/// Asks for a listing that is made to give this number: the case counts if it does.
fn wanted(what: &str, listing: Vec<u8>, expected: usize) -> Ask {
    let cases = match number(&listing) == expected {
        true => vec![case(what)],
        false => Vec::new(),
    };
    ask(what, listing, cases)
}

pub fn batch(draw: &mut Draw, kind: usize) -> Vec<Ask> {
    match kind {
        0 => good(draw),
        1 => damaged(draw),
        2 => limits(draw),
        3 => two_faults(draw),
        4 => ends(draw),
        5 => noise(draw),
        6 => no_words(draw),
        _ => large(draw),
    }
}

fn good(draw: &mut Draw) -> Vec<Ask> {
    let mut asked = vec![wanted("no bytes", Vec::new(), 0)];
    for k in 0..8 {
        let style = match k {
            0 => Style {
                odd_gaps: true,
                zeros: true,
                comments: true,
            },
            _ => style(draw),
        };
        let lines = all_kinds(draw, style);
        let mut listing = typed(draw, &lines, style);
        // Both ways to end, whatever is drawn.
        while k < 2 && listing.ends_with(b"\n") != (k == 0) {
            listing = typed(draw, &lines, style);
        }
        let cases = cases_of(&listing);
        asked.push(ask("a good listing", listing, cases));
    }
    asked
}

const SEEN: [&str; 7] = [
    "tabs",
    "a comment",
    "CR LF",
    "an empty line",
    "zeros in front",
    "a last line with its end",
    "a last line without its end",
];

fn cases_of(listing: &[u8]) -> Vec<String> {
    if number(listing) != 0 {
        return Vec::new();
    }
    let has = |piece: &[u8]| listing.windows(piece.len()).any(|part| part == piece);
    let ended = listing.ends_with(b"\n");
    let lines = lines(listing);
    let empty = lines[..lines.len() - 1]
        .iter()
        .any(|line| words(line).is_empty());
    let seen = [
        has(b"\t"),
        has(b"#"),
        has(b"\r\n"),
        empty,
        has(b" 00") || has(b"\t00"),
        ended,
        !ended,
    ];
    let seen = SEEN.iter().zip(seen).filter(|(_, seen)| *seen);
    seen.map(|(what, _)| case(what)).collect()
}

const DAMAGES: [&str; 2] = ["a byte", "a word"];

fn damage_of(what: &str, expected: usize) -> String {
    match expected {
        0 => format!("{what} changed, still good"),
        _ => format!("{what} changed, expected {}", EXPECTED[expected - 1]),
    }
}

/// One byte or one word changed, put in or taken out: for each refusal, and without one.
fn damaged(draw: &mut Draw) -> Vec<Ask> {
    let mut asked = Vec::new();
    for what in DAMAGES {
        for expected in 0..=EXPECTED.len() {
            let listing = loop {
                let style = style(draw);
                let mut lines = all_kinds(draw, style);
                let listing = if what == DAMAGES[0] {
                    let mut listing = typed(draw, &lines, style);
                    change_byte(draw, &mut listing);
                    listing
                } else {
                    change_word(draw, &mut lines);
                    typed(draw, &lines, style)
                };
                if number(&listing) == expected {
                    break listing;
                }
            };
            asked.push(wanted(&damage_of(what, expected), listing, expected));
        }
    }
    asked
}

fn change_byte(draw: &mut Draw, listing: &mut Vec<u8>) {
    let any = draw.byte();
    let telling = [
        b' ', b'\t', b'\r', b'\n', b'#', b',', b'-', b'+', b'0', b'9', b'n', 0, 0x0b, 255, any,
    ];
    let byte = draw.pick(&telling);
    let at = draw.below(listing.len());
    match draw.below(3) {
        0 => listing[at] = byte,
        1 => listing.insert(at, byte),
        _ => {
            listing.remove(at);
        }
    }
}

fn change_word(draw: &mut Draw, lines: &mut [Line]) {
    let at = draw.below(lines.len());
    let line = &mut lines[at];
    let place = draw.below(line.len());
    let other = match draw.below(4) {
        0 => draw.pick(&NONE).as_bytes().to_vec(),
        1 => draw.between(-1, 300).to_string().into_bytes(),
        2 => draw.pick(&LINES).0.as_bytes().to_vec(),
        _ => b"none".to_vec(),
    };
    match draw.below(4) {
        0 => line.insert(place, other),
        1 if line.len() > 1 => drop(line.remove(place)),
        _ => line[place] = other,
    }
}

fn at_place(what: &str, kind: usize, place: usize) -> String {
    format!("{what}, {} of {}", place + 1, LINES[kind].0)
}

const PAST: [&str; 3] = ["one past the most", "one past the least", "no such word"];

/// Every place at its limits, and each one past them.
fn limits(draw: &mut Draw) -> Vec<Ask> {
    let plain = Style {
        odd_gaps: false,
        zeros: false,
        comments: false,
    };
    let mut asked = Vec::new();
    let most = |place: &Place| place.limits().1.to_string().into_bytes();
    let least = |place: &Place| place.limits().0.to_string().into_bytes();
    let full = LINES.map(|(name, places)| {
        [
            vec![name.as_bytes().to_vec()],
            places.iter().map(most).collect(),
        ]
        .concat()
    });
    let low = LINES.map(|(name, places)| {
        [
            vec![name.as_bytes().to_vec()],
            places.iter().map(least).collect(),
        ]
        .concat()
    });
    for (what, lines) in [
        ("every place at its most", full),
        ("every place at its least", low),
    ] {
        let listing = typed(draw, &lines, plain);
        asked.push(wanted(what, listing, 0));
    }
    for (kind, (_, places)) in LINES.iter().enumerate() {
        for (k, place) in places.iter().enumerate() {
            let (low, high) = place.limits();
            let zeros = draw.pick(&["", "", "00", "000000000000000000000"]);
            let past = [
                format!("{zeros}{}", high + 1),
                (low - 1).to_string(),
                draw.pick(&NONE).to_string(),
            ];
            for (what, word) in PAST.iter().zip(past) {
                let mut lines = all_kinds(draw, plain);
                let at = draw.below(lines.len());
                let mut bad = line(draw, kind, plain);
                bad[1 + k] = word.into_bytes();
                // The bad point need not be the first of its set.
                if *place == Set && *what == PAST[0] && draw.one_in(2) {
                    bad[1 + k] = [b"1,", &bad[1 + k][..]].concat();
                }
                lines.insert(at, bad);
                let style = style(draw);
                let listing = typed(draw, &lines, style);
                asked.push(wanted(&at_place(what, kind, k), listing, place.number()));
            }
        }
    }
    asked
}

fn nearly(word: &str, places: &[Place]) -> String {
    match places {
        [place] => format!("the word {word}, expected {}", EXPECTED[place.number() - 1]),
        _ => format!("the word {word}"),
    }
}

/// Each word that is just none, at one of its places.
fn no_words(draw: &mut Draw) -> Vec<Ask> {
    let mut asked = Vec::new();
    for (word, fitting) in NEARLY {
        let style = style(draw);
        let mut lines = all_kinds(draw, style);
        let place = draw.pick(fitting);
        let (kind, k) = loop {
            let kind = draw.below(LINES.len());
            let places = LINES[kind].1;
            if places.contains(&place) {
                let all: Vec<usize> = (0..places.len()).filter(|k| places[*k] == place).collect();
                break (kind, draw.pick(&all));
            }
        };
        let mut bad = line(draw, kind, style);
        bad[1 + k] = word.as_bytes().to_vec();
        let at = draw.below(lines.len() + 1);
        lines.insert(at, bad);
        let listing = typed(draw, &lines, style);
        asked.push(wanted(&nearly(word, fitting), listing, place.number()));
    }
    asked
}

const TWO: [&str; 4] = [
    "a kind that is none, and a count of no kind",
    "a wrong count, and a wrong word",
    "two wrong words on a line",
    "two bad lines",
];

/// Of two faults the first is said.
fn two_faults(draw: &mut Draw) -> Vec<Ask> {
    let mut asked = Vec::new();
    for (k, what) in TWO.iter().enumerate() {
        let style = style(draw);
        let mut lines = all_kinds(draw, style);
        let kind = draw.pick(&[1, 2, 3, 5]);
        let mut bad = line(draw, kind, style);
        let places = LINES[kind].1;
        let mut expected = 2;
        match k {
            0 => {
                bad[0].push(b's');
                bad.push(b"x".to_vec());
                bad.push(b"x".to_vec());
                expected = 1;
            }
            1 => {
                bad[1] = b"x".to_vec();
                match draw.one_in(2) {
                    true => drop(bad.pop()),
                    false => bad.push(b"0".to_vec()),
                }
            }
            2 => {
                // Two that are refused under different numbers.
                let first = draw.below(places.len() - 1);
                let later = (first + 1..places.len()).find(|k| places[*k] != places[first]);
                let later = later.expect("no kind ends with two places alike");
                bad[1 + first] = b"x".to_vec();
                bad[1 + later] = b"x".to_vec();
                expected = places[first].number();
            }
            _ => {
                let mut earlier = line(draw, 0, style);
                earlier[2] = b"-1".to_vec();
                bad[1] = b"x".to_vec();
                bad.push(b"x".to_vec());
                lines.insert(0, earlier);
                expected = 5;
            }
        }
        let after = usize::from(k == 3);
        let at = after + draw.below(lines.len() + 1 - after);
        lines.insert(at, bad);
        let listing = typed(draw, &lines, style);
        asked.push(wanted(what, listing, expected));
    }
    asked
}

/// Ends of lines and bytes between words, the number for a line of one `mark`, and the line.
const ENDS: [(&str, usize, &[u8]); 15] = [
    ("CR at the end", 1, b"mark\r"),
    ("CR CR LF", 1, b"mark\r\r\n"),
    ("CR alone on the last line", 1, b"mark\n\r"),
    ("CR CR LF after a space", 2, b"mark \r\r\n"),
    ("CR for LF", 1, b"mark\rmark\n"),
    ("LF CR", 1, b"mark\n\rmark\n\r"),
    ("CR before a word", 1, b"\rmark\n"),
    ("CR between words", 2, b"mark \r mark\n"),
    ("CR in a comment", 0, b"mark # \r mark\r\r\n"),
    ("CR LF twice", 0, b"mark\r\n\r\n"),
    ("a vertical tab", 1, b"\x0bmark\n"),
    ("a form feed", 1, b"mark\x0c\n"),
    ("a zero byte", 2, b"mark \0\n"),
    ("a space of another page", 1, b"mark\xa0\n"),
    ("a byte order mark", 1, b"\xef\xbb\xbfmark\n"),
];

fn ends(draw: &mut Draw) -> Vec<Ask> {
    let mut asked = Vec::new();
    for (what, expected, end) in ENDS {
        let style = style(draw);
        let lines = all_kinds(draw, style);
        let mut listing = typed(draw, &lines, style);
        listing.extend(b"\n");
        listing.extend(end);
        asked.push(wanted(what, listing, expected));
    }
    asked
}

/// Bytes that mean something, or any, alone or in a good listing.
fn noise(draw: &mut Draw) -> Vec<Ask> {
    let mut asked = Vec::new();
    for k in 0..8 {
        let mut bytes = Vec::new();
        for _ in 0..1 + draw.below(30) {
            let any = [draw.byte()];
            let all: [&[u8]; 14] = [
                b" ",
                b" ",
                b"\t",
                b"\n",
                b"\r\n",
                b"\r",
                b"#",
                b"mark",
                b"point 1 2",
                b"event ",
                b"0",
                b"-",
                b",",
                &any,
            ];
            bytes.extend(match k % 4 {
                0 => &any,
                _ => draw.pick(&all),
            });
        }
        if k % 2 == 0 {
            let style = style(draw);
            let lines = all_kinds(draw, style);
            let listing = typed(draw, &lines, style);
            let at = draw.below(listing.len() + 1);
            bytes = [&listing[..at], &bytes, &listing[at..]].concat();
        }
        asked.push(ask("noise", bytes, vec![case("noise")]));
    }
    asked
}

const LARGE: [(&str, usize); 6] = [
    ("65,536 bytes", 0),
    ("65,537 bytes", 8),
    ("65,537 bytes, the first line bad", 8),
    ("4,096 records", 0),
    ("4,097 records", 8),
    ("4,097 records, and then a bad line", 1),
];

fn large(draw: &mut Draw) -> Vec<Ask> {
    let fill = draw.pick(b" \n\t0");
    let long = |size: usize| {
        let mut listing = b"mark\npoint 1 2 #".to_vec();
        listing.resize(size, fill);
        listing
    };
    let some: [&[u8]; 4] = [b"mark\n", b"mark\r\n", b"point 1 2\n", b"wait 0 1 -5\n"];
    let mut many = |count: usize| -> Vec<u8> {
        let lines: Vec<&[u8]> = (0..count).map(|_| draw.pick(&some)).collect();
        lines.concat()
    };
    let mut bad = long(LONGEST + 1);
    bad[0] = b'x';
    let listings = [
        long(LONGEST),
        long(LONGEST + 1),
        bad,
        many(MOST),
        many(MOST + 1),
        [&many(MOST + 1)[..], b"x\n"].concat(),
    ];
    let asked = LARGE.iter().zip(listings);
    asked
        .map(|((what, expected), listing)| wanted(what, listing, *expected))
        .collect()
}

/// The cases that must come up, besides what is said.
pub fn cases() -> Vec<String> {
    let mut all = vec![case("no bytes"), case("noise")];
    all.extend(SEEN.map(case));
    for what in DAMAGES {
        all.extend((0..=EXPECTED.len()).map(|expected| case(&damage_of(what, expected))));
    }
    all.extend(["every place at its most", "every place at its least"].map(case));
    for (kind, (_, places)) in LINES.iter().enumerate() {
        for k in 0..places.len() {
            all.extend(PAST.map(|what| case(&at_place(what, kind, k))));
        }
    }
    all.extend(NEARLY.map(|(word, places)| case(&nearly(word, places))));
    all.extend(TWO.map(case));
    all.extend(ENDS.map(|(what, ..)| case(what)));
    all.extend(LARGE.map(|(what, _)| case(what)));
    all
}
