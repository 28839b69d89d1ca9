//! Listings typed by people, packed into the bytes that the other programs read. A listing is cut at every LF, a line at every
//! space and tab; a line is refused for the first thing about it that was not expected: its kind, how many words it has, then
//! its words from left to right.

/// How long a listing may be, and how many records it may make.
pub const LONGEST: usize = 65_536;
pub const MOST: usize = 4_096;

/// What was expected, by its number from 1 on.
pub const EXPECTED: [&str; 7] = [
    "point, link, ordinary, wait, mark or event",
    "as many words as its kind has",
    "a point, 0 to 255",
    "a number, -2147483648 to 2147483647",
    "a number, 0 to 4294967295",
    "none or a point, 0 to 254",
    "none or points below 32, as 2,4",
];

/// The line about a listing that is too long or makes too much.
pub const TOO_MUCH: &str =
    "usage: a listing for pack has at most 65536 bytes and makes at most 4096 records.";

pub type Record = [u8; 16];

#[derive(Clone, Copy, PartialEq, Eq, Debug)]
pub enum Refused {
    /// The number of what was expected, and the line, both from 1 on.
    Line(usize, usize),
    TooMuch,
}

/// The bytes of a listing.
pub fn pack(listing: &[u8]) -> Result<Vec<u8>, Refused> {
    if listing.len() > LONGEST {
        return Err(Refused::TooMuch);
    }
    let records = records(listing, record)?;
    if records.len() > MOST {
        return Err(Refused::TooMuch);
    }
    Ok(records.concat())
}

/// The records of all lines, each made by `record` of its words; the first line that makes none is the answer.
pub fn records(
    listing: &[u8],
    record: impl Fn(&[&[u8]]) -> Result<Record, usize>,
) -> Result<Vec<Record>, Refused> {
    let mut all = Vec::new();
    for (number, line) in (1..).zip(lines(listing)) {
        let words = words(line);
        if !words.is_empty() {
            let made = record(&words);
            all.push(made.map_err(|expected| Refused::Line(expected, number))?);
        }
    }
    Ok(all)
}

/// The lines without their ends. What stands after the last LF is one too, and a CR at its end is a byte of it.
pub fn lines(listing: &[u8]) -> Vec<&[u8]> {
    let mut all: Vec<&[u8]> = listing.split(|byte| *byte == b'\n').collect();
    let ended = all.len() - 1;
    for line in &mut all[..ended] {
        *line = line.strip_suffix(b"\r").unwrap_or(line);
    }
    all
}

/// The words of a line, up to its comment.
pub fn words(line: &[u8]) -> Vec<&[u8]> {
    let comment = line.iter().position(|byte| *byte == b'#');
    let told = &line[..comment.unwrap_or(line.len())];
    let words = told.split(|byte| b" \t".contains(byte));
    words.filter(|word| !word.is_empty()).collect()
}

/// The record of a line's words, of which there is at least one, or the number of what was expected.
pub fn record(words: &[&[u8]]) -> Result<Record, usize> {
    let count = match words[0] {
        b"mark" => 1,
        b"point" => 3,
        b"ordinary" | b"wait" | b"event" => 4,
        b"link" => 5,
        _ => return Err(1),
    };
    if words.len() != count {
        return Err(2);
    }
    let rest = &words[1..];
    // What a question mark stands behind is looked at in the order in which it was typed.
    Ok(match words[0] {
        b"mark" => [255; 16],
        b"point" => {
            let (a, code) = (point(rest[0])?, unsigned(rest[1])?);
            of_plan(1, a, 0, [0, 0], code)
        }
        b"link" => {
            let (a, x) = (point(rest[0])?, signed(rest[1])?);
            let (y, c) = (signed(rest[2])?, point(rest[3])?);
            of_plan(2, a, c, [x, y], 0)
        }
        b"ordinary" => {
            let (x, d, y) = (point(rest[0])?, signed(rest[1])?, point(rest[2])?);
            of_plan(3, x, y, [d, 0], 0)
        }
        b"wait" => {
            let (v, c, w) = (point(rest[0])?, point(rest[1])?, signed(rest[2])?);
            of_plan(4, v, c, [w, 0], 0)
        }
        _ => {
            let minute = unsigned(rest[0])?;
            let numbers = [minute, told_point(rest[1])?, set(rest[2])?, 0];
            in_sixteen(numbers.map(u32::to_le_bytes))
        }
    })
}

fn of_plan(kind: u8, a: u8, b: u8, [first, second]: [i32; 2], code: u32) -> Record {
    in_sixteen([
        [kind, a, b, 0],
        first.to_le_bytes(),
        second.to_le_bytes(),
        code.to_le_bytes(),
    ])
}

fn in_sixteen(fours: [[u8; 4]; 4]) -> Record {
    fours.concat().try_into().expect("four times four bytes")
}

/// The number of decimal digits, however many; what `i64` cannot hold is the largest that it can, which no place holds.
fn decimal(word: &[u8]) -> Option<i64> {
    let digits = !word.is_empty() && word.iter().all(u8::is_ascii_digit);
    digits.then(|| {
        word.iter().fold(0_i64, |number, digit| {
            let ten = number.saturating_mul(10);
            ten.saturating_add(i64::from(digit - b'0'))
        })
    })
}

fn point(word: &[u8]) -> Result<u8, usize> {
    let number = decimal(word).ok_or(3_usize)?;
    u8::try_from(number).map_err(|_| 3)
}

fn signed(word: &[u8]) -> Result<i32, usize> {
    let number = match word {
        [b'-', digits @ ..] => decimal(digits).map(|number| -number),
        digits => decimal(digits),
    };
    i32::try_from(number.ok_or(4_usize)?).map_err(|_| 4)
}

fn unsigned(word: &[u8]) -> Result<u32, usize> {
    let number = decimal(word).ok_or(5_usize)?;
    u32::try_from(number).map_err(|_| 5)
}

/// The point of an event: 255 where there is none, which no point is.
fn told_point(word: &[u8]) -> Result<u32, usize> {
    if word == b"none" {
        return Ok(255);
    }
    match decimal(word) {
        Some(point @ 0..=254) => Ok(point as u32),
        _ => Err(6),
    }
}

fn set(word: &[u8]) -> Result<u32, usize> {
    let mut set = 0;
    if word == b"none" {
        return Ok(set);
    }
    for point in word.split(|byte| *byte == b',') {
        match decimal(point) {
            Some(point @ 0..=31) if set & 1 << point == 0 => set |= 1 << point,
            _ => return Err(7),
        }
    }
    Ok(set)
}
