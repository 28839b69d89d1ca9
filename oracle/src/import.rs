//! Sheets from the growers' office (document 02): comma-separated text (RFC 4180) to a plan, numbers 40 to 43.
//!
//! No byte is looked at in turn with a state beside it. A line break inside quotes is broken quoting at the line where the
//! field began, so the text can be cut at every CR LF, whatever quotes stand around it. Each line is cut at every comma, and a
//! field that begins with a quote and was cut apart is put together again: it ends where the quotes in it are even.

use crate::plan::{self, Plan, RawRecord};
use crate::Refusal;

/// A line has so many columns: kind word, two points, two numbers, pond code.
const COLUMNS: usize = 6;

/// The plan of a text, or the number and the line.
pub fn import(text: &[u8]) -> Result<Plan, Refusal> {
    let mut file = Vec::new();
    for (place, line) in (0..).zip(lines(text)) {
        let record = record(line).map_err(|number| (number, place))?;
        file.extend(record.bytes());
    }
    plan::read(&file)
}

/// The text's lines, without their ends. The last may lack its CR LF; where it has one, no line begins after it.
pub fn lines(text: &[u8]) -> impl Iterator<Item = &[u8]> {
    let mut rest = text;
    std::iter::from_fn(move || {
        if rest.is_empty() {
            return None;
        }
        let end = rest.windows(2).position(|two| two == b"\r\n");
        let line = &rest[..end.unwrap_or(rest.len())];
        rest = end.map_or(&[], |end| &rest[end + 2..]);
        Some(line)
    })
}

/// The record of a line, or 40 to 43.
fn record(line: &[u8]) -> Result<RawRecord, u32> {
    let fields = fields(line).ok_or(40u32)?;
    let [word, one, two, first, second, code] = &fields[..] else {
        return Err(41);
    };
    let kind = match &word[..] {
        b"point" => 1,
        b"link" => 2,
        b"ordinary" => 3,
        b"wait" => 4,
        _ => return Err(42),
    };
    let unreadable = |_| 42u32;
    Ok(RawRecord {
        kind,
        a: number(one)?.try_into().map_err(unreadable)?,
        b: number(two)?.try_into().map_err(unreadable)?,
        first: number(first)?.try_into().map_err(unreadable)?,
        second: number(second)?.try_into().map_err(unreadable)?,
        code: pond(code)?,
    })
}

/// The fields of a line, without their quotes; no more than one too many. None if the quoting is broken anywhere.
pub fn fields(line: &[u8]) -> Option<Vec<Vec<u8>>> {
    if line.iter().any(|byte| b"\r\n".contains(byte)) {
        return None;
    }
    let mut fields = Vec::new();
    // The field that is being put together: where it begins, and the quotes in it.
    let (mut start, mut quotes) = (0, 0);
    let mut end = 0;
    for piece in line.split(|&byte| byte == b',') {
        end += piece.len();
        quotes += piece.iter().filter(|&&byte| byte == b'"').count();
        let field = &line[start..end];
        if field.first() != Some(&b'"') || quotes % 2 == 0 {
            let content = content(field)?;
            if fields.len() <= COLUMNS {
                fields.push(content);
            }
            (start, quotes) = (end + 1, 0);
        }
        // The comma.
        end += 1;
    }
    // Nothing is left over, or else a quote was never closed.
    (start == end).then_some(fields)
}

/// What a field says, without the quotes around it and with one for each doubled one. None if its quoting is broken.
fn content(field: &[u8]) -> Option<Vec<u8>> {
    let Some(rest) = field.strip_prefix(b"\"") else {
        return (!field.contains(&b'"')).then(|| field.to_vec());
    };
    let inside = rest.strip_suffix(b"\"")?;
    // Every second part stands between the two quotes of a doubled one, where there is nothing.
    let mut said = Vec::new();
    let mut parts = 0;
    for part in inside.split(|&byte| byte == b'"') {
        match parts % 2 {
            0 if parts > 0 => said.push(b'"'),
            1 if !part.is_empty() => return None,
            _ => {}
        }
        said.extend(part);
        parts += 1;
    }
    (parts % 2 == 1).then_some(said)
}

/// A decimal number with an optional minus, 0 for nothing, or 42. One of more digits than any place holds is 42 at once.
fn number(field: &[u8]) -> Result<i64, u32> {
    if field.is_empty() {
        return Ok(0);
    }
    let text = std::str::from_utf8(field).map_err(|_| 42u32)?;
    let (sign, digits) = match text.strip_prefix('-') {
        Some(digits) => (-1, digits),
        None => (1, text),
    };
    if digits.is_empty() || !digits.bytes().all(|byte| byte.is_ascii_digit()) {
        return Err(42);
    }
    match digits.trim_start_matches('0') {
        "" => Ok(0),
        long if long.len() > 10 => Err(42),
        short => short.parse().map(|size: i64| sign * size).map_err(|_| 42),
    }
}

/// A pond code of two capital letters and four digits, 0 for none, or 43.
fn pond(field: &[u8]) -> Result<u32, u32> {
    if field.is_empty() {
        return Ok(0);
    }
    let place = |byte: u8, of: std::ops::RangeInclusive<u8>| {
        let place = u32::from(byte.wrapping_sub(*of.start()));
        of.contains(&byte).then_some(place)
    };
    let letter = |byte: u8| place(byte, b'A'..=b'Z').ok_or(43u32);
    let digit = |byte: u8| place(byte, b'0'..=b'9').ok_or(43u32);
    let &[first, second, thousands, hundreds, tens, ones] = field else {
        return Err(43);
    };
    let letters = 26 * letter(first)? + letter(second)?;
    let digits = 1_000 * digit(thousands)? + 100 * digit(hundreds)? + 10 * digit(tens)?;
    Ok(letters * 10_000 + digits + digit(ones)? + 1)
}
