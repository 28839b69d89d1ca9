//! The comparison of `desk`: two that are the same agree, and everything comes up; each of some wrong ones is found.

use compare::asks::{self, Ask};
use compare::desk::{self, Compared, Limits};
use compare::links;
use compare::programs::{self, Shown, Way};
use compare::smaller;
use oracle::board::{self, Board, Outcome, Place};
use oracle::calendar::{self, calendar, Origin};
use oracle::desk::{wrong_usage, Said, Verb};
use oracle::event;
use oracle::import::{fields, import, lines};
use oracle::lighter::{lighter, passes, tables, without, Lighter};
use oracle::pack::{self, pack, Refused};
use oracle::plan::{self, Link, Ordinary, Plan, BOUND, OLD_ORDINARIES};
use oracle::plan_test::{self, Answer, Fault, Odometer};
use oracle::text;
use oracle::verdict::{self, Verdict};
use oracle::worst::{self, Worst};
use oracle::{close, Refusal};
use std::cell::RefCell;
use std::path::Path;
use std::time::Duration;

/// What the independent program says, without starting it.
fn right(ask: &Ask) -> Said {
    let words: Vec<&str> = ask.words.iter().map(String::as_str).collect();
    match Verb::of(&words) {
        Some(verb) => verb.said(&ask.input),
        None => wrong_usage(),
    }
}

fn shown(said: Said) -> Shown {
    Shown {
        bytes: said.output,
        errors: said.errors,
        ended: format!("exit status: {}", said.status),
    }
}

/// As long as so many tours take.
fn limits(verbs: &[&str], tours: u64) -> Limits {
    let long = Duration::from_secs(600);
    Limits {
        least: long,
        most: long,
        batches: tours * asks::tour(verbs),
    }
}

/// In two tours everything comes up, whatever the seed, and nothing that cannot.
#[test]
fn the_same_agree_and_all_comes_up() {
    let all_comes_up = |verbs: &[&str], seed: u64| {
        let limits = limits(verbs, 2);
        let run = |_: usize, ask: &Ask, _: Way| {
            let said = shown(right(ask));
            Ok((said.clone(), said))
        };
        let Compared { asks, count, found } = desk::compare(&run, verbs, seed, limits, 2).unwrap();
        assert!(found.is_none());
        let (missing, strange) = desk::print(verbs, &count);
        assert_eq!((missing, strange), (vec![], vec![]), "seed {seed}");
        asks
    };
    let asks = all_comes_up(&asks::VERBS, 1);
    assert!((900..2_000).contains(&asks), "{asks}");
    for seed in 2..8 {
        // A verb left out is not waited for.
        all_comes_up(&["import", "close", "calendar", "lighter", "pack"], seed);
        all_comes_up(&["list", "explain"], seed);
    }
}

/// A difference has to be found in three tours of the verb.
fn found(verb: &str, what: &str, wrong: &(dyn Fn(&Ask) -> Said + Sync)) {
    let run = |_: usize, ask: &Ask, _: Way| Ok((shown(wrong(ask)), shown(right(ask))));
    let limits = limits(&[verb], 3);
    let Compared { asks, found, .. } = desk::compare(&run, &[verb], 1, limits, 2).unwrap();
    let found = found.unwrap_or_else(|| panic!("{verb}, not found in {asks} asks: {what}"));
    println!("{verb}: {what}: found by {}, after {asks}", found.ask.what);
}

/// Says it where the answer to a verb holds a file.
fn file(answer: Result<Vec<u8>, String>) -> Said {
    let (output, errors, status) = match answer {
        Ok(output) => (output, Vec::new(), 0),
        Err(line) => (Vec::new(), format!("{line}\n").into_bytes(), 1),
    };
    Said {
        output,
        errors,
        status,
    }
}

fn line(text: String, status: u8) -> Said {
    Said {
        output: format!("{text}\n").into_bytes(),
        errors: Vec::new(),
        status,
    }
}

/// Asks of the verb with its right words go to `wrong`, all others are answered right.
fn of_verb(verb: &str, ask: &Ask, wrong: impl Fn(&[u8]) -> Said) -> Said {
    let words: Vec<&str> = ask.words.iter().map(String::as_str).collect();
    match Verb::of(&words) {
        Some(_) if words[0] == verb => wrong(&ask.input),
        _ => right(ask),
    }
}

/// The text with each match of `from` replaced.
fn replaced(text: &[u8], from: &[u8], to: &[u8]) -> Vec<u8> {
    let mut new = Vec::new();
    let mut at = 0;
    while at < text.len() {
        if text[at..].starts_with(from) {
            new.extend(to);
            at += from.len();
        } else {
            new.push(text[at]);
            at += 1;
        }
    }
    new
}

/// Lone LF or CR as CR LF.
fn with_ends(text: &[u8], lone: u8) -> Vec<u8> {
    let text = replaced(text, b"\r\n", b"\x01");
    let text = replaced(&text, &[lone], b"\r\n");
    replaced(&text, b"\x01", b"\r\n")
}

/// The text with its sixth columns changed, where the quoting is in order.
fn with_codes(text: &[u8], change: impl Fn(&mut Vec<u8>)) -> Vec<u8> {
    let mut changed = Vec::new();
    for line in lines(text) {
        let fields = fields(line).filter(|fields| fields.len() == 6);
        let Some(mut fields) = fields else {
            changed.push(line.to_vec());
            continue;
        };
        change(&mut fields[5]);
        let quoted =
            |field: &Vec<u8>| [b"\"", &replaced(field, b"\"", b"\"\"")[..], b"\""].concat();
        let fields: Vec<Vec<u8>> = fields.iter().map(quoted).collect();
        changed.push(fields.join(&b','));
    }
    let mut new = changed.join(&b"\r\n"[..]);
    if text.ends_with(b"\r\n") {
        new.extend(b"\r\n");
    }
    new
}

/// The line that an answer names.
fn named(text: &[u8], line: u32) -> &[u8] {
    lines(text).nth(line as usize).unwrap_or(b"")
}

type Imported = Result<Plan, Refusal>;
type Importer = fn(&[u8]) -> Imported;

const IMPORTERS: [(&str, Importer); 28] = [
    ("a link from an end is refused", |text| {
        let plan = import(text)?;
        match old_10(&plan.to_bytes()) {
            Some(record) => Err((10, record as u32)),
            None => Ok(plan),
        }
    }),
    ("LF alone ends a line", |text| {
        import(&with_ends(text, b'\n'))
    }),
    ("CR alone ends a line", |text| {
        import(&with_ends(text, b'\r'))
    }),
    ("quotes are left out wherever they stand", |text| {
        import(&replaced(text, b"\"", b""))
    }),
    ("41 before 40 on a line", |text| match import(text) {
        Err((40, at)) if named(text, at).split(|byte| *byte == b',').count() != 6 => Err((41, at)),
        other => other,
    }),
    ("43 before 42 on a line", |text| match import(text) {
        Err((42, at)) => {
            let fields = fields(named(text, at)).unwrap_or_default();
            let point = [b"point,0,,,,", &fields[5][..]].concat();
            match import(&point) {
                Err((43, _)) => Err((43, at)),
                _ => Err((42, at)),
            }
        }
        other => other,
    }),
    ("a plus sign is read", |text| {
        import(&replaced(text, b",+", b","))
    }),
    ("4294967296 is wrapped to 0", |text| {
        import(&replaced(text, b"4294967296", b"0"))
    }),
    ("256 is wrapped to 0", |text| {
        import(&replaced(text, b",256,", b",0,"))
    }),
    ("lower-case codes are read", |text| {
        import(&with_codes(text, |code| code.make_ascii_uppercase()))
    }),
    ("codes of five digits are read", |text| {
        import(&with_codes(text, |code| {
            if code.len() == 7 && code.ends_with(b"1") {
                code.remove(2);
            }
        }))
    }),
    ("an empty kind word is a point", |text| {
        let named = lines(text).map(|line| {
            let rest = line.strip_prefix(b"\"\"").unwrap_or(line);
            match rest.first() {
                Some(b',') => [b"point", rest].concat(),
                _ => line.to_vec(),
            }
        });
        let named: Vec<Vec<u8>> = named.collect();
        let end: &[u8] = if text.ends_with(b"\r\n") {
            b"\r\n"
        } else {
            b""
        };
        import(&[&named.join(&b"\r\n"[..])[..], end].concat())
    }),
    ("the last line without CR LF is dropped", |text| {
        let end = text.windows(2).rposition(|two| two == b"\r\n");
        import(&text[..end.map_or(0, |end| end + 2)])
    }),
    ("a final CR LF counts as a line", |text| {
        if text.ends_with(b"\r\n") {
            import(&[text, b"\r\n"].concat())
        } else {
            import(text)
        }
    }),
    ("spaces are left out", |text| {
        import(&replaced(text, b" ", b""))
    }),
    ("-0 is unreadable", |text| {
        import(&replaced(text, b",-0,", b",-,"))
    }),
    ("lines are counted from 1", |text| {
        import(text).map_err(|(number, at)| (number, at + 1))
    }),
    ("the reader's numbers come before later lines", |text| {
        let all: Vec<&[u8]> = lines(text).collect();
        if all.len() < 100 {
            for count in 1..all.len() {
                import(&all[..count].join(&b"\r\n"[..]))?;
            }
        }
        import(text)
    }),
    ("the old limit", |text| {
        import(text).and_then(|plan| plan::read_with(OLD_ORDINARIES, &plan.to_bytes()))
    }),
    ("3 before the lines", |text| {
        if lines(text).count() > plan::ROOM {
            return Err((3, 0));
        }
        import(text)
    }),
    ("CR LF in quotes is left out", |text| {
        let mut new = Vec::new();
        let mut inside = false;
        for byte in text {
            inside ^= *byte == b'"';
            if !(inside && b"\r\n".contains(byte)) {
                new.push(*byte);
            }
        }
        import(&new)
    }),
    ("a blank line is left out", |text| {
        import(&replaced(text, b"\r\n\r\n", b"\r\n"))
    }),
    ("a line with a date is left out", |text| {
        match import(text) {
            Err((43, at)) => {
                let others = lines(text).enumerate().filter(|(k, _)| *k != at as usize);
                let others: Vec<&[u8]> = others.map(|(_, line)| line).collect();
                import(&others.join(&b"\r\n"[..]))
            }
            other => other,
        }
    }),
    ("a date is no pond", |text| {
        import(&with_codes(text, |code| {
            if code.contains(&b'-') {
                code.clear();
            }
        }))
    }),
    ("40 at the last line", |text| match import(text) {
        Err((40, _)) => Err((40, lines(text).count() as u32 - 1)),
        other => other,
    }),
    ("AA0000 is no pond", |text| {
        let mut plan = import(text)?;
        plan.ponds
            .iter_mut()
            .for_each(|pond| *pond -= u32::from(*pond > 0));
        Ok(plan)
    }),
    ("a NUL ends a field", |text| {
        import(&replaced(text, b"\0", b""))
    }),
    ("bytes past 127 are left out", |text| {
        let ascii: Vec<u8> = text.iter().copied().filter(u8::is_ascii).collect();
        import(&ascii)
    }),
];

#[test]
fn wrong_imports_are_found() {
    for (what, importer) in IMPORTERS {
        found("import", what, &|ask| {
            of_verb("import", ask, |text| {
                let refused = |(number, line)| format!("import {number} {line}");
                file(importer(text).map(|plan| plan.to_bytes()).map_err(refused))
            })
        });
    }
}

type Closer = fn(&Plan) -> Result<Plan, u32>;

const CLOSERS: [(&str, Closer); 11] = [
    ("second point slowest", |plan| {
        let mut made = close::close(plan)?;
        made.ordinary.sort_by_key(|one| (one.y, one.x));
        Ok(made)
    }),
    ("an original bound is kept", |plan| {
        let mut made = close::close(plan)?;
        for one in &mut made.ordinary {
            let same = |old: &&Ordinary| (old.x, old.y) == (one.x, one.y);
            one.d = plan.ordinary.iter().find(same).map_or(one.d, |old| old.d);
        }
        Ok(made)
    }),
    ("pond codes are dropped", |plan| {
        let mut made = close::close(plan)?;
        made.ponds.fill(0);
        Ok(made)
    }),
    ("63 before 62", |plan| match close::close(plan) {
        Err(62) => {
            let points = plan.points();
            let mut rest = plan.clone();
            rest.ordinary.retain(|one| one.x.max(one.y) < points - 2);
            close::close(&rest)
                .and(Err(62))
                .map_err(|number| number.max(62))
        }
        other => other,
    }),
    ("62 before 61", |plan| {
        let rest = Plan {
            links: Vec::new(),
            waits: Vec::new(),
            ..plan.clone()
        };
        match (close::close(plan), close::close(&rest)) {
            (Err(61), Err(62)) => Err(62),
            (other, _) => other,
        }
    }),
    ("waits alone are refused", |plan| match close::close(plan) {
        Err(61) if plan.waits.is_empty() => Err(60),
        other => other,
    }),
    ("100,000 is refused", |plan| {
        let made = close::close(plan)?;
        match made.ordinary.iter().any(|one| one.d.abs() == BOUND) {
            true => Err(63),
            false => Ok(made),
        }
    }),
    ("-100,001 is let through", |plan| match close::close(plan) {
        Err(63) => Ok(plan.clone()),
        other => other,
    }),
    ("a pair that no path joins has a record", |plan| {
        let mut made = close::close(plan)?;
        let joined = |x, y| made.ordinary.iter().any(|one| (one.x, one.y) == (x, y));
        let all = (0..plan.points()).flat_map(|x| (0..plan.points()).map(move |y| (x, y)));
        let none = all.filter(|&(x, y)| x != y && !joined(x, y));
        let none: Vec<_> = none.map(|(x, y)| Ordinary { x, d: BOUND, y }).collect();
        made.ordinary.extend(none);
        made.ordinary.sort_by_key(|one| (one.x, one.y));
        Ok(made)
    }),
    ("a cycle of zero is refused", |plan| {
        let made = close::close(plan)?;
        let back = |one: &Ordinary| {
            let (x, d, y) = (one.y, -one.d, one.x);
            made.ordinary.contains(&Ordinary { x, d, y })
        };
        match made.ordinary.iter().any(back) {
            true => Err(62),
            false => Ok(made),
        }
    }),
    ("only the typed records, in order", |plan| {
        close::close(plan)?;
        let mut made = plan.clone();
        made.ordinary.sort_by_key(|one| (one.x, one.y));
        Ok(made)
    }),
];

/// The plan and the board of a sheet, or the plan's refusal.
fn sheet(input: &[u8]) -> Result<(Plan, Board), String> {
    let bad = |(number, record)| format!("plan {number} {record}");
    text::board_after(input).unwrap().map_err(bad)
}

/// The calendar of a sheet, or its refusal.
fn calendar_of(input: &[u8], origin: [u32; 5]) -> Result<String, String> {
    let (plan, board) = sheet(input)?;
    let text = calendar(&plan, &board, &Origin::of(origin));
    text.map_err(|number| format!("calendar {number}"))
}

/// The calendar where months have other last days, and hours and minutes may be any up to these.
fn calendar_with(
    input: &[u8],
    origin: [u32; 5],
    years: std::ops::RangeInclusive<u32>,
    last_day: fn(u32, u32) -> u32,
    of_day: [u32; 2],
) -> Result<String, String> {
    let (plan, board) = sheet(input)?;
    if !board::all_done(&plan, &board) {
        return Err("calendar 31".to_string());
    }
    let [year, month, day, hour, minute] = origin;
    let is_one = years.contains(&year)
        && (1..=12).contains(&month)
        && (1..=last_day(year, month)).contains(&day)
        && hour <= of_day[0]
        && minute <= of_day[1];
    if !is_one {
        return Err("calendar 51".to_string());
    }
    Ok(calendar::text(&plan, &board, |minutes| {
        let [mut year, mut month, mut day] = [year, month, day];
        let mut left = 60 * hour + minute + minutes;
        while left >= 1_440 {
            left -= 1_440;
            day += 1;
            if day > last_day(year, month) {
                (month, day) = (month + 1, 1);
            }
            if month > 12 {
                (year, month) = (year + 1, 1);
            }
        }
        let (hour, minute) = (left / 60, left % 60);
        format!("{year:04}{month:02}{day:02}T{hour:02}{minute:02}00Z")
    }))
}

fn last_day(year: u32, month: u32) -> u32 {
    match month {
        4 | 6 | 9 | 11 => 30,
        2 if year % 400 == 0 || year % 4 == 0 && year % 100 != 0 => 29,
        2 => 28,
        _ => 31,
    }
}

const YEARS: std::ops::RangeInclusive<u32> = 1970..=2099;

type Calendar = fn(&[u8], [u32; 5]) -> Result<String, String>;

const CALENDARS: [(&str, Calendar); 30] = [
    ("2100 is a leap year", |input, origin| {
        let days = |year, month| match (year, month) {
            (2100, 2) => 29,
            _ => last_day(year, month),
        };
        calendar_with(input, origin, YEARS, days, [23, 59])
    }),
    ("2000 is no leap year", |input, origin| {
        let days = |year, month| match (year, month) {
            (2000, 2) => 28,
            _ => last_day(year, month),
        };
        calendar_with(input, origin, YEARS, days, [23, 59])
    }),
    ("no leap days", |input, origin| {
        let days = |_, month| last_day(2023, month);
        calendar_with(input, origin, YEARS, days, [23, 59])
    }),
    ("a leap day each year", |input, origin| {
        let days = |_, month| last_day(2024, month);
        calendar_with(input, origin, YEARS, days, [23, 59])
    }),
    ("September has 31 days", |input, origin| {
        let days = |year, month| last_day(year, month) + u32::from(month == 9);
        calendar_with(input, origin, YEARS, days, [23, 59])
    }),
    ("July has 30 days", |input, origin| {
        let days = |year, month| last_day(year, month) - u32::from(month == 7);
        calendar_with(input, origin, YEARS, days, [23, 59])
    }),
    ("1969 is taken", |input, origin| {
        calendar_with(input, origin, 1969..=2099, last_day, [23, 59])
    }),
    ("2100 is taken", |input, origin| {
        calendar_with(input, origin, 1970..=2100, last_day, [23, 59])
    }),
    ("year 0 is taken", |input, origin| {
        calendar_with(input, origin, 0..=2099, last_day, [23, 59])
    }),
    ("hour 24 is taken", |input, origin| {
        calendar_with(input, origin, YEARS, last_day, [24, 59])
    }),
    ("minute 60 is taken", |input, origin| {
        calendar_with(input, origin, YEARS, last_day, [23, 60])
    }),
    ("numbers are kept in 16 bits", |input, origin| {
        calendar_of(input, origin.map(|number| number & 0xffff))
    }),
    ("all but the year are kept in 8 bits", |input, origin| {
        let [year, rest @ ..] = origin;
        let [month, day, hour, minute] = rest.map(|number| number & 255);
        calendar_of(input, [year, month, day, hour, minute])
    }),
    ("51 before 31", |input, origin| {
        match calendar_of(input, origin) {
            Err(said) if said == "calendar 31" && !Origin::of(origin).is_one() => {
                Err("calendar 51".to_string())
            }
            other => other,
        }
    }),
    ("51 where it ends past 2099", |input, origin| {
        let text = calendar_of(input, origin)?;
        match text.contains("DTSTART:21") {
            true => Err("calendar 51".to_string()),
            false => Ok(text),
        }
    }),
    (
        "51 before the plan's own number",
        |input, origin| match calendar_of(input, origin) {
            Err(_) if !Origin::of(origin).is_one() => Err("calendar 51".to_string()),
            other => other,
        },
    ),
    ("LF alone", |input, origin| {
        Ok(calendar_of(input, origin)?.replace('\r', ""))
    }),
    ("local time", |input, origin| {
        Ok(calendar_of(input, origin)?.replace("00Z", "00"))
    }),
    ("the point's number alone is the UID", |input, origin| {
        let text = calendar_of(input, origin)?;
        let line = |line: &str| match line.strip_prefix("UID:") {
            Some(uid) => format!("UID:{}\r\n", uid.split('-').next().unwrap_or("")),
            None => format!("{line}\r\n"),
        };
        Ok(text.lines().map(line).collect())
    }),
    ("no pond is shown as nothing", |input, origin| {
        let text = calendar_of(input, origin)?;
        Ok(text.replace(" 0\r\nEND", "\r\nEND"))
    }),
    ("pond codes are signed", |input, origin| {
        let text = calendar_of(input, origin)?;
        Ok(text.replace(" 4294967295\r", " -1\r"))
    }),
    ("PRODID first", |input, origin| {
        let [version, product] = ["VERSION:2.0\r\n", "PRODID:-//Ponds//Sheets//EN\r\n"];
        let text = calendar_of(input, origin)?;
        Ok(text.replace(
            &format!("{version}{product}"),
            &format!("{product}{version}"),
        ))
    }),
    ("DTSTAMP is minute 0", |input, origin| {
        let text = calendar_of(input, origin)?;
        let first = Origin::of(origin).stamp(0);
        let line = |line: &str| match line.strip_prefix("DTSTAMP:") {
            Some(_) => format!("DTSTAMP:{first}\r\n"),
            None => format!("{line}\r\n"),
        };
        Ok(text.lines().map(line).collect())
    }),
    ("events in order of minutes", |input, origin| {
        let text = calendar_of(input, origin)?;
        let (plan, board) = sheet(input)?;
        let mut parts: Vec<&str> = text.split("BEGIN:VEVENT").collect();
        let head = parts.remove(0).to_string();
        let end = "END:VCALENDAR\r\n";
        let mut order: Vec<usize> = (0..plan.points()).collect();
        order.sort_by_key(|point| board.minutes[*point]);
        let events = order
            .iter()
            .map(|point| format!("BEGIN:VEVENT{}", parts[*point].trim_end_matches(end)));
        Ok(head + &events.collect::<String>() + end)
    }),
    ("a broken sheet is not finished", |input, origin| {
        let text = calendar_of(input, origin)?;
        let (plan, board) = sheet(input)?;
        match verdict::verdict(&plan, &board) {
            Ok(Verdict::Kept) => Ok(text),
            _ => Err("calendar 31".to_string()),
        }
    }),
    ("a refused event ends it", |input, origin| {
        let mark = input.chunks(16).position(|record| record == [255; 16]);
        let Some(mark) = mark else {
            return calendar_of(input, origin);
        };
        let (plan, _) = sheet(&input[..16 * (mark + 1)])?;
        let mut at = Board::fresh();
        let mut end = 16 * (mark + 1);
        for record in input[end..].chunks_exact(16) {
            let (refusal, after) = event::take(&plan, &at, record);
            if refusal != (0, 0) {
                break;
            }
            (at, end) = (after, end + 16);
        }
        calendar_of(&input[..end], origin)
    }),
    ("an unfinished last record is filled up", |input, origin| {
        let mut input = input.to_vec();
        if input.chunks(16).any(|record| record == [255; 16]) {
            input.resize(input.len().div_ceil(16) * 16, 0);
        }
        calendar_of(&input, origin)
    }),
    ("the last mark ends the plan", |input, origin| {
        let all: Vec<&[u8]> = input.chunks(16).collect();
        let mark = all.iter().rposition(|record| *record == [255; 16]);
        let first = all.iter().position(|record| *record == [255; 16]);
        match (first, mark) {
            (Some(first), Some(mark)) => {
                let input = [&input[..16 * first], &input[16 * mark..]].concat();
                calendar_of(&input, origin)
            }
            _ => calendar_of(input, origin),
        }
    }),
    (
        "a sheet that is not finished, as far as it goes",
        |input, origin| {
            let (plan, board) = sheet(input)?;
            match calendar_of(input, origin) {
                Err(said) if said == "calendar 31" && Origin::of(origin).is_one() => {
                    let stamp = |minute| Origin::of(origin).stamp(minute);
                    Ok(calendar::text(&plan, &board, stamp))
                }
                other => other,
            }
        },
    ),
    ("long sheets end at 1,000,000", |input, origin| {
        let text = calendar_of(input, origin)?;
        let (plan, mut board) = sheet(input)?;
        if board.clock < 1_000_000 {
            return Ok(text);
        }
        for minute in &mut board.minutes {
            *minute = (*minute).min(1_000_000);
        }
        let stamp = |minute| Origin::of(origin).stamp(minute);
        Ok(calendar::text(&plan, &board, stamp))
    }),
];

#[test]
fn wrong_calendars_are_found() {
    for (what, wrong) in CALENDARS {
        found("calendar", what, &|ask| {
            let words: Vec<&str> = ask.words.iter().map(String::as_str).collect();
            let Some(Verb::Calendar(Origin { date, hour, minute })) = Verb::of(&words) else {
                return right(ask);
            };
            let origin = [date.year, date.month, date.day, hour, minute];
            file(wrong(&ask.input, origin).map(String::into_bytes))
        });
    }
    found("calendar", "zeros in front are refused", &|ask| {
        let zero = |word: &String| word.len() > 1 && word.starts_with('0');
        match &ask.words[..] {
            [_, origin @ ..] if origin.iter().any(zero) => wrong_usage(),
            _ => right(ask),
        }
    });
    found("calendar", "a number is taken modulo 2 to the 32", &|ask| {
        let words: Vec<&str> = ask
            .words
            .iter()
            .map(|word| if word == "4294967296" { "0" } else { word })
            .collect();
        Verb::of(&words).map_or_else(wrong_usage, |verb| verb.said(&ask.input))
    });
    found(
        "calendar",
        "a number too large is no date",
        &|ask| match &ask.words[..] {
            [verb, _, _, _, _, _] if verb == "calendar" && right(ask).status == 2 => {
                file(Err("calendar 51".to_string()))
            }
            _ => right(ask),
        },
    );
}

/// A calendar that both programs write is read again: what is wrong with it is found even so.
#[test]
fn faults_of_both_are_found() {
    let run = |_: usize, ask: &Ask, _: Way| {
        let mut said = right(ask);
        if said.status == 0 {
            said.output = replaced(&said.output, b"DTSTAMP:2", b"DTSTAMP:1");
        }
        Ok((shown(said.clone()), shown(said)))
    };
    let limits = limits(&["calendar"], 1);
    let compared = desk::compare(&run, &["calendar"], 1, limits, 2).unwrap();
    let fault = compared.found.and_then(|found| found.fault);
    assert!(fault.is_some_and(|fault| fault.contains("another minute")));
}

/// The plan of an input, or its refusal.
fn read(input: &[u8]) -> Result<Plan, String> {
    plan::read(input).map_err(|(number, record)| format!("plan {number} {record}"))
}

#[test]
fn wrong_closings_are_found() {
    for (what, closer) in CLOSERS {
        found("close", what, &|ask| {
            of_verb("close", ask, |input| {
                let made = read(input).and_then(|plan| {
                    let made = closer(&plan);
                    made.map_err(|number| format!("close {number}"))
                });
                file(made.map(|plan| plan.to_bytes()))
            })
        });
    }
}

/// Goes through the ordinary records in this order and leaves out those that `goes` lets go, from the plan so far and without it.
fn lightened(
    plan: &Plan,
    order: impl Iterator<Item = usize>,
    goes: impl Fn(&Plan, &Plan) -> bool,
) -> Result<Lighter, u32> {
    lighter(plan)?;
    let kept = |gone: &[usize]| {
        let all = plan.ordinary.iter().enumerate();
        let left = all.filter(|(place, _)| !gone.contains(place));
        Plan {
            ordinary: left.map(|(_, one)| *one).collect(),
            ..plan.clone()
        }
    };
    let mut gone = Vec::new();
    for place in order {
        let before = kept(&gone);
        gone.push(place);
        if !goes(&before, &kept(&gone)) {
            gone.pop();
        }
    }
    gone.sort_unstable();
    let first = plan.points() + plan.links.len();
    Ok(Lighter {
        plan: kept(&gone),
        dropped: gone.iter().map(|place| first + place).collect(),
    })
}

fn same_distances(a: &Plan, b: &Plan) -> bool {
    tables(a).eq(tables(b))
}

type Lightener = fn(&Plan) -> Result<Lighter, u32>;

const LIGHTERS: [(&str, Lightener); 15] = [
    ("the test is not asked", |plan| {
        lightened(plan, 0..plan.ordinary.len(), same_distances)
    }),
    ("distances are not asked", |plan| {
        lightened(plan, 0..plan.ordinary.len(), |_, less| passes(less))
    }),
    ("distances of the first projection alone", |plan| {
        lightened(plan, 0..plan.ordinary.len(), |before, less| {
            passes(less) && tables(before).next() == tables(less).next()
        })
    }),
    ("distances of the last projection alone", |plan| {
        lightened(plan, 0..plan.ordinary.len(), |before, less| {
            passes(less) && tables(before).last() == tables(less).last()
        })
    }),
    ("the test of the first projection alone", |plan| {
        lightened(plan, 0..plan.ordinary.len(), |before, less| {
            let first: Vec<i64> = less.links.iter().map(|link| link.x).collect();
            same_distances(before, less) && right_fault(less, &first).is_none()
        })
    }),
    ("in the order from last to first", |plan| {
        lightened(plan, (0..plan.ordinary.len()).rev(), |before, less| {
            passes(less) && same_distances(before, less)
        })
    }),
    ("each as if no other went", |plan| {
        let right = lighter(plan)?;
        let mut light = right.clone();
        let first = plan.points() + plan.links.len();
        light.dropped = (0..plan.ordinary.len())
            .filter(|place| {
                let less = without(plan, *place);
                passes(&less) && same_distances(plan, &less)
            })
            .map(|place| first + place)
            .collect();
        let all = plan.ordinary.iter().enumerate();
        let left = all.filter(|(place, _)| !light.dropped.contains(&(first + place)));
        light.plan.ordinary = left.map(|(_, one)| *one).collect();
        Ok(light)
    }),
    ("it stops at the first that stays", |plan| {
        let mut light = lighter(plan)?;
        let first = plan.points() + plan.links.len();
        let go = (first..)
            .zip(&light.dropped)
            .take_while(|(number, dropped)| number == *dropped)
            .count();
        light.dropped.truncate(go);
        light.plan.ordinary = plan.ordinary[go..].to_vec();
        Ok(light)
    }),
    ("numbers in the plan so far", |plan| {
        let mut light = lighter(plan)?;
        for (gone, number) in light.dropped.iter_mut().enumerate() {
            *number -= gone;
        }
        Ok(light)
    }),
    ("numbers among ordinary records", |plan| {
        let mut light = lighter(plan)?;
        for number in &mut light.dropped {
            *number -= plan.points() + plan.links.len();
        }
        Ok(light)
    }),
    ("the last first in the list", |plan| {
        let mut light = lighter(plan)?;
        light.dropped.reverse();
        Ok(light)
    }),
    ("60 before 13", |plan| lighter(plan).map_err(|_| 60)),
    ("a plan that does not pass stays", |plan| {
        match lighter(plan) {
            Err(60) => Ok(Lighter {
                plan: plan.clone(),
                dropped: Vec::new(),
            }),
            other => other,
        }
    }),
    ("pond codes are dropped", |plan| {
        let mut light = lighter(plan)?;
        light.plan.ponds.fill(0);
        Ok(light)
    }),
    ("waits go too", |plan| {
        let mut light = lighter(plan)?;
        for place in (0..light.plan.waits.len()).rev() {
            let mut less = light.plan.clone();
            less.waits.remove(place);
            if passes(&less) && same_distances(&light.plan, &less) {
                light.plan = less;
            }
        }
        Ok(light)
    }),
];

#[test]
fn wrong_lighter_plans_are_found() {
    for (what, lightener) in LIGHTERS {
        found("lighter", what, &|ask| {
            of_verb("lighter", ask, |input| {
                let light = read(input).and_then(|plan| {
                    lightener(&plan).map_err(|number| format!("lighter {number}"))
                });
                match light {
                    Err(refusal) => file(Err(refusal)),
                    Ok(Lighter { plan, dropped }) => Said {
                        output: plan.to_bytes(),
                        errors: dropped
                            .iter()
                            .flat_map(|number| format!("dropped {number}\n").into_bytes())
                            .collect(),
                        status: 0,
                    },
                }
            })
        });
    }
    found("lighter", "what went is not said", &|ask| {
        let mut said = right(ask);
        if said.status == 0 {
            said.errors.clear();
        }
        said
    });
    found("lighter", "what went is said with status 1", &|ask| {
        let mut said = right(ask);
        if said.status == 0 && !said.errors.is_empty() {
            said.status = 1;
        }
        said
    });
}

type Packed = Result<Vec<u8>, Refused>;
type Packer = fn(&[u8]) -> Packed;

/// The listing packed with another way to make a record.
fn packed_by(listing: &[u8], record: fn(&[&[u8]]) -> Result<pack::Record, usize>) -> Packed {
    if listing.len() > pack::LONGEST {
        return Err(Refused::TooMuch);
    }
    let records = pack::records(listing, record)?;
    match records.len() <= pack::MOST {
        true => Ok(records.concat()),
        false => Err(Refused::TooMuch),
    }
}

/// The record of a line, each of whose words is changed first.
fn with_words(words: &[&[u8]], change: fn(&[u8]) -> Vec<u8>) -> Result<pack::Record, usize> {
    let changed: Vec<Vec<u8>> = words.iter().map(|word| change(word)).collect();
    let changed: Vec<&[u8]> = changed.iter().map(Vec::as_slice).collect();
    pack::record(&changed)
}

fn without_zeros(word: &[u8]) -> &[u8] {
    let zeros = word.iter().take_while(|byte| **byte == b'0').count();
    &word[zeros..]
}

const PACKERS: [(&str, Packer); 36] = [
    ("CR parts words", |text| pack(&replaced(text, b"\r", b" "))),
    ("CR ends a line", |text| {
        pack(&replaced(&replaced(text, b"\r\n", b"\n"), b"\r", b"\n"))
    }),
    ("a last CR ends the line", |text| {
        pack(text.strip_suffix(b"\r").unwrap_or(text))
    }),
    ("CR CR LF ends a line", |text| {
        pack(&replaced(text, b"\r\r\n", b"\n"))
    }),
    ("CR LF ends no line", |text| {
        pack(&replaced(text, b"\r\n", b"\x01\n"))
    }),
    ("a tab is a byte of a word", |text| {
        pack(&replaced(text, b"\t", b"\x01"))
    }),
    ("a vertical tab parts words", |text| {
        pack(&replaced(text, b"\x0b", b" "))
    }),
    ("a form feed parts words", |text| {
        pack(&replaced(text, b"\x0c", b" "))
    }),
    ("a zero byte counts for nothing", |text| {
        pack(&replaced(text, b"\0", b""))
    }),
    ("a byte order mark is let be", |text| {
        pack(&replaced(text, b"\xef\xbb\xbf", b""))
    }),
    ("no comment right behind a word", |text| {
        let mut text = text.to_vec();
        for at in 1..text.len() {
            if text[at] == b'#' && text[at - 1].is_ascii_digit() {
                text[at] = b'x';
            }
        }
        pack(&text)
    }),
    ("a last line without its end is left out", |text| {
        let end = text.iter().rposition(|byte| *byte == b'\n');
        pack(&text[..end.map_or(0, |end| end + 1)])
    }),
    ("no bytes are refused", |text| match text {
        [] => Err(Refused::Line(1, 1)),
        _ => pack(text),
    }),
    ("lines from 0", |text| {
        pack(text).map_err(|refused| match refused {
            Refused::Line(expected, line) => Refused::Line(expected, line - 1),
            other => other,
        })
    }),
    ("empty lines are not counted", |text| {
        let lines = pack::lines(text);
        let told: Vec<&[u8]> = lines
            .into_iter()
            .filter(|line| !pack::words(line).is_empty())
            .collect();
        match pack(text) {
            Err(Refused::Line(..)) => pack(&told.join(&b'\n')),
            other => other,
        }
    }),
    ("the last bad line", |text| {
        let lines = pack::lines(text);
        let bad = (1..).zip(&lines).filter_map(|(number, line)| {
            let words = pack::words(line);
            let made = (!words.is_empty()).then(|| pack::record(&words));
            Some(Refused::Line(made?.err()?, number))
        });
        match (pack(text), bad.last()) {
            (Err(Refused::Line(..)), Some(last)) => Err(last),
            (other, _) => other,
        }
    }),
    ("a bad line of the wrong kind is left out", |text| {
        packed_by(text, |words| match pack::record(words) {
            Err(1) => Ok([0; 16]),
            other => other,
        })
    }),
    ("the count before the kind", |text| {
        packed_by(text, |words| match pack::record(words) {
            Err(1) if words.len() > 5 => Err(2),
            other => other,
        })
    }),
    ("words before their count", |text| {
        packed_by(text, |words| match (pack::record(words), words) {
            (Err(2), [kind, b"x", ..]) if *kind != b"event" => Err(3),
            (other, _) => other,
        })
    }),
    ("more words are let be", |text| {
        packed_by(text, |words| match words {
            [b"mark", ..] => pack::record(&words[..1]),
            _ => pack::record(words),
        })
    }),
    ("words from right to left", |text| {
        packed_by(text, |words| match (pack::record(words), words) {
            (Err(5 | 6), [b"event", _, _, b"x"]) => Err(7),
            (Err(3), [b"ordinary", _, b"x", _]) => Err(4),
            (Err(3), [b"wait", _, _, b"x"]) => Err(4),
            (Err(3), [b"link", _, b"x", _, _]) => Err(4),
            (Err(4), [b"link", _, _, _, b"x"]) => Err(3),
            (other, _) => other,
        })
    }),
    ("a plus is let be", |text| {
        packed_by(text, |words| {
            with_words(words, |word| {
                word.strip_prefix(b"+").unwrap_or(word).to_vec()
            })
        })
    }),
    ("-0 is refused", |text| {
        packed_by(text, |words| {
            with_words(words, |word| match word {
                b"-0" => b"-".to_vec(),
                _ => word.to_vec(),
            })
        })
    }),
    ("-1 is 0 where there is no minus", |text| {
        packed_by(text, |words| {
            pack::record(words).or_else(|_| {
                with_words(words, |word| match word {
                    b"-1" => b"0".to_vec(),
                    _ => word.to_vec(),
                })
            })
        })
    }),
    ("many zeros are refused", |text| {
        packed_by(text, |words| {
            with_words(words, |word| {
                match word.len() > 19 && !word.contains(&b',') {
                    true => b"x".to_vec(),
                    false => word.to_vec(),
                }
            })
        })
    }),
    ("points wrap", |text| {
        packed_by(text, |words| {
            with_words(words, |word| match without_zeros(word) {
                b"256" => b"0".to_vec(),
                _ => word.to_vec(),
            })
        })
    }),
    ("numbers wrap", |text| {
        packed_by(text, |words| {
            with_words(words, |word| match without_zeros(word) {
                b"4294967296" => b"0".to_vec(),
                _ => word.to_vec(),
            })
        })
    }),
    ("signed numbers wrap", |text| {
        packed_by(text, |words| {
            with_words(words, |word| match word {
                b"-2147483649" => b"2147483647".to_vec(),
                _ => word.to_vec(),
            })
        })
    }),
    ("the least signed number is refused", |text| {
        packed_by(text, |words| {
            with_words(words, |word| match word {
                b"-2147483648" => b"-2147483649".to_vec(),
                _ => word.to_vec(),
            })
        })
    }),
    ("an event of point 255", |text| {
        packed_by(text, |words| match (pack::record(words), words) {
            (Err(6), [kind, minute, point, set]) if without_zeros(point) == b"255" => {
                pack::record(&[kind, minute, b"none", set])
            }
            (other, _) => other,
        })
    }),
    ("point 32 of a set is point 0", |text| {
        packed_by(text, |words| match (pack::record(words), words) {
            (Err(7), [kind, minute, point, set]) if set.ends_with(b"32") => {
                pack::record(&[kind, minute, point, &replaced(set, b"32", b"0")])
            }
            (other, _) => other,
        })
    }),
    ("a comma at the end of a set", |text| {
        packed_by(text, |words| match (pack::record(words), words) {
            (Err(7), [kind, minute, point, set]) => {
                let set = set.strip_suffix(b",").unwrap_or(set);
                pack::record(&[kind, minute, point, set])
            }
            (other, _) => other,
        })
    }),
    ("two numbers of a link change places", |text| {
        packed_by(text, |words| {
            let mut record = pack::record(words)?;
            if words[0] == b"link" {
                record[4..12].rotate_left(4);
            }
            Ok(record)
        })
    }),
    ("one byte more", |text| match text.len() {
        length if length == pack::LONGEST + 1 => pack(&text[..pack::LONGEST]),
        _ => pack(text),
    }),
    ("one record less", |text| match pack(text) {
        Ok(bytes) if bytes.len() == 16 * pack::MOST => Err(Refused::TooMuch),
        other => other,
    }),
    ("too many records before a bad line", |text| {
        let lines = text.iter().filter(|byte| **byte == b'\n').count();
        match pack(text) {
            Err(_) if lines > pack::MOST => Err(Refused::TooMuch),
            other => other,
        }
    }),
];

#[test]
fn wrong_packs_are_found() {
    for (what, packer) in PACKERS {
        found("pack", what, &|ask| {
            of_verb("pack", ask, |listing| match packer(listing) {
                Err(Refused::Line(expected, line)) => {
                    let expected = pack::EXPECTED[expected - 1];
                    file(Err(format!("pack: expected {expected}, at line {line}")))
                }
                Err(Refused::TooMuch) => Said {
                    status: 2,
                    ..file(Err(pack::TOO_MUCH.to_string()))
                },
                Ok(bytes) => file(Ok(bytes)),
            })
        });
    }
    found("pack", "good lines are written before a bad one", &|ask| {
        let mut said = right(ask);
        if said.status == 1 {
            let lines = pack::lines(&ask.input);
            let good = (1..lines.len()).rev();
            let mut good = good.filter_map(|count| pack(&lines[..count].join(&b'\n')).ok());
            said.output = good.next().unwrap_or_default();
        }
        said
    });
    found(
        "pack",
        "too much is said as other wrong usage is",
        &|ask| match right(ask) {
            said if said.status == 2 => wrong_usage(),
            said => said,
        },
    );
    found("pack", "too much is said with status 1", &|ask| {
        let mut said = right(ask);
        if said.errors.starts_with(b"usage: a listing") {
            said.status = 1;
        }
        said
    });
}

/// The finishing minutes of all projections, of those that `counts` lets count.
fn minutes(plan: &Plan, counts: impl Fn(&[i64]) -> bool) -> Vec<(u32, u32)> {
    let all = (0..).zip(Odometer::new(plan)).filter(|(_, p)| counts(p));
    let ended =
        all.map(|(number, p)| (number, worst::run(plan, &p).map_or(0, |run| run.last.clock)));
    ended.collect()
}

fn first_largest(minutes: &[(u32, u32)]) -> Worst {
    let mut worst = Worst {
        minute: 0,
        projection: 0,
    };
    for &(projection, minute) in minutes {
        if minute > worst.minute {
            worst = Worst { minute, projection };
        }
    }
    worst
}

fn extreme(plan: &Plan, durations: &[i64]) -> bool {
    let mut links = plan.links.iter().zip(durations);
    links.all(|(link, p)| [link.x, link.y].contains(p))
}

type Worster = fn(&Plan) -> Result<Worst, u32>;

const WORSTS: [(&str, Worster); 6] = [
    ("links from an end take no time", |plan| {
        let right = worst::worst(plan)?;
        let all = (0..).zip(Odometer::new(plan)).map(|(number, p)| {
            let mut run = worst::run(plan, &p).map_or(Board::fresh(), |run| run.last);
            for link in plan.links.iter().filter(|link| links::hangs(plan, link)) {
                run.minutes[link.c] = 0;
            }
            (number, run.minutes.iter().copied().max().unwrap_or(0))
        });
        let all: Vec<_> = all.collect();
        let worst = first_largest(&all);
        Ok(if links::shapes(plan).is_empty() {
            right
        } else {
            worst
        })
    }),
    ("the last projection of equal minutes", |plan| {
        let right = worst::worst(plan)?;
        let all = minutes(plan, |_| true);
        let last = all.iter().rev().find(|(_, minute)| *minute == right.minute);
        let projection = last.map_or(0, |last| last.0);
        Ok(Worst {
            projection,
            ..right
        })
    }),
    (
        "only shortest and longest durations, numbered by themselves",
        |plan| {
            worst::worst(plan)?;
            let all = minutes(plan, |p| extreme(plan, p));
            let renumbered: Vec<_> = (0..).zip(all).map(|(k, (_, minute))| (k, minute)).collect();
            Ok(first_largest(&renumbered))
        },
    ),
    ("the clock before the last event", |plan| {
        let right = worst::worst(plan)?;
        let events = worst::day(plan, right.projection)?;
        let before = events.iter().rev().nth(1);
        let minute = before.map_or(0, |e| u32::from_le_bytes([e[0], e[1], e[2], e[3]]));
        Ok(Worst { minute, ..right })
    }),
    ("60 before 13", |plan| worst::worst(plan).map_err(|_| 60)),
    (
        "a plan that does not pass is run",
        |plan| match worst::worst(plan) {
            Err(60) => Ok(first_largest(&minutes(plan, |_| true))),
            other => other,
        },
    ),
];

#[test]
fn wrong_worst_minutes_are_found() {
    for (what, worster) in WORSTS {
        found("worst", what, &|ask| {
            of_verb("worst", ask, |input| match read(input) {
                Err(refusal) => line(refusal, 1),
                Ok(plan) => match worster(&plan) {
                    Ok(Worst { minute, projection }) => {
                        line(format!("worst {minute} {projection}"), 0)
                    }
                    Err(number) => line(format!("worst {number}"), 1),
                },
            })
        });
    }
}

/// What a run does otherwise.
#[derive(Clone, Copy, PartialEq)]
enum Otherwise {
    HighestMinute,
    HighestNumber,
    OnTheAimApart,
    BeforeTheAimForgotten,
    OneAtATime,
    /// A link that hangs on another is counted from where that one started.
    FromTheFirstStart,
    /// A link that hangs on another ends in the event that starts it, the other's duration being longer by its own.
    EndsWhereItStarts,
}

/// The events of a run that does something otherwise.
fn run_otherwise(plan: &Plan, durations: &[i64], otherwise: Otherwise) -> Vec<[u8; 16]> {
    let mut events = Vec::new();
    let mut at = Board::fresh();
    while let Ok(reply) = board::reply(plan, &at) {
        if matches!(reply.outcome, Outcome::Finished | Outcome::Stuck) {
            break;
        }
        let links = plan.links.iter().zip(durations);
        let running = links.filter(|(link, _)| board::is_running(&at, link));
        let started = |link: &Link| match plan.link_to(link.a) {
            Some(first) if otherwise == Otherwise::FromTheFirstStart => {
                at.minute(first.a).max(at.clock() - link.x)
            }
            _ => at.minute(link.a),
        };
        let falls: Vec<(i64, usize)> = running
            .map(|(link, p)| (started(link) + p, link.c))
            .collect();
        let next = falls.iter().min().map(|fall| fall.0);
        let offered = (0..)
            .zip(reply.places)
            .filter_map(|(point, place)| match place {
                Place::Offered(low) => Some((low, point)),
                _ => None,
            });
        let aim = match otherwise {
            Otherwise::HighestMinute => {
                offered.max_by_key(|&(low, point): &(i64, u8)| (low, 255 - point))
            }
            Otherwise::HighestNumber => offered.min_by_key(|&(low, point)| (low, 255 - point)),
            _ => offered.min(),
        };
        let forgotten = otherwise == Otherwise::BeforeTheAimForgotten;
        let apart = otherwise == Otherwise::OnTheAimApart;
        let (minute, foreman) = match (aim, next) {
            (Some((low, point)), next) if next.is_none_or(|next| forgotten || low <= next) => {
                (low, point)
            }
            (_, Some(next)) => (next, 255),
            _ => break,
        };
        let mut now = falls.iter().filter(|fall| fall.0 == minute);
        let set = match otherwise {
            Otherwise::OneAtATime => now.next().map_or(0, |fall| 1 << fall.1),
            _ => now.fold(0, |set, fall| set | 1u32 << fall.1),
        };
        let foreman = if apart && set != 0 { 255 } else { foreman };
        let hung = plan.links.iter().filter(|link| set >> link.a & 1 == 1);
        let hung = match otherwise {
            Otherwise::EndsWhereItStarts => hung.fold(0, |hung, link| hung | 1u32 << link.c),
            _ => 0,
        };
        let event = compare::events::record(minute as u32, foreman, set);
        let (refusal, after) = event::take(plan, &at, &event);
        if refusal != (0, 0) {
            break;
        }
        at = after;
        for c in (0..plan.points()).filter(|c| hung >> c & 1 == 1) {
            at.done |= 1 << c;
            at.minutes[c] = minute as u32;
        }
        events.push(compare::events::record(minute as u32, foreman, set | hung));
    }
    events
}

#[test]
fn wrong_days_are_found() {
    // The events of a projection of a plan that passes, and what the whole file is made into.
    type Events = fn(&Plan, u32) -> Vec<[u8; 16]>;
    fn otherwise(plan: &Plan, number: u32, otherwise: Otherwise) -> Vec<[u8; 16]> {
        let durations = Odometer::new(plan).nth(number as usize);
        durations.map_or(Vec::new(), |p| run_otherwise(plan, &p, otherwise))
    }
    let events: [(&str, Events); 9] = [
        (
            "a link from an end is counted from the first start",
            |plan, number| otherwise(plan, number, Otherwise::FromTheFirstStart),
        ),
        (
            "a link from an end ends in the event that starts it",
            |plan, number| otherwise(plan, number, Otherwise::EndsWhereItStarts),
        ),
        ("aims at the highest offered minute", |plan, number| {
            otherwise(plan, number, Otherwise::HighestMinute)
        }),
        ("aims at the highest number", |plan, number| {
            otherwise(plan, number, Otherwise::HighestNumber)
        }),
        ("watched points on the aim come apart", |plan, number| {
            otherwise(plan, number, Otherwise::OnTheAimApart)
        }),
        (
            "watched points before the aim are forgotten",
            |plan, number| otherwise(plan, number, Otherwise::BeforeTheAimForgotten),
        ),
        ("watched points one at a time", |plan, number| {
            otherwise(plan, number, Otherwise::OneAtATime)
        }),
        (
            "past the last projection, the last one's",
            |plan, number| {
                let last = plan_test::projections(plan).unwrap_or(1) as u32 - 1;
                worst::day(plan, number.min(last)).unwrap_or_default()
            },
        ),
        ("the last link slowest", |plan, number| {
            let mut all: Vec<Vec<i64>> = Odometer::new(plan).collect();
            all.sort_by_key(|p| p.iter().rev().copied().collect::<Vec<i64>>());
            let durations = all.get(number as usize);
            let run = durations.and_then(|p| worst::run(plan, p));
            run.map_or(Vec::new(), |run| run.events)
        }),
    ];
    for (what, events) in events {
        found("day", what, &|ask| {
            let said = right(ask);
            if said.status != 0 {
                return said;
            }
            let plan = read(&ask.input).unwrap();
            let events = events(&plan, ask.words[1].parse().unwrap());
            file(Ok([&ask.input[..], &[255; 16], &events.concat()].concat()))
        });
    }
    found("day", "the mark is missing", &|ask| {
        let mut said = right(ask);
        if said.status == 0 {
            said.output.drain(ask.input.len()..ask.input.len() + 16);
        }
        said
    });
    found(
        "day",
        "zeros in front are refused",
        &|ask| match &ask.words[..] {
            [_, number] if number.len() > 1 && number.starts_with('0') => wrong_usage(),
            _ => right(ask),
        },
    );
    found("day", "a number is taken modulo 2 to the 32", &|ask| {
        let words: Vec<&str> = ask.words.iter().map(String::as_str).collect();
        match words[..] {
            ["day", "4294967296"] => Verb::Day(0).said(&ask.input),
            _ => right(ask),
        }
    });
}

type Tester = fn(&Plan) -> Result<Answer, Refusal>;

/// The test with another fault of a projection, or with some projections left out.
fn tested(plan: &Plan, fault: impl Fn(&[i64]) -> Option<Fault>) -> Result<Answer, Refusal> {
    if plan_test::projections(plan).is_none() {
        return Err((13, 0));
    }
    let mut tried = 0;
    for durations in Odometer::new(plan) {
        match fault(&durations) {
            Some(Fault::Cycle) => return Ok(Answer::Cycle(tried)),
            Some(Fault::Pair(x, y)) => return Ok(Answer::Pair(tried, x, y)),
            None => tried += 1,
        }
    }
    Ok(Answer::Yes(tried))
}

fn right_fault(plan: &Plan, durations: &[i64]) -> Option<Fault> {
    plan_test::fault(plan.points(), &plan_test::edges(plan, durations))
}

const TESTERS: [(&str, Tester); 10] = [
    ("a ring passes", |plan| {
        tested(plan, |p| {
            right_fault(plan, p).filter(|fault| *fault != Fault::Cycle || !links::ringed(plan))
        })
    }),
    (
        "links from an end have the durations of the link before",
        |plan| {
            tested(plan, |p| {
                let own = |link: &Link| match plan.link_to(link.a) {
                    Some(first) => plan.links.iter().position(|one| *one == first),
                    None => plan.links.iter().position(|one| one == link),
                };
                let durations: Vec<i64> = plan
                    .links
                    .iter()
                    .map(|link| own(link).map_or(link.x, |k| p[k]).clamp(link.x, link.y))
                    .collect();
                right_fault(plan, &durations)
            })
        },
    ),
    ("only the shortest and longest durations", |plan| {
        tested(plan, |p| right_fault(plan, p).filter(|_| extreme(plan, p)))
    }),
    ("a wait is projected as -w", |plan| {
        tested(plan, |p| {
            let mut edges = plan_test::edges(plan, p);
            edges.extend(
                plan.waits
                    .iter()
                    .map(|one| (one.v, -one.w, plan.link_of(one).a)),
            );
            plan_test::fault(plan.points(), &edges)
        })
    }),
    (
        "4,096 projections are too many",
        |plan| match plan_test::projections(plan) {
            Some(4_096) => Err((13, 0)),
            _ => plan_test::plan_test(plan),
        },
    ),
    ("4,097 projections are tried", |plan| {
        let spans = plan.links.iter().map(|link| link.y - link.x + 1);
        match spans.fold(1, i64::saturating_mul) {
            4_097 => Ok(Answer::Yes(4_097)),
            _ => plan_test::plan_test(plan),
        }
    }),
    ("projections are counted in 32 bits", |plan| {
        let spans = plan.links.iter().map(|link| (link.y - link.x + 1) as u32);
        match (
            plan_test::projections(plan),
            spans.fold(1, u32::wrapping_mul),
        ) {
            (None, few @ 0..=4_096) => Ok(Answer::Yes(few)),
            _ => plan_test::plan_test(plan),
        }
    }),
    ("projections are counted in 64 bits", |plan| {
        let spans = plan.links.iter().map(|link| (link.y - link.x + 1) as u64);
        match (
            plan_test::projections(plan),
            spans.fold(1, u64::wrapping_mul),
        ) {
            (None, few @ 0..=4_096) => Ok(Answer::Yes(few as u32)),
            _ => plan_test::plan_test(plan),
        }
    }),
    ("a cycle is no fault", |plan| {
        tested(plan, |p| {
            right_fault(plan, p).filter(|fault| *fault != Fault::Cycle)
        })
    }),
    ("second point slowest", |plan| {
        let answer = plan_test::plan_test(plan)?;
        let Answer::Pair(at, ..) = answer else {
            return Ok(answer);
        };
        let durations = Odometer::new(plan).nth(at as usize).unwrap_or_default();
        let edges = plan_test::edges(plan, &durations);
        let points = plan.points();
        let bad = |x: usize, y: usize| {
            let shortest = plan_test::distances(points, &edges, x).map(|all| all[y]);
            shortest != plan_test::vee_distances(points, &edges, x).map(|all| all[y])
        };
        let all = (0..points).flat_map(|y| (0..points).map(move |x| (x, y)));
        let first = all.into_iter().find(|&(x, y)| bad(x, y));
        Ok(first.map_or(answer, |(x, y)| Answer::Pair(at, x, y)))
    }),
];

#[test]
fn wrong_tests_are_found() {
    for (what, tester) in TESTERS {
        found("test", what, &|ask| {
            of_verb("test", ask, |input| match read(input) {
                Err(refusal) => line(refusal, 1),
                Ok(plan) => match tester(&plan) {
                    Ok(Answer::Yes(count)) => line(format!("test yes {count}"), 0),
                    Ok(Answer::Cycle(at)) => line(format!("test cycle {at}"), 0),
                    Ok(Answer::Pair(at, x, y)) => line(format!("test pair {at} {x} {y}"), 0),
                    Err((number, _)) => line(format!("test {number}"), 1),
                },
            })
        });
    }
}

/// A listing with each of its lines changed.
fn relisted(plan: &Plan, change: impl Fn(&[&str]) -> String) -> String {
    let records = 0..plan.records() as u32;
    let lines = records.map(|number| text::listed(plan, number));
    let changed = lines.map(|line| change(&line.split(' ').collect::<Vec<_>>()) + "\n");
    changed.collect()
}

type Lister = fn(&Plan) -> String;

const LISTERS: [(&str, Lister); 12] = [
    ("C before the numbers of a link", |plan| {
        relisted(plan, |words| match words {
            [kind @ "link", a, x, y, c] => [*kind, a, c, x, y].join(" "),
            _ => words.join(" "),
        })
    }),
    ("both points before the bound", |plan| {
        relisted(plan, |words| match words {
            [kind @ "ordinary", x, d, y] => [*kind, x, y, d].join(" "),
            _ => words.join(" "),
        })
    }),
    ("w before C", |plan| {
        relisted(plan, |words| match words {
            [kind @ "wait", v, c, w] => [*kind, v, w, c].join(" "),
            _ => words.join(" "),
        })
    }),
    ("codes are signed", |plan| {
        relisted(plan, |words| match words {
            ["point", number, code] => {
                let code = code.parse::<u32>().unwrap_or(0) as i32;
                format!("point {number} {code}")
            }
            _ => words.join(" "),
        })
    }),
    ("no pond is left out", |plan| {
        relisted(plan, |words| match words {
            ["point", number, "0"] => format!("point {number}"),
            _ => words.join(" "),
        })
    }),
    ("numbers in columns", |plan| {
        relisted(plan, |words| match words {
            ["point", number, code] => format!("point {number:>2} {code}"),
            _ => words.join(" "),
        })
    }),
    ("a space at the end", |plan| {
        relisted(plan, |words| words.join(" ") + " ")
    }),
    ("CR LF", |plan| {
        relisted(plan, |words| words.join(" ") + "\r")
    }),
    ("zero bounds have a sign", |plan| {
        relisted(plan, |words| match words {
            ["ordinary", x, "0", y] => format!("ordinary {x} -0 {y}"),
            _ => words.join(" "),
        })
    }),
    ("an empty line between kinds", |plan| {
        let text = relisted(plan, |words| words.join(" "));
        text.replacen("link", "\nlink", 1)
    }),
    ("256 ordinary records are listed", |plan| {
        let mut less = plan.clone();
        less.ordinary.truncate(OLD_ORDINARIES);
        relisted(&less, |words| words.join(" "))
    }),
    ("waits before ordinary records", |plan| {
        let text = relisted(plan, |words| words.join(" "));
        let mut lines: Vec<&str> = text.split_inclusive('\n').collect();
        lines.sort_by_key(|line| line.starts_with("ordinary"));
        lines.concat()
    }),
];

#[test]
fn wrong_listings_are_found() {
    for (what, lister) in LISTERS {
        found("list", what, &|ask| {
            of_verb("list", ask, |input| {
                file(read(input).map(|plan| lister(&plan).into_bytes()))
            })
        });
    }
    // What `list` prints is packed again by the same program.
    found("list", "pack takes no listing of many lines", &|ask| {
        let long = ask.input.iter().filter(|byte| **byte == b'\n').count() > 500;
        match ask.words.first().map(String::as_str) {
            Some("pack") if long => shown_too_much(),
            _ => right(ask),
        }
    });
}

fn shown_too_much() -> Said {
    Said {
        output: Vec::new(),
        errors: format!("{}\n", pack::TOO_MUCH).into_bytes(),
        status: 2,
    }
}

/// The lines of an explanation: those before the steps, the steps as numbers, and those behind.
fn parted(text: &str) -> (Vec<String>, Vec<[i64; 4]>, Vec<String>) {
    let step = |line: &&str| line.starts_with("step ");
    let numbers = |line: &str| {
        let numbers = line.split(' ').skip(1).map(|word| word.parse().unwrap());
        numbers.collect::<Vec<i64>>().try_into().unwrap()
    };
    let lines: Vec<&str> = text.lines().collect();
    let first = lines
        .iter()
        .position(|line| step(&line))
        .unwrap_or(lines.len());
    let (before, rest) = lines.split_at(first);
    let steps = rest.iter().copied().filter(step).map(numbers);
    let behind = rest.iter().copied().filter(|line| !step(line));
    let owned = |lines: Vec<&str>| lines.into_iter().map(str::to_string).collect();
    (
        owned(before.to_vec()),
        steps.collect(),
        owned(behind.collect()),
    )
}

fn joined((before, steps, behind): (Vec<String>, Vec<[i64; 4]>, Vec<String>)) -> String {
    let steps = steps
        .into_iter()
        .map(|[r, f, t, l]| format!("step {r} {f} {t} {l}"));
    let all: Vec<String> = before.into_iter().chain(steps).chain(behind).collect();
    all.join("\n") + "\n"
}

/// Ask and text of an explanation, as it should be.
type Explainer = fn(&Plan, &str) -> String;

/// The lines with each changed.
fn relined(text: &str, change: impl Fn(&str) -> Option<String>) -> String {
    let lines = text.lines().filter_map(change);
    lines.map(|line| line + "\n").collect()
}

/// With the steps changed, and the sum as it is then.
fn restepped(text: &str, change: impl Fn(&mut Vec<[i64; 4]>)) -> String {
    let (before, mut steps, _) = parted(text);
    change(&mut steps);
    let sum: i64 = steps.iter().map(|step| step[3]).sum();
    joined((before, steps, vec![format!("sum {sum}")]))
}

const EXPLAINERS: [(&str, Explainer); 19] = [
    ("the first line only", |_, text| {
        text.split_inclusive('\n').take(1).collect()
    }),
    ("no drives", |_, text| {
        relined(text, |line| {
            (!line.starts_with("drive")).then(|| line.to_string())
        })
    }),
    ("drives of the shortest durations", |plan, text| {
        relined(text, |line| match line.split(' ').collect::<Vec<_>>()[..] {
            ["drive", a, c, _] => {
                let x = plan.link_to(c.parse().unwrap()).unwrap().x;
                Some(format!("drive {a} {c} {x}"))
            }
            _ => Some(line.to_string()),
        })
    }),
    ("drives from C to A", |_, text| {
        relined(text, |line| match line.split(' ').collect::<Vec<_>>()[..] {
            ["drive", a, c, p] => Some(format!("drive {c} {a} {p}")),
            _ => Some(line.to_string()),
        })
    }),
    ("records are counted from 1", |_, text| {
        restepped(text, |steps| steps.iter_mut().for_each(|step| step[0] += 1))
    }),
    ("records are counted from the first link", |plan, text| {
        let points = plan.points() as i64;
        restepped(text, |steps| {
            steps.iter_mut().for_each(|step| step[0] -= points)
        })
    }),
    ("a wait is a step of -w", |plan, text| {
        let first = (plan.records() - plan.waits.len()) as i64;
        restepped(text, |steps| {
            for step in steps.iter_mut().filter(|step| step[0] >= first) {
                step[3] = -plan.waits[(step[0] - first) as usize].w;
            }
        })
    }),
    ("a step back of a link is of its y", |plan, text| {
        let links = plan.points() as i64..(plan.points() + plan.links.len()) as i64;
        restepped(text, |steps| {
            for step in steps.iter_mut().filter(|step| links.contains(&step[0])) {
                let link = plan.links[(step[0] - links.start) as usize];
                step[3] = if step[3] < 0 { -link.y } else { step[3] };
            }
        })
    }),
    ("the last step is not told", |_, text| {
        restepped(text, |steps| {
            steps.pop();
        })
    }),
    ("the steps the other way round", |_, text| {
        restepped(text, |steps| steps.reverse())
    }),
    ("each step from its end to its start", |_, text| {
        restepped(text, |steps| {
            steps.iter_mut().for_each(|step| step.swap(1, 2))
        })
    }),
    ("the sum is not of the steps", |_, text| {
        relined(text, |line| match numbered(line, "sum") {
            Some(sum) => Some(format!("sum {}", sum + 1)),
            None => Some(line.to_string()),
        })
    }),
    ("no sum", |_, text| {
        relined(text, |line| {
            (!line.starts_with("sum")).then(|| line.to_string())
        })
    }),
    ("the sum before the steps", |_, text| {
        let (mut before, steps, behind) = parted(text);
        before.extend(behind);
        joined((before, steps, Vec::new()))
    }),
    ("sizes without a sign", |_, text| {
        relined(text, |line| Some(line.replace('-', "")))
    }),
    ("the shortest is that of the allowed", |_, text| {
        let best = text.lines().find_map(|line| numbered(line, "allowed"));
        relined(text, |line| match (numbered(line, "shortest"), best) {
            (Some(_), Some(best)) => Some(format!("shortest {best}")),
            _ => Some(line.to_string()),
        })
    }),
    ("nothing allowed is 0", |_, text| {
        relined(text, |line| Some(line.replace("none", "0")))
    }),
    ("nothing allowed is left out", |_, text| {
        relined(text, |line| {
            (!line.ends_with("none")).then(|| line.to_string())
        })
    }),
    (
        "a pair's way is shown as far as it goes down",
        |_, text| match text.starts_with("test pair") {
            true => restepped(text, |steps| steps.retain(|step| step[3] < 0)),
            false => text.to_string(),
        },
    ),
];

/// The number of a line that begins with this word.
fn numbered(line: &str, word: &str) -> Option<i64> {
    line.strip_prefix(word)?.trim().parse().ok()
}

/// What is said of an explanation, changed.
fn explained(ask: &Ask, explainer: Explainer) -> Said {
    let mut said = right(ask);
    let text = String::from_utf8_lossy(&said.output).into_owned();
    let no = text.starts_with("test cycle") || text.starts_with("test pair");
    if let (true, Ok(plan)) = (no, plan::read(&ask.input)) {
        said.output = explainer(&plan, &text).into_bytes();
    }
    said
}

#[test]
fn wrong_explanations_are_found() {
    for (what, explainer) in EXPLAINERS {
        found("explain", what, &|ask| explained(ask, explainer));
    }
    found("explain", "a pair is told for a cycle", &|ask| {
        let said = right(ask);
        match String::from_utf8_lossy(&said.output).strip_prefix("test cycle 0") {
            Some(rest) => Said {
                output: format!("test pair 0 0 1{rest}").into_bytes(),
                ..said
            },
            None => said,
        }
    });
}

/// Which cycle and which way is shown is free.
#[test]
fn other_walks_are_taken() {
    let others: [(&str, Explainer); 3] = [
        ("a cycle from another of its points", |_, text| {
            match text.starts_with("test cycle") {
                true => restepped(text, |steps| steps.rotate_left(1)),
                false => text.to_string(),
            }
        }),
        ("a cycle gone round twice", |_, text| {
            match text.starts_with("test cycle") {
                true => restepped(text, |steps| steps.extend(steps.clone())),
                false => text.to_string(),
            }
        }),
        ("there and back by a link before it goes", |plan, text| {
            let link = plan.points() as i64;
            restepped(text, |steps| {
                if let Some(Link { a, c, .. }) = plan.links.first().copied() {
                    let p = text.lines().find_map(|line| numbered_drive(line));
                    let [a, c, p] = [a as i64, c as i64, p.unwrap_or(0)];
                    if steps[0][1] == a {
                        steps.splice(0..0, [[link, a, c, p], [link, c, a, -p]]);
                    }
                }
            })
        }),
    ];
    for (what, explainer) in others {
        let run = |_: usize, ask: &Ask, _: Way| {
            let ours = match &ask.words[..] {
                [verb] if verb == "explain" => explained(ask, explainer),
                _ => right(ask),
            };
            Ok((shown(ours), shown(right(ask))))
        };
        let limits = limits(&["explain"], 1);
        let Compared { found, .. } = desk::compare(&run, &["explain"], 1, limits, 2).unwrap();
        assert!(
            found.is_none(),
            "{what}: {:?}",
            found.map(|found| found.fault)
        );
    }
}

/// The duration of the first drive.
fn numbered_drive(line: &str) -> Option<i64> {
    line.strip_prefix("drive ")?.split(' ').nth(2)?.parse().ok()
}

/// The first link of an accepted plan that document 01 refused: its A ends an earlier one, or its C starts one.
fn old_10(input: &[u8]) -> Option<usize> {
    let plan = plan::read(input).ok()?;
    let clash = |k: &usize| {
        let new = plan.links[*k];
        let old = |old: &Link| old.a == new.c || old.c == new.a;
        plan.links[..*k].iter().any(old)
    };
    let first = (0..plan.links.len()).find(clash)?;
    Some(plan.points() + first)
}

#[test]
fn wrong_readers_and_outputs_are_found() {
    type Changed = fn(&[u8]) -> Vec<u8>;
    let inputs: [(&str, Changed); 2] = [
        ("bytes past the last whole record are left out", |input| {
            input[..input.len() / 16 * 16].to_vec()
        }),
        ("a mark ends the plan", |input| {
            let mark = input.chunks(16).position(|record| record == [255; 16]);
            input[..mark.map_or(input.len(), |mark| 16 * mark)].to_vec()
        }),
    ];
    let verbs = [
        "test", "worst", "day", "close", "lighter", "list", "explain",
    ];
    for verb in verbs {
        for (what, changed) in inputs {
            found(verb, what, &|ask| {
                right(&Ask {
                    what: String::new(),
                    words: ask.words.clone(),
                    input: changed(&ask.input),
                    cases: Vec::new(),
                })
            });
        }
        if verb != "close" {
            // The rule of document 01: an A that ends a link, or a C that starts one.
            found(verb, "a link from an end is refused", &|ask| {
                of_verb(verb, ask, |input| match old_10(input) {
                    Some(record) => {
                        let refusal = format!("plan 10 {record}");
                        match verb {
                            "test" | "worst" | "explain" => line(refusal, 1),
                            _ => file(Err(refusal)),
                        }
                    }
                    None => right(ask),
                })
            });
        }
        found(verb, "a second end counts for nothing", &|ask| {
            let mut input = ask.input.clone();
            while let Err((10, record)) = plan::read(&input) {
                let at = record as usize * 16;
                if input[at] != 2 {
                    break;
                }
                input.drain(at..at + 16);
            }
            right(&Ask {
                what: String::new(),
                words: ask.words.clone(),
                input,
                cases: Vec::new(),
            })
        });
        found(verb, "the old limit", &|ask| {
            of_verb(verb, ask, |input| {
                match plan::read_with(OLD_ORDINARIES, input) {
                    Err((number @ (3 | 6), record)) => {
                        let refusal = format!("plan {number} {record}");
                        match verb {
                            "test" | "worst" | "explain" => line(refusal, 1),
                            _ => file(Err(refusal)),
                        }
                    }
                    _ => right(ask),
                }
            })
        });
    }
    for verb in asks::VERBS {
        found(verb, "a refusal ends with status 0", &|ask| {
            let mut said = right(ask);
            said.status = if said.status == 1 { 0 } else { said.status };
            said
        });
        found(verb, "a refusal goes to the other output", &|ask| {
            let mut said = right(ask);
            if said.status == 1 {
                std::mem::swap(&mut said.output, &mut said.errors);
            }
            said
        });
        found(verb, "a last line feed is missing", &|ask| {
            let mut said = right(ask);
            said.output.pop();
            said
        });
        let numbers = match verb {
            "day" => 1,
            "calendar" => 5,
            _ => 0,
        };
        found(
            verb,
            "too many words are let be",
            &|ask| match &ask.words[..] {
                [first, rest @ ..] if first == verb && rest.len() > numbers => {
                    let wanted = 1 + numbers;
                    let words: Vec<&str> = ask.words[..wanted].iter().map(String::as_str).collect();
                    Verb::of(&words).map_or_else(wrong_usage, |verb| verb.said(&ask.input))
                }
                _ => right(ask),
            },
        );
        found(verb, "wrong usage without a word", &|ask| {
            let mut said = right(ask);
            if said.status == 2 {
                said.errors.clear();
            }
            said
        });
        found(verb, "wrong usage on two lines", &|ask| {
            let mut said = right(ask);
            if said.status == 2 {
                said.errors.extend(said.errors.clone());
            }
            said
        });
    }
}

/// Each program's own line about wrong usage is no difference, where it names the verbs.
#[test]
fn lines_about_wrong_usage() {
    let line = |text: &str, status| {
        shown(Said {
            output: Vec::new(),
            errors: text.as_bytes().to_vec(),
            status,
        })
    };
    let differ = |ours: &Shown, theirs: &Shown| desk::differ(&["test", "day"], &[], ours, theirs);
    let ours = line("desk test|day N|list\n", 2);
    let theirs = line("usage: test, day\n", 2);
    assert!(!differ(&ours, &theirs));
    for other in [
        "desk test\n",
        "desk tests day\n",
        "desk test day",
        "test\nday\n",
        "",
    ] {
        assert!(differ(&line(other, 2), &theirs), "{other:?}");
    }
    assert!(differ(&line("desk test day\n", 1), &theirs));
    // Both the same, but as `desk` never ends.
    assert!(differ(&line("", 3), &line("", 3)));
}

/// A program that is started: both outputs and how it ended.
#[test]
fn programs_with_both_outputs() {
    let script = "head -c 3; echo $0 >&2; exit 2";
    let words = ["sh", "-c", script, "said"].map(str::to_string);
    let scratch = std::env::temp_dir().join(format!("desk-test-{}", std::process::id()));
    for way in [Way::Pipe, Way::Pieces(1), Way::File] {
        let (ours, theirs) =
            programs::run_with_errors(&words, &words, b"abcdef", way, Path::new(&scratch)).unwrap();
        assert_eq!(
            (&ours.bytes[..], &ours.errors[..]),
            (&b"abc"[..], &b"said\n"[..])
        );
        assert_eq!(ours.ended, "exit status: 2");
        assert_eq!(ours, theirs);
    }
    let _ = std::fs::remove_file(scratch);
}

#[test]
fn smaller_texts() {
    let tries = RefCell::new(0);
    let bad = |text: &[u8]| {
        *tries.borrow_mut() += 1;
        Ok(text.windows(2).any(|two| two == b"x,"))
    };
    let text = b"point,0\r\nabc,1\r\nhere is x,y\r\nlast\r\n".repeat(20);
    assert_eq!(smaller::smaller_text(&bad, &text).unwrap(), b"x,");
    assert!(*tries.borrow() < 400);
}
