//! Draws what `desk calendar` is asked: sheets, finished and not, and origins, at every edge and such as are none.

use crate::asks::{self, Ask, READING};
use crate::draw::Draw;
use crate::events::{self, Record, Style, MARK};
use crate::icalendar::{day_number, day_of, minute_number};
use crate::inputs;
use crate::plans::{self, FULL};
use oracle::board::{self, Board};
use oracle::event;
use oracle::plan::{self, Plan, BOUND, RECORD};
use oracle::text::board_after;
use oracle::verdict::{self, Verdict};
use oracle::worst;

/// Kinds of batches, without the one of wrong usage.
pub const KINDS: usize = 7;

/// Year, month, day, hour and minute.
pub type Origin = [i64; 5];

const FIRST: Origin = [1970, 1, 1, 0, 0];
const LAST: Origin = [2099, 12, 31, 23, 59];

/// The largest minute of a sheet.
const FAR: i64 = BOUND * 32;

pub fn batch(draw: &mut Draw, kind: usize) -> Vec<Ask> {
    match kind {
        0 => refusals(draw),
        1 => days(draw),
        2 => ends(draw),
        3 => no_origins(draw),
        4 => unfinished(draw),
        5 => large(draw),
        _ => streams(draw),
    }
}

/// An ask with its words, and what comes up with it.
fn asked(draw: &mut Draw, what: &str, input: Vec<u8>, origin: Origin, more: &[&str]) -> Ask {
    let mut cases: Vec<String> = more.iter().map(|case| case.to_string()).collect();
    let mut words = vec!["calendar".to_string()];
    let padded = draw.one_in(3);
    for number in origin {
        let zeros = if padded { draw.pick(&[0, 1, 2, 30]) } else { 0 };
        words.push(format!("{}{number}", "0".repeat(zeros)));
    }
    if let Ok(Ok((plan, board))) = board_after(&input) {
        let finished = board::all_done(&plan, &board);
        let first = minute_number(origin).filter(|_| (1970..=2099).contains(&origin[0]));
        match first {
            Some(first) if finished => {
                cases.extend(of_sheet(&plan, &board, first));
                if padded
                    && words
                        .iter()
                        .any(|word| word.starts_with('0') && word.len() > 2)
                {
                    cases.push("zeros in front".to_string());
                }
            }
            None if !finished => cases.push("31 before 51".to_string()),
            _ => {}
        }
    }
    let cases = cases.into_iter().map(|case| format!("calendar: {case}"));
    Ask {
        what: what.to_string(),
        words,
        input,
        cases: cases.collect(),
    }
}

/// Which end of February a sheet passes.
const MARCHES: [&str; 4] = [
    "past 28 February, no leap day",
    "past a leap day",
    "past the leap day of 2000",
    "past 28 February 2100",
];

/// What comes up in a sheet whose minute 0 is this one.
fn of_sheet(plan: &Plan, board: &Board, first: i64) -> Vec<String> {
    let mut cases = Vec::new();
    let mut case = |what: &str| cases.push(what.to_string());
    let minutes: Vec<i64> = (0..plan.points())
        .map(|point| board.minute(point))
        .collect();
    let dates: Vec<(i64, i64, i64)> = minutes
        .iter()
        .map(|minute| day_of((first + minute).div_euclid(1_440)))
        .collect();
    let of_day = |minute: &i64| (first + minute).rem_euclid(1_440);
    if first == minute_number(FIRST).unwrap_or(0) {
        case("1970-01-01 00:00");
    }
    if first == minute_number(LAST).unwrap_or(0) {
        case("2099-12-31 23:59");
    }
    let (_, month, day) = day_of(first.div_euclid(1_440));
    match (month, day) {
        (2, 29) => case("from 29 February"),
        (2, 28) => case("from 28 February"),
        (12, 31) => case("from 31 December"),
        _ => {}
    }
    if dates.iter().any(|&(_, month, day)| (month, day) == (2, 29)) {
        case("a point on a leap day");
    }
    if dates.iter().any(|&(year, _, _)| year > 2099) {
        case("past 2099");
    }
    if minutes.iter().any(|minute| of_day(minute) == 0) {
        case("the first minute of a day");
    }
    if minutes.iter().any(|minute| of_day(minute) == 1_439) {
        case("the last minute of a day");
    }
    // The first day of a month between minute 0 and the last point, with a point on that very minute or the one before.
    let last = first + board.clock();
    let (from, to) = (
        day_of(first.div_euclid(1_440)).0,
        day_of(last.div_euclid(1_440)).0,
    );
    let close_to = |at: i64| {
        minutes
            .iter()
            .any(|minute| (0..=1).contains(&(at - first - minute)))
    };
    for year in from..=to {
        for month in 1..=12 {
            let at = minute_number([year, month, 1, 0, 0]).unwrap_or(0);
            if first < at && at <= last && close_to(at) {
                let ended = (month + 10) % 12 + 1;
                cases.push(format!("past a month's end, column {ended}"));
                if month == 3 {
                    let leap = day_number(year, 2, 29).is_some();
                    cases.push(
                        MARCHES[match (year, leap) {
                            (2000, _) => 2,
                            (2100, _) => 3,
                            (_, true) => 1,
                            _ => 0,
                        }]
                        .to_string(),
                    );
                }
            }
        }
    }
    let mut case = |what: &str| cases.push(what.to_string());
    let mut sorted = minutes.clone();
    sorted.sort_unstable();
    if sorted.windows(2).any(|two| two[0] == two[1]) {
        case("two points at one minute");
    }
    if plan.points() == 32 {
        case("32 points");
        if plan.ponds.iter().all(|pond| *pond == u32::MAX) {
            case("32 points with the largest code");
        }
        if board.clock() == FAR {
            case("minute 3,200,000");
        }
    }
    if matches!(verdict::verdict(plan, board), Ok(Verdict::Broken(_))) {
        case("a finished sheet that is broken");
    }
    cases
}

/// Pond codes of all sizes.
fn coded(draw: &mut Draw, mut plan: Plan) -> Plan {
    for pond in &mut plan.ponds {
        let any = draw.next() as u32;
        *pond = draw.pick(&[0, 1, 9, 10, 41_705, 6_760_000, u32::MAX, any]);
    }
    plan
}

/// What `sheet` reads.
fn joined(plan: &Plan, events: &[Record]) -> Vec<u8> {
    [&plan.to_bytes()[..], &MARK, &events.concat()].concat()
}

fn after(plan: &Plan, events: &[Record]) -> Board {
    let take = |at: Board, event: &Record| event::take(plan, &at, event).1;
    events.iter().fold(Board::fresh(), take)
}

/// A plan and events that finish it: the run of a projection, or any events that are taken.
fn finished(draw: &mut Draw) -> (Plan, Vec<Record>) {
    loop {
        let plan = match draw.below(5) {
            0 => plans::haul(draw),
            1 => plans::passing(draw),
            2 => plans::any_trucks(draw),
            3 => plans::chain(draw),
            _ => inputs::small_good(draw),
        };
        let plan = coded(draw, plan);
        let events: Vec<Record> = if draw.one_in(3) {
            let links = plan.links.iter();
            let durations: Vec<i64> = links.map(|link| draw.edgy(link.x, link.y)).collect();
            worst::run(&plan, &durations).map_or(Vec::new(), |run| run.events)
        } else {
            records(&events::stream(draw, &plan, Style::Good))
        };
        if board::all_done(&plan, &after(&plan, &events)) {
            return (plan, events);
        }
    }
}

fn records(bytes: &[u8]) -> Vec<Record> {
    let record = |bytes: &[u8]| {
        let mut record = [0; RECORD];
        record.copy_from_slice(bytes);
        record
    };
    bytes.chunks_exact(RECORD).map(record).collect()
}

/// Any date from 1970 to 2099.
fn any_origin(draw: &mut Draw) -> Origin {
    let last = minute_number(LAST).unwrap_or(0);
    of_minute(draw.between(0, last))
}

/// The date, hour and minute of a minute since 1970.
fn of_minute(minute: i64) -> Origin {
    let (year, month, day) = day_of(minute.div_euclid(1_440));
    let of_day = minute.rem_euclid(1_440);
    [year, month, day, of_day / 60, of_day % 60]
}

/// Origins at edges that are dates.
fn edge(draw: &mut Draw) -> Origin {
    let year = draw.edgy(1970, 2099);
    let leap = draw.pick(&[1972, 2000, 2024, 2096]);
    let common = draw.pick(&[1970, 1999, 2001, 2023, 2099]);
    let (hour, minute) = (draw.edgy(0, 23), draw.edgy(0, 59));
    draw.pick(&[
        FIRST,
        LAST,
        [year, 12, 31, 23, 59],
        [year, 1, 1, 0, 0],
        [leap, 2, 28, hour, minute],
        [leap, 2, 29, hour, minute],
        [common, 2, 28, hour, minute],
        [year, 4, 30, hour, minute],
        [2099, 12, 31, hour, minute],
    ])
}

/// Days that finish, from origins at edges and anywhere.
fn days(draw: &mut Draw) -> Vec<Ask> {
    let mut asks = Vec::new();
    let wanted: [Option<Origin>; 9] = [
        Some(FIRST),
        Some(LAST),
        Some([2024, 2, 29, 23, 59]),
        Some([2023, 2, 28, 23, 59]),
        Some([2099, 12, 31, 0, 0]),
        None,
        None,
        None,
        None,
    ];
    for origin in wanted {
        let (plan, events) = finished(draw);
        let origin = match origin {
            Some(origin) => origin,
            None if draw.one_in(2) => edge(draw),
            None => any_origin(draw),
        };
        let input = joined(&plan, &events);
        asks.push(asked(draw, "a day that finishes", input, origin, &[]));
    }
    asks
}

/// Days of which a point falls on the first minute of a month or just before it, each month's and those of leap years.
fn ends(draw: &mut Draw) -> Vec<Ask> {
    let mut firsts: Vec<(i64, i64)> = Vec::new();
    for month in 1..=12 {
        firsts.push((draw.between(1977, 2099), month));
    }
    // No sheet is longer than seven years, so the origin is in 1970 or later.
    let leap = 1980 + 4 * draw.between(0, 29);
    let common = 1977 + 4 * draw.between(0, 30);
    firsts.extend([(leap, 3), (common, 3), (2000, 3), (2100, 1), (2100, 3)]);
    let mut asks = Vec::new();
    for (year, month) in firsts {
        // The first of the month is that much too late for an origin in 2099, or less.
        let late = match (year, month) {
            (2100, 3) => 59 * 1_440,
            _ => 0,
        };
        let (plan, events, minute) = loop {
            let (plan, events) = finished(draw);
            let at = after(&plan, &events);
            let minute = at.minute(draw.below(plan.points()));
            if minute > late + 1 {
                break (plan, events, minute);
            }
        };
        // The point falls on the first minute, or on the one before where another comes later.
        let later = after(&plan, &events).clock() > minute;
        let before = i64::from(later && draw.one_in(2));
        let at = minute_number([year, month, 1, 0, 0]).unwrap_or(0);
        let origin = of_minute(at - before - minute);
        let input = joined(&plan, &events);
        asks.push(asked(draw, "a month's end", input, origin, &[]));
    }
    // A point on the leap day itself.
    let (plan, events) = finished(draw);
    let minute = after(&plan, &events).clock();
    let at = minute_number([leap, 2, 29, 0, 0]).unwrap_or(0) + draw.edgy(0, 1_439);
    let input = joined(&plan, &events);
    let origin = of_minute((at - minute).max(0));
    asks.push(asked(draw, "a leap day", input, origin, &[]));
    asks
}

/// Origins that are no date, most of them one past one that is: what each is, its year, month, day, hour and minute.
const NO_ORIGINS: [(&str, Origin); 23] = [
    ("year 1969", [1969, 12, 31, 23, 59]),
    ("year 2100", [2100, 1, 1, 0, 0]),
    ("year 0", [0, 1, 1, 0, 0]),
    ("year 70", [70, 1, 1, 0, 0]),
    ("month 0", [2024, 0, 1, 0, 0]),
    ("month 13", [2024, 13, 1, 0, 0]),
    ("day 0", [2024, 3, 0, 0, 0]),
    ("day 32", [2024, 12, 32, 0, 0]),
    ("29 February of a common year", [2023, 2, 29, 0, 0]),
    ("30 February", [2024, 2, 30, 0, 0]),
    ("day 31 of a month of 30, column 4", [2024, 4, 31, 0, 0]),
    ("day 31 of a month of 30, column 6", [2024, 6, 31, 0, 0]),
    ("day 31 of a month of 30, column 9", [2024, 9, 31, 0, 0]),
    ("day 31 of a month of 30, column 11", [2024, 11, 31, 0, 0]),
    ("hour 24", [2024, 1, 31, 24, 0]),
    ("minute 60", [2024, 1, 31, 23, 60]),
    ("all zero", [0; 5]),
    ("29 February 2100", [2100, 2, 29, 0, 0]),
    ("a huge number, column 1", [-1, 1, 1, 0, 0]),
    ("a huge number, column 2", [2024, -1, 1, 0, 0]),
    ("a huge number, column 3", [2024, 1, -1, 0, 0]),
    ("a huge number, column 4", [2024, 1, 1, -1, 0]),
    ("a huge number, column 5", [2024, 1, 1, 0, -1]),
];

/// The same in other years, days, hours and minutes, as far as they stay none; a huge number as far as 32 bits go.
fn no_origin(draw: &mut Draw, origin: Origin) -> Origin {
    let mut other = origin;
    if draw.one_in(2) {
        let [year, month, day, hour, minute] = &mut other;
        match (*year, *month, *day) {
            (2023, ..) => *year = draw.pick(&[1970, 1999, 2001, 2098, 2099]),
            (2024, ..) => *year = draw.pick(&[1970, 1972, 2000, 2096, 2099]),
            _ => {}
        }
        if *hour == 0 && *day != 0 {
            *hour = draw.edgy(0, 23);
        }
        if *minute == 0 {
            *minute = draw.edgy(0, 59);
        }
    }
    // One that would be right if it were kept in fewer bits, or any other.
    let right = [2024, 1, 1, 0, 0];
    for (number, right) in other.iter_mut().zip(right) {
        if *number == -1 {
            let any = draw.between(1 << 16, (1 << 32) - 1);
            *number = draw.pick(&[
                right + (1 << 8),
                right + (1 << 16),
                (1 << 31) - 1,
                1 << 31,
                (1 << 32) - 1,
                (1 << 32) - 1,
                any,
            ]);
        }
    }
    other
}

fn no_origins(draw: &mut Draw) -> Vec<Ask> {
    let mut asks = Vec::new();
    for (what, origin) in NO_ORIGINS {
        let (plan, events) = finished(draw);
        let origin = no_origin(draw, origin);
        let case = format!("no date: {what}");
        let input = joined(&plan, &events);
        asks.push(asked(draw, &case, input, origin, &[&case]));
    }
    asks
}

/// Boards that are not finished: fresh, before the last event, stuck; from dates and from what is none.
fn unfinished(draw: &mut Draw) -> Vec<Ask> {
    let mut asks = Vec::new();
    for k in 0..8 {
        let (what, input): (&str, Vec<u8>) = match k {
            0 => {
                let (plan, _) = finished(draw);
                ("no mark", plan.to_bytes())
            }
            1 => {
                let (plan, _) = finished(draw);
                ("no events", joined(&plan, &[]))
            }
            2 => loop {
                let plan = plans::stuck(draw);
                let events = records(&events::stream(draw, &plan, Style::Good));
                let at = after(&plan, &events);
                if board::outcome(&plan, &at) == board::Outcome::Stuck {
                    break ("a stuck board", joined(&plan, &events));
                }
            },
            3 | 4 => {
                // Cut in its last event: anywhere, and in its last four bytes, which are 0.
                let (plan, events) = finished(draw);
                let mut input = joined(&plan, &events);
                let most = if k == 3 { RECORD - 1 } else { 4 };
                input.truncate(input.len() - 1 - draw.below(most));
                ("the last event is cut", input)
            }
            _ => {
                let (plan, mut events) = finished(draw);
                events.pop();
                ("the last event is missing", joined(&plan, &events))
            }
        };
        let none = draw.pick(&NO_ORIGINS).1;
        let origin = match draw.below(3) {
            0 => edge(draw),
            1 => any_origin(draw),
            _ => no_origin(draw, none),
        };
        let origin = if k == 7 { [2024, 2, 30, 0, 0] } else { origin };
        asks.push(asked(draw, what, input, origin, &[what]));
    }
    asks
}

/// 32 points with the largest codes and minutes, and plans as full as they may be.
fn large(draw: &mut Draw) -> Vec<Ask> {
    let mut asks = Vec::new();
    let mut far = |draw: &mut Draw, origin: Origin| {
        // Each as late as it may come, in any order.
        let plan = Plan {
            ponds: vec![u32::MAX; 32],
            ..Plan::default()
        };
        let mut order: Vec<u8> = (0..32).collect();
        draw.shuffle(&mut order);
        let minutes = (1..).map(|k| k * BOUND as u32);
        let events = minutes.zip(&order);
        let events: Vec<Record> = events
            .map(|(minute, point)| events::record(minute, *point, 0))
            .collect();
        let input = joined(&plan, &events);
        asks.push(asked(draw, "as late as can be", input, origin, &[]));
    };
    far(draw, LAST);
    let origin = any_origin(draw);
    far(draw, origin);
    let full = loop {
        let star = plans::star(draw, FULL, false);
        let plan = coded(draw, star);
        let durations: Vec<i64> = plan.links.iter().map(|link| link.y).collect();
        if let Some(run) = worst::run(&plan, &durations) {
            break joined(&plan, &run.events);
        }
    };
    let origin = edge(draw);
    asks.push(asked(draw, "a full plan", full, origin, &[]));
    asks
}

/// Events that are refused, before the end and after it, unfinished last records, a second mark, and sheets that are broken.
fn streams(draw: &mut Draw) -> Vec<Ask> {
    let mut asks = Vec::new();
    for k in 0..6 {
        let (plan, events) = finished(draw);
        let mut input = joined(&plan, &events);
        let origin = any_origin(draw);
        let what = match k {
            0 => {
                let mut at = Board::fresh();
                let mut all = Vec::new();
                for good in events {
                    let wrong = events::spoiled(draw, &plan, &at, good);
                    if event::take(&plan, &at, &wrong).0 != (0, 0) {
                        all.push(wrong);
                    }
                    all.push(good);
                    at = event::take(&plan, &at, &good).1;
                }
                input = joined(&plan, &all);
                "refused events between"
            }
            1 => {
                let mut more = MARK;
                let late = events::record(FAR as u32 + 1, 0, 0);
                for _ in 0..1 + draw.below(4) {
                    input.extend(more);
                    more = draw.pick(&[late, [0; RECORD], MARK]);
                }
                "refused events after the end"
            }
            2 => {
                let byte = draw.pick(&[0, 255]);
                input.extend(vec![byte; 1 + draw.below(RECORD - 1)]);
                "an unfinished last record"
            }
            3 => {
                let plan_part = plan.to_bytes();
                input = [&plan_part[..], &MARK, &MARK, &events.concat()].concat();
                "a second mark"
            }
            4 => {
                input.extend([7; RECORD].repeat(20_000));
                "a long stream"
            }
            _ => {
                let (plan, events) = broken(draw);
                input = joined(&plan, &events);
                "a broken sheet"
            }
        };
        asks.push(asked(draw, what, input, origin, &[what]));
    }
    asks
}

/// A sheet that finishes with a broken record.
fn broken(draw: &mut Draw) -> (Plan, Vec<Record>) {
    loop {
        let mut plan = plans::haul(draw);
        plans::near_miss(draw, &mut plan);
        if draw.one_in(2) {
            plan = inputs::small_good(draw);
        }
        let events = records(&events::stream(draw, &plan, Style::Good));
        let verdict = verdict::verdict(&plan, &after(&plan, &events));
        if matches!(verdict, Ok(Verdict::Broken(_))) {
            return (plan, events);
        }
    }
}

/// A plan part for each number that reading gives, with the mark and events after it or not; the origin may be none.
fn refusals(draw: &mut Draw) -> Vec<Ask> {
    let mut asks = Vec::new();
    for number in READING {
        let file = loop {
            let file = asks::refused(draw, number);
            if !file.chunks(RECORD).any(|record| record == MARK) {
                break file;
            }
        };
        let marked = number != 2 && !draw.one_in(4);
        let events = if marked && draw.one_in(2) {
            let (_, events) = finished(draw);
            events.concat()
        } else {
            Vec::new()
        };
        let mark: &[u8] = if marked { &MARK } else { &[] };
        let input = [&file, mark, &events].concat();
        let read = plan::read(&file).map_or_else(|refusal| refusal.0, |_| 0);
        assert_eq!(read, number, "as it was drawn");
        let none = draw.pick(&NO_ORIGINS).1;
        let origin = if draw.one_in(2) {
            any_origin(draw)
        } else {
            no_origin(draw, none)
        };
        let what = format!("a plan refused with {number}");
        asks.push(asked(draw, &what, input, origin, &[]));
    }
    asks
}

/// Words that are none of the five numbers.
pub fn wrong_words(draw: &mut Draw, none: &[&'static str]) -> Vec<Vec<&'static str>> {
    let right = ["calendar", "2024", "2", "29", "23", "59"];
    let mut all = vec![right[..5].to_vec(), right[..1].to_vec()];
    all.push([&right[..], &[draw.pick(&["0", "", "x"])]].concat());
    for place in 1..6 {
        let mut words = right.to_vec();
        words[place] = draw.pick(none);
        all.push(words);
    }
    let mut words = right.to_vec();
    words[1 + draw.below(5)] = "4294967296";
    all.push(words);
    all
}

/// The cases that must come up, besides what is said.
pub fn cases() -> Vec<String> {
    let mut all: Vec<String> = Vec::new();
    all.extend((1..=12).map(|month| format!("past a month's end, column {month}")));
    let named = [
        "1970-01-01 00:00",
        "2099-12-31 23:59",
        "from 28 February",
        "from 29 February",
        "from 31 December",
        "a point on a leap day",
        "past 2099",
        "the first minute of a day",
        "the last minute of a day",
        "two points at one minute",
        "32 points",
        "32 points with the largest code",
        "minute 3,200,000",
        "a finished sheet that is broken",
        "zeros in front",
        "31 before 51",
        "no mark",
        "no events",
        "a stuck board",
        "the last event is cut",
        "the last event is missing",
        "refused events between",
        "refused events after the end",
        "an unfinished last record",
        "a second mark",
        "a long stream",
        "a broken sheet",
    ];
    all.extend(MARCHES.iter().chain(&named).map(|case| case.to_string()));
    all.extend(NO_ORIGINS.map(|(what, _)| format!("no date: {what}")));
    all.into_iter()
        .map(|case| format!("calendar: {case}"))
        .collect()
}
