//! Draws what comes up rarely otherwise: each thing is drawn until it does, so that a few inputs hold all of it.

use crate::corners::{self, Met, CORNERS};
use crate::damage;
use crate::draw::Draw;
use crate::events::{self, Style, MARK};
use crate::inputs::{self, Input};
use crate::links;
use crate::plans;
use crate::requests::{self, Requests, CHECK, JUDGE, NUMBERS, READ, REPLY, TAKE, TEST, WRITE};
use crate::shut;
use crate::soundness;
use crate::wraps::{self, WRAPS};
use oracle::board::{self, Board, Outcome};
use oracle::event;
use oracle::plan::{self, Link, Plan, RawRecord, RECORD, ROOM};
use oracle::plan_test::{self, Answer};

/// So often a thing is drawn before it is left out.
const TRIES: usize = 2_000;

/// The numbers with which files are refused, one of 10 for links and one for waits; 6 comes twice.
const REFUSED: [(u32, u8); 11] = [
    (4, 0),
    (5, 0),
    (6, 0),
    (6, 0),
    (7, 0),
    (8, 0),
    (9, 0),
    (10, 2),
    (10, 4),
    (11, 0),
    (15, 0),
];

/// Do such inputs go with the batch of this number? With each second one of the first dozen, and with one of twenty later.
pub fn is_due(number: u64) -> bool {
    number % if number < 12 { 2 } else { 20 } == 1
}

/// The first of many that is as wanted, if one is.
fn until<T>(
    draw: &mut Draw,
    make: impl Fn(&mut Draw) -> T,
    wanted: impl Fn(&T) -> bool,
) -> Option<T> {
    (0..TRIES).map(|_| make(draw)).find(|made| wanted(made))
}

/// A plan that has one record too many of its kind, as its last of that kind; it has another fault as well, half of the time.
fn one_too_many(draw: &mut Draw) -> Vec<u8> {
    let kind = draw.pick(&[1, 2, 4]);
    let mut plan = match kind {
        1 => inputs::small_good(draw),
        2 => plans::trucks(draw, 8, false),
        _ => plans::haul_as_it_stands(),
    };
    match kind {
        1 => plan.ponds.resize(33, 0),
        2 => {
            let free = (0..plan.points()).find(|&point| !plan.watched(point));
            let [a, c] = [plan.links[0].c, free.unwrap_or(0)];
            plan.links.push(Link { a, x: 1, y: 2, c });
        }
        _ => plan.waits.resize(65, plan.waits[0]),
    }
    let points = plan.points() as u8;
    let mut records = plan.to_records();
    let last = records.iter().rposition(|record| record.kind == kind);
    let last = &mut records[last.unwrap_or(0)];
    match draw.below(4) {
        0 if kind == 2 => last.code = 1,
        0 => last.second = 1,
        1 if kind == 1 => last.a = draw.pick(&[0, 31, 33, 255]),
        1 => last.b = draw.pick(&[points, 32, 255]),
        _ => {}
    }
    records.iter().flat_map(RawRecord::bytes).collect()
}

/// A file that is refused with this number, of 10 about a record of this kind.
fn refused(draw: &mut Draw, (number, kind): (u32, u8)) -> Option<Vec<u8>> {
    let make = |draw: &mut Draw| {
        if number == 6 {
            return one_too_many(draw);
        }
        let plan = match draw.below(3) {
            0 => plans::haul(draw),
            _ => plans::any_trucks(draw),
        };
        let mut part = plan.to_bytes();
        match (number, kind) {
            (10, 2) => damage::second_end(draw, &mut part),
            _ => damage::aim(draw, &mut part),
        }
        part
    };
    until(draw, make, |part| match plan::read(part) {
        Err((is, at)) => is == number && (kind == 0 || part[at as usize * RECORD] == kind),
        Ok(_) => false,
    })
}

/// A plan of few records with much that keeps points shut.
fn barred(draw: &mut Draw) -> Plan {
    let small = |plan: &Plan| plan.records() < 100;
    let plan = until(draw, plans::barred, small);
    plan.unwrap_or_else(plans::haul_as_it_stands)
}

/// A run with an event at its end that is refused with this number.
struct Wrong {
    plan: Plan,
    /// The events before it, and the board that they lead to.
    run: Vec<u8>,
    at: Board,
    event: events::Record,
}

/// Such a run; with `none` an event with no foreman's point, too late for what is open.
fn wrong(draw: &mut Draw, number: u32, none: bool) -> Option<Wrong> {
    let make = |draw: &mut Draw| {
        let plan = match draw.below(4) {
            0 => plans::haul(draw),
            1 => barred(draw),
            2 => plans::any_trucks(draw),
            _ => inputs::small_good(draw),
        };
        let (mut at, mut run) = (Board::fresh(), Vec::new());
        for _ in 0..draw.below(plan.points() + 1) {
            if let Some(event) = events::good(draw, &plan, &at, true) {
                run.extend(event);
                at = event::take(&plan, &at, &event).1;
            }
        }
        let event = match events::good(draw, &plan, &at, true) {
            _ if none => events::too_late(draw, &plan, &at).unwrap_or(MARK),
            Some(good) => events::spoiled(draw, &plan, &at, good),
            None => MARK,
        };
        Wrong {
            plan,
            run,
            at,
            event,
        }
    };
    let is = |made: &Wrong| event::take(&made.plan, &made.at, &made.event).0 .0 == number;
    until(draw, make, is)
}

/// Inputs of the printing programs.
pub fn inputs(draw: &mut Draw) -> Vec<Input> {
    let mut inputs = Vec::new();
    let mut add = |what: &str, part: &[u8], events: &[u8]| {
        inputs.push(Input {
            what: format!("rare: {what}"),
            bytes: [part, &MARK, events].concat(),
        });
    };
    add("1", &[], &events::record(0, 0, 0));
    let mut long = plans::haul(draw).to_bytes();
    long.resize((ROOM + 1) * RECORD, 3);
    add("3", &long, &[]);
    for of in REFUSED {
        if let Some(part) = refused(draw, of) {
            add("a refused file", &part, &events::record(0, 0, 0));
        }
    }
    for length in [2, 3] {
        let plan = plans::ringed(draw, length);
        let events = events::stream(draw, &plan, Style::Mixed);
        add("a ring of links", &plan.to_bytes(), &events);
    }
    for wrap in WRAPS {
        let plan = wraps::plan(draw, wrap);
        add(wrap, &plan.to_bytes(), &events::record(0, 0, 0));
    }
    for corner in CORNERS {
        let Met {
            plan, run, event, ..
        } = corners::met(draw, corner);
        add(corner, &plan.to_bytes(), &[&run[..], &event].concat());
    }
    let at_once = |plan: &Plan| {
        let at = Board::fresh();
        let shut = board::held_by(plan, &at).iter().any(|all| !all.is_empty());
        shut && board::outcome(plan, &at) == Outcome::Stuck
    };
    if let Some(plan) = until(draw, plans::stuck, at_once) {
        let event = events::record(0, 0, 0);
        add("stuck at once", &plan.to_bytes(), &event);
    }
    for (drives, fork) in [(8, false), (3, true)] {
        let make = |draw: &mut Draw| {
            let plan = plans::trucks(draw, drives, fork);
            let events = events::hanging(draw, &plan);
            [&plan.to_bytes()[..], &MARK, &events].concat()
        };
        let all = |bytes: &Vec<u8>| {
            let found = links::of_input(bytes);
            links::EVENTS.iter().all(|key| found.contains(key))
        };
        if let Some(bytes) = until(draw, make, all) {
            let what = "rare: links that hang on others".to_string();
            inputs.push(Input { what, bytes });
        }
    }
    for (number, none) in [
        (26, false),
        (27, false),
        (29, false),
        (30, false),
        (30, true),
    ] {
        if let Some(Wrong {
            plan, run, event, ..
        }) = wrong(draw, number, none)
        {
            let bytes = [&plan.to_bytes()[..], &MARK, &run, &event].concat();
            let what = format!("rare: {number} of an event");
            inputs.push(Input { what, bytes });
        }
    }
    let mut found: Vec<&str> = Vec::new();
    for key in shut::LISTS.into_iter().chain(shut::TOLD) {
        if found.contains(&key) {
            continue;
        }
        let make = |draw: &mut Draw| {
            let plan = match key {
                "shut: by a record past 255" => plans::barred(draw),
                _ if key.starts_with("stuck") => plans::stuck(draw),
                _ => barred(draw),
            };
            let events = match key {
                "shut: by a record past 255" => Vec::new(),
                _ => events::told_why(draw, &plan),
            };
            [&plan.to_bytes()[..], &MARK, &events].concat()
        };
        let has = |bytes: &Vec<u8>| shut::of_input(bytes).contains(&key);
        if let Some(bytes) = until(draw, make, has) {
            found.extend(shut::of_input(&bytes));
            let what = format!("rare: {key}");
            inputs.push(Input { what, bytes });
        }
    }
    inputs
}

/// Requests for the probe.
pub fn requests(draw: &mut Draw) -> Vec<Input> {
    let mut inputs = Vec::new();
    let mut add = |what: &str, requests: Requests| {
        inputs.push(Input {
            what: format!("rare: {what}"),
            bytes: requests.0,
        });
    };
    add("refused files and plans", refusals(draw));
    add("events", wrong_events(draw));
    add("links and tests", shapes(draw));
    let mut found: Vec<&str> = Vec::new();
    let keys = shut::LISTS.into_iter().chain(shut::TOLD);
    for key in keys.chain(shut::STREAMED) {
        if found.contains(&key) {
            continue;
        }
        let make = |draw: &mut Draw| {
            let plan = match key {
                "shut: by a record past 255" => plans::barred(draw),
                _ if key.starts_with("stuck") => plans::stuck(draw),
                _ => barred(draw),
            };
            requests::asked_for(draw, &plan, 2)
        };
        let has = |requests: &Requests| shut::of_requests(&requests.0).contains(&key);
        if let Some(requests) = until(draw, make, has) {
            found.extend(shut::of_requests(&requests.0));
            add(key, requests);
        }
    }
    add("boards", boards(draw));
    inputs
}

/// Files and plans by value that are refused with each number.
fn refusals(draw: &mut Draw) -> Requests {
    let mut requests = Requests::default();
    for of in REFUSED {
        if let Some(part) = refused(draw, of) {
            requests.buffer(&part, part.len(), 0);
            requests.call(READ);
        }
        if let Some(part) = refused(draw, of) {
            let records: Vec<RawRecord> = part.chunks(RECORD).map(requests::raw).collect();
            requests.records(records.len() as u32, &records);
            requests.call(CHECK);
        }
    }
    for length in [0, RECORD - 1, (ROOM + 1) * RECORD] {
        requests.buffer(&[], length, 1);
        requests.call(READ);
    }
    for count in [0, ROOM as u32 + 1] {
        requests.records(count, &[]);
        requests.call(CHECK);
    }
    requests
}

/// Events that are refused with each number from 23 on, and those of each corner.
fn wrong_events(draw: &mut Draw) -> Requests {
    let mut requests = Requests::default();
    let numbers = (23..=30).map(|number| (number, false));
    for (number, none) in numbers.chain([(30, true)]) {
        if let Some(Wrong {
            plan, at, event, ..
        }) = wrong(draw, number, none)
        {
            requests.plan(&plan);
            requests.board(&at);
            requests.buffer(&event, RECORD, 0);
            requests.call(TAKE);
        }
    }
    for corner in CORNERS {
        let Met {
            plan, at, event, ..
        } = corners::met(draw, corner);
        requests.plan(&plan);
        requests.board(&at);
        requests.buffer(&event, RECORD, 0);
        requests.call(TAKE);
    }
    requests
}

/// Two rings and a chain of links, and each answer of the test; a plan that is checked, written and read, and lists.
fn shapes(draw: &mut Draw) -> Requests {
    let mut requests = Requests::default();
    requests.board(&Board::fresh());
    let rings = [2, 3].map(|length| plans::ringed(draw, length));
    for plan in rings.iter().chain([&plans::trucks(draw, 8, false)]) {
        requests.plan(plan);
        requests.call(REPLY);
    }
    requests.plan(&rings[draw.below(2)]);
    requests.call(TEST);
    let near = |draw: &mut Draw| {
        let mut plan = plans::haul_as_it_stands();
        plans::near_miss(draw, &mut plan);
        plan
    };
    let pair = |plan: &Plan| matches!(plan_test::plan_test(plan), Ok(Answer::Pair(..)));
    if let Some(plan) = until(draw, near, pair) {
        requests.plan(&plan);
        requests.call(TEST);
    }
    let many = |draw: &mut Draw| {
        let mut sizes = plans::Sizes::small(draw);
        sizes.points += 4;
        plans::layered(draw, sizes, true)
    };
    let past = |plan: &Plan| plan_test::projections(plan).is_none();
    if let Some(plan) = until(draw, many, past) {
        requests.plan(&plan);
        requests.call(TEST);
    }
    for wrap in WRAPS {
        requests.plan(&wraps::plan(draw, wrap));
        requests.call(TEST);
    }
    let plan = plans::trucks(draw, 2, false);
    requests.plan(&plan);
    for asked in [CHECK, TEST] {
        requests.call(asked);
    }
    let exact = RECORD * plan.records();
    for length in [exact - 1, exact] {
        requests.buffer(&[], length, 0);
        requests.call(WRITE);
        requests.call(READ);
    }
    let at = requests::finished(draw, &plan);
    // A list that is kept and one that is broken, on a finished board and on one that is not.
    let broken = [&[0, 1, 0, 0][..], &i32::MIN.to_le_bytes()].concat();
    for board in [at, Board::fresh()] {
        requests.board(&board);
        for list in [&[][..], &broken] {
            requests.buffer(list, list.len(), 0);
            requests.call(JUDGE);
        }
    }
    requests
}

/// Boards one clause off sound, nothing else being wrong with them, and sound ones.
fn boards(draw: &mut Draw) -> Requests {
    let mut requests = Requests::default();
    let put = |requests: &mut Requests, plan: &Plan, board: &Board| {
        requests.plan(plan);
        requests.board(board);
        requests.call(REPLY);
    };
    for off in NUMBERS {
        let make = |draw: &mut Draw| {
            let plan = inputs::small_good(draw);
            requests::numbered_off(draw, &plan, off).map(|(_, other)| (plan, other))
        };
        if let Some(Some((plan, other))) = until(draw, make, Option::is_some) {
            put(&mut requests, &plan, &other);
        }
    }
    for key in soundness::keys() {
        if soundness::of_requests(&requests.0).contains(&key) {
            continue;
        }
        let make = |draw: &mut Draw| {
            let plan = match key {
                "sound: event 32" => Plan {
                    ponds: vec![0; 32],
                    ..Plan::default()
                },
                _ => inputs::small_good(draw),
            };
            let mut at = requests::sound(draw, &plan);
            if key.starts_with("20") {
                requests::one_off(draw, &plan, &mut at);
            }
            let mut alone = Requests::default();
            put(&mut alone, &plan, &at);
            alone
        };
        let has = |alone: &Requests| soundness::of_requests(&alone.0).contains(&key);
        if let Some(alone) = until(draw, make, has) {
            requests.0.extend(alone.0);
        }
    }
    requests
}

#[cfg(test)]
mod tests {
    use super::*;
    use crate::events::record;

    /// Whatever the seed, each batch of them holds all that it is meant for.
    #[test]
    fn each_batch_holds_all() {
        for batch in 0..24 {
            let draw = &mut Draw::new(6, batch);
            let (printed, asked) = (inputs(draw), requests(draw));
            let of_printed = |bytes: &[u8]| {
                let of = [
                    links::of_input,
                    shut::of_input,
                    corners::of_input,
                    wraps::of_input,
                ];
                of.map(|of| of(bytes)).concat()
            };
            let found: Vec<&str> = printed.iter().flat_map(|i| of_printed(&i.bytes)).collect();
            let links = links::SHAPES.iter().chain(&links::TENS);
            let why = shut::LISTS.iter().chain(&shut::TOLD);
            let last = WRAPS.iter().chain(&CORNERS);
            let both: Vec<&str> = links.chain(why).chain(last).copied().collect();
            for key in both.iter().chain(&links::EVENTS) {
                assert!(found.contains(key), "{batch}: {key}");
            }
            let of_asked = |bytes: &[u8]| {
                let of = [
                    links::of_requests,
                    shut::of_requests,
                    soundness::of_requests,
                ];
                of.map(|of| of(bytes)).concat()
            };
            let found: Vec<&str> = asked.iter().flat_map(|i| of_asked(&i.bytes)).collect();
            let more: Vec<&str> = shut::STREAMED
                .into_iter()
                .chain(soundness::keys())
                .collect();
            let fork = links::FORK;
            for key in both.iter().filter(|key| **key != fork).chain(&more) {
                assert!(found.contains(key), "{batch}: {key} of the probe");
            }
            for of in REFUSED {
                assert!(refused(draw, of).is_some(), "{batch}: {of:?}");
            }
            for number in 24..=30 {
                assert!(wrong(draw, number, false).is_some(), "{batch}: {number}");
            }
        }
    }

    /// 6 comes before 7 and 8: with one record less before it, the last one is refused with those.
    #[test]
    fn one_too_many_with_another_fault() {
        let mut seen = [0; 3];
        for batch in 0..200 {
            let part = one_too_many(&mut Draw::new(7, batch));
            let Err((6, at)) = plan::read(&part) else {
                panic!("{batch}: {:?}", plan::read(&part));
            };
            let at = at as usize * RECORD;
            let kind = part[at];
            let mut fewer = part.clone();
            fewer.drain(at - RECORD..at);
            if kind == 1 {
                let named = &mut fewer[at - RECORD + 1];
                *named = named.wrapping_sub(1);
            }
            let place = (at / RECORD - 1) as u32;
            match plan::read(&fewer) {
                Err((7, is)) if is == place => seen[1] += 1,
                Err((8, is)) if is == place => seen[2] += 1,
                _ => seen[0] += 1,
            }
        }
        assert!(seen.iter().all(|seen| *seen > 20), "{seen:?}");
    }

    /// Something is open, and an event with no foreman's point is too late for it.
    #[test]
    fn too_late_with_no_foreman() {
        for batch in 0..24 {
            let made = wrong(&mut Draw::new(8, batch), 30, true).expect("it is found");
            let word = |at: usize| [0, 1, 2, 3].map(|place| made.event[at + place]);
            let [minute, set] = [0, 8].map(|at| u32::from_le_bytes(word(at)));
            assert_eq!(made.event, record(minute, 255, set), "{batch}");
            assert!(!board::open_points(&made.plan, &made.at).is_empty());
        }
    }
}
