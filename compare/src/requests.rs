//! Draws requests for the probe (PROBE.md): plans, boards, events and buffers of any content, boards one clause off sound
//! above all.

use crate::corners;
use crate::damage;
use crate::draw::Draw;
use crate::events;
use crate::inputs::Input;
use crate::links;
use crate::plans::{self, Sizes, FULL};
use crate::rare;
use oracle::board::{self, Board, Clause, PLACES};
use oracle::event;
use oracle::plan::{Link, Plan, RawRecord, BOUND, RECORD, ROOM};
use oracle::plan_test;

pub const REPLY: u8 = 16;
pub const TAKE: u8 = 17;
pub const VERDICT: u8 = 18;
pub const CHECK: u8 = 19;
pub const WRITE: u8 = 20;
pub const TEST: u8 = 21;
pub const READ: u8 = 22;
pub const JUDGE: u8 = 23;
pub const STREAM: u8 = 24;

/// So many bounds of a list are judged, so many numbers a stream's room has at most, and so many are said of one event.
const LIST: usize = 4_096;
pub const STREAM_ROOM: usize = 12_288;
pub const SAID: usize = 4;
/// A count of records that is one too many.
const PAST: u32 = ROOM as u32 + 1;

/// Requests one after another.
#[derive(Default)]
pub struct Requests(pub Vec<u8>);

impl Requests {
    pub fn ask(&mut self, asked: u8, bytes: [u8; 3], numbers: [u32; 3]) {
        self.0.push(asked);
        self.0.extend(bytes);
        self.0
            .extend(numbers.iter().flat_map(|number| number.to_le_bytes()));
    }

    pub fn call(&mut self, asked: u8) {
        self.ask(asked, [0; 3], [0; 3]);
    }

    fn record(&mut self, r: &RawRecord) {
        let numbers = [r.first as u32, r.second as u32, r.code];
        self.ask(2, [r.kind, r.a, r.b], numbers);
    }

    pub fn records(&mut self, count: u32, records: &[RawRecord]) {
        self.ask(1, [0; 3], [count, 0, 0]);
        for record in records {
            self.record(record);
        }
    }

    pub fn plan(&mut self, plan: &Plan) {
        self.records(plan.records() as u32, &plan.to_records());
    }

    pub fn board(&mut self, board: &Board) {
        self.ask(3, [0; 3], [board.clock, board.done, 0]);
        for (asked, all) in [(4, &board.minutes), (8, &board.numbers)] {
            for (point, &number) in all.iter().enumerate() {
                self.ask(asked, [point as u8, 0, 0], [number, 0, 0]);
            }
        }
    }

    /// A buffer with these bytes at its front, and `fill` past them.
    pub fn buffer(&mut self, front: &[u8], counts: usize, fill: u8) {
        self.ask(5, [fill, 0, 0], [counts as u32, 0, 0]);
        self.put(front, fill);
    }

    /// Bytes at the front of the buffer, with `fill` for those that the last eight lack.
    pub fn put(&mut self, front: &[u8], fill: u8) {
        for (k, eight) in front.chunks(8).enumerate() {
            let mut bytes = [fill; 8];
            bytes[..eight.len()].copy_from_slice(eight);
            let word = |at: usize| u32::from_le_bytes([0, 1, 2, 3].map(|place| bytes[at + place]));
            self.ask(6, [0; 3], [8 * k as u32, word(0), word(4)]);
        }
    }
}

/// The batch of this number: every fifteen hold each kind, and some what is rare in them.
pub fn batch(draw: &mut Draw, number: u64) -> Vec<Input> {
    let mut inputs = of_kind(draw, number);
    if rare::is_due(number) {
        inputs.extend(rare::requests(draw));
    }
    inputs
}

fn of_kind(draw: &mut Draw, number: u64) -> Vec<Input> {
    match number % 15 {
        0..=1 => boards(draw, true),
        2..=3 => boards(draw, false),
        4 | 11 => any_plans(draw),
        5 => buffers(draw),
        6 => events_of_any_length(draw),
        7 => tests(draw),
        8 => lists(draw),
        9 => streams(draw),
        10 | 12 => files(draw),
        13 => event_numbers(draw),
        14 => not_open(draw),
        _ => unreachable!("a remainder of fifteen"),
    }
}

/// A plan that a file can hold.
fn good_plan(draw: &mut Draw) -> Plan {
    match draw.below(14) {
        0 => plans::haul(draw),
        1 => plans::passing(draw),
        2 => plans::chain(draw),
        3 => plans::stuck(draw),
        6 | 7 => plans::any_trucks(draw),
        8 => plans::any_ringed(draw),
        9 => plans::held(draw),
        10 => plans::trucks(draw, 8, false),
        11 => plans::barred(draw),
        4 => {
            let sizes = Sizes::any(draw);
            plans::layered(draw, sizes, false)
        }
        5 => {
            let sizes = Sizes::any(draw);
            plans::roomy(draw, sizes)
        }
        _ => {
            let mut sizes = Sizes::small(draw);
            sizes.points += 2;
            sizes.links += 1;
            let scale = plans::scale(draw);
            let hidden = draw.one_in(2);
            plans::any(draw, sizes, scale, hidden)
        }
    }
}

/// The clock that the done points say.
fn clocked(mut board: Board) -> Board {
    let done = (0..PLACES).filter(|&point| board.is_done(point));
    board.clock = done.map(|point| board.minutes[point]).max().unwrap_or(0);
    board
}

fn set_done(board: &mut Board, point: usize, minute: i64) {
    board.done |= 1 << point;
    board.minutes[point] = minute as u32;
}

/// Ends running links that would have run out, anywhere in their bounds.
fn settled(draw: &mut Draw, plan: &Plan, mut board: Board) -> Board {
    board = clocked(board);
    // What hangs on a link runs from its end, and may have run out too.
    for link in plan.links.iter().cycle().take(plan.links.len().pow(2)) {
        let from = board.minute(link.a);
        let runs = board.is_done(link.a) && !board.is_done(link.c);
        if runs && from + link.y < board.clock() {
            set_done(&mut board, link.c, from + draw.edgy(link.x, link.y));
        }
    }
    board
}

/// A sound board, few of which any events lead to; one in four is finished.
pub fn sound(draw: &mut Draw, plan: &Plan) -> Board {
    let all = draw.one_in(4);
    let scale = draw.pick(&[1, 3, 20, 100, 5_000, BOUND - 40]);
    let often = 1 + draw.below(4);
    let mut board = Board::fresh();
    for point in (0..plan.points()).filter(|&point| !plan.watched(point)) {
        if all || !draw.one_in(often + 1) {
            set_done(&mut board, point, draw.edgy(0, scale));
        }
    }
    let ends: Vec<bool> = plan.links.iter().map(|_| all || draw.one_in(2)).collect();
    // A link that hangs on another comes after it.
    let links = plan.links.iter().zip(ends).cycle();
    for (link, ends) in links.take(plan.links.len().pow(2)) {
        if ends && board.is_done(link.a) && !board.is_done(link.c) {
            let minute = board.minute(link.a) + draw.edgy(link.x, link.y);
            set_done(&mut board, link.c, minute);
        }
    }
    let board = settled(draw, plan, board);
    numbered(draw, plan, board)
}

/// With event numbers that fit the minutes: at each minute an event for each foreman's point, in any order, and the watched
/// points in some of them or in events of their own. Where a link's start and end are at one minute, the end comes later.
fn numbered(draw: &mut Draw, plan: &Plan, mut board: Board) -> Board {
    let done: Vec<usize> = (0..PLACES).filter(|&point| board.is_done(point)).collect();
    let mut minutes: Vec<u32> = done.iter().map(|&point| board.minutes[point]).collect();
    minutes.sort_unstable();
    minutes.dedup();
    let mut all: Vec<Vec<usize>> = Vec::new();
    for minute in minutes {
        let now = done.iter().filter(|&&point| board.minutes[point] == minute);
        let now: Vec<usize> = now.copied().collect();
        let (watched, others): (Vec<usize>, Vec<usize>) =
            now.iter().partition(|&&point| plan.watched(point));
        let mut events: Vec<Vec<usize>> = others.into_iter().map(|point| vec![point]).collect();
        let mut last = Vec::new();
        for point in watched {
            if plan
                .link_to(point)
                .is_some_and(|link| now.contains(&link.a))
            {
                last.push(vec![point]);
            } else if events.is_empty() || draw.one_in(3) {
                events.push(vec![point]);
            } else {
                let place = draw.below(events.len());
                events[place].push(point);
            }
        }
        draw.shuffle(&mut events);
        all.extend(events);
        // What hangs on others comes after them.
        while !last.is_empty() {
            let free = |event: &Vec<usize>| {
                let link = plan.link_to(event[0]);
                !last
                    .iter()
                    .any(|other| link.is_some_and(|link| other[0] == link.a))
            };
            let next = last.iter().position(free).unwrap_or(0);
            all.push(last.remove(next));
        }
    }
    put_numbers(&mut board, &all);
    board
}

/// Numbers the events from 1, in this order; no other point has a number.
fn put_numbers(board: &mut Board, events: &[Vec<usize>]) {
    board.numbers = [0; PLACES];
    for (number, points) in (1..).zip(events) {
        for &point in points {
            board.numbers[point] = number;
        }
    }
}

/// The events of a sound board, in order: the points of each.
fn events_of(board: &Board) -> Vec<Vec<usize>> {
    let last = board.numbers.iter().max().copied().unwrap_or(0);
    let of = |number: u32| (0..PLACES).filter(move |&point| board.numbers[point] == number);
    (1..=last).map(|number| of(number).collect()).collect()
}

/// A jump of the clock ends a long run early.
fn calm(plan: &Plan) -> bool {
    plan.points() > 6
}

/// A board that events lead to.
fn reached(draw: &mut Draw, plan: &Plan) -> Board {
    let mut at = Board::fresh();
    for _ in 0..draw.below(plan.points() + 2) {
        let Some(event) = events::good(draw, plan, &at, calm(plan)) else {
            break;
        };
        at = event::take(plan, &at, &event).1;
    }
    at
}

/// One of the points that a test holds of.
fn some_point(draw: &mut Draw, test: impl Fn(usize) -> bool) -> Option<usize> {
    let all: Vec<usize> = (0..PLACES).filter(|&point| test(point)).collect();
    (!all.is_empty()).then(|| draw.pick(&all))
}

/// Moves a board to the edge of one clause of soundness, or one past it; says which. Most of them are numbered anew, so that
/// the numbers say nothing against it.
pub fn one_off(draw: &mut Draw, plan: &Plan, board: &mut Board) -> &'static str {
    if draw.one_in(4) {
        let off = draw.pick(&NUMBERS);
        numbers_off(draw, plan, board, off);
        return off;
    }
    let what = minutes_off(draw, plan, board);
    if !draw.one_in(5) {
        *board = numbered(draw, plan, *board);
    }
    what
}

/// The same of what document 01 says: clock, set and minutes.
fn minutes_off(draw: &mut Draw, plan: &Plan, board: &mut Board) -> &'static str {
    let was = *board;
    let links = plan.links.clone();
    let by = draw.below(2) as i64;
    let starts = |point: usize| links.iter().any(|link| link.a == point);
    match draw.below(10) {
        0 => {
            if let Some(point) = some_point(draw, |point| point >= plan.points()) {
                set_done(board, point, draw.edgy(0, was.clock()));
            }
            "a done point that is not in the plan"
        }
        1 => {
            if let Some(point) = some_point(draw, |point| !was.is_done(point)) {
                board.minutes[point] = draw.edgy(by, was.clock().max(1)) as u32;
            }
            "a minute of a point that is not done"
        }
        2 => {
            if let Some(point) = some_point(draw, |point| was.is_done(point)) {
                board.minutes[point] = (was.clock() + by) as u32;
            }
            "a minute at the clock or past it"
        }
        3 => {
            board.clock = match draw.below(3) {
                0 => was.clock.wrapping_sub(1),
                1 => was.clock + 1,
                _ => draw.pick(&[0, 1, u32::MAX, 1 << 31, 3_200_000]),
            };
            "another clock"
        }
        4 => {
            let ended = some_point(draw, |point| plan.watched(point) && was.is_done(point));
            if let Some(link) = ended.and_then(|c| plan.link_to(c)) {
                board.done &= !(1 << link.a);
                board.minutes[link.a] = 0;
                *board = clocked(*board);
            }
            "an end without its A"
        }
        5 => {
            let started = |link: &&Link| was.is_done(link.a);
            let started: Vec<_> = links.iter().filter(started).collect();
            if !started.is_empty() {
                let link = draw.pick(&started);
                let p = draw.pick(&[link.x - by, link.y + by]);
                set_done(board, link.c, was.minute(link.a) + p);
                *board = settled(draw, plan, *board);
            }
            "a duration at its bound or past it"
        }
        6 => {
            let runs = |link: &&Link| was.is_done(link.a) && !was.is_done(link.c);
            let runs: Vec<_> = links.iter().filter(runs).collect();
            let other = some_point(draw, |point| {
                point < plan.points() && !plan.watched(point) && !starts(point)
            });
            if let (false, Some(other)) = (runs.is_empty(), other) {
                let link = draw.pick(&runs);
                set_done(board, other, was.minute(link.a) + link.y + by);
                *board = clocked(*board);
            }
            "a running link that has just run out, or nearly"
        }
        7 => {
            // The farthest clock that so many done points may have, or one more.
            let other = some_point(draw, |point| point < plan.points() && !starts(point));
            if let Some(other) = other {
                board.done |= 1 << other;
                let most = BOUND * i64::from(board.count()) + by;
                set_done(board, other, most);
                *board = clocked(*board);
            }
            "the farthest clock, or past it"
        }
        8 => {
            let wild = [u32::MAX, 1 << 31, 3_200_001, draw.next() as u32];
            let value = draw.pick(&wild);
            match draw.below(4) {
                0 => board.clock = value,
                1 => board.done = value,
                2 => board.numbers[draw.below(PLACES)] = value,
                _ => board.minutes[draw.below(PLACES)] = value,
            }
            "a wild number"
        }
        _ => {
            board.done ^= 1 << draw.below(PLACES);
            "one point more or less done"
        }
    }
}

/// What may be wrong with the event numbers of a board, each by one thing; the last ones change nothing of its soundness.
pub const NUMBERS: [&str; 15] = [
    "a gap",
    "a gap within the count",
    "a number past 32",
    "2^32 - 1",
    "numbers from 0",
    "a number 0 of a done point",
    "a number of a point that is not done",
    "minutes that fall",
    "two minutes for one number",
    "two foreman's points of one number",
    "a start in the event of its end",
    "a start in a later event than its end",
    "two events at one minute the other way round",
    "an end in an event of its own",
    "as they were",
];

/// Changes the event numbers of a sound board like that, where it can.
fn numbers_off(draw: &mut Draw, plan: &Plan, board: &mut Board, off: &str) {
    let was = *board;
    let mut events = events_of(board);
    let last = events.len();
    let minute = |event: &Vec<usize>| was.minutes[event[0]];
    let foreman = |event: &Vec<usize>| event.iter().any(|&point| !plan.watched(point));
    // Two neighbouring events, of one minute or of two.
    let pairs = |same: bool| -> Vec<usize> {
        let all = 1..last.max(1);
        all.filter(|&k| (minute(&events[k - 1]) == minute(&events[k])) == same)
            .collect()
    };
    let ended = |link: &&Link| was.is_done(link.a) && was.is_done(link.c);
    let ended: Vec<&Link> = plan.links.iter().filter(ended).collect();
    match off {
        "a gap" | "a gap within the count" if last > 0 => {
            let from = draw.edgy(1, last as i64) as u32;
            for number in board.numbers.iter_mut().filter(|number| **number >= from) {
                *number += 1;
            }
        }
        "a number past 32" | "2^32 - 1" if last > 0 => {
            let past = match off {
                "2^32 - 1" => u32::MAX,
                _ => draw.pick(&[33, 34, 256 + last as u32, 65_536 + last as u32, 1 << 31]),
            };
            for &point in &events[last - 1] {
                board.numbers[point] = past;
            }
        }
        "numbers from 0" => {
            for number in &mut board.numbers {
                *number = number.saturating_sub(1);
            }
        }
        "a number 0 of a done point" => {
            if let Some(point) = some_point(draw, |point| was.is_done(point)) {
                board.numbers[point] = 0;
            }
        }
        "a number of a point that is not done" => {
            if let Some(point) = some_point(draw, |point| !was.is_done(point)) {
                let last = last as u32;
                board.numbers[point] = draw.pick(&[1, last.max(1), last + 1, 32, u32::MAX]);
            }
        }
        "minutes that fall" | "two events at one minute the other way round" => {
            let pairs = pairs(off != "minutes that fall");
            if !pairs.is_empty() {
                let k = draw.pick(&pairs);
                events.swap(k - 1, k);
                put_numbers(board, &events);
            }
        }
        "two minutes for one number" | "two foreman's points of one number" => {
            let foremen = off != "two minutes for one number";
            let mut pairs = pairs(foremen);
            pairs.retain(|&k| (foreman(&events[k - 1]) && foreman(&events[k])) == foremen);
            if !pairs.is_empty() {
                let k = draw.pick(&pairs);
                let more = events.remove(k);
                events[k - 1].extend(more);
                put_numbers(board, &events);
            }
        }
        "a start in the event of its end" | "a start in a later event than its end"
            if !ended.is_empty() =>
        {
            let link = draw.pick(&ended);
            for event in &mut events {
                event.retain(|&point| point != link.c);
            }
            events.retain(|event| !event.is_empty());
            let with_a = events.iter().position(|event| event.contains(&link.a));
            let start = with_a.unwrap_or(0);
            match off {
                "a start in the event of its end" => events[start].push(link.c),
                _ => events.insert(start, vec![link.c]),
            }
            put_numbers(board, &events);
        }
        "an end in an event of its own" => {
            let shared = |point: usize| {
                let with = |event: &&Vec<usize>| event.contains(&point) && event.len() > 1;
                plan.watched(point) && events.iter().any(|event| with(&event))
            };
            if let Some(point) = some_point(draw, shared) {
                let place = events.iter().position(|event| event.contains(&point));
                let place = place.unwrap_or(0);
                events[place].retain(|&other| other != point);
                let before = draw.below(2);
                events.insert(place + before, vec![point]);
                put_numbers(board, &events);
            }
        }
        _ => {}
    }
}

/// What has to be broken of such a board, if anything; more than one where one follows from the others.
fn meant(off: &str) -> &'static [Clause] {
    match off {
        "a gap" | "a gap within the count" | "a number past 32" | "2^32 - 1" => &[Clause::Gaps],
        "numbers from 0" => &[Clause::Number],
        "a number 0 of a done point" => &[Clause::Number],
        "a number of a point that is not done" => &[Clause::NoNumber],
        "minutes that fall" => &[Clause::Falling],
        "two minutes for one number" => &[Clause::OneMinute],
        "two foreman's points of one number" => &[Clause::OneForeman],
        "a start in the event of its end" => &[Clause::OneMinute, Clause::Earlier],
        "a start in a later event than its end" => &[Clause::Falling, Clause::Earlier],
        _ => &[],
    }
}

/// A sound board, and the same with its event numbers off like that and nothing else wrong, if that can be.
pub fn numbered_off(draw: &mut Draw, plan: &Plan, off: &str) -> Option<(Board, Board)> {
    let at = if draw.one_in(2) {
        reached(draw, plan)
    } else {
        sound(draw, plan)
    };
    let mut other = at;
    numbers_off(draw, plan, &mut other, off);
    let changed = other != at || meant(off).is_empty();
    // Points of one event leave room for a gap.
    let within = off == "a gap within the count";
    let past = within && other.numbers.iter().any(|number| *number > at.count());
    (changed && !past && board::broken(plan, &other) == meant(off)).then_some((at, other))
}

/// Boards with event numbers one clause off, nothing else being wrong with them, and boards on the other side of it.
fn event_numbers(draw: &mut Draw) -> Vec<Input> {
    let mut inputs = Vec::new();
    for off in NUMBERS {
        let mut requests = Requests::default();
        let within = off == "a gap within the count";
        for _ in 0..if within { 300 } else { 60 } {
            let plan = match draw.below(4) {
                0 if !within => Plan {
                    ponds: vec![0; 32],
                    ..Plan::default()
                },
                1 => plans::any_trucks(draw),
                _ => good_plan(draw),
            };
            let Some((at, other)) = numbered_off(draw, &plan, off) else {
                continue;
            };
            let event = event_for(draw, &plan, &at);
            requests.plan(&plan);
            requests.buffer(&event, RECORD, 0);
            requests.board(&other);
            for asked in [REPLY, VERDICT, JUDGE, TAKE, REPLY] {
                requests.call(asked);
            }
            requests.board(&other);
            requests.ask(STREAM, [0; 3], [3, 1, 0]);
            if draw.one_in(2) {
                break;
            }
        }
        inputs.push(Input {
            what: format!("event numbers: {off}"),
            bytes: requests.0,
        });
    }
    inputs
}

/// Asks everything about boards of one plan: sound ones, or with `off` boards at the edge of a clause of soundness or past it.
fn boards(draw: &mut Draw, off: bool) -> Vec<Input> {
    let plan = good_plan(draw);
    let mut inputs = Vec::new();
    for _ in 0..4 {
        let mut requests = Requests::default();
        let mut what = "boards".to_string();
        requests.plan(&plan);
        for _ in 0..6 {
            let mut at = if draw.one_in(2) {
                reached(draw, &plan)
            } else {
                sound(draw, &plan)
            };
            let event = event_for(draw, &plan, &at);
            if off {
                what = format!("{what}; {}", one_off(draw, &plan, &mut at));
            }
            requests.buffer(&event, RECORD, 0);
            requests.board(&at);
            requests.call(REPLY);
            requests.call(VERDICT);
            requests.call(TAKE);
            // The board handed back.
            requests.call(REPLY);
        }
        let bytes = requests.0;
        inputs.push(Input { what, bytes });
    }
    inputs
}

/// Points that are not open, on so many boards of a plan.
pub fn asked_for(draw: &mut Draw, plan: &Plan, boards: usize) -> Requests {
    let mut requests = Requests::default();
    requests.plan(plan);
    for _ in 0..boards {
        let at = match draw.below(3) {
            0 => Board::fresh(),
            1 => reached(draw, plan),
            _ => sound(draw, plan),
        };
        requests.board(&at);
        requests.call(REPLY);
        let events = events::not_open(draw, plan, &at);
        for event in events.iter().take(8) {
            requests.buffer(event, RECORD, 0);
            requests.call(TAKE);
        }
        let bytes = events.concat();
        requests.buffer(&bytes, bytes.len(), 0);
        let room = SAID * events.len();
        requests.ask(STREAM, [0; 3], [room as u32, 9, 0]);
    }
    requests
}

/// Points that are not open, asked for one by one and in a stream.
fn not_open(draw: &mut Draw) -> Vec<Input> {
    let mut inputs = Vec::new();
    for _ in 0..4 {
        let plan = match draw.below(3) {
            0 => good_plan(draw),
            _ => plans::barred(draw),
        };
        let requests = asked_for(draw, &plan, 5);
        inputs.push(Input {
            what: "points that are not open".to_string(),
            bytes: requests.0,
        });
    }
    inputs
}

/// An event that fits the board, or nearly.
fn event_for(draw: &mut Draw, plan: &Plan, at: &Board) -> events::Record {
    let sound = oracle::board::sound(plan, at);
    let good = if sound {
        events::good(draw, plan, at, calm(plan))
    } else {
        None
    };
    match good {
        Some(good) if draw.one_in(2) => good,
        Some(good) => events::spoiled(draw, plan, at, good),
        None => events::noise(draw, plan, at),
    }
}

/// Plans by value that no file could hold, most of them: a count past the room or another, records spoiled, records past
/// the count.
fn any_plans(draw: &mut Draw) -> Vec<Input> {
    let mut inputs = Vec::new();
    for _ in 0..8 {
        let plan = good_plan(draw);
        let part = spoiled_file(draw, &plan);
        let mut records: Vec<RawRecord> = part.chunks(RECORD).map(raw).collect();
        let mut count = records.len() as u32;
        match draw.below(6) {
            0 => count = draw.pick(&[0, 361, PAST, PAST + 1, 1 << 31, u32::MAX]),
            1 => count = draw.below(ROOM + 2) as u32,
            // Records past the count stand for nothing.
            2 => records.extend(part.chunks(RECORD).rev().map(raw)),
            _ => {}
        }
        records.truncate(ROOM);
        let mut requests = Requests::default();
        requests.records(count, &records);
        let at = sound(draw, &plan);
        let event = event_for(draw, &plan, &at);
        requests.buffer(&event, RECORD, 0);
        requests.board(&at);
        // The check comes first: what is counted of a list's verdict is then known to be the plan's own.
        for asked in [CHECK, REPLY, VERDICT, JUDGE, TAKE] {
            requests.call(asked);
        }
        requests.ask(STREAM, [0; 3], [draw.below(9) as u32, 1, 0]);
        let length = draw.pick(&[0, 16 * records.len(), 16 * ROOM]);
        let fill = draw.byte();
        requests.buffer(&[], length, fill);
        requests.call(WRITE);
        if cheap(&plan) {
            requests.call(TEST);
        }
        inputs.push(Input {
            what: "a plan by value".to_string(),
            bytes: requests.0,
        });
    }
    inputs
}

/// A record as it stands in a file.
pub fn raw(bytes: &[u8]) -> RawRecord {
    let number = |at: usize| u32::from_le_bytes([0, 1, 2, 3].map(|place| bytes[at + place]));
    RawRecord {
        kind: bytes[0],
        a: bytes[1],
        b: bytes[2],
        first: number(4) as i32,
        second: number(8) as i32,
        code: number(12),
    }
}

/// Does its test go fast?
fn cheap(plan: &Plan) -> bool {
    let steps = plan.points().pow(2) * plan.records();
    plan_test::projections(plan).is_none_or(|count| count as usize * steps < 20_000_000)
}

/// Writing into buffers of any length and content.
fn buffers(draw: &mut Draw) -> Vec<Input> {
    let plan = good_plan(draw);
    let mut requests = Requests::default();
    requests.plan(&plan);
    let exact = RECORD * plan.records();
    for length in [exact, exact - 1, exact + 1, 0, exact + 1_000] {
        let fill = draw.byte();
        requests.buffer(&[], length, fill);
        requests.call(WRITE);
        // What was written is read back; what was not is read too.
        requests.call(READ);
    }
    if cheap(&plan) {
        requests.call(TEST);
    }
    vec![Input {
        what: "writing into buffers".to_string(),
        bytes: requests.0,
    }]
}

/// The plan test on plans that pass, and on near-misses, some of which fail only inside their bounds.
fn tests(draw: &mut Draw) -> Vec<Input> {
    let mut requests = Requests::default();
    for _ in 0..3 {
        if draw.one_in(4) {
            let mut sizes = Sizes::small(draw);
            sizes.points += 4;
            requests.plan(&plans::layered(draw, sizes, true));
            requests.call(TEST);
        }
        let mut plan = match draw.below(5) {
            0 => plans::haul(draw),
            1 => plans::passing(draw),
            2 => plans::any_trucks(draw),
            3 => plans::any_ringed(draw),
            _ => plans::passing_larger(draw),
        };
        for _ in 0..6 {
            requests.plan(&plan);
            requests.call(TEST);
            plans::near_miss(draw, &mut plan);
        }
    }
    vec![Input {
        what: "plan tests".to_string(),
        bytes: requests.0,
    }]
}

/// Events of any length.
fn events_of_any_length(draw: &mut Draw) -> Vec<Input> {
    let plan = good_plan(draw);
    let mut requests = Requests::default();
    requests.plan(&plan);
    let at = reached(draw, &plan);
    for length in [0, 1, 4, 8, 15, 16, 17, 31, 32, 65_536] {
        let event = event_for(draw, &plan, &at);
        let fill = draw.pick(&[0, 0, 255]);
        requests.board(&at);
        requests.buffer(&event, length, fill);
        requests.call(TAKE);
    }
    requests.call(draw.pick(&[9, 15, 25, 255]));
    vec![Input {
        what: "events of any length".to_string(),
        bytes: requests.0,
    }]
}

/// One of a list's bounds: two points and how much later the second may come.
type Bound = (u8, u8, i32);

/// A sound board on which all is done.
pub fn finished(draw: &mut Draw, plan: &Plan) -> Board {
    loop {
        let at = sound(draw, plan);
        if at.count() as usize == plan.points() {
            return at;
        }
    }
}

/// A bound that is kept on a finished board, just so, by far, or as far as a number goes.
fn kept_bound(draw: &mut Draw, plan: &Plan, at: &Board) -> Bound {
    let [from, to] = [0; 2].map(|_| draw.below(plan.points()));
    let gap = (at.minute(to) - at.minute(from)) as i32;
    let bound = match draw.below(4) {
        0 | 1 => gap,
        2 => gap + draw.between(0, 100_000) as i32,
        _ => i32::MAX,
    };
    (from as u8, to as u8, bound)
}

/// A bound that is broken, by one, by far, or as far as a number goes.
fn broken_bound(draw: &mut Draw, plan: &Plan, at: &Board) -> Bound {
    let [from, to] = [0; 2].map(|_| draw.below(plan.points()));
    let gap = (at.minute(to) - at.minute(from)) as i32;
    let bound = match draw.below(4) {
        0 | 1 => gap - 1,
        2 => gap - 1 - draw.between(0, 100_000) as i32,
        _ => i32::MIN,
    };
    (from as u8, to as u8, bound)
}

/// A bound with a point that is not in the plan; it may be kept or broken otherwise.
fn unnamed_bound(draw: &mut Draw, plan: &Plan) -> Bound {
    let past = plan.points() as u8;
    let wrong = draw.pick(&[past, past, past.max(31), 32, 33, 254, 255]);
    let right = draw.below(plan.points()) as u8;
    let any = draw.next() as i32;
    let bound = draw.pick(&[0, -1, i32::MIN, i32::MAX, any]);
    match draw.below(4) {
        0 => (wrong, wrong, bound),
        1 => (right, wrong, bound),
        _ => (wrong, right, bound),
    }
}

/// A list: kept, or with broken bounds, bounds that name no point of the plan, or both,
/// most of them near an end or at the end of the room for a list.
fn list(draw: &mut Draw, plan: &Plan, at: &Board) -> Vec<Bound> {
    let long = draw.one_in(12);
    let length = match draw.below(8) {
        0 => 0,
        1 => 1,
        _ if long => draw.pick(&[LIST - 1, LIST, LIST + 1, 2 * LIST]),
        _ => draw.below(20),
    };
    let mut bounds: Vec<Bound> = (0..length).map(|_| kept_bound(draw, plan, at)).collect();
    let place = |draw: &mut Draw| match draw.below(3) {
        0 => draw.below(length),
        1 => length.min(LIST + 1) - 1 - draw.below(length.min(2)),
        _ => draw.below(length.min(3)),
    };
    let spoiled = if length == 0 { 0 } else { draw.below(4) };
    for _ in 0..spoiled {
        let place = place(draw);
        bounds[place] = if draw.one_in(3) {
            unnamed_bound(draw, plan)
        } else {
            broken_bound(draw, plan, at)
        };
    }
    bounds
}

/// Lent lists, judged on finished boards most of all.
fn lists(draw: &mut Draw) -> Vec<Input> {
    let mut inputs = Vec::new();
    for _ in 0..4 {
        let mut plan = good_plan(draw);
        while links::ringed(&plan) {
            // Nothing finishes a ring.
            plan = good_plan(draw);
        }
        let mut requests = Requests::default();
        requests.plan(&plan);
        for _ in 0..6 {
            let mut at = finished(draw, &plan);
            let bounds = list(draw, &plan, &at);
            if draw.one_in(6) {
                one_off(draw, &plan, &mut at);
            }
            let mut bytes = Vec::new();
            for &(from, to, bound) in &bounds {
                // The two bytes between count for nothing.
                bytes.extend([from, to, draw.byte(), draw.byte()]);
                bytes.extend(bound.to_le_bytes());
            }
            // Some more bytes are no bound.
            let counts = bytes.len() + draw.pick(&[0, 0, 1, 7]);
            requests.board(&at);
            let fill = draw.pick(&[0, 255]);
            requests.buffer(&bytes, counts, fill);
            requests.call(JUDGE);
            if draw.one_in(8) {
                let count = draw.pick(&[0, 361, PAST, u32::MAX]);
                requests.ask(1, [0; 3], [count, 0, 0]);
                requests.call(JUDGE);
                requests.plan(&plan);
            }
        }
        inputs.push(Input {
            what: "lent lists".to_string(),
            bytes: requests.0,
        });
    }
    inputs
}

/// A stream: good runs with refused events between, or one after another; at times far more events than points.
fn stream(draw: &mut Draw, plan: &Plan, at: &Board) -> Vec<u8> {
    let mut at = *at;
    let mut bytes = Vec::new();
    let many = if draw.one_in(10) { 600 } else { 24 };
    for _ in 0..draw.below(many) {
        let event = event_for(draw, plan, &at);
        at = event::take(plan, &at, &event).1;
        bytes.extend(event);
    }
    bytes
}

/// Streams of events, with rooms that are too short, just right or larger, and last events that are not whole.
fn streams(draw: &mut Draw) -> Vec<Input> {
    let mut inputs = Vec::new();
    for _ in 0..4 {
        let plan = good_plan(draw);
        let mut requests = Requests::default();
        requests.plan(&plan);
        for _ in 0..4 {
            let mut at = match draw.below(3) {
                0 => sound(draw, &plan),
                1 => reached(draw, &plan),
                _ => Board::fresh(),
            };
            let bytes = stream(draw, &plan, &at);
            if draw.one_in(6) {
                one_off(draw, &plan, &mut at);
            }
            let counts = match draw.below(4) {
                0 => bytes.len().saturating_sub(1 + draw.below(RECORD)),
                1 => bytes.len() + 1 + draw.below(RECORD),
                _ => bytes.len(),
            };
            requests.board(&at);
            let fill = draw.pick(&[0, 255]);
            requests.buffer(&bytes, counts, fill);
            let exact = SAID * (counts / RECORD);
            let room = match draw.below(8) {
                0 => draw.below(exact + 1),
                1 => exact.saturating_sub(1),
                2 => exact + 1 + draw.below(SAID),
                3 => draw.pick(&[0, 1, 3, 4, 5, STREAM_ROOM, STREAM_ROOM + 1]),
                _ => exact,
            };
            let held = draw.pick(&[0, 7, u32::MAX]);
            requests.ask(STREAM, [0; 3], [room as u32, held, 0]);
            // The board handed back.
            requests.call(REPLY);
        }
        inputs.push(Input {
            what: "streams".to_string(),
            bytes: requests.0,
        });
    }
    inputs
}

/// The streams of the printing programs' inputs, which run on the engine that keeps counts, for the plain engine too: each of an
/// accepted plan, from the fresh board, as far as the room goes; and how many they are. Not more than so many bytes of them.
pub fn again(inputs: &[Input]) -> (Option<Input>, u64) {
    const MOST: usize = 300_000;
    let mut requests = Requests::default();
    let mut streams = 0;
    for input in inputs {
        let Some((plan, events)) = corners::parts(&input.bytes) else {
            continue;
        };
        let length = events.len().min(STREAM_ROOM / SAID * RECORD);
        if events.is_empty() || requests.0.len() + plan.records() * RECORD + 2 * length > MOST {
            continue;
        }
        requests.plan(&plan);
        requests.board(&Board::fresh());
        requests.buffer(&events[..length], length, 0);
        let room = SAID * (length / RECORD);
        requests.ask(STREAM, [0; 3], [room as u32, 0, 0]);
        requests.call(REPLY);
        streams += 1;
    }
    let input = (streams > 0).then(|| Input {
        what: "the printing programs' streams".to_string(),
        bytes: requests.0,
    });
    (input, streams)
}

/// Adds points or ordinary records, or doubles a wait, until there is one too many.
fn one_too_many(draw: &mut Draw, part: &mut Vec<u8>) {
    let kind = draw.pick(&[1, 3, 4]);
    let mut records: Vec<Vec<u8>> = part.chunks(RECORD).map(<[u8]>::to_vec).collect();
    let count = records.iter().filter(|record| record[0] == kind).count();
    let points = records.iter().filter(|record| record[0] == 1).count() as u8;
    let most = [0, 32, 8, FULL.ordinary, 64][usize::from(kind)];
    // Pairs that no ordinary record has: where they run out, one too many is a twin.
    let pairs = (0..points).flat_map(|x| (0..points).map(move |y| [x, y]));
    let free = |pair: &[u8; 2]| {
        let taken = |record: &Vec<u8>| record[0] == 3 && record[1..3] == *pair;
        pair[0] != pair[1] && !records.iter().any(taken)
    };
    let free: Vec<[u8; 2]> = pairs.filter(free).collect();
    if let Some(last) = records.iter().rposition(|record| record[0] == kind) {
        for k in count..=most {
            let mut more = records[last].clone();
            match free.get(k - count) {
                Some(pair) if kind == 3 => more[1..3].copy_from_slice(pair),
                _ if kind == 1 => more[1] = k as u8,
                _ => {}
            }
            records.insert(last + 1 + k - count, more);
        }
    }
    *part = records.concat();
}

/// A plan's file, as it is or damaged.
fn spoiled_file(draw: &mut Draw, plan: &Plan) -> Vec<u8> {
    let mut part = plan.to_bytes();
    if draw.one_in(6) {
        one_too_many(draw, &mut part);
        return part;
    }
    if draw.one_in(6) {
        damage::second_end(draw, &mut part);
        return part;
    }
    for _ in 0..draw.below(3) {
        damage::aim(draw, &mut part);
    }
    if draw.one_in(3) {
        damage::move_records(draw, &mut part);
    }
    part
}

/// Files of any content.
fn files(draw: &mut Draw) -> Vec<Input> {
    let plan = good_plan(draw);
    let mut requests = Requests::default();
    for _ in 0..12 {
        let part = spoiled_file(draw, &plan);
        let length = match draw.below(4) {
            0 => draw.below(part.len() + 40),
            1 => draw.pick(&[0, 1, 16 * ROOM, 16 * (ROOM + 1)]),
            _ => part.len(),
        };
        let fill = draw.pick(&[0, 1, 3, 4]);
        requests.buffer(&part, length, fill);
        requests.call(READ);
    }
    vec![Input {
        what: "files".to_string(),
        bytes: requests.0,
    }]
}
