//! Rooms of any content for the engine that keeps counts, events of any bytes for them, what came up, and where two answers
//! differ. What is read and written is in ROOMS.md.

use crate::draw::Draw;
use crate::events::{self, Style};
use crate::plans::{self, Sizes};
use oracle::plan::{Plan, ROOM as RECORDS};
use oracle::rooms::{
    self, event_minute, event_point, AsStated, Equation, Rooms, Row, BUCKETS, BYTES, CALLS, CLOCK,
    COUNTS, DONE, HIGHS, KEPT, LAST, LINKS, LIST, LOWS, MINUTES, NEVER, NO_POINT, POINTS, RUNS,
    SHEET, TOLD, WIDTH,
};
use std::cell::RefCell;
use std::collections::BTreeMap;

/// Rooms, a plan file to begin from (none where it is empty), and events.
#[derive(Clone)]
pub struct Case {
    /// How the rooms were made.
    pub what: &'static str,
    pub rooms: Rooms,
    pub file: Vec<u8>,
    pub events: Vec<Vec<u8>>,
}

fn size(bytes: &mut Vec<u8>, size: usize) {
    let size = u16::try_from(size).expect("sizes are of 16 bits");
    bytes.extend(size.to_le_bytes());
}

impl Case {
    /// As the programs read it. Zeros at the end of the rooms are left out.
    pub fn bytes(&self) -> Vec<u8> {
        let mut rooms = self.rooms.to_bytes();
        let used = rooms.iter().rposition(|&byte| byte != 0);
        rooms.truncate(used.map_or(0, |last| last + 1));
        let mut bytes = Vec::new();
        size(&mut bytes, self.events.len());
        size(&mut bytes, self.file.len());
        size(&mut bytes, rooms.len());
        bytes.extend(rooms);
        bytes.extend(&self.file);
        for event in &self.events {
            size(&mut bytes, event.len());
            bytes.extend(event);
        }
        bytes
    }

    /// How many bytes are answered.
    pub fn answered(&self) -> usize {
        let begun = if self.file.is_empty() { 0 } else { 8 + BYTES };
        begun + 8 * TOLD + self.events.len() * EVENT
    }
}

/// How many bytes are answered of an event: its number and the record, the room, the reply and the board.
const EVENT: usize = 8 + 4 * KEPT + 8 * TOLD;

// ---- numbers

/// A number of any size up to so many bits: half of the time at the edge of its size.
fn any(draw: &mut Draw, bits: usize) -> u64 {
    let size = draw.below(bits + 1);
    if size == 0 {
        return 0;
    }
    let most = u64::MAX >> (64 - size);
    match draw.below(4) {
        0 => most,
        1 => most / 2 + 1,
        _ => draw.next() & most,
    }
}

/// What a number may be changed to, near the limits of something, or near what it was.
fn other(draw: &mut Draw, old: u64, bits: usize) -> u64 {
    let most = u64::MAX >> (64 - bits);
    let edge = draw.pick(&[0, 1, 2, 3, 4, 5, 31, 32, 33, 255, 256, 1_127, 1_128, 1_129]);
    let far = draw.pick(&[99_999, 100_000, 100_001, 200_000, 1 << 31, most, most - 1]);
    let number = match draw.below(8) {
        0 | 1 => edge,
        2 => far,
        3 => old.wrapping_add(1),
        4 => old.wrapping_sub(1),
        5 => old.wrapping_add(32 << (draw.below(28) as u32)),
        6 => most - draw.below(200_001) as u64 % most,
        _ => any(draw, bits),
    };
    number & most
}

// ---- rooms

/// A plan of any form.
fn plan(draw: &mut Draw) -> Plan {
    match draw.below(9) {
        0 => plans::haul(draw),
        1 => plans::any_trucks(draw),
        2 => plans::held(draw),
        3 => plans::stuck(draw),
        4 => plans::chain(draw),
        5 => plans::barred(draw),
        6 => plans::any_ringed(draw),
        7 => {
            let sizes = Sizes::small(draw);
            plans::roomy(draw, sizes)
        }
        _ => {
            let sizes = Sizes::any(draw);
            plans::roomy(draw, sizes)
        }
    }
}

fn begun(draw: &mut Draw) -> Rooms {
    let plan = plan(draw);
    AsStated.filled(&plan)
}

/// Some events of a day are taken.
fn played(draw: &mut Draw, rooms: &mut Rooms) {
    let most = draw.pick(&[0, 1, 2, 4, 8, 16]);
    for _ in 0..draw.below(most + 1) {
        let event = aimed(draw, rooms);
        AsStated.take(rooms, &event);
    }
}

fn mid_day(draw: &mut Draw) -> Rooms {
    let mut rooms = begun(draw);
    played(draw, &mut rooms);
    rooms
}

fn zeros(_: &mut Draw) -> Rooms {
    Rooms::zeros()
}

fn ones(_: &mut Draw) -> Rooms {
    Rooms::from_bytes(&[255; BYTES])
}

fn noise(draw: &mut Draw) -> Rooms {
    let mut rooms = Rooms::zeros();
    let words = draw.pick(&[8, 17, 20, 32]);
    for place in rooms.links.iter_mut().chain(&mut rooms.kept) {
        *place = any(draw, words) as u32;
    }
    let lists = [&mut rooms.into, &mut rooms.out, &mut rooms.ends];
    for place in lists.into_iter().flatten() {
        *place = any(draw, 16) as u16;
    }
    let longs = draw.pick(&[3, 8, 20, 32]);
    for place in &mut rooms.rows {
        *place = any(draw, longs) as u32;
    }
    rooms
}

/// How many rows are used: up to the last that has a kind.
fn used(rooms: &Rooms) -> usize {
    let kinds = rooms.rows.chunks(WIDTH).rposition(|row| row[0] != 0);
    kinds.map_or(1, |last| last + 1)
}

/// One number changed, most often one that something reads.
fn change(draw: &mut Draw, rooms: &mut Rooms) {
    let rows = used(rooms);
    match draw.below(8) {
        0..3 => {
            let place = &mut rooms.kept[draw.below(KEPT)];
            *place = other(draw, u64::from(*place), 32) as u32;
        }
        3 => {
            let place = &mut rooms.links[draw.below(LINKS)];
            *place = other(draw, u64::from(*place), 32) as u32;
        }
        4 => {
            let place = &mut rooms.links[draw.below(2)];
            *place = other(draw, u64::from(*place), 32) as u32;
        }
        5 => {
            let lists = [&mut rooms.into, &mut rooms.out, &mut rooms.ends];
            let [into, out, ends] = lists;
            let list = [into, out, ends].into_iter().nth(draw.below(3));
            let place = &mut list.expect("one of three")[draw.below(BUCKETS + rows)];
            *place = other(draw, u64::from(*place), 16) as u16;
        }
        _ => {
            let place = &mut rooms.rows[draw.below(WIDTH * rows)];
            *place = other(draw, u64::from(*place), 32) as u32;
        }
    }
}

fn one_changed(draw: &mut Draw) -> Rooms {
    let mut rooms = mid_day(draw);
    change(draw, &mut rooms);
    rooms
}

fn some_changed(draw: &mut Draw) -> Rooms {
    let mut rooms = mid_day(draw);
    for _ in 0..2 + draw.below(12) {
        change(draw, &mut rooms);
    }
    rooms
}

/// A walk that comes back to where it was: one of a point that may be done next.
fn ring(draw: &mut Draw) -> Rooms {
    let mut rooms = mid_day(draw);
    let open = AsStated.windows(&rooms).opens;
    let runs = |&point: &usize| AsStated.ends_running(&rooms, point);
    let running: Vec<usize> = (0..POINTS).filter(runs).collect();
    let at_ends = draw.one_in(3) && !running.is_empty();
    let points = if at_ends { running } else { open };
    let key = if points.is_empty() || draw.one_in(4) {
        draw.below(POINTS)
    } else {
        draw.pick(&points)
    };
    let list = match draw.below(2) {
        _ if at_ends => &mut rooms.ends,
        0 => &mut rooms.into,
        _ => &mut rooms.out,
    };
    let mut met = AsStated.entries(list, key as u64);
    if met.is_empty() {
        met = vec![draw.below(RECORDS)];
        list[key] = met[0] as u16;
    }
    let from = draw.pick(&met);
    list[BUCKETS + from] = match draw.below(2) {
        0 => from as u16,
        _ => draw.pick(&met) as u16,
    };
    if draw.one_in(3) {
        rooms.kept[COUNTS + key] = 1 + draw.below(3) as u32;
    }
    // Counts so high that they tell how many entries a walk has read.
    for entry in met {
        let held = AsStated.held(&AsStated.row(&rooms.rows, entry));
        if held != key && draw.one_in(2) {
            rooms.kept[COUNTS + held] = (RECORDS - 2 + draw.below(5)) as u32;
        }
    }
    rooms
}

/// Every walk goes on and on; counts of shut points are so high that they tell how many entries a walk has read.
fn rings(draw: &mut Draw) -> Rooms {
    let mut rooms = mid_day(draw);
    let all = used(&rooms);
    let within = draw.pick(&[2, all, all, all, RECORDS]);
    let opens = AsStated.windows(&rooms).opens;
    for point in (0..POINTS).filter(|point| !opens.contains(point)) {
        rooms.kept[COUNTS + point] = (RECORDS + draw.below(3)) as u32;
    }
    let list = match draw.below(3) {
        0 => &mut rooms.into,
        1 => &mut rooms.out,
        _ => &mut rooms.ends,
    };
    for place in list.iter_mut() {
        *place = draw.below(within) as u16;
    }
    rooms
}

/// Links that no plan has: points past the 31st, any that are watched, any number of points.
fn links(draw: &mut Draw) -> Rooms {
    let mut rooms = mid_day(draw);
    let points = draw.pick(&[0, 1, 5, 31, 32, 33, 64, 100, 254, 255, 256, 65_536, NEVER]);
    if draw.one_in(2) {
        rooms.links[0] = points;
    }
    if draw.one_in(2) {
        rooms.links[1] = draw.next() as u32 & draw.next() as u32;
    }
    if draw.one_in(3) {
        // Nothing open, and drives that take longer than a plan's can.
        for point in AsStated.windows(&rooms).opens {
            rooms.kept[COUNTS + point] = 1;
        }
        for end in rooms.links[2..].chunks_mut(3) {
            end[2] = 50_000 + draw.below(200_000) as u32;
        }
        return rooms;
    }
    for end in rooms.links[2..].chunks_mut(3) {
        if draw.one_in(3) {
            let past = draw.pick(&[32, 33, 63, 64, 128, 255, 256, 257, 1 << 31, NEVER]);
            let wide = 256 * draw.below(4) as u32 + draw.below(POINTS) as u32;
            end[0] = draw.pick(&[past, wide, wide]);
        }
        if draw.one_in(4) {
            end[1] = other(draw, u64::from(end[1]), 32) as u32;
        }
        if draw.one_in(4) {
            end[2] = other(draw, u64::from(end[2]), 32) as u32;
        }
    }
    rooms
}

/// Late in a day that no plan has: minutes near the largest number.
fn late(draw: &mut Draw) -> Rooms {
    let mut rooms = mid_day(draw);
    let back = draw.pick(&[0, 1, 10, 99_999, 100_000, 100_001, 300_000]);
    let far = |draw: &mut Draw| NEVER - draw.below(back + 1) as u32;
    rooms.kept[CLOCK] = far(draw);
    for point in 0..POINTS {
        if draw.one_in(2) {
            rooms.kept[MINUTES + point] = far(draw);
        }
        if draw.one_in(4) {
            rooms.kept[LOWS + point] = far(draw);
        }
        if draw.one_in(4) {
            rooms.kept[RUNS + point] = far(draw);
        }
        if draw.one_in(3) {
            rooms.kept[HIGHS + point] = far(draw);
        }
    }
    if draw.one_in(2) {
        rooms.kept[LAST] = NEVER - draw.below(3) as u32;
    }
    rooms
}

/// A day as it stands, but near the largest minutes; some rows go up and down.
fn shifted(draw: &mut Draw) -> Rooms {
    let mut rooms = mid_day(draw);
    // Past 100,000 before the largest every board with an open point is stuck.
    let back = draw.pick(&[0, 10, 99_999, 100_000, 100_001, 100_010, 100_100, 101_000]);
    let by = NEVER - rooms.clock() - back;
    for part in [LOWS, RUNS, HIGHS, MINUTES] {
        for place in &mut rooms.kept[part..part + POINTS] {
            *place = place.saturating_add(by);
        }
    }
    rooms.kept[CLOCK] += by;
    rooms.kept[LAST] = NEVER - draw.below(4) as u32;
    for row in rooms.rows.chunks_mut(WIDTH) {
        if row[0] == 3 && draw.one_in(2) {
            row[3] += any(draw, 20) as u32;
            row[4] += any(draw, 20) as u32;
        }
    }
    rooms
}

/// Rows that no plan has: numbers past 31 bits, points that are the plan's only modulo 32, kinds that are none.
fn wide_rows(draw: &mut Draw) -> Rooms {
    let mut rooms = mid_day(draw);
    let rows = used(&rooms);
    let times = draw.pick(&[2, 4, 12]);
    for row in rooms.rows.chunks_mut(WIDTH).take(rows) {
        if !draw.one_in(times) {
            continue;
        }
        let field = draw.below(WIDTH);
        row[field] = match (field, draw.below(4)) {
            (_, 0) => other(draw, u64::from(row[field]), 32) as u32,
            (0, _) => draw.pick(&[0, 1, 2, 3, 3, 4, 4, 5, 259, 260, 1 << 31, (1 << 31) + 3]),
            (3 | 4, _) => row[field].wrapping_add((draw.below(3) as u32 + 1) << draw.pick(&[28, 30, 31])),
            _ => row[field].wrapping_add(32 << draw.pick(&[0, 3, 11, 20, 26])),
        };
    }
    rooms
}

/// Small numbers everywhere, so that everything meets everything: rows of any points, lists of any rows.
fn small(draw: &mut Draw) -> Rooms {
    let mut rooms = Rooms::zeros();
    let points = 1 + draw.below(40);
    rooms.links[0] = points as u32;
    let fewer = draw.pick(&[0, u32::MAX]);
    rooms.links[1] = draw.next() as u32 & (draw.next() as u32 | fewer);
    for end in rooms.links[2..].chunks_mut(3) {
        end[0] = draw.below(36) as u32;
        end[1] = draw.below(6) as u32;
        end[2] = end[1] + 4 + draw.below(30) as u32;
    }
    for point in 0..POINTS {
        rooms.kept[COUNTS + point] = draw.below(8).saturating_sub(5) as u32;
        rooms.kept[LOWS + point] = draw.below(12) as u32;
        rooms.kept[RUNS + point] = draw.below(12) as u32;
        let high = 100_020 + draw.below(20) as u32;
        rooms.kept[HIGHS + point] = draw.pick(&[NEVER, high]);
        rooms.kept[MINUTES + point] = draw.below(12) as u32;
        rooms.kept[CALLS + point] = draw.below(9) as u32;
    }
    rooms.kept[CLOCK] = draw.below(14) as u32;
    rooms.kept[DONE] = draw.next() as u32 & (draw.next() as u32 | fewer);
    rooms.kept[LAST] = draw.below(9) as u32;
    let rows = draw.pick(&[3, 20, 200, RECORDS]);
    for list in [&mut rooms.into, &mut rooms.out, &mut rooms.ends] {
        let ends = draw.pick(&[2, 2, 8, 8, 60]);
        for place in list.iter_mut() {
            let on = draw.below(rows) as u16;
            *place = if draw.one_in(ends) {
                RECORDS as u16
            } else {
                on
            };
        }
    }
    for row in rooms.rows.chunks_mut(WIDTH).take(rows) {
        let numbers = [6, 36, 36, 9, 9, 36].map(|end| draw.below(end) as u32);
        row.copy_from_slice(&numbers);
    }
    rooms
}

/// How rooms are made.
type Made = (&'static str, fn(&mut Draw) -> Rooms);

const MADE: [Made; 13] = [
    ("zeros", zeros),
    ("ones", ones),
    ("numbers of any size", noise),
    ("a day as it stands", mid_day),
    ("one number changed", one_changed),
    ("some numbers changed", some_changed),
    ("a ring in a list", ring),
    ("a list that never ends", rings),
    ("links that no plan has", links),
    ("minutes near the largest", late),
    ("a day near the largest minutes", shifted),
    ("rows that no plan has", wide_rows),
    ("small numbers", small),
];

// ---- events

/// An event that may be taken: at a minute that matters, a point that is open then, and ends of links that are due.
pub fn aimed(draw: &mut Draw, rooms: &Rooms) -> Vec<u8> {
    let windows = AsStated.windows(rooms);
    let latest = AsStated.latest(rooms, &windows);
    let runs = |&point: &usize| AsStated.ends_running(rooms, point);
    let running: Vec<usize> = (0..POINTS).filter(runs).collect();
    let mut minutes = vec![rooms.clock(), latest, latest.max(rooms.clock())];
    let mut runs_out = NEVER;
    minutes.extend(windows.opens.iter().map(|&point| windows.lows[point]));
    for &point in &running {
        let end = AsStated.end(&rooms.links, point);
        let start = AsStated.start_of(rooms, point);
        let at = |after: u32| (start + u64::from(after)).min(u64::from(NEVER)) as u32;
        minutes.extend([at(end.shortest), at(end.longest)]);
        runs_out = runs_out.min(at(end.longest));
    }
    let (one, two) = (draw.pick(&minutes), draw.pick(&minutes));
    let minute = match draw.below(3) {
        0 => draw.between(i64::from(one), i64::from(two)) as u32,
        1 => one.max(rooms.clock()),
        _ => one.min(runs_out).max(rooms.clock()),
    };
    let due = |point: usize| !AsStated.not_late(rooms, minute, 0, point);
    let mut set = 0;
    for &point in &running {
        if AsStated.timely(rooms, minute, point) && (due(point) || draw.one_in(2)) {
            set |= 1 << point;
        }
    }
    let opens = windows.opens.iter().copied();
    let ready: Vec<usize> = opens.filter(|&q| windows.lows[q] <= minute).collect();
    let point = if ready.is_empty() || set != 0 && draw.one_in(3) {
        NO_POINT
    } else {
        draw.pick(&ready)
    };
    events::record(minute, point as u8, set).to_vec()
}

/// The event with something wrong, or just not.
fn spoiled(draw: &mut Draw, mut event: Vec<u8>) -> Vec<u8> {
    let minute = event_minute(&event);
    let put = |event: &mut Vec<u8>, at: usize, number: u32| {
        event[at..at + 4].copy_from_slice(&number.to_le_bytes());
    };
    match draw.below(9) {
        0 => put(&mut event, 0, minute.wrapping_add(1)),
        1 => put(&mut event, 0, minute.wrapping_sub(1)),
        2 => {
            let number = other(draw, u64::from(minute), 32) as u32;
            put(&mut event, 0, number);
        }
        3 => event[4] = draw.below(POINTS) as u8,
        4 => event[4] = draw.pick(&[31, 32, 33, 63, 64, 127, 254, 255]),
        5 => event[8 + draw.below(4)] ^= 1 << draw.below(8),
        6 => event[draw.pick(&[5, 6, 7, 12, 13, 14, 15])] = draw.byte(),
        7 => event.truncate(draw.below(16)),
        _ => event.extend((0..1 + draw.below(20)).map(|_| draw.pick(&[0, 0, 255]))),
    }
    event
}

/// An open point before its Low, or past the latest, also both.
fn untimely(draw: &mut Draw, rooms: &Rooms) -> Vec<u8> {
    let windows = AsStated.windows(rooms);
    let mut event = aimed(draw, rooms);
    if windows.opens.is_empty() {
        return event;
    }
    let point = draw.pick(&windows.opens);
    let latest = i64::from(AsStated.latest(rooms, &windows));
    let low = i64::from(windows.lows[point]);
    let minute = match draw.below(3) {
        0 => low - 1,
        1 => latest + 1,
        _ => draw.between(latest + 1, low - 1),
    };
    let minute = minute.clamp(0, i64::from(NEVER)) as u32;
    event[..4].copy_from_slice(&minute.to_le_bytes());
    event[4] = point as u8;
    event[8..12].fill(0);
    event
}

/// A point that is not open, at a minute at which others might be done.
fn not_open(draw: &mut Draw, rooms: &Rooms) -> Vec<u8> {
    let opens = AsStated.windows(rooms).opens;
    let shut: Vec<usize> = (0..POINTS).filter(|q| !opens.contains(q)).collect();
    let held = |&q: &usize| AsStated.holder(rooms, q) != 0;
    let held: Vec<usize> = shut.iter().copied().filter(held).collect();
    let mut event = aimed(draw, rooms);
    if !held.is_empty() && draw.one_in(2) {
        event[4] = draw.pick(&held) as u8;
    } else if !shut.is_empty() {
        event[4] = draw.pick(&shut) as u8;
    }
    if draw.one_in(2) {
        event[8..12].fill(0);
    }
    event
}

fn event(draw: &mut Draw, rooms: &Rooms) -> Vec<u8> {
    match draw.below(12) {
        0..6 => aimed(draw, rooms),
        6..8 => {
            let event = aimed(draw, rooms);
            spoiled(draw, event)
        }
        8 => not_open(draw, rooms),
        9 => untimely(draw, rooms),
        10 => (0..16).map(|_| any(draw, 8) as u8).collect(),
        _ => {
            let length = draw.pick(&[0, 1, 4, 5, 8, 15, 17, 32, 255, 256, 4_000]);
            (0..length).map(|_| draw.byte()).collect()
        }
    }
}

// ---- cases

fn case(draw: &mut Draw, made: Made) -> Case {
    let (what, make) = made;
    let rooms = make(draw);
    let mut at = rooms.clone();
    let mut left = 3 + draw.below(10);
    let mut events = Vec::new();
    while left > 0 {
        let event = event(draw, &at);
        let (number, _) = AsStated.take(&mut at, &event);
        events.push(event);
        // Nothing more comes of a board that is finished or stuck.
        left = if number == 21 || number == 22 {
            left / 2
        } else {
            left - 1
        };
    }
    Case {
        what,
        rooms,
        file: Vec::new(),
        events,
    }
}

/// Rooms of any content begun from a file, good or not, and a day from there.
fn beginning(draw: &mut Draw) -> Case {
    let make = draw.pick(&[zeros, ones, noise, mid_day]);
    let rooms = make(draw);
    let plan = plan(draw);
    let mut file = plan.to_bytes();
    if draw.one_in(3) {
        let at = draw.below(file.len());
        file[at] = file[at].wrapping_add(draw.pick(&[1, 2, 255]));
    }
    if draw.one_in(12) {
        let at = draw.below(file.len());
        file.truncate(at.max(1));
    }
    let mut at = rooms.clone();
    AsStated.begin(&mut at, &file);
    let mut events = Vec::new();
    for _ in 0..draw.below(12) {
        let event = event(draw, &at);
        AsStated.take(&mut at, &event);
        events.push(event);
    }
    Case {
        what: "rooms of any content, begun",
        rooms,
        file,
        events,
    }
}

/// The cases of one batch: each way to make rooms some times.
pub fn batch(seed: u64, number: u64) -> Vec<Case> {
    let mut draw = Draw::new(seed, number);
    let mut cases = Vec::new();
    for made in MADE {
        let times = match made.0 {
            "zeros" | "ones" => usize::from(number % 8 == 0),
            "small numbers" => 4,
            _ => 2,
        };
        for _ in 0..times {
            cases.push(case(&mut draw, made));
        }
    }
    cases.push(beginning(&mut draw));
    cases.push(beginning(&mut draw));
    cases
}

/// The cases that are stored as `stdin` of our program: the haul begun in rooms of ones and its day with refused events between; the
/// same rooms with a ring in a list, and a count that tells how long the walk was; links from past point 31 in a plan of 40
/// points; and rooms of zeros.
pub fn stored() -> Vec<Case> {
    let plan = plans::haul_as_it_stands();
    let mut draw = Draw::new(1, 0);
    let day = events::stream(&mut draw, &plan, Style::Mixed);
    let mut events: Vec<Vec<u8>> = day.chunks(16).map(<[u8]>::to_vec).collect();
    events.push(Vec::new());
    let case = |what: &'static str, rooms: Rooms| Case {
        what,
        rooms,
        file: Vec::new(),
        events: events.clone(),
    };
    let begun = Case {
        file: plan.to_bytes(),
        ..case("the haul", Rooms::from_bytes(&[255; BYTES]))
    };
    let mut ringed = AsStated.filled(&plan);
    let first = ringed.into[0];
    ringed.into[BUCKETS + usize::from(first)] = first;
    ringed.kept[COUNTS + 2] = RECORDS as u32 + 1;
    ringed.kept[COUNTS + 3] = RECORDS as u32 + 1;
    let mut far = AsStated.filled(&plan);
    far.links[0] = 40;
    far.links[1] |= 1 << 31;
    far.links[2 + 3 * 31] = 32;
    vec![
        begun,
        case("a ring", ringed),
        case("far links", far),
        case("zeros", Rooms::zeros()),
    ]
}

/// What the programs read.
pub fn input(cases: &[Case]) -> Vec<u8> {
    cases.iter().flat_map(Case::bytes).collect()
}

/// What is answered by an equation.
pub fn answers(by: &(impl Equation + ?Sized), input: &[u8]) -> Vec<u8> {
    let mut output = Vec::new();
    rooms::answer(by, &mut &input[..], &mut output).expect("the input is whole");
    output
}

// ---- what came up

/// Everything that has to come up.
pub const KEYS: [&str; 45] = [
    "taken",
    "taken, some points of a set",
    "taken, nothing open",
    "21",
    "22, nothing open",
    "22, all above",
    "23, sixteen bytes",
    "23, other lengths",
    "24",
    "25",
    "26",
    "27",
    "28, with its record",
    "28, a foreman's point with none",
    "28, watched or done",
    "28, past point 31",
    "29",
    "30",
    "finished",
    "stuck",
    "waiting",
    "offers",
    "done",
    "watched",
    "shut by a record",
    "shut by none",
    "held",
    "offered",
    "a walk of `into` stopped by its fuel",
    "a walk of `out` stopped by its fuel",
    "a walk of `ends` stopped by its fuel",
    "a walk for a holder stopped by its fuel",
    "a count of 0 that would fall",
    "a minute past the largest",
    "a minute below 0",
    "a number of a row past 31 bits",
    "a kind that is none, met",
    "a point of a row past 31, met",
    "the last event's number stays",
    "a link from past point 31",
    "a link from a number past a byte",
    "more points than 32",
    "no points",
    "begun",
    "begun from a file that is refused",
];

/// How often what came up.
#[derive(Default)]
pub struct Count(RefCell<BTreeMap<&'static str, u64>>);

impl Count {
    fn add(&self, key: &'static str) {
        *self.0.borrow_mut().entry(key).or_default() += 1;
    }

    fn add_if(&self, so: bool, key: &'static str) {
        if so {
            self.add(key);
        }
    }

    pub fn of(&self, key: &str) -> u64 {
        self.0.borrow().get(key).copied().unwrap_or(0)
    }

    pub fn missing(&self) -> Vec<&'static str> {
        let keys = KEYS.into_iter();
        keys.filter(|key| self.of(key) == 0).collect()
    }

    /// Counts a case.
    pub fn case(&self, case: &Case) {
        let mut rooms = case.rooms.clone();
        if !case.file.is_empty() {
            let (number, _) = self.begin(&mut rooms, &case.file);
            let key = match number {
                0 => "begun",
                _ => "begun from a file that is refused",
            };
            self.add(key);
        }
        self.said(&rooms);
        for event in &case.events {
            let before = rooms.clone();
            let found = self.take(&mut rooms, event);
            self.numbered(&before, event, found);
            self.said(&rooms);
        }
    }

    /// Counts what the reply says.
    fn said(&self, rooms: &Rooms) {
        let reply = AsStated.reply(rooms);
        self.add(["finished", "stuck", "waiting", "offers"][reply[0] as usize]);
        if reply[0] == 0 {
            return;
        }
        for (point, place) in reply[2..].chunks(2).enumerate() {
            let asked = place == [2, 0] && rooms.kept[COUNTS + point] != 0;
            let stopped = asked && goes_on(&rooms.out, point);
            self.add_if(stopped, "a walk for a holder stopped by its fuel");
            self.add(match place {
                [0, _] => "done",
                [1, _] => "watched",
                [2, 0] => "shut by none",
                [2, _] => "shut by a record",
                [3, _] => "held",
                _ => "offered",
            });
        }
        self.add_if(rooms.points() > 32, "more points than 32");
        self.add_if(rooms.points() == 0, "no points");
    }

    /// Counts an event by its number and the rooms before it.
    fn numbered(&self, rooms: &Rooms, event: &[u8], (number, record): (u32, u32)) {
        let opens = AsStated.windows(rooms).opens;
        let point = event_point(event);
        self.add(match number {
            0 => "taken",
            21 => "21",
            22 if opens.is_empty() => "22, nothing open",
            22 => "22, all above",
            23 if event.len() == 16 => "23, sixteen bytes",
            23 => "23, other lengths",
            24 => "24",
            25 => "25",
            26 => "26",
            27 => "27",
            28 if point >= POINTS => "28, past point 31",
            28 if !AsStated.foremans(rooms, point) => "28, watched or done",
            28 if record == 0 => "28, a foreman's point with none",
            28 => "28, with its record",
            29 => "29",
            _ => "30",
        });
        if number != 0 {
            return;
        }
        let points = AsStated.event_points(event);
        self.add_if(points.len() > 2, "taken, some points of a set");
        self.add_if(opens.is_empty(), "taken, nothing open");
        let any = |list: &[u16]| points.iter().any(|&point| goes_on(list, point));
        self.add_if(any(&rooms.into), "a walk of `into` stopped by its fuel");
        self.add_if(any(&rooms.out), "a walk of `out` stopped by its fuel");
        self.add_if(any(&rooms.ends), "a walk of `ends` stopped by its fuel");
    }
}

/// Does a walk have more entries than it may read?
fn goes_on(list: &[u16], point: usize) -> bool {
    let met = AsStated.entries(list, point as u64);
    let next = |&last: &usize| usize::from(list[BUCKETS + last]) < RECORDS;
    met.len() == RECORDS && met.last().is_some_and(next)
}

/// The equation, counting what it meets.
impl Equation for Count {
    fn reach(&self, minute: u32, base: u32, up: u64, down: u64) -> u32 {
        let cut = |number: u64| i128::from(number % (1 << 32));
        let sum = i128::from(minute) + i128::from(base) + cut(up) - cut(down);
        self.add_if(sum > i128::from(NEVER), "a minute past the largest");
        self.add_if(sum < 0, "a minute below 0");
        let wide = up.max(down) > u64::from(NEVER / 2);
        self.add_if(wide, "a number of a row past 31 bits");
        AsStated.reach(minute, base, up, down)
    }

    fn free(&self, kept: &mut [u32], row: &Row, minute: u32) {
        let none = kept[COUNTS + AsStated.held(row)] == 0;
        self.add_if(
            none && AsStated.holding(row),
            "a count of 0 that would fall",
        );
        self.add_if(!(3..5).contains(&row.kind), "a kind that is none, met");
        let past = row.from.max(row.to).max(row.over) > 31;
        self.add_if(past, "a point of a row past 31, met");
        // As it stands, with this one's `reach`.
        let held = AsStated.held(row);
        AsStated.free(kept, row, minute);
        let (low, run) = (self.low_by(row, minute), self.run_by(row, minute));
        kept[LOWS + held] = kept[LOWS + held].max(low);
        kept[RUNS + held] = kept[RUNS + held].max(run);
    }

    fn next_call(&self, kept: &[u32]) -> u32 {
        self.add_if(kept[LAST] == NEVER, "the last event's number stays");
        AsStated.next_call(kept)
    }

    fn runs_to(&self, rooms: &Rooms, point: usize) -> bool {
        let from = rooms.links[2 + 3 * point];
        self.add_if(from % 256 > 31, "a link from past point 31");
        let so = AsStated.runs_to(rooms, point);
        self.add_if(so && from > 255, "a link from a number past a byte");
        so
    }
}

// ---- differences

/// What a place of the room that changes is.
fn kept_place(place: usize) -> String {
    let parts = [
        (COUNTS, "the count"),
        (LOWS, "the Low so far"),
        (RUNS, "the running waits"),
        (HIGHS, "the High"),
        (MINUTES, "the minute"),
        (CALLS, "the event's number"),
    ];
    match place {
        CLOCK => "the clock".to_string(),
        DONE => "the done points".to_string(),
        LAST => "the last event's number".to_string(),
        _ => {
            let (from, name) = parts[place / POINTS];
            format!("{name} of point {}", place - from)
        }
    }
}

fn number(bytes: &[u8], at: usize, size: usize) -> String {
    match bytes.get(at..at + size) {
        None => "nothing".to_string(),
        Some(bytes) => {
            let digits = bytes.iter().rev();
            let number = digits.fold(0u64, |sum, &byte| sum << 8 | u64::from(byte));
            number.to_string()
        }
    }
}

/// What stands at a byte of the answers to rooms that were begun: the number's first byte, its size, and its name.
fn begun_place(at: usize) -> (usize, usize, String) {
    let mut from = 8;
    if at < from {
        return (at / 4 * 4, 4, "the answer of begin".to_string());
    }
    let rooms = [
        ("links", LINKS, 4),
        ("kept", KEPT, 4),
        ("into", LIST, 2),
        ("out", LIST, 2),
        ("ends", LIST, 2),
        ("rows", SHEET, 4),
    ];
    for (name, length, size) in rooms {
        if at < from + length * size {
            let place = (at - from) / size;
            let name = format!("number {place} of the room `{name}` after begin");
            return (from + place * size, size, name);
        }
        from += length * size;
    }
    (at, 1, "a byte past the rooms".to_string())
}

/// The same of a reply and a board.
fn told_place(at: usize) -> (usize, usize, String) {
    let place = at / 4;
    let name = match place {
        0 => "the reply's outcome".to_string(),
        1 => "the reply's latest".to_string(),
        _ if place < TOLD => {
            let what = ["state", "value"][place % 2];
            format!("the {what} of point {} in the reply", (place - 2) / 2)
        }
        _ => format!("number {} of the board", place - TOLD),
    };
    (4 * place, 4, name)
}

/// The same of an event.
fn event_place(at: usize) -> (usize, usize, String) {
    match at {
        0..4 => (0, 4, "its number".to_string()),
        4..8 => (4, 4, "the record beside it".to_string()),
        _ if at < 8 + 4 * KEPT => {
            let place = (at - 8) / 4;
            (8 + 4 * place, 4, kept_place(place))
        }
        _ => {
            let from = 8 + 4 * KEPT;
            let (start, size, name) = told_place(at - from);
            (from + start, size, name)
        }
    }
}

/// Where two answers to some cases differ first: the case, and in words.
pub fn difference(cases: &[Case], ours: &[u8], theirs: &[u8]) -> Option<(usize, String)> {
    let longer = ours.len().max(theirs.len());
    let first = (0..longer).find(|&at| ours.get(at) != theirs.get(at))?;
    let mut from = 0;
    for (k, case) in cases.iter().enumerate() {
        if first >= from + case.answered() {
            from += case.answered();
            continue;
        }
        let at = first - from;
        let begun = if case.file.is_empty() { 0 } else { 8 + BYTES };
        let told = begun + 8 * TOLD;
        let (base, (start, size, name)) = if at < begun {
            (0, begun_place(at))
        } else if at < told {
            (begun, told_place(at - begun))
        } else {
            let number = (at - told) / EVENT;
            let base = told + number * EVENT;
            let (start, size, name) = event_place(at - base);
            (base, (start, size, format!("event {number}: {name}")))
        };
        let place = from + base + start;
        let (one, two) = (number(ours, place, size), number(theirs, place, size));
        return Some((k, format!("{name}: {one}, but by the equation {two}")));
    }
    Some((cases.len(), "after the last case".to_string()))
}
