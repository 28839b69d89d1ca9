//! The engine that keeps counts, over rooms of any content: what is answered of them, what is left in them, and what they are when
//! they are begun.
//!
//! Unlike the rest of this crate it was not written from the documents, which say nothing of rooms, but from the pages of
//! definitions that the contracts cite: `Takes` of crates/engine/specs, `Rooms` and `Begins` of kept, `Lists` of neighbours,
//! `Answers` of kept_windows, `ByWindows` of planless and of replies, `ByTable` of running, `Sheet` and `Layout` of rows,
//! `Keeps` of keeping, `Inside` of links, windows and replies, `Fields` of events, `Sets` of points, and `Rooms` of hulls; and
//! not from the code. Where a contract holds "for some windows", they are the only ones there are: the page says each number of
//! them. Sums are made in 64 bits and more, so that nothing wraps that is not said to, and what stops at 0 or at the largest
//! number is written so.
//!
//! Each definition is a method of [`Equation`], so that a test can have one of them wrong.

use crate::plan::{self, Plan, BOUND, ROOM as RECORDS};
use std::io::{self, Read, Write};

/// Points have numbers below this.
pub const POINTS: usize = 32;
/// A list for each point, and one for records that are in no point's.
pub const BUCKETS: usize = POINTS + 1;
/// How many numbers a list has, a row, the rows, the links, a board or a reply.
pub const LIST: usize = BUCKETS + RECORDS;
pub const WIDTH: usize = 6;
pub const SHEET: usize = WIDTH * RECORDS;
pub const LINKS: usize = 2 + 3 * POINTS;
pub const TOLD: usize = 2 + 2 * POINTS;

/// The places of the room that changes: how many records hold each point, what it has of Low from records and from running
/// waits, its High 100,000 up, its minute, the number of its event; then the clock, the done points and the last event's number.
pub const COUNTS: usize = 0;
pub const LOWS: usize = 32;
pub const RUNS: usize = 64;
pub const HIGHS: usize = 96;
pub const MINUTES: usize = 128;
pub const CALLS: usize = 160;
pub const CLOCK: usize = 192;
pub const DONE: usize = 193;
pub const LAST: usize = 194;
pub const KEPT: usize = 195;

/// Past every minute: the largest number of 32 bits.
pub const NEVER: u32 = u32::MAX;

/// The rooms, in the order in which they are handed over.
#[derive(Clone, PartialEq, Eq, Debug)]
pub struct Rooms {
    pub links: Vec<u32>,
    pub kept: Vec<u32>,
    pub into: Vec<u16>,
    pub out: Vec<u16>,
    pub ends: Vec<u16>,
    pub rows: Vec<u32>,
}

/// How many bytes they are.
pub const BYTES: usize = 4 * LINKS + 4 * KEPT + 3 * 2 * LIST + 4 * SHEET;

impl Rooms {
    pub fn zeros() -> Rooms {
        Rooms {
            links: vec![0; LINKS],
            kept: vec![0; KEPT],
            into: vec![0; LIST],
            out: vec![0; LIST],
            ends: vec![0; LIST],
            rows: vec![0; SHEET],
        }
    }

    /// From their bytes; past the last byte all is 0.
    pub fn from_bytes(bytes: &[u8]) -> Rooms {
        let mut bytes = bytes.iter().copied().chain(std::iter::repeat(0));
        let mut number = |size: usize| -> u64 {
            let mut number = 0;
            for place in 0..size {
                number += u64::from(bytes.next().unwrap_or(0)) << (8 * place);
            }
            number
        };
        let mut rooms = Rooms::zeros();
        for place in rooms.links.iter_mut().chain(&mut rooms.kept) {
            *place = number(4) as u32;
        }
        let lists = [&mut rooms.into, &mut rooms.out, &mut rooms.ends];
        for place in lists.into_iter().flatten() {
            *place = number(2) as u16;
        }
        for place in &mut rooms.rows {
            *place = number(4) as u32;
        }
        rooms
    }

    pub fn to_bytes(&self) -> Vec<u8> {
        let words = self.links.iter().chain(&self.kept);
        let mut bytes: Vec<u8> = words.flat_map(|number| number.to_le_bytes()).collect();
        for list in [&self.into, &self.out, &self.ends] {
            bytes.extend(list.iter().flat_map(|number| number.to_le_bytes()));
        }
        bytes.extend(self.rows.iter().flat_map(|number| number.to_le_bytes()));
        bytes
    }

    pub fn points(&self) -> u32 {
        self.links[0]
    }

    pub fn watched(&self) -> u32 {
        self.links[1]
    }

    pub fn done(&self) -> u32 {
        self.kept[DONE]
    }

    pub fn clock(&self) -> u32 {
        self.kept[CLOCK]
    }
}

/// A row of the sheet.
#[derive(Clone, Copy, PartialEq, Eq, Debug)]
pub struct Row {
    pub kind: u64,
    pub from: u64,
    pub to: u64,
    pub first: u64,
    pub second: u64,
    pub over: u64,
}

/// The link that ends at a point: of the number of its first point, the lowest byte.
#[derive(Clone, Copy, PartialEq, Eq, Debug)]
pub struct End {
    pub from: u32,
    pub shortest: u32,
    pub longest: u32,
}

/// What the rooms say of all points: which are open, the Low of each, the least High of the open ones.
#[derive(Clone, PartialEq, Eq, Debug)]
pub struct Windows {
    pub opens: Vec<usize>,
    pub lows: [u32; POINTS],
    pub high: u32,
}

/// Is the point in the set? No set has a point past the 31st.
pub fn member(set: u32, point: usize) -> bool {
    point < POINTS && set >> point & 1 == 1
}

/// The points of a set, rising.
pub fn members(set: u32) -> Vec<usize> {
    (0..POINTS).filter(|&point| member(set, point)).collect()
}

/// The set of the points below a number.
pub fn below(points: u32) -> u32 {
    if points >= 32 {
        u32::MAX
    } else {
        (1 << points) - 1
    }
}

/// The four bytes at a place; a byte that is not there is 0.
fn word(bytes: &[u8], at: usize) -> u32 {
    let byte = |place: usize| u32::from(*bytes.get(place).unwrap_or(&0));
    (0..4).map(|place| byte(at + place) << (8 * place)).sum()
}

pub fn event_minute(event: &[u8]) -> u32 {
    word(event, 0)
}

pub fn event_point(event: &[u8]) -> usize {
    usize::from(*event.get(4).unwrap_or(&0))
}

pub fn event_set(event: &[u8]) -> u32 {
    word(event, 8)
}

/// No foreman's point.
pub const NO_POINT: usize = 255;

/// What is said of rooms, definition by definition.
pub trait Equation {
    // ---- lists

    /// No walk reads more entries than this.
    fn fuel(&self) -> usize {
        RECORDS
    }

    /// The entries of a key, in the order in which a walk meets them.
    fn entries(&self, list: &[u16], key: u64) -> Vec<usize> {
        let mut met = Vec::new();
        let mut at = usize::from(list[(key % BUCKETS as u64) as usize]);
        while at < RECORDS && met.len() < self.fuel() {
            met.push(at);
            at = usize::from(list[BUCKETS + at]);
        }
        met
    }

    // ---- rows

    fn row(&self, rows: &[u32], number: usize) -> Row {
        let field = |place: usize| u64::from(rows[number * WIDTH + place]);
        Row {
            kind: field(0),
            from: field(1),
            to: field(2),
            first: field(3),
            second: field(4),
            over: field(5),
        }
    }

    fn is_ordinary(&self, row: &Row) -> bool {
        row.kind == 3
    }

    fn is_wait(&self, row: &Row) -> bool {
        row.kind == 4
    }

    /// It holds its first point shut until the point that it leads to is done.
    fn holding(&self, row: &Row) -> bool {
        self.is_ordinary(row) && row.second > 0 || self.is_wait(row)
    }

    /// The point that it holds, the one that it leads to, and its second.
    fn held(&self, row: &Row) -> usize {
        (row.from % 32) as usize
    }

    fn until(&self, row: &Row) -> usize {
        (row.to % 32) as usize
    }

    fn over(&self, row: &Row) -> usize {
        (row.over % 32) as usize
    }

    /// From a minute and a base so much up and so much down: of each its lower 32 bits; not below 0 and not past `NEVER`.
    fn reach(&self, minute: u32, base: u32, up: u64, down: u64) -> u32 {
        let cut = |number: u64| i128::from(number) % (1 << 32);
        let sum = i128::from(minute) + i128::from(base) + cut(up) - cut(down);
        sum.clamp(0, i128::from(NEVER)) as u32
    }

    /// What a row gives to Low where the point that it leads to is done, to the running waits, and to High where its first is.
    fn low_by(&self, row: &Row, minute: u32) -> u32 {
        if self.is_ordinary(row) {
            self.reach(minute, 0, row.second, row.first)
        } else {
            0
        }
    }

    fn run_by(&self, row: &Row, minute: u32) -> u32 {
        if self.is_wait(row) {
            self.reach(minute, 0, row.first, 0)
        } else {
            0
        }
    }

    fn high_by(&self, row: &Row, minute: u32) -> u32 {
        if self.is_ordinary(row) {
            self.reach(minute, BOUND as u32, row.first, row.second)
        } else {
            NEVER
        }
    }

    // ---- a point is done

    /// The point that the row leads to is done.
    fn free(&self, kept: &mut [u32], row: &Row, minute: u32) {
        let held = self.held(row);
        if self.holding(row) && kept[COUNTS + held] > 0 {
            kept[COUNTS + held] -= 1;
        }
        kept[LOWS + held] = kept[LOWS + held].max(self.low_by(row, minute));
        kept[RUNS + held] = kept[RUNS + held].max(self.run_by(row, minute));
    }

    /// The row's first point is done.
    fn bound(&self, kept: &mut [u32], row: &Row, minute: u32) {
        let over = self.over(row);
        kept[HIGHS + over] = kept[HIGHS + over].min(self.high_by(row, minute));
    }

    /// What a wait asks for while its link is running.
    fn running(&self, kept: &[u32], row: &Row) -> u32 {
        let (until, over) = (self.until(row), self.over(row));
        if self.is_wait(row) && member(kept[DONE], until) && !member(kept[DONE], over) {
            self.reach(kept[MINUTES + until], 0, row.first, 0)
        } else {
            0
        }
    }

    /// The running waits of the point that a record holds, made anew.
    fn remake(&self, rooms: &mut Rooms, number: usize) {
        let held = self.held(&self.row(&rooms.rows, number));
        let waits = self.entries(&rooms.out, held as u64);
        let asked = |&wait: &usize| self.running(&rooms.kept, &self.row(&rooms.rows, wait));
        rooms.kept[RUNS + held] = waits.iter().map(asked).max().unwrap_or(0);
    }

    /// A point is done at a minute by the event of a number.
    fn mark(&self, rooms: &mut Rooms, minute: u32, number: u32, point: usize) {
        for entry in self.entries(&rooms.into, point as u64) {
            let row = self.row(&rooms.rows, entry);
            self.free(&mut rooms.kept, &row, minute);
        }
        for entry in self.entries(&rooms.out, point as u64) {
            let row = self.row(&rooms.rows, entry);
            self.bound(&mut rooms.kept, &row, minute);
        }
        rooms.kept[MINUTES + point] = minute;
        rooms.kept[CALLS + point] = number;
        rooms.kept[DONE] |= 1 << point;
        for entry in self.entries(&rooms.ends, point as u64) {
            self.remake(rooms, entry);
        }
    }

    /// The number of the next event.
    fn next_call(&self, kept: &[u32]) -> u32 {
        kept[LAST].saturating_add(1)
    }

    /// The points of an event in the order in which they are done: the set, then the foreman's.
    fn event_points(&self, event: &[u8]) -> Vec<usize> {
        let mut points = members(event_set(event));
        points.extend(Some(event_point(event)).filter(|&point| point < POINTS));
        points
    }

    /// The event's minute is the clock, it is the last event, and its points are done.
    fn event_done(&self, rooms: &mut Rooms, event: &[u8]) {
        let (minute, number) = (event_minute(event), self.next_call(&rooms.kept));
        rooms.kept[CLOCK] = minute;
        rooms.kept[LAST] = number;
        for point in self.event_points(event) {
            self.mark(rooms, minute, number, point);
        }
    }

    // ---- windows

    /// A foreman's point not yet done.
    fn foremans(&self, rooms: &Rooms, point: usize) -> bool {
        (point as u64) < u64::from(rooms.points())
            && !member(rooms.watched(), point)
            && !member(rooms.done(), point)
    }

    fn is_open(&self, rooms: &Rooms, point: usize) -> bool {
        self.foremans(rooms, point) && rooms.kept[COUNTS + point] == 0
    }

    fn low(&self, kept: &[u32], point: usize) -> u32 {
        kept[CLOCK].max(kept[LOWS + point]).max(kept[RUNS + point])
    }

    fn windows(&self, rooms: &Rooms) -> Windows {
        let all = 0..POINTS;
        let opens: Vec<usize> = all.filter(|&point| self.is_open(rooms, point)).collect();
        let highs = opens.iter().map(|&point| rooms.kept[HIGHS + point]);
        Windows {
            high: highs.min().unwrap_or(NEVER),
            lows: std::array::from_fn(|point| self.low(&rooms.kept, point)),
            opens,
        }
    }

    /// The row still holds its first point shut.
    fn shuts(&self, row: &Row, done: u32) -> bool {
        self.holding(row) && !member(done, self.until(row))
    }

    /// The first record that holds a point, where something does; else 0.
    fn holder(&self, rooms: &Rooms, point: usize) -> u32 {
        if rooms.kept[COUNTS + point] == 0 {
            return 0;
        }
        let all = self.entries(&rooms.out, point as u64);
        let shuts = |&&entry: &&usize| self.shuts(&self.row(&rooms.rows, entry), rooms.done());
        all.iter().find(shuts).map_or(0, |&entry| entry as u32)
    }

    // ---- links

    fn end(&self, links: &[u32], point: usize) -> End {
        let end = &links[2 + 3 * point..][..3];
        End {
            from: end[0] % 256,
            shortest: end[1],
            longest: end[2],
        }
    }

    /// The link to a point is running: its start is done, its end not.
    fn runs_to(&self, rooms: &Rooms, point: usize) -> bool {
        let end = self.end(&rooms.links, point);
        member(rooms.done(), end.from as usize) && !member(rooms.done(), point)
    }

    /// The minute of the link's start; 0 where there is no such point.
    fn start_of(&self, rooms: &Rooms, point: usize) -> u64 {
        let from = self.end(&rooms.links, point).from as usize;
        if from < POINTS {
            u64::from(rooms.kept[MINUTES + from])
        } else {
            0
        }
    }

    /// 25: the point ends a running link.
    fn ends_running(&self, rooms: &Rooms, point: usize) -> bool {
        member(rooms.watched(), point) && self.runs_to(rooms, point)
    }

    /// 26: its time is within the link's.
    fn timely(&self, rooms: &Rooms, minute: u32, point: usize) -> bool {
        let end = self.end(&rooms.links, point);
        let start = self.start_of(rooms, point);
        let minute = u64::from(minute);
        start + u64::from(end.shortest) <= minute && minute <= start + u64::from(end.longest)
    }

    /// 27: the link to the point does not run out before the minute, unless it ends now.
    fn not_late(&self, rooms: &Rooms, minute: u32, set: u32, point: usize) -> bool {
        let longest = u64::from(self.end(&rooms.links, point).longest);
        !self.runs_to(rooms, point)
            || member(set, point)
            || u64::from(minute) <= self.start_of(rooms, point) + longest
    }

    // ---- the event's number

    fn finished(&self, rooms: &Rooms) -> bool {
        rooms.done() == below(rooms.points())
    }

    fn stuck(&self, rooms: &Rooms, windows: &Windows) -> bool {
        let up = |point: usize| u64::from(windows.lows[point]) + BOUND as u64;
        if windows.opens.is_empty() {
            let watched = members(rooms.watched());
            !watched.iter().any(|&point| self.runs_to(rooms, point))
        } else {
            let mut opens = windows.opens.iter();
            opens.all(|&point| u64::from(windows.high) < up(point))
        }
    }

    /// The latest minute of an offer: the lesser of H and the clock + 100,000, and not below 0.
    fn latest(&self, rooms: &Rooms, windows: &Windows) -> u32 {
        let bound = BOUND as u64;
        let furthest = u64::from(rooms.clock()) + 2 * bound;
        let up = u64::from(windows.high).min(furthest);
        up.saturating_sub(bound) as u32
    }

    fn well_formed(&self, points: u32, event: &[u8]) -> bool {
        let (point, set) = (event_point(event), event_set(event));
        event.len() == 16
            && event[5..8].iter().all(|&byte| byte == 0)
            && event[12..16].iter().all(|&byte| byte == 0)
            && (point == NO_POINT || (point as u64) < u64::from(points))
            && set & !below(points) == 0
            && (point != NO_POINT || set != 0)
    }

    /// 21 to 30 in order, or else 0.
    fn number(&self, rooms: &Rooms, windows: &Windows, event: &[u8]) -> u32 {
        if self.finished(rooms) {
            return 21;
        }
        if self.stuck(rooms, windows) {
            return 22;
        }
        if !self.well_formed(rooms.points(), event) {
            return 23;
        }
        let (minute, point) = (event_minute(event), event_point(event));
        let set = event_set(event);
        if minute < rooms.clock() {
            return 24;
        }
        let ended = members(set);
        if !ended.iter().all(|&point| self.ends_running(rooms, point)) {
            return 25;
        }
        if !ended.iter().all(|&point| self.timely(rooms, minute, point)) {
            return 26;
        }
        let watched = members(rooms.watched());
        let mut watched = watched.iter();
        if !watched.all(|&point| self.not_late(rooms, minute, set, point)) {
            return 27;
        }
        self.point_number(rooms, windows, minute, point)
    }

    /// 28 to 30 in order, or else 0.
    fn point_number(&self, rooms: &Rooms, windows: &Windows, minute: u32, point: usize) -> u32 {
        if point != NO_POINT && !windows.opens.contains(&point) {
            28
        } else if point != NO_POINT && windows.lows[point] > minute {
            29
        } else if !windows.opens.is_empty() && self.latest(rooms, windows) < minute {
            30
        } else {
            0
        }
    }

    /// The record beside the number: beside 28 the one that holds the point, where it is a foreman's and not done.
    fn beside(&self, rooms: &Rooms, number: u32, point: usize) -> u32 {
        if number == 28 && self.foremans(rooms, point) && point < POINTS {
            self.holder(rooms, point)
        } else {
            0
        }
    }

    // ---- what is answered

    /// Takes an event: its number and the record beside it. A refused one leaves every number as it was.
    fn take(&self, rooms: &mut Rooms, event: &[u8]) -> (u32, u32) {
        let windows = self.windows(rooms);
        let number = self.number(rooms, &windows, event);
        let beside = self.beside(rooms, number, event_point(event));
        if number == 0 {
            self.event_done(rooms, event);
        }
        (number, beside)
    }

    /// A point's state in the list, and its value.
    fn place(&self, rooms: &Rooms, windows: &Windows, latest: Option<u32>, q: usize) -> [u32; 2] {
        let low = windows.lows[q];
        if member(rooms.done(), q) {
            [0, rooms.kept[MINUTES + q]]
        } else if member(rooms.watched(), q) {
            [1, 0]
        } else if !windows.opens.contains(&q) {
            [2, self.holder(rooms, q)]
        } else if latest.is_none_or(|latest| latest < low) {
            [3, 0]
        } else {
            [4, low]
        }
    }

    /// The reply: 0 finished, 1 stuck, 2 waiting or 3 offers, the latest, and each point.
    fn reply(&self, rooms: &Rooms) -> Vec<u32> {
        let windows = self.windows(rooms);
        if self.finished(rooms) {
            let mut reply = vec![0, 0];
            reply.extend([2, 0].repeat(POINTS));
            return reply;
        }
        let (outcome, latest) = if self.stuck(rooms, &windows) {
            (1, None)
        } else if windows.opens.is_empty() {
            (2, None)
        } else {
            (3, Some(self.latest(rooms, &windows)))
        };
        let mut reply = vec![outcome, latest.unwrap_or(0)];
        for point in 0..POINTS {
            reply.extend(self.place(rooms, &windows, latest, point));
        }
        reply
    }

    /// The board: clock, done points, minutes, event numbers.
    fn board(&self, rooms: &Rooms) -> Vec<u32> {
        let mut board = vec![rooms.clock(), rooms.done()];
        board.extend(&rooms.kept[MINUTES..CLOCK]);
        board
    }

    // ---- how they are begun

    /// The rooms of a plan at the fresh board.
    fn filled(&self, plan: &Plan) -> Rooms {
        let rows: Vec<Row> = plan_rows(plan);
        let keys = |least: u64, key: fn(&Row) -> u64| -> Vec<usize> {
            let of = |row: &Row| if row.kind < least { 32 } else { key(row) % 33 };
            rows.iter().map(|row| of(row) as usize).collect()
        };
        let mut sheet: Vec<u32> = rows
            .iter()
            .flat_map(|row| [row.kind, row.from, row.to, row.first, row.second, row.over])
            .map(|number| number as u32)
            .collect();
        sheet.resize(SHEET, 0);
        let mut kept = vec![0; KEPT];
        for row in rows.iter().filter(|row| self.holding(row)) {
            kept[COUNTS + self.held(row)] += 1;
        }
        kept[HIGHS..HIGHS + POINTS].fill(NEVER);
        Rooms {
            links: plan_links(plan),
            kept,
            into: indexed(&keys(3, |row| row.to)),
            out: indexed(&keys(3, |row| row.from)),
            ends: indexed(&keys(4, |row| row.over)),
            rows: sheet,
        }
    }

    /// Begins from a plan's file: its refusal and every room as it was, or (0, 0) and the rooms are filled.
    fn begin(&self, rooms: &mut Rooms, file: &[u8]) -> (u32, u32) {
        match plan::read(file) {
            Ok(plan) => {
                *rooms = self.filled(&plan);
                (0, 0)
            }
            Err(refusal) => refusal,
        }
    }
}

/// How many points, which are watched, and the link that ends at each.
fn plan_links(plan: &Plan) -> Vec<u32> {
    let mut links = vec![0; LINKS];
    links[0] = plan.points() as u32;
    for link in &plan.links {
        links[1] |= 1 << link.c;
        let end = [link.a as u32, link.x as u32, link.y as u32];
        links[2 + 3 * link.c..][..3].copy_from_slice(&end);
    }
    links
}

/// A row for each record, in file order.
fn plan_rows(plan: &Plan) -> Vec<Row> {
    let up = |number: i64| number.max(0) as u64;
    let down = |number: i64| (-number).max(0) as u64;
    let row = |kind: u64, from: usize, to: usize, [first, second]: [u64; 2], over: usize| Row {
        kind,
        from: from as u64,
        to: to as u64,
        first,
        second,
        over: over as u64,
    };
    let points = (0..plan.points()).map(|point| row(1, point, 0, [0, 0], 0));
    let links = plan.links.iter();
    let links = links.map(|link| row(2, link.a, link.c, [up(link.x), up(link.y)], link.c));
    let ordinary = plan.ordinary.iter();
    let ordinary = ordinary.map(|one| row(3, one.x, one.y, [up(one.d), down(one.d)], one.y));
    let waits = plan.waits.iter();
    let waits = waits.map(|wait| {
        let start = plan.link_of(wait).a;
        row(4, wait.v, start, [up(wait.w), down(wait.w)], wait.c)
    });
    points.chain(links).chain(ordinary).chain(waits).collect()
}

/// The list of records by these keys: where each key's first stands, and behind each the next of its key.
fn indexed(keys: &[usize]) -> Vec<u16> {
    let mut list = vec![RECORDS as u16; LIST];
    for (number, &key) in keys.iter().enumerate().rev() {
        list[BUCKETS + number] = list[key];
        list[key] = number as u16;
    }
    list
}

/// The equation as it stands.
pub struct AsStated;

impl Equation for AsStated {}

/// Reads a number of two bytes; `None` where the input has ended.
fn size(input: &mut impl Read) -> io::Result<Option<usize>> {
    let mut two = [0; 2];
    match input.read_exact(&mut two) {
        Ok(()) => Ok(Some(usize::from(u16::from_le_bytes(two)))),
        Err(error) if error.kind() == io::ErrorKind::UnexpectedEof => Ok(None),
        Err(error) => Err(error),
    }
}

fn bytes(input: &mut impl Read, length: usize) -> io::Result<Vec<u8>> {
    let mut bytes = vec![0; length];
    input.read_exact(&mut bytes)?;
    Ok(bytes)
}

fn tell(output: &mut impl Write, numbers: &[u32]) -> io::Result<()> {
    let bytes: Vec<u8> = numbers.iter().flat_map(|x| x.to_le_bytes()).collect();
    output.write_all(&bytes)
}

/// Answers cases until the input ends: compare/ROOMS.md says what is read and written.
pub fn answer(
    by: &(impl Equation + ?Sized),
    input: &mut impl Read,
    output: &mut impl Write,
) -> io::Result<()> {
    while let (Some(events), Some(plan), Some(length)) = (size(input)?, size(input)?, size(input)?)
    {
        let mut rooms = Rooms::from_bytes(&bytes(input, length)?);
        let file = bytes(input, plan)?;
        if !file.is_empty() {
            let (number, record) = by.begin(&mut rooms, &file);
            tell(output, &[number, record])?;
            output.write_all(&rooms.to_bytes())?;
        }
        tell(output, &by.reply(&rooms))?;
        tell(output, &by.board(&rooms))?;
        for _ in 0..events {
            let length = size(input)?.unwrap_or(0);
            let event = bytes(input, length)?;
            let (number, record) = by.take(&mut rooms, &event);
            tell(output, &[number, record])?;
            tell(output, &rooms.kept)?;
            tell(output, &by.reply(&rooms))?;
            tell(output, &by.board(&rooms))?;
        }
    }
    Ok(())
}
