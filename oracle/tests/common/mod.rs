//! Builders for the tests, and a small fixed-seed generator.
#![allow(dead_code)]

use oracle::board::Board;
use oracle::event::take;
use oracle::plan::{read, Plan, RawRecord};
use oracle::Refusal;

pub fn record(kind: u8, a: u8, b: u8, first: i32, second: i32, code: u32) -> RawRecord {
    RawRecord {
        kind,
        a,
        b,
        first,
        second,
        code,
    }
}

pub fn point(number: u8, pond: u32) -> RawRecord {
    record(1, number, 0, 0, 0, pond)
}

/// (A, x, y, C)
pub fn link(a: u8, x: i32, y: i32, c: u8) -> RawRecord {
    record(2, a, c, x, y, 0)
}

/// (X, d, Y)
pub fn ordinary(x: u8, d: i32, y: u8) -> RawRecord {
    record(3, x, y, d, 0, 0)
}

/// (V, C, w)
pub fn wait(v: u8, c: u8, w: i32) -> RawRecord {
    record(4, v, c, w, 0, 0)
}

/// So many ordinary records on 32 points, no two of them twins.
pub fn ordinaries(count: usize) -> Vec<RawRecord> {
    let pairs = (0..32).flat_map(|x| (0..32).map(move |y| (x, y)));
    let pairs = pairs.filter(|(x, y)| x != y).take(count);
    pairs.map(|(x, y)| ordinary(x, 7, y)).collect()
}

/// Points 0 up to `points`, then these records.
pub fn records(points: u8, rest: &[RawRecord]) -> Vec<RawRecord> {
    let mut all: Vec<RawRecord> = (0..points).map(|number| point(number, 0)).collect();
    all.extend_from_slice(rest);
    all
}

pub fn bytes(records: &[RawRecord]) -> Vec<u8> {
    records.iter().flat_map(RawRecord::bytes).collect()
}

/// Reads these records as a file.
pub fn try_plan(points: u8, rest: &[RawRecord]) -> Result<Plan, Refusal> {
    read(&bytes(&records(points, rest)))
}

pub fn plan(points: u8, rest: &[RawRecord]) -> Plan {
    try_plan(points, rest).expect("a good plan")
}

/// The refusal of these records, (0, 0) if there is none.
pub fn refusal(points: u8, rest: &[RawRecord]) -> Refusal {
    match try_plan(points, rest) {
        Ok(_) => (0, 0),
        Err(refusal) => refusal,
    }
}

pub const NONE: u8 = 255;

pub fn event(minute: u32, foreman: u8, set: &[u8]) -> [u8; 16] {
    let bits = set.iter().fold(0u32, |bits, point| bits | 1 << point);
    let mut bytes = [0; 16];
    bytes[0..4].copy_from_slice(&minute.to_le_bytes());
    bytes[4] = foreman;
    bytes[8..12].copy_from_slice(&bits.to_le_bytes());
    bytes
}

/// A board with these points done at these minutes, each by an event of its own, in the order of minutes and of the list;
/// the clock is the largest.
pub fn board(done: &[(usize, u32)]) -> Board {
    let mut board = Board::fresh();
    let mut done = done.to_vec();
    done.sort_by_key(|&(_, minute)| minute);
    for (number, (point, minute)) in (1..).zip(done) {
        board.done |= 1 << point;
        board.minutes[point] = minute;
        board.numbers[point] = number;
        board.clock = minute;
    }
    board
}

/// The board with these event numbers of the first points.
pub fn numbered(mut board: Board, numbers: &[u32]) -> Board {
    board.numbers[..numbers.len()].copy_from_slice(numbers);
    board
}

/// The number for an event; a refused one must hand back the same board, and only 28 may have a record.
pub fn number(plan: &Plan, before: &Board, event: &[u8]) -> u32 {
    let ((number, record), after) = take(plan, before, event);
    assert_eq!(number != 0, after == *before);
    assert!(number == 28 || record == 0);
    number
}

/// Takes events that must all be accepted.
pub fn after(plan: &Plan, start: &Board, events: &[[u8; 16]]) -> Board {
    let mut now = *start;
    for event in events {
        let (refusal, next) = take(plan, &now, event);
        assert_eq!(refusal, (0, 0));
        now = next;
    }
    now
}

/// The plan of "Haul to one pond".
pub fn haul() -> Plan {
    haul_with(&[wait(3, 2, 35)])
}

/// The same with other waits.
pub fn haul_with(waits: &[RawRecord]) -> Plan {
    let mut rest = vec![
        link(1, 20, 50, 2),
        ordinary(1, -10, 0),
        ordinary(2, 5, 3),
        ordinary(3, 15, 2),
    ];
    rest.extend_from_slice(waits);
    plan(4, &rest)
}

/// Events 0 at 0, 1 at 12 of the worked cases.
pub fn hauling(plan: &Plan) -> Board {
    after(
        plan,
        &Board::fresh(),
        &[event(0, 0, &[]), event(12, 1, &[])],
    )
}

/// Xorshift with a fixed seed.
pub struct Random(u64);

impl Random {
    pub fn new(seed: u64) -> Random {
        Random(seed.wrapping_mul(0x9E37_79B9_7F4A_7C15) | 1)
    }

    /// A number from 0 up to `limit`.
    pub fn below(&mut self, limit: usize) -> usize {
        self.0 ^= self.0 << 13;
        self.0 ^= self.0 >> 7;
        self.0 ^= self.0 << 17;
        ((self.0 >> 11) % limit as u64) as usize
    }

    /// A number from `least` to `most`.
    pub fn between(&mut self, least: i32, most: i32) -> i32 {
        least + self.below((most - least + 1) as usize) as i32
    }
}

/// A small random plan: records that reading refuses are left out. `bound` is the largest d.
pub fn random_plan(random: &mut Random, bound: i32) -> Plan {
    let points = random.between(2, 5) as usize;
    let mut links = Vec::new();
    for _ in 0..random.below(4) {
        let (a, c) = (random.below(points) as u8, random.below(points) as u8);
        links.push(short_link(random, a, c));
    }
    with_links(random, points, links, bound)
}

/// The same, with two links or three of which at least one starts where another ends, and no ring.
pub fn chained_plan(random: &mut Random, bound: i32) -> Plan {
    let points = random.between(3, 5) as usize;
    let mut order: Vec<u8> = (0..points as u8).collect();
    for place in (1..points).rev() {
        order.swap(place, random.below(place + 1));
    }
    // The second starts at the end of the first, a third anywhere before its own end.
    let mut links = vec![
        short_link(random, order[0], order[1]),
        short_link(random, order[1], order[2]),
    ];
    if points > 3 && random.below(2) == 0 {
        let a = order[random.below(3)];
        links.push(short_link(random, a, order[3]));
    }
    // In any order in the file.
    let first = random.below(links.len());
    links.swap(0, first);
    with_links(random, points, links, bound)
}

fn short_link(random: &mut Random, a: u8, c: u8) -> RawRecord {
    let x = random.between(1, 3);
    link(a, x, x + random.between(1, 3), c)
}

/// With these links, ordinary records and waits: what reading refuses is left out.
fn with_links(random: &mut Random, points: usize, links: Vec<RawRecord>, bound: i32) -> Plan {
    let mut all = records(points as u8, &[]);
    let mut others = Vec::new();
    for _ in 0..random.below(9) {
        let (x, y) = (random.below(points) as u8, random.below(points) as u8);
        others.push(ordinary(x, random.between(-bound, bound), y));
    }
    for _ in 0..random.below(6) {
        let (v, c) = (random.below(points) as u8, random.below(points) as u8);
        others.push(wait(v, c, random.between(1, 6)));
    }
    for new in links.into_iter().chain(others) {
        all.push(new);
        if read(&bytes(&all)).is_err() {
            all.pop();
        }
    }
    read(&bytes(&all)).unwrap()
}

/// Does a link of the plan start where another ends?
pub fn chained(plan: &Plan) -> bool {
    plan.links.iter().any(|link| plan.watched(link.a))
}

/// Do links start one another in a ring? Going back from A to A as many times as there are links ends at a foreman's point,
/// unless there is one.
pub fn ringed(plan: &Plan) -> bool {
    plan.links.iter().any(|link| {
        let mut a = link.a;
        for _ in 0..plan.links.len() {
            match plan.link_to(a) {
                Some(before) => a = before.a,
                None => return false,
            }
        }
        true
    })
}
