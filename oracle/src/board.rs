//! The board, its windows, and the reply to a board.

use crate::plan::{Link, Plan, BOUND};
use crate::Refusal;
use std::collections::{BTreeMap, BTreeSet};

/// Places on a board.
pub const PLACES: usize = 32;

#[derive(Clone, Copy, PartialEq, Eq, Debug)]
pub struct Board {
    pub clock: u32,
    pub done: u32,
    pub minutes: [u32; PLACES],
    /// For each done point the number of the event that did it, from 1 (document 02); else 0.
    pub numbers: [u32; PLACES],
}

impl Board {
    /// The fresh board: all zero.
    pub fn fresh() -> Board {
        Board {
            clock: 0,
            done: 0,
            minutes: [0; PLACES],
            numbers: [0; PLACES],
        }
    }

    pub fn clock(&self) -> i64 {
        i64::from(self.clock)
    }

    pub fn is_done(&self, point: usize) -> bool {
        self.done >> point & 1 == 1
    }

    pub fn minute(&self, point: usize) -> i64 {
        i64::from(self.minutes[point])
    }

    /// The number of done points: the number of ones in the set.
    pub fn count(&self) -> u32 {
        (0..PLACES).filter(|&point| self.is_done(point)).count() as u32
    }
}

/// Are all points of the plan done?
pub fn all_done(plan: &Plan, board: &Board) -> bool {
    (0..plan.points()).all(|point| board.is_done(point))
}

/// A running link: A done, C not.
pub fn is_running(board: &Board, link: &Link) -> bool {
    board.is_done(link.a) && !board.is_done(link.c)
}

/// A sentence of what it is for a board to be sound, in the documents' order.
#[derive(Clone, Copy, PartialEq, Eq, PartialOrd, Ord, Debug)]
pub enum Clause {
    /// Done points are in the plan.
    InPlan,
    /// A point not done holds the minute 0.
    NoMinute,
    /// Minutes are between 0 and the clock.
    UpToClock,
    /// The clock is the largest done minute, or 0 with none done.
    Clock,
    /// A done watched point has its A done.
    Started,
    /// A done watched point whose A is done has its duration in bounds.
    Duration,
    /// A running link has A + y ≥ clock.
    Running,
    /// Clock ≤ 100,000 × the number of done points.
    Farthest,
    /// A point not done holds the event number 0.
    NoNumber,
    /// A done point holds an event number from 1.
    Number,
    /// Event numbers have no gaps.
    Gaps,
    /// Minutes never fall as event numbers rise.
    Falling,
    /// The same minute for the same number.
    OneMinute,
    /// At most one foreman's point for each number.
    OneForeman,
    /// A link's start in an earlier event than its end, where both are done.
    Earlier,
}

pub const CLAUSES: [Clause; 15] = [
    Clause::InPlan,
    Clause::NoMinute,
    Clause::UpToClock,
    Clause::Clock,
    Clause::Started,
    Clause::Duration,
    Clause::Running,
    Clause::Farthest,
    Clause::NoNumber,
    Clause::Number,
    Clause::Gaps,
    Clause::Falling,
    Clause::OneMinute,
    Clause::OneForeman,
    Clause::Earlier,
];

/// Is that sentence true of the board?
pub fn keeps(plan: &Plan, board: &Board, clause: Clause) -> bool {
    let done: Vec<usize> = (0..PLACES).filter(|&point| board.is_done(point)).collect();
    let pairs = || done.iter().flat_map(|&p| done.iter().map(move |&q| (p, q)));
    let number = |point: usize| board.numbers[point];
    let links = || plan.links.iter();
    match clause {
        Clause::InPlan => done.iter().all(|&point| point < plan.points()),
        Clause::NoMinute => {
            (0..PLACES).all(|point| board.is_done(point) || board.minute(point) == 0)
        }
        Clause::UpToClock => (0..PLACES).all(|point| board.minute(point) <= board.clock()),
        Clause::Clock => {
            let largest = done.iter().map(|&point| board.minute(point)).max();
            board.clock() == largest.unwrap_or(0)
        }
        Clause::Started => links().all(|link| !board.is_done(link.c) || board.is_done(link.a)),
        Clause::Duration => links().all(|link| {
            let both = board.is_done(link.a) && board.is_done(link.c);
            let duration = board.minute(link.c) - board.minute(link.a);
            !both || (link.x..=link.y).contains(&duration)
        }),
        Clause::Running => links()
            .all(|link| !is_running(board, link) || board.minute(link.a) + link.y >= board.clock()),
        Clause::Farthest => board.clock() <= BOUND * i64::from(board.count()),
        Clause::NoNumber => (0..PLACES).all(|point| board.is_done(point) || number(point) == 0),
        Clause::Number => done.iter().all(|&point| number(point) >= 1),
        // The one before each is some point's, down to 1.
        Clause::Gaps => done.iter().all(|&point| {
            number(point) <= 1 || done.iter().any(|&other| number(other) == number(point) - 1)
        }),
        Clause::Falling => {
            pairs().all(|(p, q)| number(p) >= number(q) || board.minute(p) <= board.minute(q))
        }
        Clause::OneMinute => {
            pairs().all(|(p, q)| number(p) != number(q) || board.minute(p) == board.minute(q))
        }
        Clause::OneForeman => pairs()
            .all(|(p, q)| p == q || number(p) != number(q) || plan.watched(p) || plan.watched(q)),
        Clause::Earlier => links().all(|link| {
            let both = board.is_done(link.a) && board.is_done(link.c);
            !both || number(link.a) < number(link.c)
        }),
    }
}

/// The sentences that are not true of the board.
pub fn broken(plan: &Plan, board: &Board) -> Vec<Clause> {
    let all = CLAUSES.into_iter();
    all.filter(|&clause| !keeps(plan, board, clause)).collect()
}

/// Is the board sound for the plan?
pub fn sound(plan: &Plan, board: &Board) -> bool {
    CLAUSES.into_iter().all(|clause| keeps(plan, board, clause))
}

/// Open: a foreman's point not yet done; every ordinary record from it with negative d points to
/// a done point, and each wait on it has its A done.
pub fn is_open(plan: &Plan, board: &Board, v: usize) -> bool {
    if plan.watched(v) || board.is_done(v) {
        return false;
    }
    let mut from_v = plan
        .ordinary
        .iter()
        .filter(|record| record.x == v && record.d < 0);
    let mut on_v = plan.waits.iter().filter(|wait| wait.v == v);
    from_v.all(|record| board.is_done(record.y))
        && on_v.all(|wait| board.is_done(plan.link_of(wait).a))
}

/// Why each point is shut (document 02): the numbers in the file of all records that keep it so. Every record that can shut a
/// point is noted under what it waits for, the Y of an ordinary record with negative d or the A of a wait; what the done
/// points were waited for is struck out, and what is left holds. A watched or done point is not held, nor is room past the plan.
pub fn held_by(plan: &Plan, board: &Board) -> [BTreeSet<u32>; PLACES] {
    let mut noted: BTreeMap<usize, Vec<(usize, u32)>> = BTreeMap::new();
    let first = plan.points() + plan.links.len();
    for (number, record) in (first..).zip(&plan.ordinary) {
        if record.d < 0 {
            let under = noted.entry(record.y).or_default();
            under.push((record.x, number as u32));
        }
    }
    for (number, wait) in (first + plan.ordinary.len()..).zip(&plan.waits) {
        let under = noted.entry(plan.link_of(wait).a).or_default();
        under.push((wait.v, number as u32));
    }
    for point in (0..PLACES).filter(|&point| board.is_done(point)) {
        noted.remove(&point);
    }
    let mut held = [(); PLACES].map(|()| BTreeSet::new());
    for (v, number) in noted.into_values().flatten() {
        if !plan.watched(v) && !board.is_done(v) {
            held[v].insert(number);
        }
    }
    held
}

/// The record that a shut point of the plan is told: the first in file order of those that hold it.
pub fn shut_by(plan: &Plan, board: &Board, v: usize) -> Option<u32> {
    held_by(plan, board)[v].first().copied()
}

/// Low: the largest of 0, the clock, Y − d over records (v, d, Y) with Y done, and A + w over
/// waits on v whose link is running.
pub fn low(plan: &Plan, board: &Board, v: usize) -> i64 {
    let mut low = board.clock().max(0);
    for record in &plan.ordinary {
        if record.x == v && board.is_done(record.y) {
            low = low.max(board.minute(record.y) - record.d);
        }
    }
    for wait in plan.waits.iter().filter(|wait| wait.v == v) {
        let link = plan.link_of(wait);
        if is_running(board, &link) {
            low = low.max(board.minute(link.a) + wait.w);
        }
    }
    low
}

/// High: the least X + d over records (X, d, v) with X done, negative d included.
pub fn high(plan: &Plan, board: &Board, v: usize) -> Option<i64> {
    let to_v = plan
        .ordinary
        .iter()
        .filter(|record| record.y == v && board.is_done(record.x));
    to_v.map(|record| board.minute(record.x) + record.d).min()
}

/// The open points, in order.
pub fn open_points(plan: &Plan, board: &Board) -> Vec<usize> {
    (0..plan.points())
        .filter(|&v| is_open(plan, board, v))
        .collect()
}

/// H: the least High of all open points. It can be below zero.
pub fn least_high(plan: &Plan, board: &Board) -> Option<i64> {
    let open = open_points(plan, board);
    open.iter().filter_map(|&v| high(plan, board, v)).min()
}

/// The latest: the lesser of H and clock + 100,000.
pub fn latest(plan: &Plan, board: &Board) -> i64 {
    let furthest = board.clock() + BOUND;
    match least_high(plan, board) {
        Some(h) if h < furthest => h,
        _ => furthest,
    }
}

#[derive(Clone, Copy, PartialEq, Eq, Debug)]
pub enum Outcome {
    Finished,
    Stuck,
    Waiting,
    Offers,
}

/// What the reply says of one point.
#[derive(Clone, Copy, PartialEq, Eq, Debug)]
pub enum Place {
    Done(i64),
    Watched,
    /// With the first record that keeps it so; room past the last point has none.
    Shut(Option<u32>),
    Held,
    Offered(i64),
}

/// Every place shut, and nothing said of why: the list of a finished board and of a refusal.
pub const NO_LIST: [Place; PLACES] = [Place::Shut(None); PLACES];

/// The reply to a sound board. Without an offer the latest is 0; a finished board has no list.
#[derive(Clone, Copy, PartialEq, Eq, Debug)]
pub struct Reply {
    pub outcome: Outcome,
    pub latest: i64,
    pub places: [Place; PLACES],
}

/// The outcome for a sound board.
pub fn outcome(plan: &Plan, board: &Board) -> Outcome {
    if all_done(plan, board) {
        return Outcome::Finished;
    }
    let open = open_points(plan, board);
    let running = plan.links.iter().any(|link| is_running(board, link));
    let all_above = match least_high(plan, board) {
        Some(h) => open.iter().all(|&v| low(plan, board, v) > h),
        None => false,
    };
    if open.is_empty() && !running || !open.is_empty() && all_above {
        return Outcome::Stuck;
    }
    if open.is_empty() {
        Outcome::Waiting
    } else {
        Outcome::Offers
    }
}

/// The reply to a board, or 20.
pub fn reply(plan: &Plan, board: &Board) -> Result<Reply, Refusal> {
    if !sound(plan, board) {
        return Err((20, 0));
    }
    let outcome = outcome(plan, board);
    let mut reply = Reply {
        outcome,
        latest: 0,
        places: NO_LIST,
    };
    if outcome == Outcome::Finished {
        return Ok(reply);
    }
    if outcome == Outcome::Offers {
        reply.latest = latest(plan, board);
    }
    let held = held_by(plan, board);
    for (point, holders) in held.iter().enumerate().take(plan.points()) {
        reply.places[point] = if board.is_done(point) {
            Place::Done(board.minute(point))
        } else if plan.watched(point) {
            Place::Watched
        } else if !is_open(plan, board, point) {
            Place::Shut(holders.first().copied())
        } else if outcome == Outcome::Offers && low(plan, board, point) <= reply.latest {
            Place::Offered(low(plan, board, point))
        } else {
            Place::Held
        };
    }
    Ok(reply)
}
