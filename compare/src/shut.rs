//! Why points are shut (document 02, "Why is it shut?"): what of it comes up in inputs and in requests.

use crate::corners::{self, CORNERS};
use crate::events::MARK;
use crate::requests::{SAID, STREAM_ROOM};
use oracle::board::{self, Board, Outcome, PLACES};
use oracle::event;
use oracle::plan::{self, Plan, RawPlan, RawRecord, RECORD, ROOM};

/// What a list may have to tell.
pub const LISTS: [&str; 9] = [
    "shut: the first of several",
    "shut: the first, of either kind",
    "shut: an earlier record holds no more",
    "shut: an earlier wait holds no more",
    "shut: a wait of a running link before",
    "shut: an earlier record with d = 0",
    "shut: by a record past 255",
    "stuck: H is below zero",
    "stuck: an open point with more room",
];

/// What 28 may be about: a record that would hold the point is no reason where it is watched or done.
pub const TOLD: [&str; 6] = [
    "28: shut by an ordinary record",
    "28: shut by a wait",
    "28: watched",
    "28: watched, with a record",
    "28: done",
    "28: done, with a record",
];

/// The same in streams.
pub const STREAMED: [&str; 6] = [
    "stream, 28: shut by an ordinary record",
    "stream, 28: shut by a wait",
    "stream, 28: watched",
    "stream, 28: watched, with a record",
    "stream, 28: done",
    "stream, 28: done, with a record",
];

/// So many events of an input are looked at.
const EVENTS: usize = 200;

/// What has come up.
#[derive(Default)]
struct Found {
    lists: [bool; LISTS.len()],
    told: [bool; TOLD.len()],
    streamed: [bool; STREAMED.len()],
    /// Of events of the probe only: those of inputs are looked at in `corners.rs`.
    corners: [bool; CORNERS.len()],
}

impl Found {
    fn keys(&self) -> Vec<&'static str> {
        let lists = LISTS.iter().zip(&self.lists);
        let told = TOLD.iter().zip(&self.told);
        let streamed = STREAMED.iter().zip(&self.streamed);
        let all = lists.chain(told).chain(streamed);
        let all = all.chain(CORNERS.iter().zip(&self.corners));
        all.filter(|(_, is)| **is).map(|(key, _)| *key).collect()
    }

    /// The list of a sound board.
    fn list(&mut self, plan: &Plan, at: &Board) {
        let outcome = board::outcome(plan, at);
        if outcome == Outcome::Finished {
            return;
        }
        let waits = (plan.points() + plan.links.len() + plan.ordinary.len()) as u32;
        for (v, holders) in board::held_by(plan, at).iter().enumerate() {
            let Some(&first) = holders.first() else {
                continue;
            };
            self.lists[0] |= holders.len() > 1;
            self.lists[1] |= first < waits && holders.last() >= Some(&waits);
            let before = |number: &u32| *number < first;
            let mut gone = would_hold(plan, v).into_iter().filter(before);
            self.lists[2] |= gone.any(|number| number < waits);
            let numbers = waits..;
            for (number, wait) in numbers.zip(&plan.waits) {
                let link = plan.link_of(wait);
                if wait.v == v && at.is_done(link.a) {
                    self.lists[3] |= number < first;
                    self.lists[4] |= number < first && !at.is_done(link.c);
                }
            }
            let ordinary = (waits - plan.ordinary.len() as u32..).zip(&plan.ordinary);
            for (number, record) in ordinary {
                let none = record.x == v && record.d == 0 && !at.is_done(record.y);
                self.lists[5] |= none && number < first;
            }
            self.lists[6] |= first > 255;
        }
        if outcome == Outcome::Stuck {
            if let Some(h) = board::least_high(plan, at) {
                self.lists[7] |= h < 0;
                let open = board::open_points(plan, at);
                let more = |v: &usize| board::high(plan, at, *v).is_none_or(|high| high > h);
                self.lists[8] |= open.iter().any(more);
            }
        }
    }

    /// A sound board, and what is said of an event; answers the board handed back.
    fn take(&mut self, plan: &Plan, at: &Board, event: &[u8], stream: bool) -> Board {
        let ((number, record), after) = event::take(plan, at, event);
        let corner = corners::of_event(plan, at, event, number);
        for (key, found) in CORNERS.iter().zip(&mut self.corners) {
            *found |= corner == Some(*key);
        }
        if number == 28 {
            let v = usize::from(event[4]);
            let waits = (plan.points() + plan.links.len() + plan.ordinary.len()) as u32;
            let with = would_hold(plan, v)
                .into_iter()
                .any(|number| !at.is_done(awaited(plan, number)));
            let case = match (record, at.is_done(v)) {
                (0, false) => 2 + usize::from(with),
                (0, true) => 4 + usize::from(with),
                _ => usize::from(record >= waits),
            };
            if stream {
                self.streamed[case] = true;
            } else {
                self.told[case] = true;
            }
        }
        after
    }
}

/// The records that can hold a point, if it were the foreman's: by their numbers in the file.
fn would_hold(plan: &Plan, v: usize) -> Vec<u32> {
    let first = (plan.points() + plan.links.len()) as u32;
    let ordinary = (first..).zip(&plan.ordinary);
    let ordinary = ordinary.filter(|(_, record)| record.x == v && record.d < 0);
    let waits = (first + plan.ordinary.len() as u32..).zip(&plan.waits);
    let waits = waits.filter(|(_, wait)| wait.v == v);
    let ordinary = ordinary.map(|(number, _)| number);
    ordinary.chain(waits.map(|(number, _)| number)).collect()
}

/// What such a record waits for.
fn awaited(plan: &Plan, number: u32) -> usize {
    let place = number as usize - plan.points() - plan.links.len();
    match plan.ordinary.get(place) {
        Some(record) => record.y,
        None => plan.link_of(&plan.waits[place - plan.ordinary.len()]).a,
    }
}

/// What comes up in an input of the program that prints lists.
pub fn of_input(input: &[u8]) -> Vec<&'static str> {
    let mark = input.chunks(RECORD).position(|record| record == MARK);
    let (part, events) = match mark {
        Some(mark) => (&input[..mark * RECORD], &input[(mark + 1) * RECORD..]),
        None => (input, &[][..]),
    };
    let Ok(plan) = plan::read(part) else {
        return Vec::new();
    };
    let mut found = Found::default();
    let mut at = Board::fresh();
    found.list(&plan, &at);
    for event in events.chunks_exact(RECORD).take(EVENTS) {
        let after = found.take(&plan, &at, event, false);
        if after != at {
            at = after;
            found.list(&plan, &at);
        }
    }
    found.corners = Default::default();
    found.keys()
}

/// What comes up in requests of the probe.
pub fn of_requests(requests: &[u8]) -> Vec<&'static str> {
    let mut raw = RawPlan::empty();
    let mut at = Board::fresh();
    let (mut next, mut counts, mut plan) = (0u32, 0, None);
    let mut buffer = vec![0; 65_536];
    let mut found = Found::default();
    for request in requests.chunks_exact(RECORD) {
        let word = |at: usize| u32::from_le_bytes([0, 1, 2, 3].map(|place| request[at + place]));
        let place = usize::from(request[1]) % PLACES;
        match request[0] {
            0 => break,
            1 => (raw.count, next, plan) = (word(4), word(8), None),
            2 => {
                raw.records[next as usize % ROOM] = RawRecord {
                    kind: request[1],
                    a: request[2],
                    b: request[3],
                    first: word(4) as i32,
                    second: word(8) as i32,
                    code: word(12),
                };
                (next, plan) = (next.wrapping_add(1), None);
            }
            3 => (at.clock, at.done) = (word(4), word(8)),
            4 => at.minutes[place] = word(4),
            5 => {
                buffer.fill(request[1]);
                counts = (word(4) as usize).min(buffer.len());
            }
            6 => {
                for (at, byte) in (word(4) as usize..).zip(&request[8..]) {
                    if let Some(here) = buffer.get_mut(at) {
                        *here = *byte;
                    }
                }
            }
            8 => at.numbers[place] = word(4),
            16 | 17 | 24 => {
                let plan = plan.get_or_insert_with(|| plan::check(&raw).ok());
                let Some(plan) = plan else { continue };
                if !board::sound(plan, &at) {
                    continue;
                }
                match request[0] {
                    16 => found.list(plan, &at),
                    17 => at = found.take(plan, &at, &buffer[..counts], false),
                    _ => {
                        let room = STREAM_ROOM.min(word(4) as usize) / SAID;
                        for event in buffer[..counts].chunks_exact(RECORD).take(room) {
                            at = found.take(plan, &at, event, true);
                        }
                    }
                }
            }
            _ => {}
        }
    }
    found.keys()
}
