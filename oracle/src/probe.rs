//! The requests of compare/PROBE.md: calls with plans, boards, events and buffers of any content.

use crate::board::{Board, Outcome, Place, NO_LIST, PLACES};
use crate::by_value;
use crate::plan::{self, unsigned, RawPlan, RawRecord, RECORD, ROOM};
use crate::plan_test::Answer;
use crate::verdict::{Listed, Verdict};
use crate::Refusal;
use std::io::{self, Read, Write};

/// The whole buffer.
const BUFFER: usize = 65_536;
/// Eight bytes of the buffer are a bound, and this many bounds can be listed.
const BOUND_BYTES: usize = 8;
const LIST: usize = 4_096;
/// A stream's room: the most numbers, and how many are said of one event.
const STREAM_ROOM: usize = 12_288;
const SAID: usize = 4;
const PRIME: u64 = 16_777_213;

/// What the requests have put on the desk.
struct Desk {
    plan: RawPlan,
    board: Board,
    next: u32,
    buffer: Vec<u8>,
    counts: usize,
    repeats: u32,
}

/// Four numbers of an answer.
type Line = [u32; 4];

/// Answers all requests.
pub fn probe(input: &mut impl Read, output: &mut impl Write) -> io::Result<()> {
    let mut bytes = Vec::new();
    input.read_to_end(&mut bytes)?;
    let mut desk = Desk {
        plan: RawPlan::empty(),
        board: Board::fresh(),
        next: 0,
        buffer: vec![0; BUFFER],
        counts: 0,
        repeats: 0,
    };
    for request in bytes.chunks_exact(RECORD) {
        if request[0] == 0 {
            break;
        }
        for [a, b, c, d] in desk.asked(request) {
            writeln!(output, "{a} {b} {c} {d}")?;
        }
    }
    output.flush()
}

fn mixed(sum: u32, x: u32) -> u32 {
    ((u64::from(sum) % PRIME * 251 + u64::from(x) + 1) % PRIME) as u32
}

/// A board's lines: clock and set, the minutes, the event numbers.
fn board_lines(asked: u32, board: &Board) -> Vec<Line> {
    let mut lines = vec![[asked, board.clock, board.done, 0]];
    let numbers = board.numbers.chunks_exact(4);
    for four in board.minutes.chunks_exact(4).chain(numbers) {
        lines.push([four[0], four[1], four[2], four[3]]);
    }
    lines
}

/// The sum over a plan, all its room included.
fn sum_of_plan(plan: &RawPlan) -> u32 {
    let mut sum = plan.count;
    for record in &plan.records {
        let up = |number: i32| number.max(0) as u32;
        let down = |number: i32| (-i64::from(number)).max(0) as u32;
        let numbers = [
            u32::from(record.kind),
            u32::from(record.a),
            u32::from(record.b),
            up(record.first),
            down(record.first),
            up(record.second),
            down(record.second),
            record.code,
        ];
        sum = numbers.into_iter().fold(sum, mixed);
    }
    sum
}

impl Desk {
    /// Puts something on the desk, or makes a call.
    fn asked(&mut self, request: &[u8]) -> Vec<Line> {
        let [p, q, r] = [request[1], request[2], request[3]];
        let [f, s, t] = [4, 8, 12].map(|at| unsigned(request, at));
        match request[0] {
            1 => {
                self.plan.count = f;
                self.next = s;
            }
            2 => {
                self.plan.records[self.next as usize % ROOM] = RawRecord {
                    kind: p,
                    a: q,
                    b: r,
                    first: f as i32,
                    second: s as i32,
                    code: t,
                };
                self.next = self.next.wrapping_add(1);
            }
            3 => {
                self.board.clock = f;
                self.board.done = s;
            }
            4 => self.board.minutes[usize::from(p) % PLACES] = f,
            5 => {
                self.buffer.fill(p);
                self.counts = BUFFER.min(f as usize);
            }
            6 => {
                self.put(f, s);
                self.put(f.wrapping_add(4), t);
            }
            7 => self.repeats = f,
            8 => self.board.numbers[usize::from(p) % PLACES] = f,
            16 => return self.reply(),
            17 => return self.take(),
            18 => return vec![self.verdict()],
            19 => {
                let (number, record) = plan::check(&self.plan).err().unwrap_or((0, 0));
                return vec![[19, number, record, 0]];
            }
            20 => {
                let counted = &mut self.buffer[..self.counts];
                let (number, record) = plan::write(&self.plan, counted);
                let sum = counted.iter().fold(0, |sum, &byte| mixed(sum, byte.into()));
                return vec![[20, number, record, sum]];
            }
            21 => return self.test(),
            22 => return self.read(),
            23 => return vec![self.judge()],
            24 => return self.stream(f, s),
            other => return vec![[other.into(), 0, 0, 0]],
        }
        Vec::new()
    }

    fn put(&mut self, at: u32, word: u32) {
        for (place, byte) in (at as usize..).zip(word.to_le_bytes()) {
            if let Some(here) = self.buffer.get_mut(place) {
                *here = byte;
            }
        }
    }

    /// The sum over the repeats of a call on a plan.
    fn sum(&self, call: impl Fn(&RawPlan) -> u32) -> u32 {
        let mut plan = self.plan.clone();
        let mut sum = 0;
        for k in 0..self.repeats {
            plan.records[0].code = k;
            sum = mixed(sum, call(&plan));
        }
        sum
    }

    fn reply(&self) -> Vec<Line> {
        let latest = |plan: &RawPlan| match by_value::reply(plan, &self.board) {
            Ok(reply) => reply.latest as u32,
            Err(_) => 0,
        };
        let sum = self.sum(latest);
        let (first, places) = match by_value::reply(&self.plan, &self.board) {
            Err((number, record)) => ([16, number, record, sum], NO_LIST),
            Ok(reply) => {
                let outcome = match reply.outcome {
                    Outcome::Finished => 101,
                    Outcome::Stuck => 102,
                    Outcome::Waiting => 103,
                    Outcome::Offers => 104,
                };
                ([16, outcome, reply.latest as u32, sum], reply.places)
            }
        };
        let mut lines = vec![first];
        for (point, place) in (0..).zip(places) {
            let (state, with) = match place {
                Place::Done(minute) => (1, minute as u32),
                Place::Watched => (2, 0),
                Place::Shut(record) => (3, record.unwrap_or(0)),
                Place::Held => (4, 0),
                Place::Offered(low) => (5, low as u32),
            };
            lines.push([point, state, with, 0]);
        }
        lines
    }

    fn take(&mut self) -> Vec<Line> {
        let event = &self.buffer[..self.counts];
        let sum = self.sum(|plan| by_value::take(plan, &self.board, event).2.clock);
        let (number, record, after) = by_value::take(&self.plan, &self.board, event);
        self.board = after;
        let mut lines = vec![[17, number, record, sum]];
        lines.extend(board_lines(17, &after));
        lines
    }

    fn verdict(&self) -> Line {
        let judged = |plan: &RawPlan| -> Refusal {
            match by_value::verdict(plan, &self.board) {
                Ok(Verdict::Kept) => (0, 0),
                Ok(Verdict::Broken(record)) => (100, record),
                Err(refusal) => refusal,
            }
        };
        let sum = self.sum(|plan| match judged(plan) {
            (100, record) => record,
            (number, _) => number,
        });
        let (number, record) = judged(&self.plan);
        [18, number, record, sum]
    }

    /// The bytes that count, as a lent list.
    fn judge(&self) -> Line {
        let bounds = self.buffer[..self.counts].chunks_exact(BOUND_BYTES);
        let listed = |bytes: &[u8]| Listed {
            x: bytes[0].into(),
            y: bytes[1].into(),
            bound: unsigned(bytes, 4) as i32,
        };
        let list: Vec<Listed> = bounds.take(LIST).map(listed).collect();
        match by_value::judge(&self.plan, &self.board, &list) {
            Ok(Verdict::Kept) => [23, 0, 0, 0],
            Ok(Verdict::Broken(place)) => [23, 100, place, 0],
            Err((number, place)) => [23, number, place, 0],
        }
    }

    /// The bytes that count, as events one after the other, each from the board that the one before handed back.
    fn stream(&mut self, numbers: u32, before: u32) -> Vec<Line> {
        let mut room = vec![before; STREAM_ROOM.min(numbers as usize)];
        let refusal = by_value::sound(&self.plan, &self.board).err();
        if refusal.is_none() {
            let events = self.buffer[..self.counts].chunks_exact(RECORD);
            for (said, event) in room.chunks_exact_mut(SAID).zip(events) {
                let (number, record, after) = by_value::take(&self.plan, &self.board, event);
                self.board = after;
                said.copy_from_slice(&[number, record, after.clock, after.done]);
            }
        }
        let (number, record) = refusal.unwrap_or((0, 0));
        let sum = room.into_iter().fold(0, mixed);
        let mut lines = vec![[24, number, record, sum]];
        lines.extend(board_lines(24, &self.board));
        lines
    }

    fn test(&self) -> Vec<Line> {
        match by_value::plan_test(&self.plan) {
            Err((number, record)) => vec![[21, number, record, 0]],
            Ok(Answer::Yes(tried)) => vec![[21, 101, tried, 0]],
            Ok(Answer::Cycle(at)) => vec![[21, 102, at, 0]],
            Ok(Answer::Pair(at, x, y)) => vec![[21, 103, at, 0], [21, x as u32, y as u32, 0]],
        }
    }

    fn read(&mut self) -> Vec<Line> {
        let mut sum = 0;
        let counted = &mut self.buffer[..self.counts];
        for k in 0..self.repeats {
            if let Some(byte) = counted.get_mut(12) {
                *byte = k as u8;
            }
            sum = mixed(sum, plan::read_by_value(counted).2.count);
        }
        let (number, record, plan) = plan::read_by_value(counted);
        vec![
            [22, number, record, sum],
            [22, plan.count, sum_of_plan(&plan), 0],
        ]
    }
}
