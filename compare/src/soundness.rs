//! What is wrong with the boards that are put on the probe's desk: which sentence of soundness alone, if it is one.

use oracle::board::{self, Board, Clause, PLACES};
use oracle::plan::{self, Plan, RawPlan, RawRecord, RECORD, ROOM};

/// Boards of which one sentence alone is not true. That no minute is past the clock follows from others, and that a link starts
/// in an earlier event than it ends, too: of that there are two ways, each with another sentence.
const ALONE: [(&[Clause], &str); 15] = [
    (&[Clause::InPlan], "20 alone: a done point past the plan"),
    (&[Clause::NoMinute], "20 alone: a minute not done"),
    (&[Clause::Clock], "20 alone: the clock"),
    (&[Clause::Started], "20 alone: an end without its A"),
    (&[Clause::Duration], "20 alone: a duration"),
    (&[Clause::Running], "20 alone: a link run out"),
    (&[Clause::Farthest], "20 alone: the farthest clock"),
    (&[Clause::NoNumber], "20 alone: a number not done"),
    (&[Clause::Number], "20 alone: a number 0"),
    (&[Clause::Gaps], "20 alone: a gap"),
    (&[Clause::Falling], "20 alone: minutes fall"),
    (&[Clause::OneMinute], "20 alone: two minutes"),
    (&[Clause::OneForeman], "20 alone: two foreman's points"),
    (
        &[Clause::OneMinute, Clause::Earlier],
        "20: a start in its end's event",
    ),
    (
        &[Clause::Falling, Clause::Earlier],
        "20: a start after its end's event",
    ),
];

/// What else may be told of boards that are sound or have a gap.
const MORE: [&str; 8] = [
    "20 alone: a gap from 1 on",
    "20 alone: a gap, a number past 32",
    "20 alone: a gap, 2^32 - 1",
    "sound: two events at one minute",
    "sound: points of one event",
    "sound: event 32",
    "sound: not numbered by points",
    "20 alone: a gap within the count",
];

/// All that must come up.
pub fn keys() -> impl Iterator<Item = &'static str> {
    ALONE.iter().map(|(_, key)| *key).chain(MORE)
}

/// What a board is counted under.
fn of_board(plan: &Plan, board: &Board) -> Vec<&'static str> {
    let broken = board::broken(plan, board);
    let alone = ALONE.iter().filter(|(clauses, _)| *clauses == broken);
    let mut found: Vec<&str> = alone.map(|(_, key)| *key).collect();
    let done: Vec<usize> = (0..PLACES).filter(|&point| board.is_done(point)).collect();
    let numbers: Vec<u32> = done.iter().map(|&point| board.numbers[point]).collect();
    let last = numbers.iter().max().copied().unwrap_or(0);
    if broken == [Clause::Gaps] {
        if !numbers.contains(&1) {
            found.push(MORE[0]);
        }
        if last <= board.count() {
            found.push(MORE[7]);
        }
        if last > 32 {
            found.push(MORE[1]);
        }
        if last == u32::MAX {
            found.push(MORE[2]);
        }
    }
    if broken.is_empty() {
        let pairs = || done.iter().flat_map(|&p| done.iter().map(move |&q| (p, q)));
        let same = |p: usize, q: usize| board.numbers[p] == board.numbers[q];
        if pairs().any(|(p, q)| !same(p, q) && board.minutes[p] == board.minutes[q]) {
            found.push(MORE[3]);
        }
        if pairs().any(|(p, q)| p != q && same(p, q)) {
            found.push(MORE[4]);
        }
        if last == 32 {
            found.push(MORE[5]);
        }
        // A later number at a lower place, at one minute.
        let falls = |p: usize, q: usize| p < q && board.numbers[p] > board.numbers[q];
        if pairs().any(|(p, q)| falls(p, q) && board.minutes[p] == board.minutes[q]) {
            found.push(MORE[6]);
        }
    }
    found
}

/// What comes up in requests of the probe: boards as they are put on the desk, about which something is asked.
pub fn of_requests(requests: &[u8]) -> Vec<&'static str> {
    let mut raw = RawPlan::empty();
    let mut at = Board::fresh();
    // A board handed back by a call is not known here, and a plan is looked at once.
    let (mut next, mut new, mut plan) = (0u32, false, None);
    let mut found: Vec<&'static str> = Vec::new();
    for request in requests.chunks_exact(RECORD) {
        let number = |at: usize| u32::from_le_bytes([0, 1, 2, 3].map(|place| request[at + place]));
        let place = usize::from(request[1]) % PLACES;
        match request[0] {
            0 => break,
            1 => (raw.count, next, plan) = (number(4), number(8), None),
            2 => {
                raw.records[next as usize % ROOM] = RawRecord {
                    kind: request[1],
                    a: request[2],
                    b: request[3],
                    first: number(4) as i32,
                    second: number(8) as i32,
                    code: number(12),
                };
                (next, plan) = (next.wrapping_add(1), None);
            }
            3 => (at.clock, at.done, new) = (number(4), number(8), true),
            4 => at.minutes[place] = number(4),
            8 => at.numbers[place] = number(4),
            16..=18 | 23 | 24 if new => {
                new = false;
                let plan = plan.get_or_insert_with(|| plan::check(&raw).ok());
                if let Some(plan) = plan {
                    found.extend(of_board(plan, &at));
                }
            }
            _ => {}
        }
    }
    found.sort_unstable();
    found.dedup();
    found
}
