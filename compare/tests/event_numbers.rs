//! The requests that are drawn show what is wrong with event numbers: each of some wrong versions of soundness and of numbering
//! answers one of them otherwise.

use compare::draw::Draw;
use compare::requests;
use compare::soundness;
use oracle::board::{keeps, sound, Board, Clause, CLAUSES, PLACES};
use oracle::event;
use oracle::plan::{self, Plan, RawPlan, RawRecord, RECORD, ROOM};

type Sound = fn(&Plan, &Board) -> bool;
/// The number of an event that is taken: from the board before it, and how many events have been tried and taken since that
/// board was put on the desk.
type Number = fn(&Board, u32, u32) -> u32;

/// What is answered: the call, is the board sound, and the numbers of the board afterwards.
type Answer = (u8, bool, [u32; PLACES]);

/// The events that a call takes.
fn events(call: &[u8], buffer: &[u8]) -> Vec<Vec<u8>> {
    let room = u32::from_le_bytes([4, 5, 6, 7].map(|place| call[place]));
    match call[0] {
        17 => vec![buffer.to_vec()],
        24 => {
            let events = buffer.chunks_exact(RECORD).map(<[u8]>::to_vec);
            events.take(room as usize / requests::SAID).collect()
        }
        _ => Vec::new(),
    }
}

fn answers(requests: &[u8], sound: Sound, number: Number) -> Vec<Answer> {
    let mut raw = RawPlan::empty();
    let mut at = Board::fresh();
    let (mut next, mut counts, mut plan) = (0u32, 0, None);
    let mut buffer = vec![0; 65_536];
    let (mut tried, mut taken) = (0, 0);
    let mut answers = Vec::new();
    for request in requests.chunks_exact(RECORD) {
        let word = |at: usize| u32::from_le_bytes([0, 1, 2, 3].map(|place| request[at + place]));
        let place = usize::from(request[1]) % PLACES;
        match request[0] {
            1 => (raw.count, next, plan) = (word(4), word(8), None),
            2 => {
                raw.records[next as usize % ROOM] = RawRecord {
                    kind: request[1],
                    a: request[2],
                    b: request[3],
                    first: word(4) as i32,
                    second: word(8) as i32,
                    code: word(12),
                };
                (next, plan) = (next.wrapping_add(1), None);
            }
            3 => (at.clock, at.done, tried, taken) = (word(4), word(8), 0, 0),
            4 => at.minutes[place] = word(4),
            5 => {
                buffer.fill(request[1]);
                counts = (word(4) as usize).min(buffer.len());
            }
            6 => {
                let from = word(4) as usize;
                for (at, byte) in (from..).zip(&request[8..]) {
                    if let Some(here) = buffer.get_mut(at) {
                        *here = *byte;
                    }
                }
            }
            8 => at.numbers[place] = word(4),
            16..=18 | 23 | 24 => {
                let plan = plan.get_or_insert_with(|| plan::check(&raw).ok());
                let Some(plan) = plan else { continue };
                let is_sound = sound(plan, &at);
                answers.push((request[0], is_sound, at.numbers));
                if !is_sound {
                    continue;
                }
                for event in events(request, &buffer[..counts]) {
                    let ((refused, _), mut after) = event::take(plan, &at, &event);
                    tried += 1;
                    if refused == 0 {
                        taken += 1;
                        let number = number(&at, tried, taken);
                        for point in (0..PLACES).filter(|&point| !at.is_done(point)) {
                            let new = after.is_done(point);
                            after.numbers[point] = if new { number } else { at.numbers[point] };
                        }
                    }
                    at = after;
                }
                answers.push((request[0], is_sound, at.numbers));
            }
            _ => {}
        }
    }
    answers
}

fn largest(board: &Board) -> u32 {
    board.numbers.iter().max().copied().unwrap_or(0)
}

fn right_number(board: &Board, _: u32, _: u32) -> u32 {
    largest(board).wrapping_add(1)
}

/// Batches until each kind has come some times.
const BATCHES: u64 = 45;

fn found(what: &str, sound_as: Sound, number: Number) {
    for batch in 0..BATCHES {
        for input in requests::batch(&mut Draw::new(7, batch), batch) {
            let right = answers(&input.bytes, sound, right_number);
            if answers(&input.bytes, sound_as, number) != right {
                println!("{what}: found by {}, batch {batch}", input.what);
                return;
            }
        }
    }
    panic!("not found: {what}");
}

/// Without this sentence.
fn without(plan: &Plan, board: &Board, out: Clause) -> bool {
    let mut rest = CLAUSES.iter().filter(|clause| **clause != out);
    rest.all(|clause| keeps(plan, board, *clause))
}

fn done(board: &Board) -> Vec<usize> {
    (0..PLACES).filter(|&point| board.is_done(point)).collect()
}

fn pairs(board: &Board) -> Vec<(usize, usize)> {
    let done = done(board);
    let pair = |p: usize| done.iter().map(move |&q| (p, q));
    done.iter().flat_map(|&p| pair(p)).collect()
}

const SOUNDS: [(&str, Sound); 12] = [
    ("a point not done may hold a number", |plan, board| {
        without(plan, board, Clause::NoNumber)
    }),
    ("a point past the plan may hold a number", |plan, board| {
        let mut board = *board;
        board.numbers[plan.points()..].fill(0);
        sound(plan, &board)
    }),
    ("a done point may hold 0", |plan, board| {
        without(plan, board, Clause::Number)
    }),
    ("gaps are let be", |plan, board| {
        without(plan, board, Clause::Gaps)
    }),
    (
        "as many numbers as there may be, with gaps",
        |plan, board| without(plan, board, Clause::Gaps) && largest(board) <= board.count(),
    ),
    ("numbers as a set of 32 bits", |plan, board| {
        let bits = done(board)
            .iter()
            .fold(0u64, |set, &point| set | 1 << (board.numbers[point] % 32));
        let full = |count: u32| (1..=count).fold(0u64, |set, k| set | 1 << (k % 32));
        without(plan, board, Clause::Gaps) && (0..=32).any(|count| bits == full(count))
    }),
    ("minutes may fall", |plan, board| {
        without(plan, board, Clause::Falling)
    }),
    ("two minutes for one number", |plan, board| {
        without(plan, board, Clause::OneMinute)
    }),
    ("two foreman's points of one number", |plan, board| {
        without(plan, board, Clause::OneForeman)
    }),
    ("minutes have to rise", |plan, board| {
        let rise = |&(p, q): &(usize, usize)| {
            board.numbers[p] == board.numbers[q] || board.minutes[p] != board.minutes[q]
        };
        sound(plan, board) && pairs(board).iter().all(rise)
    }),
    ("one point for each number", |plan, board| {
        let other = |&(p, q): &(usize, usize)| p == q || board.numbers[p] != board.numbers[q];
        sound(plan, board) && pairs(board).iter().all(other)
    }),
    ("at one minute in point order", |plan, board| {
        let ordered = |&(p, q): &(usize, usize)| {
            p >= q || board.minutes[p] != board.minutes[q] || board.numbers[p] <= board.numbers[q]
        };
        sound(plan, board) && pairs(board).iter().all(ordered)
    }),
];

const NUMBERS: [(&str, Number); 5] = [
    ("one more than the points done", |board, _, _| {
        board.count() + 1
    }),
    ("the largest again", |board, _, _| largest(board)),
    ("from 1 on each desk", |_, _, taken| taken),
    ("refused events count", |board, tried, taken| {
        largest(board) + 1 + tried - taken
    }),
    ("events are numbered from 0", |board, _, _| {
        largest(board) + u32::from(board.done != 0)
    }),
];

#[test]
fn wrong_soundness_is_found() {
    for (what, wrong) in SOUNDS {
        found(what, wrong, right_number);
    }
}

#[test]
fn wrong_numbers_are_found() {
    for (what, wrong) in NUMBERS {
        found(what, sound, wrong);
    }
}

/// In some batches every sentence about event numbers comes up, as the only one that is not true where it can be.
#[test]
fn all_comes_up() {
    let mut seen: Vec<&str> = Vec::new();
    for batch in 0..2 * BATCHES {
        for input in requests::batch(&mut Draw::new(1, batch), batch) {
            seen.extend(soundness::of_requests(&input.bytes));
        }
    }
    let never: Vec<&str> = soundness::keys()
        .filter(|key| !seen.contains(key))
        .collect();
    assert!(never.is_empty(), "{never:?}");
}
