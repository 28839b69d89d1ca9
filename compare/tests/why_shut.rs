//! The inputs that are drawn show what is wrong with what is told of shut points: each of some wrong versions of a board's list
//! and of 28's record tells something else in one of them.

use compare::draw::Draw;
use compare::events::MARK;
use compare::inputs;
use compare::printed::{self, Place as Shown};
use compare::requests;
use compare::shut;
use oracle::board::{self, Board, Outcome, Place, Reply};
use oracle::event;
use oracle::plan::{self, Plan, RECORD};
use oracle::text;
use oracle::Refusal;

/// The first record of the plan's file that holds a point, by a wrong rule; all else stays.
type Holds = fn(&Plan, &Board, usize) -> Option<u32>;
/// A reply as it is told, and a number with its record.
type Tells = fn(&Plan, &Board, Reply) -> Reply;
type Refuses = fn(&Plan, &Board, &[u8], Refusal) -> Refusal;

/// What is told along an input: the reply to each board, and the refusal of each event.
fn told(input: &[u8], tells: &dyn Fn(&Plan, &Board, Reply) -> Reply, refuses: Refuses) -> Told {
    let mark = input.chunks(RECORD).position(|record| record == MARK);
    let (part, events) = match mark {
        Some(mark) => (&input[..mark * RECORD], &input[(mark + 1) * RECORD..]),
        None => (input, &[][..]),
    };
    let Ok(plan) = plan::read(part) else {
        return (Vec::new(), Vec::new());
    };
    let reply = |at: &Board| tells(&plan, at, board::reply(&plan, at).expect("sound"));
    let mut at = Board::fresh();
    let (mut replies, mut refusals) = (vec![reply(&at)], Vec::new());
    for event in events.chunks_exact(RECORD).take(300) {
        let (refusal, after) = event::take(&plan, &at, event);
        refusals.push(refuses(&plan, &at, event, refusal));
        at = after;
        replies.push(reply(&at));
    }
    (replies, refusals)
}

type Told = (Vec<Reply>, Vec<Refusal>);

/// Batches until each kind has come.
const BATCHES: u64 = 80;

fn found(what: &str, tells: &dyn Fn(&Plan, &Board, Reply) -> Reply, refuses: Refuses) {
    for batch in 0..BATCHES {
        for input in inputs::batch(&mut Draw::new(3, batch), batch) {
            let right = told(&input.bytes, &|_, _, reply| reply, |_, _, _, refusal| {
                refusal
            });
            if told(&input.bytes, tells, refuses) != right {
                println!("{what}: found by {}, batch {batch}", input.what);
                return;
            }
        }
    }
    panic!("not found: {what}");
}

/// An ordinary record from a point: its number, its d and its Y; a wait on it: its number, the A and the C.
type From = (u32, i64, usize);
type On = (u32, usize, usize);

/// The ordinary records from a point, and the waits on it.
fn of_point(plan: &Plan, v: usize) -> (Vec<From>, Vec<On>) {
    let first = (plan.points() + plan.links.len()) as u32;
    let ordinary = (first..).zip(&plan.ordinary);
    let ordinary = ordinary.filter(|(_, record)| record.x == v);
    let waits = (first + plan.ordinary.len() as u32..).zip(&plan.waits);
    let waits = waits.filter(|(_, wait)| wait.v == v);
    (
        ordinary
            .map(|(n, record)| (n, record.d, record.y))
            .collect(),
        waits
            .map(|(n, wait)| (n, plan.link_of(wait).a, wait.c))
            .collect(),
    )
}

fn right(plan: &Plan, at: &Board, v: usize) -> Option<u32> {
    board::shut_by(plan, at, v)
}

const HOLDERS: [(&str, Holds); 9] = [
    ("the last one", |plan, at, v| {
        board::held_by(plan, at)[v].last().copied()
    }),
    ("waits first", |plan, at, v| {
        let (_, waits) = of_point(plan, v);
        let wait = waits.into_iter().find(|&(_, a, _)| !at.is_done(a));
        wait.map(|(n, ..)| n).or(right(plan, at, v))
    }),
    ("d = 0 holds", |plan, at, v| {
        let (ordinary, _) = of_point(plan, v);
        let none = |&(_, d, y): &From| d == 0 && !at.is_done(y);
        let none = ordinary.into_iter().find(none).map(|(n, ..)| n);
        none.into_iter().chain(right(plan, at, v)).min()
    }),
    ("what is done holds", |plan, at, v| {
        let (ordinary, _) = of_point(plan, v);
        let gone = ordinary.into_iter().find(|&(_, d, _)| d < 0);
        gone.map(|(n, ..)| n)
            .into_iter()
            .chain(right(plan, at, v))
            .min()
    }),
    ("a wait holds until its C has come", |plan, at, v| {
        let (_, waits) = of_point(plan, v);
        let wait = waits.into_iter().find(|&(_, _, c)| !at.is_done(c));
        wait.map(|(n, ..)| n)
            .into_iter()
            .chain(right(plan, at, v))
            .min()
    }),
    ("counted within its kind", |plan, at, v| {
        let fewest = (plan.points() + plan.links.len()) as u32;
        let waits = fewest + plan.ordinary.len() as u32;
        right(plan, at, v).map(|n| if n < waits { n - fewest } else { n - waits })
    }),
    ("counted from 1", |plan, at, v| {
        right(plan, at, v).map(|n| n + 1)
    }),
    ("by the point that it waits for", |plan, at, v| {
        let (ordinary, waits) = of_point(plan, v);
        let ordinary = ordinary.into_iter().filter(|&(_, d, _)| d < 0);
        let all = ordinary.map(|(n, _, y)| (y, n));
        let all = all.chain(waits.into_iter().map(|(n, a, _)| (a, n)));
        let holding = all.filter(|&(awaited, _)| !at.is_done(awaited));
        holding.min().map(|(_, n)| n)
    }),
    ("a byte", |plan, at, v| right(plan, at, v).map(|n| n % 256)),
];

/// The list with other records.
fn with_holders(plan: &Plan, at: &Board, mut reply: Reply, holds: Holds) -> Reply {
    for (v, place) in reply.places.iter_mut().enumerate().take(plan.points()) {
        if let Place::Shut(Some(record)) = place {
            *record = holds(plan, at, v).unwrap_or(0);
        }
    }
    reply
}

#[test]
fn wrong_records_are_found() {
    for (what, holds) in HOLDERS {
        let tells = |plan: &Plan, at: &Board, reply: Reply| with_holders(plan, at, reply, holds);
        found(what, &tells, |_, _, _, refusal| refusal);
    }
}

const LISTS: [(&str, Tells); 7] = [
    ("a waiting board has no list", |_, _, mut reply| {
        if reply.outcome == Outcome::Waiting {
            reply.places = board::NO_LIST;
        }
        reply
    }),
    ("a stuck board has no list", |_, _, mut reply| {
        if reply.outcome == Outcome::Stuck {
            reply.places = board::NO_LIST;
        }
        reply
    }),
    ("a finished board has one", |plan, at, mut reply| {
        if reply.outcome == Outcome::Finished {
            for v in 0..plan.points() {
                reply.places[v] = Place::Done(at.minute(v));
            }
        }
        reply
    }),
    ("a stuck board offers", |plan, at, mut reply| {
        for v in 0..plan.points() {
            if reply.outcome == Outcome::Stuck && reply.places[v] == Place::Held {
                reply.places[v] = Place::Offered(board::low(plan, at, v));
            }
        }
        reply
    }),
    (
        "an open point of a stuck board is shut",
        |_, _, mut reply| {
            for place in &mut reply.places {
                if reply.outcome == Outcome::Stuck && *place == Place::Held {
                    *place = Place::Shut(None);
                }
            }
            reply
        },
    ),
    ("a stuck board has a latest", |plan, at, mut reply| {
        if reply.outcome == Outcome::Stuck {
            reply.latest = board::latest(plan, at).max(0);
        }
        reply
    }),
    ("a waiting board has a latest", |plan, at, mut reply| {
        if reply.outcome == Outcome::Waiting {
            reply.latest = board::latest(plan, at);
        }
        reply
    }),
];

#[test]
fn wrong_lists_are_found() {
    for (what, tells) in LISTS {
        found(what, &tells, |_, _, _, refusal| refusal);
    }
}

/// The record that would hold the event's point, were it the foreman's and not done.
fn would_hold(plan: &Plan, at: &Board, event: &[u8]) -> u32 {
    let (ordinary, _) = of_point(plan, usize::from(event[4]));
    let holding = |&(_, d, y): &From| d < 0 && !at.is_done(y);
    ordinary.into_iter().find(holding).map_or(0, |(n, ..)| n)
}

const REFUSALS: [(&str, Refuses); 5] = [
    ("28 has no record", |_, _, _, (number, _)| (number, 0)),
    (
        "28 has one for a watched point",
        |plan, at, event, refusal| match refusal {
            (28, 0) if !at.is_done(event[4].into()) => (28, would_hold(plan, at, event)),
            other => other,
        },
    ),
    (
        "28 has one for a done point",
        |plan, at, event, refusal| match refusal {
            (28, 0) if at.is_done(event[4].into()) => (28, would_hold(plan, at, event)),
            other => other,
        },
    ),
    ("28 has the last one", |plan, at, event, refusal| {
        let held = board::held_by(plan, at);
        match refusal {
            (28, 1..) => (28, *held[usize::from(event[4])].last().unwrap()),
            other => other,
        }
    }),
    (
        "29 has one too",
        |plan, _, _, (number, record)| match number {
            29 => (29, plan.points() as u32),
            _ => (number, record),
        },
    ),
];

#[test]
fn wrong_refusals_are_found() {
    for (what, refuses) in REFUSALS {
        found(what, &|_, _, reply| reply, refuses);
    }
}

/// In some batches everything comes up, in inputs and in requests.
#[test]
fn all_comes_up() {
    let mut seen: Vec<&str> = Vec::new();
    for batch in 0..BATCHES {
        for input in inputs::batch(&mut Draw::new(1, batch), batch) {
            seen.extend(shut::of_input(&input.bytes));
        }
    }
    let expected = shut::LISTS.iter().chain(&shut::TOLD);
    let never: Vec<_> = expected.filter(|key| !seen.contains(key)).collect();
    assert!(never.is_empty(), "inputs: {never:?}");
    seen.clear();
    for batch in 0..2 * BATCHES {
        for input in requests::batch(&mut Draw::new(1, batch), batch) {
            seen.extend(shut::of_requests(&input.bytes));
        }
    }
    let expected = shut::LISTS.iter().chain(&shut::TOLD);
    let expected = expected.chain(&shut::STREAMED);
    let never: Vec<_> = expected.filter(|key| !seen.contains(key)).collect();
    assert!(never.is_empty(), "requests: {never:?}");
}

/// What is read of the printed lines is what the library tells.
#[test]
fn printed_lines_are_read() {
    for batch in 0..BATCHES {
        let draw = &mut Draw::new(2, batch);
        let plan = compare::plans::barred(draw);
        let events = compare::events::told_why(draw, &plan);
        let input = [&plan.to_bytes()[..], &MARK, &events].concat();
        let mut output = Vec::new();
        text::offers(&mut &input[..], &mut output).unwrap();
        let printed = printed::read(&output).unwrap();
        let (replies, refusals) = told(&input, &|_, _, reply| reply, |_, _, _, refusal| refusal);
        // The fresh board comes before all events.
        let refusals = [&[(0, 0)][..], &refusals].concat();
        assert!(replies.len() <= printed.boards.len());
        for ((board, reply), refusal) in printed.boards.iter().zip(replies).zip(refusals) {
            assert_eq!(board.number, i64::from(refusal.0));
            assert_eq!(board.record.unwrap_or(0), refusal.1 as usize);
            let places = board.reply.places();
            assert_eq!(places.is_none(), reply.outcome == Outcome::Finished);
            for (shown, place) in places.unwrap_or_default().iter().zip(reply.places) {
                let same = match (shown, place) {
                    (Shown::Done(shown), Place::Done(minute)) => *shown == minute,
                    (Shown::Offered(shown), Place::Offered(low)) => *shown == low,
                    (Shown::Shut(shown), Place::Shut(Some(record))) => {
                        shown.number == record as usize
                            && shown.listed == text::listed(&plan, record)
                    }
                    (Shown::Watched, Place::Watched) | (Shown::Held, Place::Held) => true,
                    _ => false,
                };
                assert!(same, "{shown:?} {place:?}");
            }
        }
    }
    // A point of the plan is not shut for nothing, and a finished board has no list.
    let read = |lines: &str| printed::read(lines.as_bytes());
    let shut = |line: &str| read(&format!("test yes 1\nboard 0 0 stuck\n{line}\nend stuck\n"));
    assert!(shut("point 0 0 shut").is_err());
    assert!(shut("point 0 0 shut 2 ordinary 0 -5 1").is_ok());
    assert!(read("test yes 1\nboard 0 1 finished\npoint 0 0 done 0\nend kept\n").is_err());
}
