//! Which call came when: the event numbers of a board, and each sentence of what it is for them to be sound.

mod common;

use common::*;
use oracle::board::{broken, keeps, sound, Board, Clause, CLAUSES};
use oracle::event::take;
use oracle::worst;

/// Two foreman's points, a link of 2 to 5 minutes from the first, and another foreman's point.
fn four() -> oracle::plan::Plan {
    plan(4, &[link(0, 2, 5, 2)])
}

#[test]
fn events_give_numbers() {
    let plan = four();
    let mut at = Board::fresh();
    let mut taken = |event: [u8; 16], wanted: u32, numbers: [u32; 4]| {
        let ((number, _), after) = take(&plan, &at, &event);
        at = after;
        assert_eq!((number, &after.numbers[..4]), (wanted, &numbers[..]));
        assert!(sound(&plan, &after));
    };
    taken(event(3, 2, &[]), 28, [0, 0, 0, 0]);
    taken(event(3, 1, &[]), 0, [0, 1, 0, 0]);
    // A refused event has no number.
    taken(event(2, 0, &[]), 24, [0, 1, 0, 0]);
    taken(event(3, 0, &[]), 0, [2, 1, 0, 0]);
    taken(event(5, 3, &[2]), 0, [2, 1, 3, 3]);
    taken(event(5, 3, &[2]), 21, [2, 1, 3, 3]);
}

/// A board on which 0 and 1 are done at minute 3, and 2 and 3 at minute 5.
fn with(numbers: [u32; 4]) -> Vec<Clause> {
    let done = board(&[(0, 3), (1, 3), (2, 5), (3, 5)]);
    broken(&four(), &numbered(done, &numbers))
}

#[test]
fn each_sentence() {
    for good in [[1, 2, 3, 3], [2, 1, 3, 3], [1, 2, 3, 4], [1, 2, 4, 3]] {
        assert_eq!(with(good), []);
    }
    // A gap: at the front, in the middle, at the end, far off.
    for gap in [
        [2, 3, 4, 4],
        [1, 3, 4, 4],
        [1, 2, 4, 4],
        [1, 2, 3, 5],
        [1, 2, 33, 33],
        [1, 2, 3, u32::MAX],
    ] {
        assert_eq!(with(gap), [Clause::Gaps], "{gap:?}");
    }
    // Numbers from 0: nothing else is wrong with them.
    assert_eq!(with([1, 0, 2, 2]), [Clause::Number]);
    assert_eq!(with([0, 1, 2, 3]), [Clause::Number]);
    // A minute falls; of two minutes at one number neither does.
    assert_eq!(with([1, 3, 2, 2]), [Clause::Falling]);
    assert_eq!(with([1, 2, 2, 3]), [Clause::OneMinute]);
    assert_eq!(with([1, 2, 2, 2]), [Clause::OneMinute, Clause::OneForeman]);
    assert_eq!(with([1, 1, 2, 2]), [Clause::OneForeman]);
    // The link's start in the event of its end, or in a later one: what follows from the others.
    assert_eq!(with([2, 1, 2, 3]), [Clause::OneMinute, Clause::Earlier]);
    assert_eq!(with([3, 1, 2, 4]), [Clause::Falling, Clause::Earlier]);
    // A number of a point that is not done.
    let half = board(&[(0, 3), (1, 3)]);
    for number in [1, 2, 3, u32::MAX] {
        let off = numbered(half, &[1, 2, 0, number]);
        assert_eq!(broken(&four(), &off), [Clause::NoNumber]);
        let mut off = half;
        off.numbers[31] = number;
        assert_eq!(broken(&four(), &off), [Clause::NoNumber]);
    }
    let mut fresh = Board::fresh();
    fresh.numbers[0] = 1;
    assert_eq!(broken(&four(), &fresh), [Clause::NoNumber]);
}

/// 32 points, each by an event of its own: 32 is the last number, and 33 a gap.
#[test]
fn as_many_as_can_be() {
    let all: Vec<(usize, u32)> = (0..32).map(|point| (point, 7)).collect();
    let plan = plan(32, &[]);
    let mut at = board(&all);
    assert!(sound(&plan, &at) && at.numbers[31] == 32);
    at.numbers[31] = 33;
    assert_eq!(broken(&plan, &at), [Clause::Gaps]);
}

/// Boards of random runs are sound, their events are numbered as they came, and the run of a projection numbers them alike.
#[test]
fn random_runs() {
    let mut random = Random::new(7);
    let mut events = 0;
    while events < 2_000 {
        let plan = chained_plan(&mut random, 4);
        let durations: Vec<i64> = plan.links.iter().map(|link| link.y).collect();
        let Some(run) = worst::run(&plan, &durations) else {
            continue;
        };
        let mut at = Board::fresh();
        for (number, event) in (1..).zip(&run.events) {
            let ((refused, _), after) = take(&plan, &at, event);
            if refused != 0 {
                break;
            }
            for point in 0..32 {
                let wanted = match (at.is_done(point), after.is_done(point)) {
                    (false, true) => number,
                    _ => at.numbers[point],
                };
                assert_eq!(after.numbers[point], wanted);
            }
            assert!(CLAUSES.iter().all(|clause| keeps(&plan, &after, *clause)));
            at = after;
            events += 1;
        }
        if at.count() == run.last.count() {
            assert_eq!(at, run.last);
        }
    }
}
