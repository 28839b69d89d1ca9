//! The worst finishing minute (document 02): every projection of a plan that passes the test is run from the fresh board by
//! the rule that the request gives, and the largest finishing minute counts.

use crate::board::{self, Board};
use crate::plan::{Plan, RECORD};
use crate::plan_test::{self, Answer, Odometer};

/// A run of one projection: its events, and the board that they finish.
#[derive(Clone, PartialEq, Eq, Debug)]
pub struct Run {
    pub events: Vec<[u8; RECORD]>,
    pub last: Board,
}

/// The largest finishing minute, and the first projection in test order that reaches it.
#[derive(Clone, Copy, PartialEq, Eq, Debug)]
pub struct Worst {
    pub minute: u32,
    pub projection: u32,
}

/// The run of the projection with these durations, one for each link; none if it sticks, which does not happen to a plan that
/// passes the test. Each event is one that is taken; the tests take them.
pub fn run(plan: &Plan, durations: &[i64]) -> Option<Run> {
    let mut run = Run {
        events: Vec::new(),
        last: Board::fresh(),
    };
    while !board::all_done(plan, &run.last) {
        let at = &mut run.last;
        // The watched points to come: when each falls.
        let links = plan.links.iter().zip(durations);
        let running = links.filter(|(link, _)| board::is_running(at, link));
        let falls: Vec<(i64, usize)> = running
            .map(|(link, p)| (at.minute(link.a) + p, link.c))
            .collect();
        let next = falls.iter().map(|&(minute, _)| minute).min();
        let (minute, foreman) = match aim(plan, at) {
            Aim::Stuck => return None,
            Aim::Nothing => (next?, None),
            Aim::At(low, point) => match next {
                Some(next) if next < low => (next, None),
                _ => (low, Some(point)),
            },
        };
        let set = falls.iter().filter(|(falls_at, _)| *falls_at == minute);
        let set = set.fold(0, |set, &(_, c)| set | 1 << c);
        run.events.push(record(minute, foreman, set));
        at.clock = minute as u32;
        let now = falls.iter().filter(|(falls_at, _)| *falls_at == minute);
        for point in now.map(|&(_, c)| c).chain(foreman) {
            at.done |= 1 << point;
            at.minutes[point] = at.clock;
            at.numbers[point] = run.events.len() as u32;
        }
    }
    Some(run)
}

/// What is aimed at on a board that is not finished.
enum Aim {
    /// The lowest offered minute, and of the points whose Low that is the lowest number.
    At(i64, usize),
    /// Nothing is open.
    Nothing,
    /// Something is open, and nothing of it is offered.
    Stuck,
}

/// Each open point's windows are looked at once: `board::reply` would look at them again and again.
fn aim(plan: &Plan, at: &Board) -> Aim {
    let open = board::open_points(plan, at);
    let lows = open.iter().map(|&v| (board::low(plan, at, v), v));
    let Some((low, point)) = lows.min() else {
        return Aim::Nothing;
    };
    let highs = open.iter().filter_map(|&v| board::high(plan, at, v));
    if highs.min().is_some_and(|h| low > h) {
        return Aim::Stuck;
    }
    Aim::At(low, point)
}

fn record(minute: i64, foreman: Option<usize>, set: u32) -> [u8; RECORD] {
    let mut bytes = [0; RECORD];
    bytes[..4].copy_from_slice(&(minute as u32).to_le_bytes());
    bytes[4] = foreman.map_or(255, |point| point as u8);
    bytes[8..12].copy_from_slice(&set.to_le_bytes());
    bytes
}

/// 13, then 60 for a plan that does not pass the test.
fn passes(plan: &Plan) -> Result<(), u32> {
    match plan_test::plan_test(plan) {
        Ok(Answer::Yes(_)) => Ok(()),
        Ok(_) => Err(60),
        Err((number, _)) => Err(number),
    }
}

/// The worst finishing minute over all projections, or 13 or 60.
pub fn worst(plan: &Plan) -> Result<Worst, u32> {
    passes(plan)?;
    let runs = Odometer::new(plan).map(|durations| finished(plan, &durations).last.clock);
    let mut worst: Option<Worst> = None;
    for (projection, minute) in (0..).zip(runs) {
        if worst.is_none_or(|worst| minute > worst.minute) {
            worst = Some(Worst { minute, projection });
        }
    }
    Ok(worst.expect("a plan has a projection"))
}

/// The events of the run of this projection, none of a number past the last; or 13 or 60.
pub fn day(plan: &Plan, projection: u32) -> Result<Vec<[u8; RECORD]>, u32> {
    passes(plan)?;
    let durations = Odometer::new(plan).nth(projection as usize);
    Ok(durations.map_or(Vec::new(), |durations| finished(plan, &durations).events))
}

fn finished(plan: &Plan, durations: &[i64]) -> Run {
    run(plan, durations).expect("a plan that passes the test does not stick")
}
