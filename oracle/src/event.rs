//! Taking an event: reply numbers 20 to 30, in order.

use crate::board::{self, Board, Outcome, PLACES};
use crate::plan::{unsigned, Plan, RECORD};
use crate::Refusal;

/// An event that is well formed for its plan.
#[derive(Clone, Debug)]
struct Event {
    minute: u32,
    foreman: Option<usize>,
    set: Vec<usize>,
}

/// Takes an event: (0, 0) and the next board, or a number with its record and the same board. Only 28 has a record, where the
/// event's point is shut (document 02); beside the others it is 0.
pub fn take(plan: &Plan, before: &Board, bytes: &[u8]) -> (Refusal, Board) {
    match judge_event(plan, before, bytes) {
        Ok(event) => ((0, 0), mark(before, &event)),
        Err(refusal) => (refusal, *before),
    }
}

/// Number 23, or the event.
fn parse(plan: &Plan, bytes: &[u8]) -> Result<Event, u32> {
    if bytes.len() != RECORD {
        return Err(23);
    }
    if bytes[5..8]
        .iter()
        .chain(&bytes[12..16])
        .any(|&byte| byte != 0)
    {
        return Err(23);
    }
    let foreman = match bytes[4] {
        255 => None,
        point => Some(usize::from(point)),
    };
    let bits = unsigned(bytes, 8);
    let set: Vec<usize> = (0..PLACES)
        .filter(|&point| bits >> point & 1 == 1)
        .collect();
    let named = foreman.iter().chain(&set);
    if named.clone().any(|&point| point >= plan.points()) {
        return Err(23);
    }
    if named.count() == 0 {
        return Err(23);
    }
    Ok(Event {
        minute: unsigned(bytes, 0),
        foreman,
        set,
    })
}

/// Tests 20 to 30 in order. Every window is one of the board before the event.
fn judge_event(plan: &Plan, before: &Board, bytes: &[u8]) -> Result<Event, Refusal> {
    if !board::sound(plan, before) {
        return Err((20, 0));
    }
    if board::all_done(plan, before) {
        return Err((21, 0));
    }
    if board::outcome(plan, before) == Outcome::Stuck {
        return Err((22, 0));
    }
    let event = parse(plan, bytes).map_err(|number| (number, 0))?;
    let minute = i64::from(event.minute);
    if minute < before.clock() {
        return Err((24, 0));
    }
    let running: Vec<_> = plan
        .links
        .iter()
        .filter(|link| board::is_running(before, link))
        .collect();
    for point in &event.set {
        if running.iter().all(|link| link.c != *point) {
            return Err((25, 0));
        }
    }
    for link in running.iter().filter(|link| event.set.contains(&link.c)) {
        let duration = minute - before.minute(link.a);
        if duration < link.x || duration > link.y {
            return Err((26, 0));
        }
    }
    for link in running.iter().filter(|link| !event.set.contains(&link.c)) {
        if before.minute(link.a) + link.y < minute {
            return Err((27, 0));
        }
    }
    let open = board::open_points(plan, before);
    if let Some(point) = event.foreman {
        if !open.contains(&point) {
            // Watched and done points are held by nothing.
            let record = board::shut_by(plan, before, point);
            return Err((28, record.unwrap_or(0)));
        }
        if minute < board::low(plan, before, point) {
            return Err((29, 0));
        }
    }
    // With no foreman's point, 30 applies only where something is open.
    if !open.is_empty() && minute > board::latest(plan, before) {
        return Err((30, 0));
    }
    Ok(event)
}

/// Marks all points of the event done at its minute, which becomes the clock. Its number is one more than the largest on the
/// board.
fn mark(before: &Board, event: &Event) -> Board {
    let mut after = *before;
    after.clock = event.minute;
    let largest = before.numbers.iter().max().unwrap_or(&0);
    for &point in event.foreman.iter().chain(&event.set) {
        after.done |= 1 << point;
        after.minutes[point] = event.minute;
        after.numbers[point] = largest + 1;
    }
    after
}
