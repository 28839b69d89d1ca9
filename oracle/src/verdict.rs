//! The closing verdict, and the verdict over a lent list.

use crate::board::{self, Board};
use crate::plan::Plan;
use crate::Refusal;

#[derive(Clone, Copy, PartialEq, Eq, Debug)]
pub enum Verdict {
    Kept,
    /// The first broken record: its place in the file, or in the lent list.
    Broken(u32),
}

/// One constraint of a lent list: `y` − `x` ≤ `bound`.
#[derive(Clone, Copy, PartialEq, Eq, Debug)]
pub struct Listed {
    pub x: u32,
    pub y: u32,
    pub bound: i32,
}

/// 20, 31, or nothing to say.
fn finished(plan: &Plan, board: &Board) -> Result<(), Refusal> {
    if !board::sound(plan, board) {
        return Err((20, 0));
    }
    if !board::all_done(plan, board) {
        return Err((31, 0));
    }
    Ok(())
}

/// The first that is not kept.
fn first_broken(mut kept: impl Iterator<Item = bool>) -> Option<u32> {
    kept.position(|kept| !kept).map(|place| place as u32)
}

/// The verdict on a finished board.
pub fn verdict(plan: &Plan, board: &Board) -> Result<Verdict, Refusal> {
    finished(plan, board)?;
    let at = |point| board.minute(point);
    let others = plan
        .ponds
        .iter()
        .map(|_| true)
        .chain(plan.links.iter().map(|_| true));
    let ordinary = plan
        .ordinary
        .iter()
        .map(|record| at(record.y) - at(record.x) <= record.d);
    let waits = plan.waits.iter().map(|wait| {
        let a = plan.link_of(wait).a;
        at(wait.v) - at(a) >= wait.w.min(at(wait.c) - at(a))
    });
    Ok(match first_broken(others.chain(ordinary).chain(waits)) {
        Some(record) => Verdict::Broken(record),
        None => Verdict::Kept,
    })
}

/// The verdict over a lent list. The whole list is looked through for 8 before any of it is
/// judged.
pub fn judge(plan: &Plan, board: &Board, list: &[Listed]) -> Result<Verdict, Refusal> {
    finished(plan, board)?;
    let in_plan = |point: u32| (point as usize) < plan.points();
    if let Some(place) = first_broken(list.iter().map(|one| in_plan(one.x) && in_plan(one.y))) {
        return Err((8, place));
    }
    let at = |point: u32| board.minute(point as usize);
    let kept = list
        .iter()
        .map(|one| at(one.y) - at(one.x) <= i64::from(one.bound));
    Ok(match first_broken(kept) {
        Some(place) => Verdict::Broken(place),
        None => Verdict::Kept,
    })
}
