//! The calls with a plan given by value: a plan that no file could hold is refused before all
//! else, with the number and the record that reading its records would give.

use crate::board::{self, Board, Reply};
use crate::event;
use crate::plan::{self, RawPlan};
use crate::plan_test::{self, Answer};
use crate::verdict::{self, Listed, Verdict};
use crate::Refusal;

/// Is the board sound? A bad plan, then 20.
pub fn sound(raw: &RawPlan, board: &Board) -> Result<(), Refusal> {
    let plan = plan::check(raw)?;
    if board::sound(&plan, board) {
        Ok(())
    } else {
        Err((20, 0))
    }
}

pub fn reply(raw: &RawPlan, board: &Board) -> Result<Reply, Refusal> {
    board::reply(&plan::check(raw)?, board)
}

/// Number, record and the board handed back.
pub fn take(raw: &RawPlan, before: &Board, bytes: &[u8]) -> (u32, u32, Board) {
    match plan::check(raw) {
        Ok(plan) => {
            let ((number, record), after) = event::take(&plan, before, bytes);
            (number, record, after)
        }
        Err((number, record)) => (number, record, *before),
    }
}

pub fn verdict(raw: &RawPlan, board: &Board) -> Result<Verdict, Refusal> {
    verdict::verdict(&plan::check(raw)?, board)
}

pub fn judge(raw: &RawPlan, board: &Board, list: &[Listed]) -> Result<Verdict, Refusal> {
    verdict::judge(&plan::check(raw)?, board, list)
}

pub fn plan_test(raw: &RawPlan) -> Result<Answer, Refusal> {
    plan_test::plan_test(&plan::check(raw)?)
}
