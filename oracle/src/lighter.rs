//! A lighter plan, with a list of what went (document 02): numbers 13 and 60. As the request's sentence goes: each ordinary
//! record in file order is left out if the plan so far passes the test without it, and has the same shortest distances in
//! every projection. Nothing is kept from one record to the next but the plan and the distances.

use crate::plan::Plan;
use crate::plan_test::{self, Answer, NegativeCycle, Odometer};

/// The shortest distances of one projection: from each point to each, none where no path leads.
pub type Table = Vec<Vec<Option<i64>>>;

/// The table of the projection with these durations.
fn table(plan: &Plan, durations: &[i64]) -> Result<Table, NegativeCycle> {
    let edges = plan_test::edges(plan, durations);
    let points = plan.points();
    let rows = (0..points).map(|from| plan_test::distances(points, &edges, from));
    rows.collect()
}

/// The tables of all projections, in test order, of a plan without cycles of negative sum.
pub fn tables(plan: &Plan) -> impl Iterator<Item = Table> + '_ {
    let all = Odometer::new(plan).map(|durations| table(plan, &durations));
    all.map(|table| table.expect("no cycle of negative sum"))
}

pub fn passes(plan: &Plan) -> bool {
    matches!(plan_test::plan_test(plan), Ok(Answer::Yes(_)))
}

/// The plan without its ordinary record at this place.
pub fn without(plan: &Plan, place: usize) -> Plan {
    let mut less = plan.clone();
    less.ordinary.remove(place);
    less
}

/// What is left, and the numbers of the records that went, in the file as it came in.
#[derive(Clone, PartialEq, Eq, Debug)]
pub struct Lighter {
    pub plan: Plan,
    pub dropped: Vec<usize>,
}

/// The lighter plan, or 13 or 60.
pub fn lighter(plan: &Plan) -> Result<Lighter, u32> {
    match plan_test::plan_test(plan) {
        Ok(Answer::Yes(_)) => {}
        Ok(_) => return Err(60),
        Err((number, _)) => return Err(number),
    }
    let wanted: Vec<Table> = tables(plan).collect();
    let first = plan.points() + plan.links.len();
    let mut light = plan.clone();
    let mut dropped = Vec::new();
    for number in first..first + plan.ordinary.len() {
        let place = number - first - dropped.len();
        let less = without(&light, place);
        // Fewer records make no cycle: there are distances whether it passes or not.
        if tables(&less).eq(wanted.iter().cloned()) && passes(&less) {
            light = less;
            dropped.push(number);
        }
    }
    Ok(Lighter {
        plan: light,
        dropped,
    })
}
