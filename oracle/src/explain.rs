//! Why the plan test says no: the durations of the projection that fails, and a walk by the plan's records that shows it. Walks
//! are found by Bellman–Ford that notes the step by which each point was reached last.

use crate::plan::Plan;
use crate::plan_test::{self, Answer, Odometer};
use crate::text;

/// One edge of a projection, with the number in the file of the record that it comes from.
#[derive(Clone, Copy, PartialEq, Eq, Debug)]
pub struct Step {
    pub record: usize,
    pub from: usize,
    pub to: usize,
    pub length: i64,
}

/// The edges of the projection with these durations, in file order; of a link first from A to C, then back.
pub fn steps(plan: &Plan, durations: &[i64]) -> Vec<Step> {
    let mut all = Vec::new();
    let mut add = |record: usize, from: usize, to: usize, length: i64| {
        all.push(Step {
            record,
            from,
            to,
            length,
        });
    };
    let links = plan.points();
    let ordinary = links + plan.links.len();
    let waits = ordinary + plan.ordinary.len();
    for (k, (link, &p)) in plan.links.iter().zip(durations).enumerate() {
        add(links + k, link.a, link.c, p);
        add(links + k, link.c, link.a, -p);
    }
    for (k, one) in plan.ordinary.iter().enumerate() {
        add(ordinary + k, one.x, one.y, one.d);
    }
    for (k, wait) in plan.waits.iter().enumerate() {
        let link = plan.links.iter().zip(durations);
        for (link, &p) in link.filter(|(link, _)| link.c == wait.c) {
            add(waits + k, wait.v, link.a, -wait.w.min(p));
        }
    }
    all
}

/// Where the lengths from these starts have settled, or after as many rounds as there are points: the last step to each point,
/// and a point that was reached anew in the last round.
fn reached(points: usize, steps: &[Step], starts: &[usize]) -> (Vec<Option<Step>>, Option<usize>) {
    let mut lengths: Vec<Option<i64>> = vec![None; points];
    for &start in starts {
        lengths[start] = Some(0);
    }
    let mut last: Vec<Option<Step>> = vec![None; points];
    let mut anew = None;
    for _ in 0..=points {
        anew = None;
        for step in steps {
            let Some(length) = lengths[step.from].map(|length| length + step.length) else {
                continue;
            };
            if lengths[step.to].is_none_or(|known| length < known) {
                lengths[step.to] = Some(length);
                last[step.to] = Some(*step);
                anew = Some(step.to);
            }
        }
        if anew.is_none() {
            break;
        }
    }
    (last, anew)
}

/// The steps of a cycle of negative sum.
fn cycle(points: usize, steps: &[Step]) -> Vec<Step> {
    let starts: Vec<usize> = (0..points).collect();
    let (last, anew) = reached(points, steps, &starts);
    let back = |at: usize| last[at].expect("it was reached by a step");
    // So many steps back lead into the cycle.
    let mut at = anew.expect("a cycle of negative sum");
    for _ in 0..points {
        at = back(at).from;
    }
    let mut walk = vec![back(at)];
    while walk[walk.len() - 1].from != at {
        walk.push(back(walk[walk.len() - 1].from));
    }
    walk.reverse();
    walk
}

/// The steps of a shortest walk from one point to another, where there is one and no cycle of negative sum.
fn shortest(points: usize, steps: &[Step], from: usize, to: usize) -> Vec<Step> {
    let (last, _) = reached(points, steps, &[from]);
    let mut walk = Vec::new();
    let mut at = to;
    while at != from {
        let step = last[at].expect("it was reached by a step");
        walk.push(step);
        at = step.from;
    }
    walk.reverse();
    walk
}

/// The lines of a walk, and its sum.
fn walked(lines: &mut Vec<String>, walk: &[Step]) {
    for step in walk {
        let Step {
            record,
            from,
            to,
            length,
        } = step;
        lines.push(format!("step {record} {from} {to} {length}"));
    }
    let sum: i64 = walk.iter().map(|step| step.length).sum();
    lines.push(format!("sum {sum}"));
}

/// What the test says, and why it says no; or its refusal.
pub fn explain(plan: &Plan) -> Result<String, String> {
    let mut lines = vec![text::test_line(plan)?];
    let points = plan.points();
    let answer = plan_test::plan_test(plan).expect("it was not refused");
    let number = match answer {
        Answer::Yes(_) => return Ok(lines.join("\n")),
        Answer::Cycle(number) | Answer::Pair(number, ..) => number,
    };
    let durations = Odometer::new(plan).nth(number as usize);
    let durations = durations.expect("the test came to this projection");
    for (link, p) in plan.links.iter().zip(&durations) {
        lines.push(format!("drive {} {} {p}", link.a, link.c));
    }
    let steps = steps(plan, &durations);
    if let Answer::Pair(_, x, y) = answer {
        let edges = plan_test::edges(plan, &durations);
        let length = plan_test::distances(points, &edges, x).map(|all| all[y]);
        let best = plan_test::vee_distances(points, &edges, x).map(|all| all[y]);
        let told = |length: Option<i64>| length.map_or("none".to_string(), |it| it.to_string());
        lines.push(format!("shortest {}", told(length.unwrap_or(None))));
        lines.push(format!("allowed {}", told(best.unwrap_or(None))));
        walked(&mut lines, &shortest(points, &steps, x, y));
    } else {
        walked(&mut lines, &cycle(points, &steps));
    }
    Ok(lines.join("\n"))
}
