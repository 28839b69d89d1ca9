//! Draws plans in document 000's setting, to see how many records `lighter` leaves beside the fewest that minDisp keeps.

use crate::draw::Draw;
use crate::plans::{self, Sizes};
use oracle::close::close;
use oracle::lighter::{passes, tables, Table};
use oracle::min_disp::in_setting;
use oracle::plan::{Ordinary, Plan, BOUND};
use oracle::plan_test;

/// How plans are drawn: what they are called, and from how many points to how many.
pub const FORMS: [(&str, usize, usize); 11] = [
    (CLOSURES, 3, 6),
    (CLOSURES, 7, 12),
    (CLOSURES, 13, 20),
    (CLOSURES, 21, 32),
    (ROUNDS, 3, 8),
    (ROUNDS, 9, 16),
    (REPAIRED, 3, 6),
    (REPAIRED, 7, 14),
    (FILLED, 3, 6),
    (FILLED, 7, 14),
    (HAULS, 8, 12),
];

/// Of plans without watched steps all distances, as `close` makes them.
const CLOSURES: &str = "closures";
/// The same of rounds whose steps have fixed lengths, some of them none, so that many points are tied.
const ROUNDS: &str = "closures of fixed rounds";
/// Plans with links, waits and records added where the test missed some, as a clerk would.
const REPAIRED: &str = "mended plans with links";
/// The same with a record for each pair that a path joins, as far as it changes no distance.
const FILLED: &str = "the same with all distances";
/// Hauls side by side, with a record for each pair.
const HAULS: &str = "hauls with all distances";

/// A plan of a form that passes the test, is in the setting and has ordinary records.
pub fn plan(draw: &mut Draw, (form, least, most): (&str, usize, usize)) -> Plan {
    loop {
        let points = draw.between(least as i64, most as i64) as usize;
        let made = match form {
            CLOSURES => closure(draw, points),
            ROUNDS => round(draw, points),
            HAULS => {
                let some = hauls(draw, points / 4);
                Some(filled(draw, some))
            }
            _ => mended(draw, points).map(|plan| match form {
                FILLED => filled(draw, plan),
                _ => plan,
            }),
        };
        let fits = |plan: &Plan| !plan.ordinary.is_empty() && in_setting(plan) && quick(plan);
        if let Some(plan) = made.filter(fits).filter(passes) {
            return plan;
        }
    }
}

/// Is what both do soon done?
fn quick(plan: &Plan) -> bool {
    let count = plan_test::projections(plan).unwrap_or(i64::MAX);
    let records = plan.ordinary.len() as i64;
    count.saturating_mul(records * records) < 1_000_000
}

/// All distances of a plan without watched steps, in any order; a half have small numbers, and so more points that are tied.
fn closure(draw: &mut Draw, points: usize) -> Option<Plan> {
    let sizes = Sizes {
        points,
        links: 0,
        ordinary: points + draw.below(2 * points),
        waits: 0,
    };
    let scale = draw.pick(&[2, 5, 100, 1_000]);
    let hidden = plans::any(draw, sizes, scale, true);
    let mut made = close(&hidden).ok()?;
    draw.shuffle(&mut made.ordinary);
    Some(made)
}

/// Crews that go round, each with steps of fixed lengths, and a few bounds between them.
fn round(draw: &mut Draw, points: usize) -> Option<Plan> {
    let mut order: Vec<usize> = (0..points).collect();
    draw.shuffle(&mut order);
    let crews = 1 + draw.below(3);
    let mut at = vec![0; points];
    let mut rows: Vec<(usize, i64, usize)> = Vec::new();
    for k in 0..points {
        let (x, step) = (order[k], draw.pick(&[0, 0, 0, 5, 10]));
        let Some(before) = k.checked_sub(crews).map(|before| order[before]) else {
            at[x] = draw.between(0, 9);
            continue;
        };
        at[x] = at[before] + step;
        rows.extend([(before, step, x), (x, -step, before)]);
    }
    for _ in 0..points {
        let [x, y] = [0; 2].map(|_| draw.below(points));
        let twin = rows.iter().any(|row| (row.0, row.2) == (x, y));
        if x != y && !twin {
            rows.push((x, at[y] - at[x] + draw.between(0, 9), y));
        }
    }
    let typed = Plan {
        ponds: vec![0; points],
        ordinary: rows
            .into_iter()
            .map(|(x, d, y)| Ordinary { x, d, y })
            .collect(),
        ..Plan::default()
    };
    let mut made = close(&typed).ok()?;
    draw.shuffle(&mut made.ordinary);
    Some(made)
}

/// A plan with a link or more, repaired until it passes.
fn mended(draw: &mut Draw, points: usize) -> Option<Plan> {
    let sizes = Sizes {
        points,
        links: 1 + draw.below(points / 3),
        ordinary: points / 2 + draw.below(points),
        waits: draw.below(points),
    };
    let scale = draw.pick(&[2, 3, 5, 8]);
    let drawn = plans::any(draw, sizes, scale, true);
    plans::repaired(drawn, 150)
}

/// So many hauls of document 01 with other numbers, each called a little after the one before.
fn hauls(draw: &mut Draw, count: usize) -> Plan {
    let mut plan = Plan::default();
    for k in 0..count {
        let first = plan.points();
        plan.ponds.resize(first + 4, 0);
        let mut one = plans::haul_as_it_stands();
        let link = &mut one.links[0];
        link.y = link.x + draw.between(1, 5);
        let late = draw.between(0, link.y - link.x - 1);
        (one.waits[0].w, one.ordinary[2].d) = (link.y - late, late);
        let moved = one.links.iter_mut().map(|link| [&mut link.a, &mut link.c]);
        moved.flatten().for_each(|point| *point += first);
        let moved = one.ordinary.iter_mut().map(|one| [&mut one.x, &mut one.y]);
        moved.flatten().for_each(|point| *point += first);
        let moved = one.waits.iter_mut().map(|wait| [&mut wait.v, &mut wait.c]);
        moved.flatten().for_each(|point| *point += first);
        plan.links.extend(one.links);
        plan.ordinary.extend(one.ordinary);
        plan.waits.extend(one.waits);
        if k > 0 {
            let d = -draw.between(0, 9);
            let (x, y) = (first, first - 4);
            plan.ordinary.push(Ordinary { x, d, y });
        }
    }
    plan
}

/// With a record for each pair that a path joins: the largest distance over all projections. Looser ones are taken out first.
fn filled(draw: &mut Draw, mut plan: Plan) -> Plan {
    let most = largest(&plan);
    plan.ordinary.clear();
    for (x, row) in most.iter().enumerate() {
        for (y, d) in row.iter().enumerate().filter(|(y, _)| *y != x) {
            if let Some(d) = d.filter(|d| (-BOUND..=BOUND).contains(d)) {
                plan.ordinary.push(Ordinary { x, d, y });
            }
        }
    }
    draw.shuffle(&mut plan.ordinary);
    plan
}

/// The largest distances over all projections of a plan that passes.
pub fn largest(plan: &Plan) -> Table {
    let both = |a: Table, b: Table| {
        let rows = a.into_iter().zip(b);
        let cells = rows.map(|(a, b)| a.into_iter().zip(b).map(|(a, b)| a.max(b)).collect());
        cells.collect()
    };
    tables(plan).reduce(both).unwrap_or_default()
}

/// How points of a plan may be tied, whatever happens: not at all, two at a fixed distance from one another, three at one minute.
pub const TIES: [&str; 3] = ["no", "yes", "three together"];

/// How points of a plan are tied: a place in `TIES`.
pub fn tied(plan: &Plan) -> usize {
    let most = largest(plan);
    let points = 0..plan.points();
    let fixed = |x: usize, y: usize| {
        let both = most[x][y].zip(most[y][x]);
        x != y && both.is_some_and(|(forth, back)| forth + back == 0)
    };
    let with = |x: usize| points.clone().filter(move |&y| fixed(x, y));
    let together = |x: usize| with(x).filter(|&y| most[x][y] == Some(0)).count();
    if points.clone().any(|x| together(x) > 1) {
        2
    } else {
        usize::from(points.clone().any(|x| with(x).count() > 0))
    }
}

/// The records that no plan with these distances can do without, all waits being kept: from the plan of all distances, not one of
/// them can go alone. Where they are enough, no plan has fewer.
pub fn needed(draw: &mut Draw, plan: &Plan) -> Plan {
    let whole = filled(draw, plan.clone());
    let wanted: Vec<Table> = tables(plan).collect();
    let stands = |less: &Plan| tables(less).eq(wanted.iter().cloned()) && passes(less);
    let mut kept = whole.clone();
    kept.ordinary.retain(|one| {
        let mut less = whole.clone();
        less.ordinary.retain(|other| other != one);
        !stands(&less)
    });
    kept
}

#[cfg(test)]
mod tests {
    use super::*;
    use oracle::lighter::lighter;
    use oracle::min_disp::{min_disp, Reading};

    /// What minDisp leaves stands and is no more than `lighter` leaves, and as much where no points are tied.
    #[test]
    fn each_form() {
        for (k, form) in FORMS
            .into_iter()
            .enumerate()
            .filter(|(_, form)| form.2 < 20)
        {
            for number in 0..4 {
                let draw = &mut Draw::new(12, 10 * k as u64 + number);
                let plan = plan(draw, form);
                let fewest = min_disp(&plan, Reading::Strict);
                assert!(fewest.stands(&plan), "{plan:?}");
                let light = lighter(&plan).expect("it passes").plan.ordinary.len();
                assert!(light >= fewest.ordinary.len(), "{plan:?}");
                if tied(&plan) == 0 {
                    assert_eq!(needed(draw, &plan).ordinary.len(), light, "{plan:?}");
                }
            }
        }
    }
}
