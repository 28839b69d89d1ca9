//! Draws what `desk list` is asked: plan files of all kinds, damaged ones, and the listings themselves, which `desk pack` has to
//! make the same bytes of.

use crate::asks::{self, Ask};
use crate::damage;
use crate::draw::Draw;
use crate::inputs;
use crate::links;
use crate::plans::{self, Sizes, FULL};
use oracle::desk::Verb;
use oracle::pack;
use oracle::plan::{self, Ordinary, Plan, BOUND, RECORD};

/// Kinds of batches, without the one of wrong usage.
pub const KINDS: usize = 5;

pub fn batch(draw: &mut Draw, kind: usize) -> Vec<Ask> {
    let mut plans: Vec<(&str, Plan)> = Vec::new();
    match kind {
        0 => return asks::refusals(draw, "list"),
        1 => {
            plans.push(("the haul", plans::haul_as_it_stands()));
            for (drives, fork) in [(2, false), (3, true), (8, false)] {
                plans.push(("trucks in a chain", plans::trucks(draw, drives, fork)));
            }
            for length in [2, 3] {
                plans.push(("a ring of links", plans::ringed(draw, length)));
            }
            plans.push(("a plan that gets stuck", plans::stuck(draw)));
            let sizes = Sizes::small(draw);
            plans.push(("a small plan", plans::any(draw, sizes, BOUND, false)));
        }
        2 => {
            plans.push(("a full plan", plans::full(draw)));
            let sizes = Sizes::any(draw);
            plans.push(("a plan of any size", plans::roomy(draw, sizes)));
            plans.push(("a long drive", plans::far_haul(draw)));
            plans.push(("bounds at their limits", at_limits(draw)));
            let ponds = vec![0; 1 + draw.below(32)];
            plans.push((
                "points alone",
                Plan {
                    ponds,
                    ..Plan::default()
                },
            ));
        }
        3 => return damaged(draw),
        _ => {
            for (what, plan) in [
                ("a small plan", inputs::small_good(draw)),
                ("a chain of long steps", plans::chain(draw)),
                ("much that keeps points shut", plans::barred(draw)),
            ] {
                plans.push((what, plan));
            }
        }
    }
    let mut asked = Vec::new();
    for (what, mut plan) in plans {
        for pond in &mut plan.ponds {
            *pond = draw.pick(&[0, 1, 9, 10, 41_705, 6_760_000, 1 << 31, u32::MAX]);
        }
        let cases = cases_of(&plan);
        asked.push(asks::ask("list", what, plan.to_bytes(), cases));
        asked.push(listing(&plan));
    }
    asked
}

/// The listing of a plan, for `pack`.
fn listing(plan: &Plan) -> Ask {
    let input = Verb::List.said(&plan.to_bytes()).output;
    let mut cases = Vec::new();
    if pack::pack(&input) == Ok(plan.to_bytes()) {
        cases.push("list: a listing that is packed again".to_string());
    }
    asks::ask("pack", "what list prints", input, cases)
}

/// Each kind of number at its limits and next to 0.
fn at_limits(draw: &mut Draw) -> Plan {
    let mut plan = plans::haul_as_it_stands();
    for (k, d) in [-BOUND, BOUND, 0].into_iter().enumerate() {
        plan.ordinary[k].d = d;
    }
    let (x, d, y) = (0, draw.pick(&[-1, 1, -9, 10, -10, 99_999, -99_999]), 3);
    plan.ordinary.push(Ordinary { x, d, y });
    (plan.links[0].x, plan.links[0].y) = (1, BOUND);
    plan.waits[0].w = draw.pick(&[1, BOUND]);
    plan
}

/// A file with a byte changed, cut, or with records moved: refused most often, and now and then still good.
fn damaged(draw: &mut Draw) -> Vec<Ask> {
    let plan = inputs::small_good(draw);
    let file = plan.to_bytes();
    let mut files: Vec<(&str, Vec<u8>)> = Vec::new();
    for _ in 0..10 {
        let mut changed = file.clone();
        let place = draw.below(file.len());
        changed[place] = damage::other_byte(draw, changed[place]);
        files.push(("a byte changed", changed));
    }
    // A code may be anything: such a file is still good.
    let mut changed = file.clone();
    let place = 12 + draw.below(4);
    changed[place] = damage::other_byte(draw, changed[place]);
    files.push(("a byte changed", changed));
    for _ in 0..4 {
        let length = draw.below(file.len());
        files.push(("a file cut", file[..length].to_vec()));
        files.push(("a file cut", file[..length / RECORD * RECORD].to_vec()));
        let mut moved = file.clone();
        damage::move_records(draw, &mut moved);
        files.push(("records moved", moved));
    }
    let asked = files.into_iter().map(|(what, file)| {
        let how = match plan::read(&file) {
            Ok(_) => "still good",
            Err(_) => "refused",
        };
        let case = format!("list: {what}, {how}");
        let cases = asks::cases("list").contains(&case).then_some(case);
        asks::ask("list", what, file, cases.into_iter().collect())
    });
    asked.collect()
}

/// What a plan has that must come up.
fn cases_of(plan: &Plan) -> Vec<String> {
    let mut cases: Vec<&str> = Vec::new();
    let mut when = |is: bool, case: &'static str| {
        if is {
            cases.push(case);
        }
    };
    when(plan.records() == FULL.records(), "a full plan");
    when(plan.records() == plan.points(), "points alone");
    when(plan.ponds.contains(&0), "no pond");
    when(plan.ponds.contains(&u32::MAX), "the largest code");
    when(plan.ponds.contains(&(1 << 31)), "a code of 2147483648");
    let bound = |d: i64| plan.ordinary.iter().any(|one| one.d == d);
    when(bound(BOUND), "a bound of 100000");
    when(bound(-BOUND), "a bound of -100000");
    when(bound(0), "a bound of 0");
    when(
        plan.links.iter().any(|link| link.y == BOUND),
        "a link to 100000",
    );
    when(!plan.waits.is_empty(), "a wait");
    cases.extend(links::shapes(plan));
    cases
        .into_iter()
        .map(|case| format!("list: {case}"))
        .collect()
}

/// The cases that must come up, besides what is said.
pub fn cases() -> Vec<String> {
    let named = [
        "a mark",
        "a listing that is packed again",
        "a full plan",
        "points alone",
        "no pond",
        "the largest code",
        "a code of 2147483648",
        "a bound of 100000",
        "a bound of -100000",
        "a bound of 0",
        "a link to 100000",
        "a wait",
        "a byte changed, still good",
        "a byte changed, refused",
        "a file cut, still good",
        "a file cut, refused",
        "records moved, refused",
    ];
    let all = named.iter().chain(&links::SHAPES);
    all.map(|case| format!("list: {case}")).collect()
}
