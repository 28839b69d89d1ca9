//! Draws what `desk lighter` is asked: plans of which many records can go, some, or none, and why they cannot.

use crate::asks::{self, Ask};
use crate::draw::Draw;
use crate::links;
use crate::plans::{self, Sizes, FULL};
use oracle::close::close;
use oracle::lighter::{lighter, passes, tables, without, Lighter, Table};
use oracle::plan::{self, Link, Ordinary, Plan, Wait, BOUND};
use oracle::plan_test::{self, Answer};

/// Kinds of batches, without the one of wrong usage.
pub const KINDS: usize = 8;

pub fn batch(draw: &mut Draw, kind: usize) -> Vec<Ask> {
    let mut plans: Vec<(&str, Plan)> = Vec::new();
    match kind {
        0 => return asks::refusals(draw, "lighter"),
        1 => {
            for _ in 0..6 {
                plans.push(("a closure", closure(draw)));
            }
        }
        2 => {
            let heavier = |draw: &mut Draw, plan: Plan| loosened(draw, plan);
            plans.push(("the haul", plans::haul_as_it_stands()));
            let haul = plans::haul_as_it_stands();
            plans.push(("the haul with more records", heavier(draw, haul)));
            let passing = plans::passing(draw);
            plans.push(("a plan that passes", passing.clone()));
            plans.push(("the same with more records", heavier(draw, passing)));
            for (drives, fork) in [(2, false), (3, true), (8, false)] {
                let trucks = plans::trucks(draw, drives, fork);
                plans.push(("trucks in a chain", heavier(draw, trucks)));
            }
            let mut small = Sizes::small(draw);
            small.points += 3;
            plans.push(("a small star", plans::star(draw, small, false)));
            let layered = plans::layered(draw, small, false);
            plans.push(("a small layered plan", heavier(draw, layered)));
            plans.push(("a larger plan", plans::passing_larger(draw)));
            plans.push(("records that links say", needless(draw)));
        }
        3 => {
            for k in 0..4 {
                let heavy = some_heavy(draw, k);
                if let Ok(light) = lighter(&heavy) {
                    plans.push(("a light plan", light.plan));
                }
            }
            plans.push(("no records", any_points(draw)));
        }
        4 => {
            for wanted in STEPS {
                plans.push((wanted, met(draw, wanted)));
            }
        }
        5 => plans = refused(draw),
        6 => {
            for wanted in [4_096, 4_097] {
                let wide = wide_haul(draw, wanted);
                plans.push(("about 4,096 projections", wide));
            }
            let mut broken = wide_haul(draw, 4_096);
            broken.waits[0].w -= 1;
            plans.push(("4,096 projections, nearly", broken));
        }
        _ => plans = large(draw),
    }
    let mut asked = Vec::new();
    for (what, mut plan) in plans {
        for pond in &mut plan.ponds {
            *pond = draw.pick(&[0, 1, 6_760_000, u32::MAX]);
        }
        let cases = cases_of(&plan);
        asked.push(asks::ask("lighter", what, plan.to_bytes(), cases));
    }
    asked
}

/// So many points and nothing else.
fn any_points(draw: &mut Draw) -> Plan {
    Plan {
        ponds: vec![0; 1 + draw.below(32)],
        ..Plan::default()
    }
}

/// The plan of all distances of a small plan without watched steps, in any order or in the order that it is made in.
fn closure(draw: &mut Draw) -> Plan {
    loop {
        let sizes = Sizes {
            points: 2 + draw.below(7),
            links: 0,
            ordinary: 2 + draw.below(12),
            waits: 0,
        };
        let scale = draw.pick(&[1, 2, 5, 20, 3_000]);
        let hidden = draw.one_in(2);
        let Ok(mut made) = close(&plans::any(draw, sizes, scale, hidden)) else {
            continue;
        };
        if made.ordinary.is_empty() {
            continue;
        }
        if draw.one_in(2) {
            draw.shuffle(&mut made.ordinary);
        }
        return made;
    }
}

/// With some records more that change no distance, anywhere between the others: what the plan says anyway in all
/// projections, or a little less.
pub fn loosened(draw: &mut Draw, mut plan: Plan) -> Plan {
    let all: Vec<Table> = tables(&plan).collect();
    let mut added = 0;
    let wanted = 1 + draw.below(6);
    let mut pairs: Vec<(usize, usize)> = (0..plan.points())
        .flat_map(|x| (0..plan.points()).map(move |y| (x, y)))
        .filter(|(x, y)| x != y)
        .collect();
    draw.shuffle(&mut pairs);
    for (x, y) in pairs {
        let twin = plan.ordinary.iter().any(|one| (one.x, one.y) == (x, y));
        let said: Option<Vec<i64>> = all.iter().map(|table| table[x][y]).collect();
        let most = said.and_then(|said| said.into_iter().max());
        let (false, Some(most)) = (twin, most) else {
            continue;
        };
        let d = most + draw.pick(&[0, 0, 0, 1, 7]);
        if (-BOUND..=BOUND).contains(&d) {
            let place = draw.below(plan.ordinary.len() + 1);
            plan.ordinary.insert(place, Ordinary { x, d, y });
            added += 1;
        }
        if added == wanted {
            break;
        }
    }
    plan
}

/// A plan that passes and from which something may go, of one form or another.
fn some_heavy(draw: &mut Draw, form: usize) -> Plan {
    loop {
        let plan = match form {
            0 => closure(draw),
            1 => plans::haul_as_it_stands(),
            2 => plans::passing(draw),
            _ => {
                let drives = 2 + draw.below(2);
                plans::trucks(draw, drives, false)
            }
        };
        if form == 0 {
            return plan;
        }
        if quick(&plan) && passes(&plan) {
            return loosened(draw, plan);
        }
    }
}

/// Is the lighter plan soon found?
fn quick(plan: &Plan) -> bool {
    let steps = plan.points().pow(2) * plan.records() * (plan.ordinary.len() + 1);
    let cheap = |count: i64| (count as usize).saturating_mul(steps) < 40_000_000;
    plan_test::projections(plan).is_some_and(cheap)
}

/// What may come up when records are tried.
const STEPS: [&str; 7] = [
    "needed for the test alone",
    "needed for the distances alone",
    "needed for both",
    "needed for the test past projection 0 alone",
    "needed for distances past projection 0 alone",
    "another order leaves other records",
    "a record that could go before others went",
];

/// What comes up when the records of a plan that passes are tried in order.
fn steps_of(plan: &Plan) -> Vec<&'static str> {
    let mut cases = Vec::new();
    let wanted: Vec<Table> = tables(plan).collect();
    let mut light = plan.clone();
    let mut place = 0;
    while place < light.ordinary.len() {
        let less = without(&light, place);
        // The first projection in which a distance is another, and the first that fails the test.
        let other = tables(&less).zip(&wanted).position(|(a, b)| a != *b);
        let fails = match plan_test::plan_test(&less) {
            Ok(Answer::Cycle(at) | Answer::Pair(at, ..)) => Some(at),
            _ => None,
        };
        match (other, fails) {
            (None, None) => {
                light = less;
                continue;
            }
            (None, Some(at)) => {
                cases.push(STEPS[0]);
                if at > 0 {
                    cases.push(STEPS[3]);
                }
            }
            (Some(at), None) => {
                cases.push(STEPS[1]);
                if at > 0 {
                    cases.push(STEPS[4]);
                }
            }
            (Some(_), Some(_)) => cases.push(STEPS[2]),
        }
        // From the whole plan it could have gone.
        let same = |one: &Ordinary| *one == light.ordinary[place];
        let first = plan.ordinary.iter().position(same);
        let alone = first.map(|first| without(plan, first));
        if alone.is_some_and(|alone| passes(&alone) && tables(&alone).eq(wanted.iter().cloned())) {
            cases.push(STEPS[6]);
        }
        place += 1;
    }
    let mut reversed = plan.clone();
    reversed.ordinary.reverse();
    if let Ok(Lighter {
        plan: mut other, ..
    }) = lighter(&reversed)
    {
        other.ordinary.reverse();
        if other != light {
            cases.push(STEPS[5]);
        }
    }
    cases.sort_unstable();
    cases.dedup();
    cases
}

/// A plan of which that comes up.
fn met(draw: &mut Draw, wanted: &str) -> Plan {
    if wanted == STEPS[3] || wanted == STEPS[4] {
        return late(draw, wanted == STEPS[3]);
    }
    loop {
        let form = draw.below(4);
        let mut plan = some_heavy(draw, form);
        if draw.one_in(2) {
            plans::near_miss(draw, &mut plan);
        }
        if quick(&plan) && passes(&plan) && steps_of(&plan).contains(&wanted) {
            return plan;
        }
    }
}

/// A plan that passes, with a record that counts from some projection on, not in the first: from X to Y it is shorter by A, a
/// link and a step from its C only while the link is short. With `for_test` another way is as short as the record, but goes up
/// first and then down.
fn late(draw: &mut Draw, for_test: bool) -> Plan {
    let mut points: Vec<usize> = (0..5).collect();
    draw.shuffle(&mut points);
    let [a, c, x, y, z] = [0, 1, 2, 3, 4].map(|k: usize| points[k]);
    let (least, span) = (draw.between(1, 9), draw.between(2, 9));
    let (back, forth) = (draw.between(1, 30), draw.between(0, 9));
    // The first projection in which the record counts.
    let from = draw.between(1, span - 1);
    let d = least + from - 1 + forth - back;
    let mut plan = Plan {
        ponds: vec![0; 5],
        ..Plan::default()
    };
    let most = least + span - 1;
    plan.links.push(Link {
        a,
        x: least,
        y: most,
        c,
    });
    let mut rows = vec![(x, -back, a), (c, forth, y), (x, d, y)];
    if for_test {
        let down = d.min(0).abs() + draw.between(1, 9);
        rows.extend([(x, d + down, z), (z, -down, y)]);
    }
    draw.shuffle(&mut rows);
    let rows = rows.into_iter().map(|(x, d, y)| Ordinary { x, d, y });
    plan.ordinary.extend(rows);
    plan
}

/// Links alone, and records that say no more than they do.
fn needless(draw: &mut Draw) -> Plan {
    let mut plan = Plan {
        ponds: vec![0; 4],
        ..Plan::default()
    };
    for (a, c) in [(0, 1), (1, 2), (0, 3)] {
        let x = draw.between(1, 9);
        let y = x + draw.between(1, 3);
        plan.links.push(Link { a, x, y, c });
    }
    loosened(draw, plan)
}

/// The haul with a drive of so many lengths, and a record or two more.
fn wide_haul(draw: &mut Draw, lengths: i64) -> Plan {
    let mut plan = plans::haul_as_it_stands();
    let x = draw.edgy(1, BOUND - lengths);
    let y = x + lengths - 1;
    let [a, c] = [plan.links[0].a, plan.links[0].c];
    let w = y - 15;
    plan.links = vec![Link { a, x, y, c }];
    plan.waits = vec![Wait { v: 3, c, w }];
    // What the drive says anyway, and what it does not.
    let (back, far) = (-x, draw.pick(&[y, y - 1]));
    for (x, d, y) in [(c, back, a), (a, far, c)] {
        if draw.one_in(2) {
            plan.ordinary.push(Ordinary { x, d, y });
        }
    }
    if far < y {
        // A drive of the longest time would break it.
        plan.ordinary.retain(|one| (one.x, one.y) != (a, c));
    }
    plan
}

/// Plans that do not pass, too many projections, and both.
fn refused(draw: &mut Draw) -> Vec<(&'static str, Plan)> {
    let mut plans: Vec<(&str, Plan)> = Vec::new();
    for larger in [false, true] {
        let mut plan = if larger {
            plans::passing_larger(draw)
        } else {
            plans::passing(draw)
        };
        for _ in 0..2 {
            plans::near_miss(draw, &mut plan);
            plans.push(("a plan that nearly passes", plan.clone()));
        }
    }
    plans.push(("a plan that gets stuck", plans::stuck(draw)));
    plans.push(("a cycle in some projections", plans::late_cycle(draw)));
    for length in [2, 3] {
        plans.push(("a ring of links", plans::ringed(draw, length)));
    }
    let mut plan = plans::haul_as_it_stands();
    plan.waits[0].w = draw.between(5, 34);
    plans.push(("the haul with a shorter wait", plan));
    // Too many projections, and one of them has a cycle, or no such path.
    let mut plan = wide_haul(draw, 4_097);
    if draw.one_in(2) {
        plan.waits.clear();
    } else {
        let (x, d, y) = (0, -1, 1);
        plan.ordinary.push(Ordinary { x, d, y });
    }
    plans.push(("too many projections, and a fault", plan));
    plans
}

/// Closures of many points, also of all pairs; a star; many links of two lengths each.
fn large(draw: &mut Draw) -> Vec<(&'static str, Plan)> {
    let mut plans: Vec<(&str, Plan)> = Vec::new();
    let closed = |draw: &mut Draw, points: usize, ordinary: usize| loop {
        let sizes = Sizes {
            points,
            links: 0,
            ordinary,
            waits: 0,
        };
        if let Ok(made) = close(&plans::star(draw, sizes, false)) {
            return made;
        }
    };
    plans.push(("all pairs of 32 points", closed(draw, 32, 62)));
    let points = 18 + draw.below(6);
    plans.push(("all pairs of many points", closed(draw, points, 60)));
    let sizes = Sizes {
        points: 6 + draw.below(4),
        links: 2 + draw.below(2),
        ordinary: 30,
        waits: 4,
    };
    let star = loop {
        let star = plans::star(draw, sizes, false);
        if quick(&star) {
            break star;
        }
    };
    plans.push(("a star with links", star));
    // As many links as there may be, of two lengths each.
    let mut pairs = Plan {
        ponds: vec![0; 10],
        ..Plan::default()
    };
    for c in 1..9 {
        let (x, y) = (c as i64, c as i64 + 1);
        pairs.links.push(Link { a: 0, x, y, c });
    }
    for (x, d, y) in [(9, 0, 0), (9, 5, 0), (0, 20, 9)] {
        if !pairs.ordinary.iter().any(|one| (one.x, one.y) == (x, y)) {
            pairs.ordinary.push(Ordinary { x, d, y });
        }
    }
    plans.push(("eight links", pairs));
    plans
}

/// What a plan has that must come up.
fn cases_of(plan: &Plan) -> Vec<String> {
    let mut cases: Vec<&str> = Vec::new();
    if plan.ordinary.len() > plan::OLD_ORDINARIES {
        cases.push("more than 256 ordinary records");
    }
    if plan.ordinary.len() == FULL.ordinary {
        cases.push("992 ordinary records");
    }
    let count = plan
        .links
        .iter()
        .map(|link| link.y - link.x + 1)
        .fold(1, i64::saturating_mul);
    match count {
        4_096 => cases.push("4,096 projections"),
        4_097 => cases.push("4,097 projections"),
        _ => {}
    }
    if count > plan_test::MOST && faulty(plan) {
        cases.push("13 before 60");
    }
    if plan.links.len() == FULL.links {
        cases.push("8 links");
    }
    if let Ok(Answer::Cycle(at) | Answer::Pair(at, ..)) = plan_test::plan_test(plan) {
        if at > 0 {
            cases.push("60 past projection 0");
        }
    } else if quick(plan) {
        if let Ok(light) = lighter(plan) {
            cases.extend(of_light(plan, &light));
            cases.extend(steps_of(plan));
        }
    }
    cases.extend(links::shapes(plan));
    let cases = cases.into_iter().map(|case| format!("lighter: {case}"));
    cases.collect()
}

/// Is something wrong with the projection of the shortest durations, or of the longest?
fn faulty(plan: &Plan) -> bool {
    let shortest: Vec<i64> = plan.links.iter().map(|link| link.x).collect();
    let longest: Vec<i64> = plan.links.iter().map(|link| link.y).collect();
    [shortest, longest].iter().any(|durations| {
        let edges = plan_test::edges(plan, durations);
        plan_test::fault(plan.points(), &edges).is_some()
    })
}

fn of_light(plan: &Plan, light: &Lighter) -> Vec<&'static str> {
    let mut cases = Vec::new();
    let (all, went) = (plan.ordinary.len(), light.dropped.len());
    if all == 0 {
        cases.push("no ordinary records");
    } else if went == 0 {
        cases.push("ordinary records, none of which goes");
    } else if went == all {
        cases.push("every record goes");
    }
    let first = plan.points() + plan.links.len();
    if light.dropped.first() == Some(&first) {
        cases.push("the first record goes");
    }
    if went > 0 && light.dropped.last() == Some(&(first + all - 1)) {
        cases.push("the last record goes");
    }
    if light.dropped.windows(2).any(|two| two[1] > two[0] + 1) {
        cases.push("records go with one between that stays");
    }
    if went > 0 && !plan.waits.is_empty() {
        cases.push("a record goes where there are waits");
    }
    cases
}

/// The cases that must come up, besides what is said.
pub fn cases() -> Vec<String> {
    let named = [
        "a mark",
        "more than 256 ordinary records",
        "992 ordinary records",
        "4,096 projections",
        "4,097 projections",
        "13 before 60",
        "60 past projection 0",
        "8 links",
        "no ordinary records",
        "ordinary records, none of which goes",
        "every record goes",
        "the first record goes",
        "the last record goes",
        "records go with one between that stays",
        "a record goes where there are waits",
    ];
    let all = named.iter().chain(&STEPS).chain(&links::SHAPES);
    all.map(|case| format!("lighter: {case}")).collect()
}
