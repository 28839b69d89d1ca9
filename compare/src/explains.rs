//! Draws what `desk explain` is asked, and checks what it says of a plan that the test refuses: which cycle and which walk it
//! shows is its own choice, so each step is held to the record that it names, and the sum to the steps.

use crate::asks::{self, Ask};
use crate::draw::Draw;
use crate::links;
use crate::plans::{self, Sizes, FULL};
use crate::wraps;
use oracle::desk::Verb;
use oracle::plan::{self, Link, Ordinary, Plan, Wait, BOUND};

/// Kinds of batches, without the one of wrong usage.
pub const KINDS: usize = 7;

pub fn batch(draw: &mut Draw, kind: usize) -> Vec<Ask> {
    let mut plans: Vec<(&str, Plan)> = Vec::new();
    match kind {
        0 => return asks::refusals(draw, "explain"),
        1 => {
            plans.push(("the haul", plans::haul_as_it_stands()));
            for wait in [None, Some(34), Some(draw.between(5, 33))] {
                let mut haul = plans::haul_as_it_stands();
                haul.waits.retain(|_| wait.is_some());
                haul.waits
                    .iter_mut()
                    .for_each(|one| one.w = wait.unwrap_or(0));
                plans.push(("the haul without its wait or with a shorter one", haul));
            }
            plans.push(("no allowed path", up_and_down(draw)));
            for at_once in [false, true] {
                plans.push(("a cycle through a wait", waiting_cycle(draw, at_once)));
            }
            let mut level = up_and_down(draw);
            level.ordinary[0].d = -level.ordinary[1].d;
            plans.push(("a shortest of 0", level));
            plans.push(("a cycle through a link", driving_cycle(draw)));
            plans.push(("a cycle in some projections", plans::late_cycle(draw)));
            for length in [2, 3] {
                plans.push(("a ring of links", plans::ringed(draw, length)));
            }
        }
        2 => {
            for larger in [false, false, true, true] {
                let mut plan = if larger {
                    plans::passing_larger(draw)
                } else {
                    plans::passing(draw)
                };
                for _ in 0..2 {
                    plans::near_miss(draw, &mut plan);
                    plans.push(("a plan that nearly passes", plan.clone()));
                }
            }
        }
        3 => {
            for drives in [2, 3, 8] {
                let fork = drives == 3;
                let mut plan = plans::trucks(draw, drives, fork);
                for _ in 0..1 + draw.below(2) {
                    plans::near_miss(draw, &mut plan);
                }
                plans.push(("trucks in a chain, nearly", plan));
            }
            plans.push(("trucks in a chain", plans::any_trucks(draw)));
            plans.push(("a plan that gets stuck", plans::stuck(draw)));
            plans.push(("two ways of one length", two_ways(draw)));
            plans.push(("a long cycle", long_cycle(draw)));
        }
        4 => {
            for _ in 0..6 {
                let mut sizes = Sizes::small(draw);
                sizes.points += 2;
                let scale = draw.pick(&[2, 5, 9, BOUND]);
                let hidden = draw.one_in(2);
                plans.push(("a plan of any kind", plans::any(draw, sizes, scale, hidden)));
            }
        }
        5 => {
            for wrap in wraps::WRAPS {
                plans.push(("too many projections", wraps::plan(draw, wrap)));
            }
            plans.push(("4,096 projections, the last fails", last_fails(draw)));
        }
        _ => {
            let sizes = Sizes { links: 1, ..FULL };
            let mut star = plans::star(draw, sizes, false);
            for _ in 0..3 {
                plans::near_miss(draw, &mut star);
            }
            plans.push(("a full star, nearly", star));
            plans.push(("a plan of 32 points", plans::any(draw, sizes, 50, false)));
        }
    }
    let asked = plans.into_iter().map(|(what, plan)| {
        let shapes = links::shapes(&plan).into_iter();
        let cases = shapes.map(|shape| format!("explain: {shape}"));
        asks::ask("explain", what, plan.to_bytes(), cases.collect())
    });
    asked.collect()
}

/// A way that goes up and then down, and none the other way round: nothing is allowed.
fn up_and_down(draw: &mut Draw) -> Plan {
    let points = 3 + draw.below(3);
    let mut order: Vec<usize> = (0..points).collect();
    draw.shuffle(&mut order);
    let rows = [
        (order[0], draw.edgy(0, 9), order[1]),
        (order[1], -draw.edgy(1, 9), order[2]),
    ];
    let rows = rows.map(|(x, d, y)| Ordinary { x, d, y });
    Plan {
        ponds: vec![0; points],
        ordinary: rows.to_vec(),
        ..Plan::default()
    }
}

/// A and V have to come closer than the wait lets them: in every projection by the drive, or from the one on in which it is over.
fn waiting_cycle(draw: &mut Draw, at_once: bool) -> Plan {
    let x = draw.between(2, 9);
    let y = x + draw.between(1, 9);
    let (w, d) = if at_once {
        (draw.edgy(x + 1, y), draw.edgy(0, x - 1))
    } else {
        let w = draw.edgy(x, y);
        (w, w - 1)
    };
    Plan {
        ponds: vec![0; 3],
        links: vec![Link { a: 0, x, y, c: 1 }],
        ordinary: vec![Ordinary { x: 0, d, y: 2 }],
        waits: vec![Wait { v: 2, c: 1, w }],
    }
}

/// An end has to come sooner, or later, than its link may take.
fn driving_cycle(draw: &mut Draw) -> Plan {
    let x = draw.between(2, 9);
    let y = x + draw.between(1, 9);
    let early = Ordinary {
        x: 0,
        d: draw.edgy(0, y - 1),
        y: 1,
    };
    let late = Ordinary {
        x: 1,
        d: -draw.edgy(x + 1, y),
        y: 0,
    };
    Plan {
        ponds: vec![0; 2],
        links: vec![Link { a: 0, x, y, c: 1 }],
        ordinary: vec![draw.pick(&[early, late])],
        ..Plan::default()
    }
}

/// Two ways of the same length from one point to another, neither of which is allowed: either may be shown.
fn two_ways(draw: &mut Draw) -> Plan {
    let (up, down) = (draw.between(0, 9), -draw.between(1, 9));
    let by = draw.between(0, 5);
    let rows = [(0, up, 1), (1, down, 3), (0, up + by, 2), (2, down - by, 3)];
    Plan {
        ponds: vec![0; 4],
        ordinary: rows.map(|(x, d, y)| Ordinary { x, d, y }).to_vec(),
        ..Plan::default()
    }
}

/// All points in one ring of a sum just below zero.
fn long_cycle(draw: &mut Draw) -> Plan {
    let points = 20 + draw.below(13);
    let mut order: Vec<usize> = (0..points).collect();
    draw.shuffle(&mut order);
    let mut sum = 0;
    let mut plan = Plan {
        ponds: vec![0; points],
        ..Plan::default()
    };
    for k in 0..points {
        let last = k + 1 == points;
        let d = if last {
            -1 - sum
        } else {
            draw.between(-50, 50)
        };
        sum += d;
        let (x, y) = (order[k], order[(k + 1) % points]);
        plan.ordinary.push(Ordinary { x, d, y });
    }
    draw.shuffle(&mut plan.ordinary);
    plan
}

/// A link of 4,096 lengths, or two, of which the longest fails alone.
fn last_fails(draw: &mut Draw) -> Plan {
    let x = draw.edgy(1, 90_000);
    let lengths = draw.pick(&[4_096, 64]);
    let mut plan = Plan {
        ponds: vec![0; 4],
        ..Plan::default()
    };
    let y = x + lengths - 1;
    plan.links.push(Link { a: 0, x, y, c: 1 });
    if lengths == 64 {
        plan.links.push(Link { a: 2, x, y, c: 3 });
    }
    let (x, d, y) = (0, y - 1, 1);
    plan.ordinary.push(Ordinary { x, d, y });
    plan
}

/// The lines whose every word is fixed: without the steps, and without the sum of a cycle, which may be any.
pub fn fixed(text: &[u8]) -> Vec<u8> {
    let cycle = text.starts_with(b"test cycle ");
    let open = |line: &&[u8]| line.starts_with(b"step ") || cycle && line.starts_with(b"sum ");
    let lines = text.split_inclusive(|byte| *byte == b'\n');
    lines
        .filter(|line| !open(line))
        .collect::<Vec<_>>()
        .concat()
}

/// A word that is a number as numbers are printed.
fn number(word: &str) -> Option<i64> {
    let number: i64 = word.parse().ok()?;
    (number.to_string() == word).then_some(number)
}

/// The numbers of a line that begins with this word, so many of them.
fn numbers<const N: usize>(line: &str, word: &str) -> Option<[i64; N]> {
    let rest = line.strip_prefix(word)?.strip_prefix(' ')?;
    let all: Option<Vec<i64>> = rest.split(' ').map(number).collect();
    all?.try_into().ok()
}

/// The edges that a record has in a projection with these durations of the links: from, to and length.
fn edges_of(plan: &Plan, durations: &[i64], record: usize) -> Vec<(usize, usize, i64)> {
    let Some(place) = record.checked_sub(plan.points()) else {
        return Vec::new();
    };
    if let Some(link) = plan.links.get(place) {
        let p = durations[place];
        return vec![(link.a, link.c, p), (link.c, link.a, -p)];
    }
    let place = place - plan.links.len();
    if let Some(one) = plan.ordinary.get(place) {
        return vec![(one.x, one.y, one.d)];
    }
    let Some(wait) = plan.waits.get(place - plan.ordinary.len()) else {
        return Vec::new();
    };
    let link = plan.links.iter().position(|link| link.c == wait.c);
    let link = link.expect("the C of a wait is watched");
    let length = -wait.w.min(durations[link]);
    vec![(wait.v, plan.links[link].a, length)]
}

/// What a step came from.
const KINDS_OF_STEPS: [&str; 5] = [
    "a step of a link",
    "a step back of a link",
    "a step of an ordinary record",
    "a step of a wait, its w",
    "a step of a wait, the drive",
];

/// What is wrong with an explanation, or what came up in it.
pub fn checked(file: &[u8], text: &[u8]) -> Result<Vec<String>, String> {
    let text = std::str::from_utf8(text).map_err(|_| "no text".to_string())?;
    let body = text.strip_suffix('\n').ok_or("no line feed at the end")?;
    let mut lines = body.split('\n').peekable();
    let plan = plan::read(file).map_err(|_| "an answer to a refused plan")?;
    let first = lines.next().unwrap_or("");
    let said = Verb::Test.said(file).output;
    if said != format!("{first}\n").into_bytes() {
        return Err(format!("the first line is not that of test: {first:?}"));
    }
    let pair = match first.split(' ').collect::<Vec<_>>()[..] {
        ["test", "pair", _, x, y] => Some([x, y].map(|word| number(word).unwrap_or(-1))),
        ["test", "cycle", _] => None,
        _ if lines.peek().is_none() => return Ok(vec!["explain yes".to_string()]),
        _ => return Err("lines behind a plan that passes".to_string()),
    };
    let mut durations = Vec::new();
    for link in &plan.links {
        let line = lines.next().unwrap_or("");
        match numbers(line, "drive") {
            Some([a, c, p]) if (a, c) == (link.a as i64, link.c as i64) => durations.push(p),
            _ => return Err(format!("no drive of its link: {line:?}")),
        }
    }
    let mut wanted = None;
    let mut keys = Vec::new();
    if pair.is_some() {
        let line = lines.next().unwrap_or("");
        let [shortest] = numbers(line, "shortest").ok_or(format!("no shortest: {line:?}"))?;
        let line = lines.next().unwrap_or("");
        match (line, numbers(line, "allowed")) {
            ("allowed none", _) => keys.push("explain: nothing is allowed".to_string()),
            (_, Some([best])) if best > shortest => {}
            _ => return Err(format!("nothing allowed that is longer: {line:?}")),
        }
        wanted = Some(shortest);
    }
    let walk = walked(&plan, &durations, &mut lines, &mut keys)?;
    let sum: i64 = walk.iter().map(|step| step.2).sum();
    let line = lines.next().unwrap_or("");
    if numbers(line, "sum") != Some([sum]) || lines.next().is_some() {
        return Err(format!("no sum of {sum} at the end: {line:?}"));
    }
    let ends = walk.first().zip(walk.last()).map(|(a, b)| [a.0, b.1]);
    let ends = ends.ok_or("no steps")?.map(|point| point as i64);
    match (pair, wanted) {
        (Some(pair), Some(shortest)) if (pair, shortest) != (ends, sum) => {
            return Err(format!("no walk from X to Y of {shortest}"))
        }
        (None, _) if ends[0] != ends[1] || sum >= 0 => return Err("no cycle below 0".to_string()),
        _ => {}
    }
    keys.extend(of_walk(&walk, pair.is_some()));
    Ok(keys)
}

/// The steps, each the edge of its record in this projection, and each from where the one before ended.
fn walked<'a>(
    plan: &Plan,
    durations: &[i64],
    lines: &mut std::iter::Peekable<impl Iterator<Item = &'a str>>,
    keys: &mut Vec<String>,
) -> Result<Vec<(usize, usize, i64)>, String> {
    let mut walk: Vec<(usize, usize, i64)> = Vec::new();
    while let Some(line) = lines.next_if(|line| line.starts_with("step")) {
        let told = numbers(line, "step").filter(|all| all[..3].iter().all(|number| *number >= 0));
        let [record, from, to, length] = told.ok_or(format!("no step: {line:?}"))?;
        let [record, from, to] = [record, from, to].map(|number| number as usize);
        let step = (from, to, length);
        if !edges_of(plan, durations, record).contains(&step) {
            return Err(format!(
                "no edge of its record in this projection: {line:?}"
            ));
        }
        if walk.last().is_some_and(|last| last.1 != from) {
            return Err(format!(
                "it does not begin where the one before ended: {line:?}"
            ));
        }
        walk.push(step);
        keys.push(format!("explain: {}", kind_of(plan, record, length)));
    }
    Ok(walk)
}

fn kind_of(plan: &Plan, record: usize, length: i64) -> &'static str {
    let place = record - plan.points();
    let waits = plan.links.len() + plan.ordinary.len();
    match place {
        _ if place < plan.links.len() => KINDS_OF_STEPS[usize::from(length < 0)],
        _ if place < waits => KINDS_OF_STEPS[2],
        _ if plan.waits[place - waits].w == -length => KINDS_OF_STEPS[3],
        _ => KINDS_OF_STEPS[4],
    }
}

/// What a walk is like.
fn of_walk(walk: &[(usize, usize, i64)], pair: bool) -> Vec<String> {
    let of = if pair { "pair" } else { "cycle" };
    let steps = match walk.len() {
        1 => "one step",
        2 => "two steps",
        3..=9 => "three steps to nine",
        _ => "ten steps or more",
    };
    let sum: i64 = walk.iter().map(|step| step.2).sum();
    let mut keys = vec![format!("explain: {of} of {steps}")];
    if pair {
        let size = match sum {
            ..=-1 => "below 0",
            0 => "0",
            _ => "above 0",
        };
        keys.push(format!("explain: a shortest {size}"));
    }
    keys.retain(|key| cases().contains(key));
    keys
}

/// The cases that must come up, besides what is said.
pub fn cases() -> Vec<String> {
    let named = [
        "a mark",
        "nothing is allowed",
        "a shortest below 0",
        "a shortest 0",
        "a shortest above 0",
        "cycle of two steps",
        "cycle of three steps to nine",
        "cycle of ten steps or more",
        "pair of two steps",
        "pair of three steps to nine",
    ];
    let all = named.iter().chain(&KINDS_OF_STEPS).chain(&links::SHAPES);
    all.map(|case| format!("explain: {case}")).collect()
}
