//! The fewest records by which a plan can be dispatched: document 000's algorithm minDisp (Algorithm 1; document 001 has a
//! faster way to the same result), with its lines in its order and by the numbers in front of them. It takes plans that pass
//! the test and are in that document's setting; the bounds that links and waits entail stand in for them while ordinary edges
//! are dropped.
//!
//! Four things are ours. Document 000 names the dispatchability algorithm for ordinary edges but does not spell it out: here
//! it is `dispatchable`. In its figure 1 an ordinary edge V to C of y - w stands beside the wait; of a plan that is typed it may
//! be missing, so it is put in as a weak edge too. A stand-in from V to Y is made of paths that do not come through V again,
//! since else a record would be dropped for what it says itself. And where a distance is 0, lines 41 and 45 drop a wait for a
//! way that begins with a step of 0, which is no negative one: they are read strictly. `Reading` has the last three as printed.

use crate::lighter::{self, Table};
use crate::plan::{Link, Ordinary, Plan, Wait};
use crate::plan_test::{self, Edge};

/// How the algorithm is read.
#[derive(Clone, Copy, PartialEq, Eq, Debug)]
pub enum Reading {
    Printed,
    Strict,
}

/// What is left: ordinary edges, some of which the plan may not have had, and waits of the plan.
#[derive(Clone, PartialEq, Eq, Debug)]
pub struct Fewest {
    pub ordinary: Vec<Edge>,
    pub waits: Vec<Wait>,
}

impl Fewest {
    /// The plan with these records in place of its own.
    pub fn plan(&self, plan: &Plan) -> Plan {
        let ordinary = self.ordinary.iter().map(|&(x, d, y)| Ordinary { x, d, y });
        Plan {
            ordinary: ordinary.collect(),
            waits: self.waits.clone(),
            ..plan.clone()
        }
    }

    /// Does it pass the test, with the plan's distances in every projection?
    pub fn stands(&self, plan: &Plan) -> bool {
        let less = self.plan(plan);
        lighter::passes(&less) && lighter::tables(&less).eq(lighter::tables(plan))
    }
}

/// Is a plan in document 000's setting? No link starts where another ends, and no wait is so short that it is over whenever
/// the link ends.
pub fn in_setting(plan: &Plan) -> bool {
    let starts = plan.links.iter().all(|link| !plan.watched(link.a));
    let waits = plan.waits.iter().all(|wait| plan.link_of(wait).x < wait.w);
    starts && waits
}

/// Of several waits of one point for one end only the longest says something.
fn longest(waits: &[Wait]) -> Vec<Wait> {
    let mut all: Vec<Wait> = Vec::new();
    for wait in waits {
        match all
            .iter_mut()
            .find(|one| (one.v, one.c) == (wait.v, wait.c))
        {
            Some(one) => one.w = one.w.max(wait.w),
            None => all.push(*wait),
        }
    }
    all
}

/// Lines 3 to 8: the ordinary edges that links and waits entail each by itself.
fn weak(plan: &Plan, waits: &[Wait], reading: Reading) -> Vec<Edge> {
    let forth = |link: &Link| [(link.a, link.y, link.c), (link.c, -link.x, link.a)];
    let mut edges: Vec<Edge> = plan.links.iter().flat_map(forth).collect();
    for wait in waits {
        let link = plan.link_of(wait);
        edges.push((wait.v, -link.x, link.a));
        if reading == Reading::Strict {
            edges.push((wait.v, link.y - wait.w, link.c));
        }
    }
    edges
}

/// Lines 13 to 24: the edges that a link, a wait for it and ordinary paths entail together.
fn stand_ins(plan: &Plan, waits: &[Wait], edges: &[Edge], reading: Reading) -> Vec<Edge> {
    let points = plan.points();
    let d = table(points, edges);
    let mut found = Vec::new();
    for wait in waits {
        let Link { a, x, y, c } = plan.link_of(wait);
        let simple: Vec<Edge> = edges.iter().filter(|e| e.0 != wait.v).copied().collect();
        let after = match reading {
            Reading::Printed => edges,
            Reading::Strict => &simple,
        };
        let [from_a, from_c] = [a, c].map(|from| lengths(points, after, from));
        for to in (0..points).filter(|to| ![a, c, wait.v].contains(to)) {
            let (Some(from_c), Some(from_a)) = (from_c[to], from_a[to]) else {
                continue;
            };
            let meet = from_a - from_c;
            let most = (-meet).max(-wait.w) + from_a;
            if x < meet && meet < y && d[wait.v][to].is_none_or(|known| most <= known) {
                found.push((wait.v, most, to));
            }
        }
    }
    found
}

/// The shortest lengths over ordinary edges from one point.
fn lengths(points: usize, edges: &[Edge], from: usize) -> Vec<Option<i64>> {
    let row = plan_test::distances(points, edges, from);
    row.expect("a plan that passes has no cycle of negative sum")
}

/// The same from all points.
fn table(points: usize, edges: &[Edge]) -> Table {
    let rows = (0..points).map(|from| lengths(points, edges, from));
    rows.collect()
}

/// Lines 1 to 25: the largest distances over all projections (document 000, Theorem 3), and the edges that only stand in.
pub fn most(plan: &Plan, reading: Reading) -> (Table, Vec<Edge>) {
    let waits = longest(&plan.waits);
    let mut marked = weak(plan, &waits, reading);
    let own = plan.ordinary.iter().map(|one| (one.x, one.d, one.y));
    let mut edges: Vec<Edge> = own.chain(marked.iter().copied()).collect();
    for _ in &plan.links {
        let found = stand_ins(plan, &waits, &edges, reading);
        if found.is_empty() {
            break;
        }
        edges.extend(&found);
        marked.extend(found);
    }
    (table(plan.points(), &edges), marked)
}

/// The algorithm, for a plan that passes the test and is in its setting.
pub fn min_disp(plan: &Plan, reading: Reading) -> Fewest {
    let (d, marked) = most(plan, reading);
    // Lines 28 and 30 to 36: what goes whatever the ordinary edges say.
    let goes = |edge: &Edge| {
        let ended = if edge.1 < 0 { edge.0 } else { edge.2 };
        marked.contains(edge) || plan.watched(ended)
    };
    let own = |&(x, d, y): &Edge| plan.ordinary.contains(&Ordinary { x, d, y });
    let rank = |edge: &Edge| match goes(edge) {
        true => 0,
        false => 1 + usize::from(!own(edge)),
    };
    let mut ordinary = dispatchable(&d, &rank);
    ordinary.retain(|edge| !goes(edge));
    let all = longest(&plan.waits);
    let needed = |wait: &&Wait| !dominated(plan, &all, &d, wait, reading);
    Fewest {
        ordinary,
        waits: all.iter().filter(needed).copied().collect(),
    }
}

/// Lines 40 to 47: does an ordinary path or another wait for the same end say what this one says?
fn dominated(plan: &Plan, waits: &[Wait], d: &Table, wait: &Wait, reading: Reading) -> bool {
    let link = plan.link_of(wait);
    let before = match reading {
        Reading::Printed => 0,
        Reading::Strict => -1,
    };
    let at_most = |to: usize, most: i64| d[wait.v][to].is_some_and(|length| length <= most);
    let others = waits
        .iter()
        .filter(|one| one.c == wait.c && one.v != wait.v);
    let mut others = others.filter(|one| at_most(one.v, before));
    at_most(link.a, -wait.w)
        || at_most(link.c, before)
        || others.any(|one| at_most(one.v, one.w - wait.w.min(link.y)))
}

/// Line 26: the fewest ordinary edges with these distances by which ordinary edges can be dispatched, of equal ones the one of
/// least rank. Points at fixed distances from one another make a rigid group; by document 000's definition 2 an edge is dispensable
/// where another of its sign starts with it (negative ones) or ends with it (the others) and the rest is a path. Between groups
/// that is asked of their earliest points; in a group each later point has an edge to an earlier one and one from an earlier one.
fn dispatchable(d: &Table, rank: &dyn Fn(&Edge) -> usize) -> Vec<Edge> {
    let points = d.len();
    let far = |x: usize, y: usize| d[x][y].filter(|_| x != y);
    let rigid =
        |x: usize, y: usize| x == y || far(x, y).zip(far(y, x)).is_some_and(|(a, b)| a + b == 0);
    let group = |x: usize| (0..points).filter(move |&y| rigid(x, y));
    // Of each point the points of its group that come before it, of the first ones those that come with them.
    let earlier = |x: usize| group(x).filter(move |&y| far(x, y).is_some_and(|length| length < 0));
    let first = |x: &usize| earlier(*x).next().is_none();
    let leaders: Vec<usize> = (0..points)
        .filter(|x| first(x) && group(*x).filter(first).next() == Some(*x))
        .collect();
    let best = |from: Vec<usize>, to: Vec<usize>, negative: bool| {
        let pairs = from.iter().flat_map(|&x| to.iter().map(move |&y| (x, y)));
        let edges = pairs.filter_map(|(x, y)| far(x, y).map(|length| (x, length, y)));
        let signed = edges.filter(|edge| (edge.1 < 0) == negative);
        signed.min_by_key(|edge| rank(edge))
    };
    let mut edges = Vec::new();
    for x in (0..points).filter(|x| !first(x)) {
        edges.extend(best(vec![x], earlier(x).collect(), true));
        edges.extend(best(earlier(x).collect(), vec![x], false));
    }
    for &leader in &leaders {
        let all: Vec<usize> = group(leader).filter(first).collect();
        if all.len() > 1 {
            let next = all.iter().cycle().skip(1);
            edges.extend(all.iter().zip(next).map(|(&x, &y)| (x, 0, y)));
        }
    }
    for &k in &leaders {
        for &l in leaders.iter().filter(|l| **l != k) {
            let Some(length) = far(k, l) else { continue };
            let by = |&m: &usize| {
                let (to, from) = (far(k, m), far(m, l));
                let same_sign = if length < 0 {
                    to.map(|to| to < 0)
                } else {
                    from.map(|from| from >= 0)
                };
                let sum = to.zip(from).map(|(to, from)| to + from);
                same_sign == Some(true) && sum == Some(length)
            };
            if leaders.iter().any(by) {
                continue;
            }
            if length < 0 {
                let firsts = group(k).filter(first);
                edges.extend(firsts.filter_map(|x| best(vec![x], group(l).collect(), true)));
            } else {
                edges.extend(best(
                    group(k).collect(),
                    group(l).filter(first).collect(),
                    false,
                ));
            }
        }
    }
    edges
}
