//! The plan test: every projection, Bellman–Ford from every point.

use crate::plan::Plan;
use crate::Refusal;

/// More projections than this give 13.
pub const MOST: i64 = 4_096;

#[derive(Clone, Copy, PartialEq, Eq, Debug)]
pub enum Answer {
    /// Yes, with the number of projections tried.
    Yes(u32),
    /// The first failing projection has a cycle of negative sum.
    Cycle(u32),
    /// The first failing projection and its first bad pair (X, Y).
    Pair(u32, usize, usize),
}

/// What is wrong with one projection.
#[derive(Clone, Copy, PartialEq, Eq, Debug)]
pub enum Fault {
    Cycle,
    Pair(usize, usize),
}

/// An edge (from, length, to).
pub type Edge = (usize, i64, usize);

/// Said where a cycle of negative sum can be reached.
#[derive(Clone, Copy, PartialEq, Eq, Debug)]
pub struct NegativeCycle;

/// Lengths from one node to each, none where no path leads.
pub type Lengths = Result<Vec<Option<i64>>, NegativeCycle>;

/// The number of projections, or none once it passes 4,096.
pub fn projections(plan: &Plan) -> Option<i64> {
    let mut count = 1;
    for link in &plan.links {
        count *= link.y - link.x + 1;
        if count > MOST {
            return None;
        }
    }
    Some(count)
}

/// The edges of the projection with these durations, one for each link.
pub fn edges(plan: &Plan, durations: &[i64]) -> Vec<Edge> {
    let mut edges = Vec::new();
    for record in &plan.ordinary {
        edges.push((record.x, record.d, record.y));
    }
    for (link, &p) in plan.links.iter().zip(durations) {
        edges.push((link.a, p, link.c));
        edges.push((link.c, -p, link.a));
        for wait in plan.waits.iter().filter(|wait| wait.c == link.c) {
            edges.push((wait.v, -wait.w.min(p), link.a));
        }
    }
    edges
}

/// Bellman–Ford: the shortest distances from one node.
pub fn distances(nodes: usize, edges: &[Edge], from: usize) -> Lengths {
    let mut distance = vec![None; nodes];
    distance[from] = Some(0);
    // A shortest path has fewer edges than there are nodes: one more round finds nothing new.
    for _ in 0..nodes {
        let mut changed = false;
        for &(u, length, v) in edges {
            let Some(so_far) = distance[u] else { continue };
            let candidate: i64 = so_far + length;
            if distance[v].is_none_or(|known| candidate < known) {
                distance[v] = Some(candidate);
                changed = true;
            }
        }
        if !changed {
            return Ok(distance);
        }
    }
    Err(NegativeCycle)
}

/// The doubled graph for paths of negative edges followed by non-negative ones: node 2p is point
/// p while still in the negative steps, node 2p + 1 is point p in the non-negative steps.
pub fn doubled(points: usize, edges: &[Edge]) -> Vec<Edge> {
    let mut doubled = Vec::new();
    for &(u, length, v) in edges.iter().filter(|edge| edge.1 < 0) {
        doubled.push((2 * u, length, 2 * v));
    }
    for point in 0..points {
        doubled.push((2 * point, 0, 2 * point + 1));
    }
    for &(u, length, v) in edges.iter().filter(|edge| edge.1 >= 0) {
        doubled.push((2 * u + 1, length, 2 * v + 1));
    }
    doubled
}

/// The best allowed values: shortest lengths by negative edges followed by non-negative ones.
pub fn vee_distances(points: usize, edges: &[Edge], from: usize) -> Lengths {
    let both = distances(2 * points, &doubled(points, edges), 2 * from)?;
    Ok((0..points).map(|point| both[2 * point + 1]).collect())
}

/// The first fault of a projection: first a cycle, then pairs (X, Y), X slowest.
pub fn fault(points: usize, edges: &[Edge]) -> Option<Fault> {
    let mut shortest = Vec::new();
    for x in 0..points {
        match distances(points, edges, x) {
            Ok(from_x) => shortest.push(from_x),
            Err(NegativeCycle) => return Some(Fault::Cycle),
        }
    }
    for (x, from_x) in shortest.iter().enumerate() {
        let Ok(best) = vee_distances(points, edges, x) else {
            return Some(Fault::Cycle);
        };
        for y in 0..points {
            // A point with a path but no allowed one has `Some` against `None`.
            if from_x[y] != best[y] {
                return Some(Fault::Pair(x, y));
            }
        }
    }
    None
}

/// An odometer over the durations: the first link slowest, the last fastest, each from x up.
pub struct Odometer<'a> {
    plan: &'a Plan,
    next: Option<Vec<i64>>,
}

impl Odometer<'_> {
    pub fn new(plan: &Plan) -> Odometer<'_> {
        let first = plan.links.iter().map(|link| link.x).collect();
        Odometer {
            plan,
            next: Some(first),
        }
    }
}

impl Iterator for Odometer<'_> {
    type Item = Vec<i64>;

    fn next(&mut self) -> Option<Vec<i64>> {
        let current = self.next.take()?;
        let mut wheels = current.clone();
        for (wheel, link) in wheels.iter_mut().zip(&self.plan.links).rev() {
            if *wheel < link.y {
                *wheel += 1;
                self.next = Some(wheels);
                break;
            }
            *wheel = link.x;
        }
        Some(current)
    }
}

/// The plan test, or 13.
pub fn plan_test(plan: &Plan) -> Result<Answer, Refusal> {
    if projections(plan).is_none() {
        return Err((13, 0));
    }
    let mut tried = 0;
    for durations in Odometer::new(plan) {
        match fault(plan.points(), &edges(plan, &durations)) {
            Some(Fault::Cycle) => return Ok(Answer::Cycle(tried)),
            Some(Fault::Pair(x, y)) => return Ok(Answer::Pair(tried, x, y)),
            None => tried += 1,
        }
    }
    Ok(Answer::Yes(tried))
}
