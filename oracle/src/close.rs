//! Plans without watched steps (document 02): the plan with an ordinary record for each pair that a path joins, numbers 61 to
//! 63. By Johnson's way: Bellman–Ford once, from a source that reaches every point at 0, finds cycles of negative sum, and its
//! distances make every edge's length zero or more; Dijkstra from each point then finds the shortest paths.

use crate::plan::{Ordinary, Plan, BOUND};
use crate::plan_test::{self, Edge, NegativeCycle};

/// The made plan, or 61, 62 or 63.
pub fn close(plan: &Plan) -> Result<Plan, u32> {
    if !plan.links.is_empty() || !plan.waits.is_empty() {
        return Err(61);
    }
    let points = plan.points();
    let edges: Vec<Edge> = plan
        .ordinary
        .iter()
        .map(|one| (one.x, one.d, one.y))
        .collect();
    let heights = heights(points, &edges).map_err(|NegativeCycle| 62u32)?;
    let level = edges
        .iter()
        .map(|&(x, d, y)| (x, d + heights[x] - heights[y], y));
    let level: Vec<Edge> = level.collect();
    let mut made = Plan {
        ponds: plan.ponds.clone(),
        ..Plan::default()
    };
    for x in 0..points {
        for (y, length) in dijkstra(points, &level, x).into_iter().enumerate() {
            if let Some(length) = length.filter(|_| x != y) {
                let d = length - heights[x] + heights[y];
                made.ordinary.push(Ordinary { x, d, y });
            }
        }
    }
    let far = |one: &Ordinary| !(-BOUND..=BOUND).contains(&one.d);
    if made.ordinary.iter().any(far) {
        return Err(63);
    }
    Ok(made)
}

/// For each point a number such that no edge (x, d, y) has d + x's − y's below zero: distances from one more point, which has
/// an edge of 0 to every other.
fn heights(points: usize, edges: &[Edge]) -> Result<Vec<i64>, NegativeCycle> {
    let source = (0..points).map(|point| (points, 0, point));
    let edges: Vec<Edge> = source.chain(edges.iter().copied()).collect();
    let mut all = plan_test::distances(points + 1, &edges, points)?;
    all.truncate(points);
    let reached = all
        .into_iter()
        .map(|height| height.expect("an edge leads to it"));
    Ok(reached.collect())
}

/// The shortest lengths from one point where no edge is below zero; none where no path leads.
fn dijkstra(points: usize, edges: &[Edge], from: usize) -> Vec<Option<i64>> {
    let mut lengths: Vec<Option<i64>> = vec![None; points];
    let mut settled = vec![false; points];
    lengths[from] = Some(0);
    loop {
        let open = (0..points).filter(|&point| !settled[point]);
        let nearest = open.filter_map(|point| lengths[point].map(|length| (length, point)));
        let Some((length, point)) = nearest.min() else {
            return lengths;
        };
        settled[point] = true;
        for &(_, d, y) in edges.iter().filter(|edge| edge.0 == point) {
            let through = length + d;
            if lengths[y].is_none_or(|known| through < known) {
                lengths[y] = Some(through);
            }
        }
    }
}
