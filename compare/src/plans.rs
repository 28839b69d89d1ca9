//! Draws plans that a file can hold: of any size, with a run hidden in them, passing the plan test, stuck, and far out.

use crate::draw::Draw;
use crate::links;
use oracle::plan::{Link, Ordinary, Plan, Wait, BOUND};
use oracle::plan_test::{self, Answer};

/// How many records of each kind to draw; fewer come where a plan has no room for them.
#[derive(Clone, Copy)]
pub struct Sizes {
    pub points: usize,
    pub links: usize,
    pub ordinary: usize,
    pub waits: usize,
}

/// As much as a plan holds: of ordinary records one for each pair of different points, since more would be twins.
pub const FULL: Sizes = Sizes {
    points: 32,
    links: 8,
    ordinary: 992,
    waits: 64,
};

impl Sizes {
    /// How many records in all.
    pub fn records(&self) -> usize {
        self.points + self.links + self.ordinary + self.waits
    }

    /// A few records.
    pub fn small(draw: &mut Draw) -> Sizes {
        Sizes {
            points: 1 + draw.below(6),
            links: draw.below(3),
            ordinary: draw.below(8),
            waits: draw.below(3),
        }
    }

    /// Anything up to the limits.
    pub fn any(draw: &mut Draw) -> Sizes {
        let most = draw.pick(&[100, 256, FULL.ordinary as i64]);
        Sizes {
            points: draw.edgy(1, 32) as usize,
            links: draw.edgy(0, 8) as usize,
            ordinary: draw.edgy(0, most) as usize,
            waits: draw.edgy(0, 64) as usize,
        }
    }
}

/// How large the numbers of a plan are.
pub fn scale(draw: &mut Draw) -> i64 {
    draw.pick(&[2, 5, 5, 20, 100, 3_000, BOUND])
}

/// Where links start that end at these points: at the other points, or in half of them where one before it ends, so that
/// each hangs on another point in the end.
fn starts(draw: &mut Draw, ends: &[usize], others: &[usize]) -> Vec<usize> {
    let form = draw.below(6);
    let start = |k: usize| match form {
        // One chain.
        3 if k > 0 => ends[k - 1],
        // Chains and forks.
        4 | 5 if k > 0 && !draw.one_in(3) => ends[draw.below(k)],
        _ => draw.pick(others),
    };
    (0..ends.len()).map(start).collect()
}

/// Any plan: with `hidden`, some choice of minutes keeps all its ordinary records as far as their bounds can say so. Without,
/// links may start one another in a ring.
pub fn any(draw: &mut Draw, sizes: Sizes, scale: i64, hidden: bool) -> Plan {
    let mut order: Vec<usize> = (0..sizes.points).collect();
    draw.shuffle(&mut order);
    let watched = sizes.links.min(sizes.points.saturating_sub(1));
    let (ends, others) = order.split_at(watched);
    let mut plan = Plan::default();
    for _ in 0..sizes.points {
        let pond = [0, 1, u32::MAX, draw.next() as u32];
        plan.ponds.push(draw.pick(&pond));
    }
    let rings = !hidden && draw.one_in(6);
    for (a, &c) in starts(draw, ends, others).into_iter().zip(ends) {
        let x = draw.edgy(1, scale.min(BOUND - 1));
        let y = draw.edgy(x + 1, (x + scale).min(BOUND));
        let other = draw.pick(ends);
        let a = if rings && other != c { other } else { a };
        plan.links.push(Link { a, x, y, c });
    }
    let mut minutes: Vec<i64> = (0..sizes.points)
        .map(|_| draw.between(0, scale * 2))
        .collect();
    for link in &plan.links {
        minutes[link.c] = minutes[link.a] + draw.edgy(link.x, link.y);
    }
    // What hangs on a link may stand before it in the file.
    draw.shuffle(&mut plan.links);
    for (x, y) in pairs(draw, sizes.points).into_iter().take(sizes.ordinary) {
        let d = if hidden {
            minutes[y] - minutes[x] + draw.edgy(0, scale)
        } else {
            draw.edgy(-scale, scale)
        };
        let d = d.clamp(-BOUND, BOUND);
        plan.ordinary.push(Ordinary { x, d, y });
    }
    if !plan.links.is_empty() {
        for _ in 0..sizes.waits {
            let link = draw.pick(&plan.links);
            let v = draw.pick(others);
            if v != link.a {
                let w = draw.edgy(1, link.y);
                plan.waits.push(Wait { v, c: link.c, w });
            }
        }
    }
    plan
}

/// All pairs of different points, in any order: ordinary records on pairs from it are no twins.
fn pairs(draw: &mut Draw, points: usize) -> Vec<(usize, usize)> {
    let all = (0..points).flat_map(|x| (0..points).map(move |y| (x, y)));
    let mut all: Vec<_> = all.filter(|(x, y)| x != y).collect();
    draw.shuffle(&mut all);
    all
}

/// The ordinary record from one point to another, if the plan has one: another one would be its twin.
fn record_on(plan: &mut Plan, x: usize, y: usize) -> Option<&mut Ordinary> {
    let mut all = plan.ordinary.iter_mut();
    all.find(|record| (record.x, record.y) == (x, y))
}

/// A plan of any size whose runs go on for long: an order of the points is hidden in it, steps are short and upper
/// bounds are far, most of them.
pub fn roomy(draw: &mut Draw, sizes: Sizes) -> Plan {
    let scale = draw.pick(&[2, 5, 20, 100]);
    let mut plan = any(draw, sizes, scale, false);
    let mut place: Vec<usize> = (0..sizes.points).collect();
    draw.shuffle(&mut place);
    for record in &mut plan.ordinary {
        let (x, y) = (record.x, record.y);
        let watched = plan.links.iter().any(|link| link.c == x);
        record.d = if place[y] > place[x] || watched {
            draw.edgy(BOUND / 2, BOUND)
        } else {
            draw.edgy(-scale, -1)
        };
        if draw.one_in(1_000) {
            record.d = draw.between(0, scale * 40);
        }
    }
    // A point that C comes before waits also for what C hangs on, so that comes before it.
    let roots: Vec<Option<usize>> = (0..sizes.points).map(|y| links::root(&plan, y)).collect();
    let before = |y: usize, x: usize| roots[y].is_some_and(|root| place[root] < place[x]);
    for record in &mut plan.ordinary {
        let watched = plan.links.iter().any(|link| link.c == record.y);
        if watched && !before(record.y, record.x) {
            record.d = BOUND;
        }
    }
    plan.waits.retain(|wait| before(wait.c, wait.v));
    plan
}

/// A full plan: every kind at its limit.
pub fn full(draw: &mut Draw) -> Plan {
    loop {
        let mut plan = if draw.one_in(3) {
            let scale = scale(draw);
            any(draw, FULL, scale, true)
        } else {
            roomy(draw, FULL)
        };
        let drawn = plan.waits.clone();
        while !drawn.is_empty() && plan.waits.len() < FULL.waits {
            plan.waits.push(draw.pick(&drawn));
        }
        if plan.records() == FULL.records() {
            return plan;
        }
    }
}

/// The haul of document 01.
pub fn haul_as_it_stands() -> Plan {
    Plan {
        ponds: vec![0, 0, 7, 0],
        links: vec![Link {
            a: 1,
            x: 20,
            y: 50,
            c: 2,
        }],
        ordinary: vec![
            Ordinary { x: 1, d: -10, y: 0 },
            Ordinary { x: 2, d: 5, y: 3 },
            Ordinary { x: 3, d: 15, y: 2 },
        ],
        waits: vec![Wait { v: 3, c: 2, w: 35 }],
    }
}

/// The haul of document 01, as it stands or with numbers changed a little.
pub fn haul(draw: &mut Draw) -> Plan {
    let mut plan = haul_as_it_stands();
    for _ in 0..draw.below(3) {
        near_miss(draw, &mut plan);
    }
    plan
}

/// The haul with a drive of nearly 100,000 minutes: the same slack, so it passes the test as the haul does.
pub fn far_haul(draw: &mut Draw) -> Plan {
    let mut plan = haul_as_it_stands();
    let by = BOUND - plan.links[0].y;
    plan.links[0].x += by;
    plan.links[0].y += by;
    plan.waits[0].w += by;
    plan.ordinary[0].d = draw.pick(&[-BOUND, -10, 0, BOUND]);
    // A point that goes with nothing, or only starts by some minute.
    if draw.one_in(2) {
        plan.ponds.push(0);
        if draw.one_in(2) {
            let d = draw.edgy(0, BOUND);
            plan.ordinary.push(Ordinary { x: 0, d, y: 4 });
        }
    }
    plan
}

/// Changes one number by 1, or drops an ordinary record or a wait, or adds a record the other way round with hardly any room
/// or a little too little. The plan stays one that a file can hold: it has no twins.
pub fn near_miss(draw: &mut Draw, plan: &mut Plan) {
    let by = draw.pick(&[-1, 1]);
    match draw.below(5) {
        0 if !plan.ordinary.is_empty() => {
            let k = draw.below(plan.ordinary.len());
            let d = &mut plan.ordinary[k].d;
            *d = (*d + by).clamp(-BOUND, BOUND);
        }
        1 if !plan.ordinary.is_empty() => {
            plan.ordinary.remove(draw.below(plan.ordinary.len()));
        }
        2 if !plan.waits.is_empty() => {
            let k = draw.below(plan.waits.len());
            let most = plan.link_of(&plan.waits[k]).y;
            let w = &mut plan.waits[k].w;
            *w = (*w + by).clamp(1, most);
        }
        3 if !plan.waits.is_empty() => {
            plan.waits.remove(draw.below(plan.waits.len()));
        }
        4 if !plan.ordinary.is_empty() && plan.ordinary.len() < FULL.ordinary => {
            let one = draw.pick(&plan.ordinary);
            if record_on(plan, one.y, one.x).is_none() {
                let d = (by - one.d).clamp(-BOUND, BOUND);
                let (x, y) = (one.y, one.x);
                plan.ordinary.push(Ordinary { x, d, y });
            }
        }
        _ => {}
    }
}

/// A small plan that passes the plan test, most with a link; it is looked for by adding what the test misses.
pub fn passing(draw: &mut Draw) -> Plan {
    loop {
        let mut sizes = Sizes::small(draw);
        if sizes.links == 0 && draw.one_in(2) {
            sizes.links = 1;
        }
        sizes.points += 1;
        let scale = draw.pick(&[2, 3, 5, 8]);
        let plan = any(draw, sizes, scale, true);
        if let Some(plan) = repaired(plan, 16) {
            return plan;
        }
    }
}

/// The same with more points, links and waits.
pub fn passing_larger(draw: &mut Draw) -> Plan {
    loop {
        let sizes = Sizes {
            points: 5 + draw.below(12),
            links: 1 + draw.below(5),
            ordinary: 2 + draw.below(12),
            waits: draw.below(6),
        };
        let scale = draw.pick(&[2, 3, 5, 8]);
        let plan = any(draw, sizes, scale, true);
        if let Some(plan) = repaired(plan, 150) {
            return plan;
        }
    }
}

/// Adds or tightens a record, or adds a wait, for each pair that the test names; none if that leads nowhere.
pub fn repaired(mut plan: Plan, rounds: usize) -> Option<Plan> {
    if plan_test::projections(&plan).is_none_or(|count| count > 64) {
        return None;
    }
    for _ in 0..rounds {
        let (number, x, y) = match plan_test::plan_test(&plan) {
            Ok(Answer::Yes(_)) => return Some(plan),
            Ok(Answer::Pair(number, x, y)) => (number, x, y),
            _ => return None,
        };
        let mut rest = i64::from(number);
        let mut durations: Vec<i64> = Vec::new();
        for link in plan.links.iter().rev() {
            let count = link.y - link.x + 1;
            durations.push(link.x + rest % count);
            rest /= count;
        }
        durations.reverse();
        let edges = plan_test::edges(&plan, &durations);
        let d = plan_test::distances(plan.points(), &edges, x).ok()?[y]?;
        let started = plan
            .links
            .iter()
            .find(|link| link.a == y && d < 0 && -d <= link.y);
        match started {
            Some(link) if !plan.watched(x) => {
                let c = link.c;
                plan.waits.push(Wait { v: x, c, w: -d });
            }
            _ => match record_on(&mut plan, x, y) {
                Some(loose) => loose.d = d,
                None => plan.ordinary.push(Ordinary { x, d, y }),
            },
        }
        if plan.ordinary.len() > FULL.ordinary || plan.waits.len() > FULL.waits {
            return None;
        }
    }
    None
}

/// So many durations for each link that the plan has few projections, or as many as it may have, or one more.
fn spans(draw: &mut Draw, links: usize, many: bool) -> Vec<i64> {
    if many {
        let exact: [&[i64]; 9] = [
            &[4_096],
            &[4_097],
            &[4_095],
            &[64, 64],
            &[17, 241],
            &[63, 65],
            &[16, 16, 16],
            &[2, 2, 2, 2, 4, 4, 4, 4],
            &[3, 3, 3, 3, 3, 3, 3, 2],
        ];
        let mut spans = draw.pick(&exact).to_vec();
        draw.shuffle(&mut spans);
        return spans;
    }
    let mut left = draw.pick(&[1, 4, 16, 64]);
    let mut spans = Vec::new();
    for after in (0..links).rev() {
        // At least two for each link.
        let span = draw.edgy(2, (left >> after).max(2));
        left /= span;
        spans.push(span);
    }
    spans
}

/// A plan of any size that passes the test by its form, with `many` one that has about 4,096 projections. Its points are
/// ends of links, late ones and calm ones. Negative steps start at late points (records down the list of late points, to
/// ends and to calm ones, and waits) and at ends (to their A, which is calm or another end, and no ring). A step of zero or
/// more leads to calm points, from which no negative step leads, and to ends from their A, to which alone a negative step
/// leads back: so no shortest path needs a negative step after one that is not, and no cycle is negative.
pub fn layered(draw: &mut Draw, sizes: Sizes, many: bool) -> Plan {
    let links = sizes.links.min(sizes.points / 2);
    let mut spans = spans(draw, links, many);
    spans.truncate(sizes.points / 2);
    let scale = draw.pick(&[2, 5, 20, 100, BOUND - 5_000]);
    let mut order: Vec<usize> = (0..sizes.points).collect();
    draw.shuffle(&mut order);
    let (ends, others) = order.split_at(spans.len());
    let (late, calm) = others.split_at(draw.below(others.len()));
    let mut plan = Plan::default();
    for _ in 0..sizes.points {
        plan.ponds.push(draw.next() as u32);
    }
    let starts = starts(draw, ends, calm);
    for ((&c, a), span) in ends.iter().zip(starts).zip(spans) {
        let x = draw.edgy(1, scale);
        let y = x + span - 1;
        plan.links.push(Link { a, x, y, c });
    }
    draw.shuffle(&mut plan.links);
    // Not all pairs will do, and those that have a record do not any more: it stops where few are left.
    for _ in 0..8 * sizes.ordinary {
        let down = !late.is_empty() && draw.one_in(2);
        let k = draw.below(late.len().max(1));
        let (x, d, y) = if down {
            let lower = [&late[k + 1..], ends, calm].concat();
            (late[k], draw.edgy(-scale, -1), draw.pick(&lower))
        } else {
            (
                draw.below(sizes.points),
                draw.edgy(0, scale),
                draw.pick(calm),
            )
        };
        if x != y && record_on(&mut plan, x, y).is_none() {
            plan.ordinary.push(Ordinary { x, d, y });
        }
        if plan.ordinary.len() == sizes.ordinary {
            break;
        }
    }
    if !late.is_empty() && !plan.links.is_empty() {
        for _ in 0..sizes.waits {
            let link = draw.pick(&plan.links);
            let w = draw.edgy(1, link.y);
            let v = draw.pick(late);
            plan.waits.push(Wait { v, c: link.c, w });
        }
    }
    plan
}

/// A plan that passes the test by its form and joins every pair of points, so that it can have an ordinary record for each
/// pair: with the sizes of `FULL` it is full. Each foreman's point comes within a window after one of them, the first, and
/// each end hangs on its A, and so on one of them in the end: so a shortest path goes back, to the first point or to one on
/// which both ends hang, and then forth. The other records and the waits say no more than that in any projection.
pub fn star(draw: &mut Draw, sizes: Sizes, many: bool) -> Plan {
    let links = sizes.links.min(sizes.points / 2);
    let mut spans = spans(draw, links, many);
    spans.truncate(sizes.points / 2);
    let scale = draw.pick(&[2, 5, 20, 100, 6_000]);
    let mut order: Vec<usize> = (0..sizes.points).collect();
    draw.shuffle(&mut order);
    let (ends, others) = order.split_at(spans.len());
    let first = others[0];
    // Links start soon, so that there is something to wait for later.
    let soon = &others[..others.len().div_ceil(2)];
    let mut plan = Plan::default();
    for _ in 0..sizes.points {
        plan.ponds.push(draw.next() as u32);
    }
    let starts = starts(draw, ends, soon);
    for ((&c, a), span) in ends.iter().zip(starts).zip(spans) {
        let x = draw.edgy(1, scale);
        let y = x + span - 1;
        plan.links.push(Link { a, x, y, c });
    }
    // How far back to the first point, and how far forth from it, at most in any projection.
    let (mut back, mut forth) = (vec![0; sizes.points], vec![0; sizes.points]);
    for &v in &others[1..] {
        let late = if soon.contains(&v) { 0 } else { scale };
        let low = draw.edgy(late, late + scale);
        back[v] = -low;
        forth[v] = draw.edgy(low, low + scale);
    }
    for link in &plan.links {
        back[link.c] = back[link.a] - link.x;
        forth[link.c] = forth[link.a] + link.y;
    }
    draw.shuffle(&mut plan.links);
    // What a point hangs on, itself first, each with the least and the most that it comes before.
    let hangs = |point: usize| {
        let mut all = vec![(point, 0, 0)];
        while let Some(link) = plan.link_to(all[all.len() - 1].0) {
            let (_, least, most) = all[all.len() - 1];
            all.push((link.a, least + link.x, most + link.y));
        }
        all
    };
    let most = |x: usize, y: usize| {
        let (from, to) = (hangs(x), hangs(y));
        for (both, least, _) in from {
            if let Some((_, _, most)) = to.iter().find(|one| one.0 == both) {
                return most - least;
            }
        }
        back[x] + forth[y]
    };
    let (must, may): (Vec<_>, Vec<_>) =
        pairs(draw, sizes.points).into_iter().partition(|&(x, y)| {
            (x == first || y == first) && !ends.contains(&x) && !ends.contains(&y)
        });
    let more = sizes.ordinary.saturating_sub(must.len());
    let mut ordinary = Vec::new();
    for (x, y) in must {
        let d = most(x, y);
        ordinary.push(Ordinary { x, d, y });
    }
    for (x, y) in may.into_iter().take(more) {
        let d = (most(x, y) + draw.edgy(0, scale)).min(BOUND);
        ordinary.push(Ordinary { x, d, y });
    }
    draw.shuffle(&mut ordinary);
    plan.ordinary = ordinary;
    // A wait that no projection needs: V comes that much later than A anyway.
    let all = others
        .iter()
        .flat_map(|&v| plan.links.iter().map(move |link| (v, link)));
    let all = all.map(|(v, link)| (v, link.c, (-back[v] - forth[link.a]).min(link.y)));
    let all: Vec<_> = all.filter(|&(_, _, most)| most > 0).collect();
    if !all.is_empty() {
        for _ in 0..sizes.waits {
            let (v, c, most) = draw.pick(&all);
            let w = draw.edgy(1, most);
            plan.waits.push(Wait { v, c, w });
        }
    }
    plan
}

/// A plan whose test finds a cycle, most often past the first projection: an end has to come sooner than its link may take.
pub fn late_cycle(draw: &mut Draw) -> Plan {
    loop {
        let mut plan = if draw.one_in(2) {
            haul_as_it_stands()
        } else {
            passing(draw)
        };
        if plan.links.is_empty() {
            continue;
        }
        let link = draw.pick(&plan.links);
        let d = draw.edgy(link.x, link.y - 1);
        if record_on(&mut plan, link.a, link.c).is_none() {
            let (x, y) = (link.a, link.c);
            plan.ordinary.push(Ordinary { x, d, y });
            return plan;
        }
    }
}

/// Trucks of which each but the first starts when another arrives, so many of them in one chain or with a fork; after some of
/// the arrivals comes a loading as in the haul, with its wait: it passes the test.
pub fn trucks(draw: &mut Draw, drives: usize, fork: bool) -> Plan {
    let scale = draw.pick(&[2, 5, 20, 90_000]);
    let loaded: Vec<bool> = (0..drives).map(|_| !draw.one_in(3)).collect();
    let loads = loaded.iter().filter(|is| **is).count();
    let mut order: Vec<usize> = (0..2 + drives + loads).collect();
    draw.shuffle(&mut order);
    let (call, leaves) = (order[0], order[1]);
    let (ends, mut loads) = order[2..].split_at(drives);
    let mut plan = Plan {
        ponds: vec![0; order.len()],
        ..Plan::default()
    };
    let d = -draw.edgy(0, 10);
    plan.ordinary.push(Ordinary {
        x: leaves,
        d,
        y: call,
    });
    let spans = match drives {
        2 | 3 => (0..drives).map(|_| draw.between(3, 5)).collect(),
        _ => spans(draw, drives, false),
    };
    for (k, span) in spans.into_iter().enumerate() {
        let a = match k {
            0 => leaves,
            // The fork is at the first arrival.
            2 if fork => ends[0],
            _ if fork => ends[draw.below(k)],
            _ => ends[k - 1],
        };
        let c = ends[k];
        let x = draw.edgy(1, scale);
        let y = x + span - 1;
        plan.links.push(Link { a, x, y, c });
        if let (true, [v, rest @ ..]) = (loaded[k], loads) {
            let v = *v;
            loads = rest;
            let (soon, late) = (draw.edgy(0, y - 1), draw.edgy(0, 20));
            let after = [(c, late, v), (v, soon, c)];
            let after = after.map(|(x, d, y)| Ordinary { x, d, y });
            plan.ordinary.extend(after);
            plan.waits.push(Wait { v, c, w: y - soon });
        }
    }
    draw.shuffle(&mut plan.links);
    draw.shuffle(&mut plan.ordinary);
    draw.shuffle(&mut plan.waits);
    plan
}

/// Three foreman's points: once the first is done, the second has an end, and the third is open and may come only after that
/// end, so it is held; now and then just not.
pub fn held(draw: &mut Draw) -> Plan {
    let mut order = [0, 1, 2];
    draw.shuffle(&mut order);
    let [first, second, third] = order;
    let end = draw.edgy(0, 50);
    let least = end + draw.pick(&[0, 1, 1, 1, 30]);
    Plan {
        ponds: vec![0; order.len()],
        ordinary: vec![
            Ordinary {
                x: first,
                d: end,
                y: second,
            },
            Ordinary {
                x: third,
                d: -least.max(1),
                y: first,
            },
        ],
        ..Plan::default()
    }
}

/// Such trucks, two to eight of them.
pub fn any_trucks(draw: &mut Draw) -> Plan {
    let drives = draw.pick(&[2, 2, 2, 3, 3, 4, 5, 8]);
    let fork = drives > 2 && draw.one_in(2);
    trucks(draw, drives, fork)
}

/// A small plan with a ring of so many links besides, and now and then a link that hangs on it.
pub fn ringed(draw: &mut Draw, length: usize) -> Plan {
    loop {
        let mut plan = match draw.below(4) {
            0 => haul(draw),
            1 => passing(draw),
            2 => trucks(draw, 2, false),
            _ => {
                let sizes = Sizes::small(draw);
                any(draw, sizes, 9, true)
            }
        };
        if plan.links.len() + length > FULL.links || plan.points() + length >= FULL.points {
            continue;
        }
        let first = plan.points();
        plan.ponds.resize(first + length, 0);
        for k in 0..length {
            let x = draw.between(1, 9);
            let (a, y, c) = (first + k, x + 1, first + (k + 1) % length);
            plan.links.push(Link { a, x, y, c });
        }
        if plan.links.len() < FULL.links && draw.one_in(2) {
            let (a, x, y, c) = (first + draw.below(length), 1, 2, plan.points());
            plan.ponds.push(0);
            plan.links.push(Link { a, x, y, c });
        }
        draw.shuffle(&mut plan.links);
        return plan;
    }
}

/// A plan with a ring, most of two links or three.
pub fn any_ringed(draw: &mut Draw) -> Plan {
    let longer = 2 + draw.below(5);
    let length = draw.pick(&[2, 2, 3, 3, longer]);
    ringed(draw, length)
}

/// A plan that passes the test, of any of the forms above, most with links and waits.
pub fn that_passes(draw: &mut Draw) -> Plan {
    loop {
        let plan = match draw.below(11) {
            0 => haul(draw),
            1 => far_haul(draw),
            2 | 3 => passing(draw),
            4 | 5 => passing_larger(draw),
            6 => chain(draw),
            7 | 8 => any_trucks(draw),
            _ => {
                let sizes = Sizes::any(draw);
                layered(draw, sizes, false)
            }
        };
        if matches!(plan_test::plan_test(&plan), Ok(Answer::Yes(_))) {
            return plan;
        }
    }
}

/// The plan of a game, or of sheets, with this number: one that passes the test, some of them with a fork of links or a chain
/// of eight, so that each dozen has both.
pub fn of_number(draw: &mut Draw, number: u64) -> Plan {
    match number % 12 {
        3 => trucks(draw, 3, true),
        7 => trucks(draw, 8, false),
        _ => that_passes(draw),
    }
}

/// A plan with much that keeps points shut: several records and waits on most of the foreman's points, some of d = 0 between
/// them, in any order, and some of negative d from watched points, which shut nothing.
pub fn barred(draw: &mut Draw) -> Plan {
    let points = 4 + draw.below(9);
    let most = draw.pick(&[points / 2, points, 3 * points]);
    let mut sizes = Sizes {
        points,
        links: 1 + draw.below(4),
        ordinary: draw.below(most),
        waits: points + draw.below(2 * points),
    };
    if draw.one_in(5) {
        sizes = Sizes::any(draw);
        sizes.points = sizes.points.max(20);
        sizes.links = sizes.links.max(1);
        sizes.ordinary = sizes.ordinary.max(250);
    }
    let points = sizes.points;
    let mut plan = roomy(draw, sizes);
    let watched: Vec<bool> = (0..points).map(|point| plan.watched(point)).collect();
    for record in &mut plan.ordinary {
        let (from, to) = (watched[record.x], watched[record.y]);
        if from && (to && draw.one_in(2) || draw.one_in(6)) {
            record.d = -draw.edgy(1, 20);
        } else if !from && record.d < 0 && draw.one_in(4) {
            record.d = 0;
        }
    }
    // One end after another: where the other has not come, the first may be done all the same.
    for _ in 0..3 {
        let [x, y] = [0; 2].map(|_| draw.pick(&plan.links).c);
        if x != y && record_on(&mut plan, x, y).is_none() {
            let d = -draw.edgy(1, 20);
            let place = draw.below(plan.ordinary.len() + 1);
            plan.ordinary.insert(place, Ordinary { x, d, y });
        }
    }
    plan
}

/// A chain whose steps are long, in half of them some of a bounded length: the clock goes as far as it can go.
pub fn chain(draw: &mut Draw) -> Plan {
    let points = 2 + draw.below(31);
    let mut plan = Plan {
        ponds: vec![0; points],
        ..Plan::default()
    };
    let some_by = draw.one_in(2);
    for y in 0..points - 1 {
        let x = y + 1;
        let step = draw.edgy(BOUND - 2, BOUND);
        plan.ordinary.push(Ordinary { x, d: -step, y });
        if some_by && draw.one_in(2) {
            let d = draw.edgy(step, BOUND);
            plan.ordinary.push(Ordinary { x: y, d, y: x });
        }
    }
    plan
}

/// A plan that gets stuck, at once or later: a cycle of negative sum behind a few free points, a High below zero, or a ring of
/// links, which nothing starts.
pub fn stuck(draw: &mut Draw) -> Plan {
    let free = draw.below(4);
    let mut plan = Plan {
        ponds: vec![0; free + 2],
        ..Plan::default()
    };
    let (v, u) = (free, free + 1);
    let d = draw.between(1, 9);
    match draw.below(4) {
        0 => {
            plan.ordinary.push(Ordinary { x: v, d: -d, y: u });
            plan.ordinary.push(Ordinary { x: u, d: -d, y: v });
        }
        3 => {
            let (x, y) = (d, d + 1);
            plan.links.push(Link { a: v, x, y, c: u });
            plan.links.push(Link { a: u, x, y, c: v });
        }
        1 => {
            plan.ordinary.push(Ordinary { x: v, d: -d, y: u });
            plan.ordinary.push(Ordinary {
                x: u,
                d: d - 1,
                y: v,
            });
        }
        _ => {
            // Two free points after the watched one: its record to the last puts High below zero, if that one has waited so long.
            plan.ponds.push(0);
            let x = draw.between(1, 5);
            let y = x + draw.between(1, 5);
            plan.links.push(Link { a: v, x, y, c: u });
            if draw.one_in(2) {
                let (v, c) = (free + 2, u);
                plan.waits.push(Wait { v, c, w: y });
            }
            let d = draw.pick(&[-BOUND, -x - 20, -x - 1, -x, -x + 1]);
            plan.ordinary.push(Ordinary {
                x: u,
                d,
                y: free + 2,
            });
        }
    }
    for x in 0..free {
        if draw.one_in(2) {
            plan.ordinary.push(Ordinary { x: v, d: -1, y: x });
        }
    }
    plan
}

#[cfg(test)]
mod tests {
    use super::*;

    #[test]
    fn plans_read_back_and_have_no_twins() {
        for batch in 0..200 {
            let draw = &mut Draw::new(2, batch);
            let sizes = Sizes::any(draw);
            let mut nearly = passing(draw);
            for _ in 0..4 {
                near_miss(draw, &mut nearly);
            }
            let scale = scale(draw);
            let all = [
                any(draw, sizes, scale, true),
                roomy(draw, sizes),
                full(draw),
                haul(draw),
                far_haul(draw),
                nearly,
                passing_larger(draw),
                chain(draw),
                stuck(draw),
                any(draw, sizes, scale, false),
                any_trucks(draw),
                any_ringed(draw),
                barred(draw),
            ];
            for plan in all {
                assert_eq!(oracle::plan::read(&plan.to_bytes()), Ok(plan));
            }
        }
    }

    #[test]
    fn stars_read_back_and_pass() {
        let (mut full, mut late) = (0, 0);
        for batch in 0..64 {
            let draw = &mut Draw::new(4, batch);
            let sizes = if batch % 8 == 0 {
                FULL
            } else {
                Sizes::any(draw)
            };
            let plan = star(draw, sizes, false);
            assert_eq!(oracle::plan::read(&plan.to_bytes()), Ok(plan.clone()));
            let answer = plan_test::plan_test(&plan);
            assert!(matches!(answer, Ok(Answer::Yes(_))), "{answer:?}");
            full += usize::from(plan.records() == FULL.records());
            let plan = late_cycle(draw);
            assert_eq!(oracle::plan::read(&plan.to_bytes()), Ok(plan.clone()));
            late += usize::from(matches!(
                plan_test::plan_test(&plan),
                Ok(Answer::Cycle(1..))
            ));
        }
        assert!(full > 7 && late > 7, "{full} {late}");
    }

    /// Of all that is drawn enough has links that start where others end; trucks pass the test, and a ring is a cycle at 0.
    #[test]
    fn chains_forks_and_rings() {
        let mut seen = [[0; links::SHAPES.len()]; 5];
        for batch in 0..200 {
            let draw = &mut Draw::new(8, batch);
            let sizes = Sizes::any(draw);
            let (trucks, ringed) = (any_trucks(draw), any_ringed(draw));
            let answer = plan_test::plan_test(&trucks);
            assert!(
                matches!(answer, Ok(Answer::Yes(_))),
                "{answer:?} {trucks:?}"
            );
            assert!(links::ringed(&ringed));
            assert_eq!(plan_test::plan_test(&ringed), Ok(Answer::Cycle(0)));
            let all = [
                trucks,
                ringed,
                of_number(draw, batch),
                any(draw, sizes, 9, false),
                roomy(draw, sizes),
            ];
            for (plan, seen) in all.iter().zip(&mut seen) {
                let shapes = links::shapes(plan);
                for (shape, seen) in links::SHAPES.iter().zip(seen) {
                    *seen += usize::from(shapes.contains(shape));
                }
            }
        }
        let [trucks, ringed, passing, any, roomy] = seen;
        assert!(
            trucks[0] == 200 && trucks[1] > 10 && trucks[2] > 20,
            "{seen:?}"
        );
        assert!(ringed[3] > 50 && ringed[4] > 50, "{seen:?}");
        assert!(passing[..3].iter().all(|seen| *seen > 10), "{seen:?}");
        assert!(passing[0] > 50 && passing[3..] == [0, 0], "{seen:?}");
        assert!(
            any.iter().all(|seen| *seen > 0) && roomy[0] > 30,
            "{seen:?}"
        );
    }

    #[test]
    fn layered_plans_read_back_and_pass() {
        for batch in 0..200 {
            let draw = &mut Draw::new(1, batch);
            let sizes = Sizes::any(draw);
            let plan = layered(draw, sizes, false);
            assert_eq!(oracle::plan::read(&plan.to_bytes()), Ok(plan.clone()));
            let answer = plan_test::plan_test(&plan);
            assert!(matches!(answer, Ok(Answer::Yes(_))), "{answer:?}");
        }
    }
}
