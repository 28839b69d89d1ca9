//! Cross-checks by brute force on small random plans, with fixed seeds.

mod common;
use common::*;
use oracle::board::{
    all_done, high, is_open, is_running, low, reply, sound, Board, Outcome, Place,
};
use oracle::event::take;
use oracle::plan::{check, read, write, Plan};
use oracle::plan_test::{
    distances, edges, fault, plan_test, vee_distances, Answer, Edge, Fault, Odometer,
};
use oracle::verdict::{verdict, Verdict};

/// What walking every simple path from one point finds.
struct Walk {
    shortest: Vec<Option<i64>>,
    best_allowed: Vec<Option<i64>>,
    negative_cycle: bool,
}

fn walk_all(points: usize, edges: &[Edge], from: usize) -> Walk {
    let mut walk = Walk {
        shortest: vec![None; points],
        best_allowed: vec![None; points],
        negative_cycle: false,
    };
    step(&mut walk, edges, from, &mut vec![from], 0, false, true);
    walk
}

/// `rising`: a non-negative edge was met. `allowed`: no negative edge came after one.
fn step(
    walk: &mut Walk,
    edges: &[Edge],
    from: usize,
    path: &mut Vec<usize>,
    length: i64,
    rising: bool,
    allowed: bool,
) {
    let here = path[path.len() - 1];
    let lower = |place: &mut Option<i64>| {
        if place.is_none() || *place > Some(length) {
            *place = Some(length);
        }
    };
    lower(&mut walk.shortest[here]);
    if allowed {
        lower(&mut walk.best_allowed[here]);
    }
    for &(u, d, v) in edges {
        if u != here {
            continue;
        }
        if v == from && length + d < 0 {
            walk.negative_cycle = true;
        }
        if !path.contains(&v) {
            let allowed = allowed && !(rising && d < 0);
            path.push(v);
            step(
                walk,
                edges,
                from,
                path,
                length + d,
                rising || d >= 0,
                allowed,
            );
            path.pop();
        }
    }
}

/// The fault of a projection by walking all simple paths.
fn walked_fault(points: usize, edges: &[Edge]) -> Option<Fault> {
    let walks: Vec<Walk> = (0..points).map(|x| walk_all(points, edges, x)).collect();
    if walks.iter().any(|walk| walk.negative_cycle) {
        return Some(Fault::Cycle);
    }
    for (x, walk) in walks.iter().enumerate() {
        for y in 0..points {
            if walk.shortest[y] != walk.best_allowed[y] {
                return Some(Fault::Pair(x, y));
            }
        }
    }
    None
}

#[test]
fn bellman_ford_against_all_simple_paths() {
    let mut random = Random::new(1);
    let (mut cycles, mut pairs, mut none) = (0, 0, 0);
    for round in 0..20_000 {
        let points = 1 + random.below(5);
        let least = [-9, -3, -1][round % 3];
        let mut edges = Vec::new();
        for _ in 0..random.below(10) {
            let (u, v) = (random.below(points), random.below(points));
            if u != v {
                edges.push((u, i64::from(random.between(least, 9)), v));
            }
        }
        let expected = walked_fault(points, &edges);
        assert_eq!(fault(points, &edges), expected, "{edges:?}");
        match expected {
            Some(Fault::Cycle) => cycles += 1,
            Some(Fault::Pair(..)) => pairs += 1,
            None => none += 1,
        }
        if expected != Some(Fault::Cycle) {
            for x in 0..points {
                let walk = walk_all(points, &edges, x);
                assert_eq!(distances(points, &edges, x).unwrap(), walk.shortest);
                assert_eq!(vee_distances(points, &edges, x).unwrap(), walk.best_allowed);
            }
        }
    }
    assert!(cycles > 1_000 && pairs > 1_000 && none > 1_000);
}

/// The plan test by recursion over links and walking of simple paths.
fn walked_test(plan: &Plan, durations: &mut Vec<i64>, tried: &mut u32) -> Option<Answer> {
    if durations.len() < plan.links.len() {
        let link = plan.links[durations.len()];
        for p in link.x..=link.y {
            durations.push(p);
            let answer = walked_test(plan, durations, tried);
            durations.pop();
            if answer.is_some() {
                return answer;
            }
        }
        return None;
    }
    let mut edges: Vec<Edge> = Vec::new();
    for wait in &plan.waits {
        let number = plan.links.iter().position(|link| link.c == wait.c).unwrap();
        let shorter = if wait.w < durations[number] {
            wait.w
        } else {
            durations[number]
        };
        edges.push((wait.v, 0 - shorter, plan.links[number].a));
    }
    for (number, link) in plan.links.iter().enumerate() {
        edges.push((link.c, 0 - durations[number], link.a));
        edges.push((link.a, durations[number], link.c));
    }
    edges.extend(
        plan.ordinary
            .iter()
            .map(|record| (record.x, record.d, record.y)),
    );
    *tried += 1;
    match walked_fault(plan.points(), &edges)? {
        Fault::Cycle => Some(Answer::Cycle(*tried - 1)),
        Fault::Pair(x, y) => Some(Answer::Pair(*tried - 1, x, y)),
    }
}

/// A random plan, every other one with links that start where others end.
fn any_plan(random: &mut Random, round: u32) -> Plan {
    if round % 2 == 0 {
        random_plan(random, 7)
    } else {
        chained_plan(random, 7)
    }
}

#[test]
fn the_plan_test_against_a_walk() {
    let mut random = Random::new(2);
    let (mut yes, mut late, mut chains, mut rings) = (0, 0, 0, 0);
    for round in 0..12_000 {
        let plan = any_plan(&mut random, round);
        let mut tried = 0;
        let failed = walked_test(&plan, &mut Vec::new(), &mut tried);
        let expected = failed.unwrap_or(Answer::Yes(tried));
        assert_eq!(plan_test(&plan), Ok(expected), "{plan:?}");
        match expected {
            Answer::Yes(_) => yes += 1,
            Answer::Cycle(p) | Answer::Pair(p, _, _) => late += u32::from(p > 0),
        }
        if ringed(&plan) {
            assert_eq!(expected, Answer::Cycle(0));
            rings += 1;
        } else if chained(&plan) {
            chains += u32::from(matches!(expected, Answer::Yes(_)));
        }
    }
    let counts = (yes, late, chains, rings);
    assert!(
        yes > 500 && late > 100 && chains > 100 && rings > 100,
        "{counts:?}"
    );
}

#[test]
fn the_odometer_counts_as_nested_loops_do() {
    let rest = [link(0, 2, 4, 1), link(2, 1, 2, 3), link(0, 7, 9, 4)];
    let plan = plan(5, &rest);
    let mut expected = Vec::new();
    for p in 2..=4 {
        for q in 1..=2 {
            for r in 7..=9 {
                expected.push(vec![p, q, r]);
            }
        }
    }
    assert_eq!(Odometer::new(&plan).collect::<Vec<_>>(), expected);
    let none = common::plan(1, &[]);
    assert_eq!(Odometer::new(&none).collect::<Vec<_>>(), [vec![]]);
}

/// Windows kept up event by event, as document 003 does, and not found again from the board.
struct Executor<'a> {
    plan: &'a Plan,
    lower: Vec<i64>,
    upper: Vec<i64>,
    /// Negative records and waits that still point to a point not done.
    missing: Vec<usize>,
}

const FAR: i64 = i64::MAX / 4;

impl Executor<'_> {
    fn new(plan: &Plan) -> Executor<'_> {
        let points = plan.points();
        let mut missing = vec![0; points];
        for record in plan.ordinary.iter().filter(|record| record.d < 0) {
            missing[record.x] += 1;
        }
        for wait in &plan.waits {
            missing[wait.v] += 1;
        }
        Executor {
            plan,
            lower: vec![0; points],
            upper: vec![FAR; points],
            missing,
        }
    }

    fn happened(&mut self, point: usize, minute: i64) {
        for record in &self.plan.ordinary {
            if record.x == point {
                self.upper[record.y] = self.upper[record.y].min(minute + record.d);
            }
            if record.y == point {
                self.lower[record.x] = self.lower[record.x].max(minute - record.d);
                self.missing[record.x] -= usize::from(record.d < 0);
            }
        }
        for wait in &self.plan.waits {
            if self
                .plan
                .links
                .iter()
                .any(|link| link.c == wait.c && link.a == point)
            {
                self.missing[wait.v] -= 1;
            }
        }
    }

    fn low(&self, board: &Board, v: usize) -> i64 {
        let mut low = self.lower[v].max(board.clock());
        for wait in self.plan.waits.iter().filter(|wait| wait.v == v) {
            for link in self.plan.links.iter().filter(|link| link.c == wait.c) {
                if board.is_done(link.a) && !board.is_done(link.c) {
                    low = low.max(board.minute(link.a) + wait.w);
                }
            }
        }
        low
    }

    fn open(&self, board: &Board) -> Vec<usize> {
        let ends: Vec<usize> = self.plan.links.iter().map(|link| link.c).collect();
        (0..self.plan.points())
            .filter(|v| self.missing[*v] == 0 && !board.is_done(*v) && !ends.contains(v))
            .collect()
    }

    /// Every number 21 to 30 that fits; the least is the reply.
    fn least_number(&self, board: &Board, minute: u32, foreman: u8, set: u32) -> u32 {
        let plan = self.plan;
        let points = plan.points();
        let minute = i64::from(minute);
        let open = self.open(board);
        let h = open.iter().map(|&v| self.upper[v]).min().unwrap_or(FAR);
        let latest = h.min(board.clock() + 100_000);
        let running: Vec<_> = plan
            .links
            .iter()
            .filter(|link| is_running(board, link))
            .collect();
        let stuck = match open.iter().map(|&v| self.low(board, v)).min() {
            Some(earliest) => earliest > h,
            None => running.is_empty(),
        };
        let in_set = |point: usize| set >> point & 1 == 1;
        let mut all = Vec::new();
        if board.done.count_ones() as usize == points {
            all.push(21);
        }
        if stuck {
            all.push(22);
        }
        if foreman != NONE && usize::from(foreman) >= points {
            all.push(23);
        }
        if u64::from(set) >= 1 << points || foreman == NONE && set == 0 {
            all.push(23);
        }
        if minute < board.clock() {
            all.push(24);
        }
        if (0..32).any(|i| in_set(i) && running.iter().all(|link| link.c != i)) {
            all.push(25);
        }
        for link in &running {
            let duration = minute - board.minute(link.a);
            if in_set(link.c) && (duration < link.x || duration > link.y) {
                all.push(26);
            }
            if !in_set(link.c) && duration > link.y {
                all.push(27);
            }
        }
        if foreman != NONE && !open.contains(&usize::from(foreman)) {
            all.push(28);
        }
        if open.contains(&usize::from(foreman)) && minute < self.low(board, foreman.into()) {
            all.push(29);
        }
        if !open.is_empty() && minute > latest {
            all.push(30);
        }
        all.into_iter().min().unwrap_or(0)
    }
}

#[test]
fn events_against_an_executor() {
    let mut random = Random::new(3);
    let mut seen = [0; 31];
    let mut started = 0;
    for round in 0..20_000 {
        let plan = any_plan(&mut random, round);
        let mut executor = Executor::new(&plan);
        let mut now = Board::fresh();
        for _ in 0..16 {
            for v in (0..plan.points()).filter(|&v| !now.is_done(v) && !plan.watched(v)) {
                assert_eq!(is_open(&plan, &now, v), executor.open(&now).contains(&v));
                assert_eq!(low(&plan, &now, v), executor.low(&now, v));
                assert_eq!(high(&plan, &now, v).unwrap_or(FAR), executor.upper[v]);
            }
            let minute = (now.clock() + i64::from(random.between(-1, 6))).max(0) as u32;
            let foreman = match random.below(plan.points() + 3) {
                point if point <= plan.points() => point as u8,
                _ => NONE,
            };
            // Mostly running links, now and then anything.
            let mut set = 0;
            for link in &plan.links {
                if is_running(&now, link) && random.below(2) == 0 {
                    set |= 1 << link.c;
                }
            }
            if random.below(16) == 0 {
                set |= 1 << random.below(6);
            }
            let expected = executor.least_number(&now, minute, foreman, set);
            let points: Vec<u8> = (0..32).filter(|i| set >> i & 1 == 1).collect();
            let ((number, _), next) = take(&plan, &now, &event(minute, foreman, &points));
            assert_eq!(
                number, expected,
                "{plan:?} {now:?} {minute} {foreman} {set}"
            );
            seen[number as usize] += 1;
            if number != 0 {
                assert_eq!(next, now);
                continue;
            }
            assert!(sound(&plan, &next));
            let marked = set | if foreman == NONE { 0 } else { 1 << foreman };
            assert_eq!(next.done, now.done | marked);
            assert_eq!(next.clock, minute);
            for point in 0..32 {
                let new = marked >> point & 1 == 1;
                let expected = if new { minute } else { now.minutes[point] };
                assert_eq!(next.minutes[point], expected);
                if new {
                    executor.happened(point, minute.into());
                }
            }
            // A link whose A ended another in this event runs from now on: it did not before, and has not ended.
            for link in plan.links.iter().filter(|link| set >> link.a & 1 == 1) {
                assert!(!is_running(&now, link) && is_running(&next, link));
                started += 1;
            }
            now = next;
        }
    }
    for number in [0, 21, 22, 23, 24, 25, 26, 27, 28, 29, 30] {
        assert!(seen[number] > 50, "{number}: {}", seen[number]);
    }
    assert!(started > 1_000, "{started}");
}

#[test]
fn the_reply_against_every_event() {
    let mut random = Random::new(4);
    let (mut offers, mut held) = (0, 0);
    for round in 0..8_000 {
        let plan = any_plan(&mut random, round);
        let mut now = Board::fresh();
        loop {
            let reply = reply(&plan, &now).unwrap();
            // Running links that must not be left behind bound a minute by 27.
            let ends = plan.links.iter().filter(|link| is_running(&now, link));
            let run_out = ends
                .map(|link| now.minute(link.a) + link.y)
                .min()
                .unwrap_or(FAR);
            let mut accepted = Vec::new();
            for v in 0..plan.points() {
                let place = reply.places[v];
                held += u32::from(place == Place::Held);
                for minute in now.clock()..now.clock() + 12 {
                    let taken = take(&plan, &now, &event(minute as u32, v as u8, &[]));
                    let offered = match place {
                        Place::Offered(low) => low <= minute && minute <= reply.latest,
                        _ => false,
                    };
                    assert_eq!(taken.0 == (0, 0), offered && minute <= run_out);
                    if taken.0 == (0, 0) {
                        accepted.push(taken.1);
                    }
                }
            }
            if reply.outcome == Outcome::Offers {
                offers += 1;
                // An offer always has an offered point, and never one past clock + 100,000.
                let mut offered = reply.places.iter().filter_map(|place| match place {
                    Place::Offered(low) => Some(*low),
                    _ => None,
                });
                assert!(offered.any(|low| low <= reply.latest));
                assert!(reply.latest <= now.clock() + 100_000);
            }
            for link in plan.links.iter().filter(|link| is_running(&now, link)) {
                for minute in now.clock()..now.clock() + 8 {
                    let taken = take(&plan, &now, &event(minute as u32, NONE, &[link.c as u8]));
                    if taken.0 == (0, 0) {
                        accepted.push(taken.1);
                    }
                }
            }
            if accepted.is_empty() {
                break;
            }
            now = accepted[random.below(accepted.len())];
        }
    }
    assert!(offers > 1_000 && held > 100, "{offers} {held}");
}

/// Demand 3 on random runs: the foreman picks any offered choice, haulage any durations.
#[test]
fn plans_that_pass_never_stick() {
    let mut random = Random::new(5);
    let (mut passed, mut with_waits, mut chains) = (0, 0, 0);
    for round in 0..40_000 {
        let plan = any_plan(&mut random, round);
        if !matches!(plan_test(&plan), Ok(Answer::Yes(_))) {
            continue;
        }
        passed += 1;
        with_waits += u32::from(!plan.waits.is_empty());
        chains += u32::from(chained(&plan));
        for _ in 0..3 {
            one_run(&plan, &mut random);
        }
    }
    assert!(
        passed > 4_000 && with_waits > 400 && chains > 1_000,
        "{passed} {with_waits} {chains}"
    );
}

fn one_run(plan: &Plan, random: &mut Random) {
    let mut durations = Vec::new();
    for link in &plan.links {
        durations.push(i64::from(random.between(link.x as i32, link.y as i32)));
    }
    let mut now = Board::fresh();
    let mut events = 0;
    while !all_done(plan, &now) {
        let reply = reply(plan, &now).unwrap();
        assert_ne!(reply.outcome, Outcome::Stuck, "{plan:?} {now:?}");
        let mut offered = Vec::new();
        for (point, place) in reply.places.iter().enumerate() {
            if let Place::Offered(low) = place {
                // Often the earliest or the latest, as far as small numbers go.
                let latest = reply.latest.min(low + 9);
                let between = i64::from(random.between(*low as i32, latest as i32));
                let minute = [*low, latest, reply.latest, between][random.below(4)];
                offered.push((minute, point as u8));
            }
        }
        let ends = plan.links.iter().zip(&durations);
        let mut ends: Vec<(i64, u8)> = ends
            .filter(|(link, _)| is_running(&now, link))
            .map(|(link, p)| (now.minute(link.a) + p, link.c as u8))
            .collect();
        ends.sort();
        let next_end = ends.first().map_or(FAR, |end| end.0);
        let choice = match offered.len() {
            0 => None,
            some => Some(offered[random.below(some)]),
        };
        let (minute, foreman) = match choice {
            // What ends earlier, or at the same minute and is told first, comes alone.
            Some((minute, _)) if next_end < minute => (next_end, NONE),
            Some((minute, _)) if next_end == minute && random.below(2) == 0 => (minute, NONE),
            Some((minute, point)) => (minute, point),
            None => (next_end, NONE),
        };
        let ending = ends.iter().filter(|end| end.0 == minute).map(|end| end.1);
        // With a foreman's point, what ends at the same minute may be told after it.
        let set: Vec<u8> = if foreman != NONE && random.below(2) == 0 {
            Vec::new()
        } else {
            ending.collect()
        };
        let ((number, _), next) = take(plan, &now, &event(minute as u32, foreman, &set));
        assert_eq!(number, 0, "{plan:?} {now:?} {minute} {foreman} {set:?}");
        assert!(next.count() > now.count());
        now = next;
        events += 1;
    }
    assert!(events <= plan.points());
    assert!(now.clock() <= 100_000 * plan.points() as i64);
    assert_eq!(verdict(plan, &now), Ok(Verdict::Kept), "{plan:?} {now:?}");
}

#[test]
fn a_plan_has_one_file() {
    let mut random = Random::new(6);
    let (mut good, mut bad) = (0, 0);
    for _ in 0..20_000 {
        let plan = random_plan(&mut random, 100_000);
        let mut file = plan.to_bytes();
        assert_eq!(read(&file), Ok(plan.clone()));
        assert_eq!(check(&plan.to_raw()), Ok(plan.clone()));
        let mut buffer = vec![0; file.len()];
        assert_eq!(write(&plan.to_raw(), &mut buffer), (0, 0));
        assert_eq!(buffer, file);
        // With bytes changed, what still reads is written back as it was.
        for _ in 0..1 + random.below(2) {
            let at = random.below(file.len());
            file[at] = [0, 1, 2, 3, 4, 128, 255][random.below(7)];
        }
        match read(&file) {
            Ok(other) => {
                assert_eq!(other.to_bytes(), file);
                good += 1;
            }
            Err((number, record)) => {
                assert!((4..=11).contains(&number) || number == 15);
                assert!((record as usize) < file.len() / 16);
                // The records before the bad one are a plan, or there are none.
                let before = &file[..16 * record as usize];
                assert!(before.is_empty() || read(before).is_ok());
                let through = &file[..16 * (record as usize + 1)];
                assert_eq!(read(through), Err((number, record)));
                bad += 1;
            }
        }
    }
    assert!(good > 1_000 && bad > 1_000);
}

#[test]
fn edges_of_a_projection() {
    let rest = [
        link(1, 20, 50, 2),
        ordinary(1, -10, 0),
        wait(3, 2, 35),
        wait(0, 2, 7),
    ];
    let plan = plan(4, &rest);
    let sorted = |p| {
        let mut all = edges(&plan, &[p]);
        all.sort();
        all
    };
    assert_eq!(
        sorted(34),
        [
            (0, -7, 1),
            (1, -10, 0),
            (1, 34, 2),
            (2, -34, 1),
            (3, -34, 1)
        ]
    );
    assert_eq!(
        sorted(35),
        [
            (0, -7, 1),
            (1, -10, 0),
            (1, 35, 2),
            (2, -35, 1),
            (3, -35, 1)
        ]
    );
    assert_eq!(
        sorted(36),
        [
            (0, -7, 1),
            (1, -10, 0),
            (1, 36, 2),
            (2, -36, 1),
            (3, -35, 1)
        ]
    );
}
