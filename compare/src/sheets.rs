//! Draws sheets of plans that pass the test, for document 02's "no good sheet is forbidden": minutes of all points that keep
//! everything, which must be taken whole, and near misses of them, which must not; each with events that play it. What a
//! good sheet is stands here in the request's own words, apart from everything that the programs know of windows.

use crate::draw::Draw;
use crate::events::{record, Record, MARK};
use crate::links;
use oracle::plan::{Link, Plan, BOUND};
use oracle::plan_test::{self, Edge};

/// What keeps minutes from being a good sheet, and by how many minutes.
#[derive(Clone, Copy, PartialEq, Eq, Debug)]
pub enum Fault {
    /// A minute below 0.
    Below(i64),
    /// The first minute is past 100,000.
    First(i64),
    /// Two neighbouring minutes are further apart than 100,000.
    Gap(i64),
    Short(Link, i64),
    Long(Link, i64),
    /// An ordinary record, by its place among them.
    Record(usize, i64),
    /// A wait, by its place among them.
    Wait(usize, i64),
}

/// Everything that keeps minutes from being a good sheet: nothing does if they are one.
pub fn faults(plan: &Plan, minutes: &[i64]) -> Vec<Fault> {
    let mut faults = Vec::new();
    let mut past = |by: i64, fault: &dyn Fn(i64) -> Fault| {
        if by > 0 {
            faults.push(fault(by));
        }
    };
    let mut order = minutes.to_vec();
    order.sort_unstable();
    past(-order[0], &Fault::Below);
    past(order[0] - BOUND, &Fault::First);
    for two in order.windows(2) {
        past(two[1] - two[0] - BOUND, &Fault::Gap);
    }
    let picked = |link: &Link| minutes[link.c] - minutes[link.a];
    for &link in &plan.links {
        past(link.x - picked(&link), &|by| Fault::Short(link, by));
        past(picked(&link) - link.y, &|by| Fault::Long(link, by));
    }
    for (k, one) in plan.ordinary.iter().enumerate() {
        let step = minutes[one.y] - minutes[one.x];
        past(step - one.d, &|by| Fault::Record(k, by));
    }
    for (k, wait) in plan.waits.iter().enumerate() {
        let link = plan.link_of(wait);
        let least = minutes[link.a] + wait.w.min(picked(&link));
        past(least - minutes[wait.v], &|by| Fault::Wait(k, by));
    }
    faults
}

/// One event of a sheet.
#[derive(Clone, Debug)]
pub struct Event {
    pub minute: i64,
    pub foreman: Option<usize>,
    pub watched: Vec<usize>,
}

impl Event {
    pub fn points(&self) -> impl Iterator<Item = &usize> {
        self.watched.iter().chain(&self.foreman)
    }

    pub fn record(&self) -> Record {
        let bits = self.watched.iter().map(|&c| 1u32 << c).sum();
        let foreman = self.foreman.map_or(255, |point| point as u8);
        record(self.minute as u32, foreman, bits)
    }
}

/// What must come of the events of a sheet.
#[derive(Clone, Copy, PartialEq, Eq, Debug)]
pub enum Due {
    /// Each is taken, and it ends kept.
    Taken,
    /// One at least is refused, so that it ends open: a plan that passes never sticks.
    Refused,
    /// The event of this place gets this number, those before it are taken, and it ends open.
    RefusedAt(usize, u32),
}

pub struct Sheet {
    pub minutes: Vec<i64>,
    pub events: Vec<Event>,
    pub due: Due,
    /// What this sheet is an instance of.
    pub met: Vec<&'static str>,
}

impl Sheet {
    /// What the printing programs read.
    pub fn input(&self, plan: &Plan) -> Vec<u8> {
        let events: Vec<Record> = self.events.iter().map(Event::record).collect();
        [plan.to_bytes(), MARK.to_vec(), events.concat()].concat()
    }
}

/// What must come up in a run over many plans.
pub const EXPECTED: [&str; 43] = [
    "plans with links",
    "plans with waits",
    links::SHAPES[0],
    links::SHAPES[1],
    links::SHAPES[2],
    "a link from an end, at its bound",
    "a link from an end, between",
    "a link from an end, one too short or long",
    "an end in the event that starts it",
    "good sheets",
    "a record at its bound",
    "a wait at its w",
    "a wait at its C",
    "the shortest duration",
    "a duration between",
    "the longest duration",
    "foreman's points at one minute",
    "watched points at one minute",
    "both at one minute",
    "a first minute of 0",
    "a first minute of 100,000",
    "a gap of 100,000",
    "the farthest minute",
    "a gap of 100,000, then watched",
    "in plain order",
    "in another order",
    "watched points in several events",
    "watched with a foreman's point",
    "near misses",
    "a gap of 100,001",
    "a first minute of 100,001",
    "a record broken by one",
    "a wait broken by one at its w",
    "a wait broken by one at its C",
    "a duration one too short",
    "a duration one too long",
    "a point before the C it waits for",
    "refused with 25",
    "refused with 26",
    "refused with 27",
    "refused with 28",
    "refused with 29",
    "refused with 30",
];

/// Good sheets of a plan that passes the test, and near misses of them.
pub fn drawn(draw: &mut Draw, plan: &Plan) -> Vec<Sheet> {
    let mut sheets = Vec::new();
    for round in 0..3 {
        let Some(minutes) = good(draw, plan) else {
            continue;
        };
        let order = [Order::Plain, Order::Any, Order::Joined][round];
        sheets.push(played(draw, plan, &minutes, order));
        sheets.extend(out_of_order(draw, plan, &minutes));
        sheets.extend(with_its_start(draw, plan, &minutes));
    }
    let missed = [
        first(draw, plan),
        gap(draw, plan),
        broken(draw, plan),
        broken(draw, plan),
    ];
    for minutes in missed.into_iter().flatten() {
        let order = draw.pick(&[Order::Plain, Order::Any]);
        sheets.push(played(draw, plan, &minutes, order));
    }
    sheets
}

/// A sheet of these minutes with events in such an order.
fn played(draw: &mut Draw, plan: &Plan, minutes: &[i64], order: Order) -> Sheet {
    let events = events(draw, plan, minutes, order);
    let faults = faults(plan, minutes);
    let (due, met) = match faults[..] {
        [] => (Due::Taken, features(plan, minutes, &events, order)),
        _ => (Due::Refused, misses(plan, minutes, &faults)),
    };
    Sheet {
        minutes: minutes.to_vec(),
        events,
        due,
        met,
    }
}

// --- Minutes ---

/// Durations in bounds, both ends often.
fn durations(draw: &mut Draw, plan: &Plan) -> Vec<i64> {
    let all = draw.below(5);
    let one = |link: &Link| match all {
        0 => link.x,
        1 => link.y,
        _ => draw.edgy(link.x, link.y),
    };
    plan.links.iter().map(one).collect()
}

/// Minutes that keep all edges, each (from, length, to) as to - from <= length; none where no minutes do. They begin at 0.
/// Points are set one after the other, in any order, each within what the distances to those before it leave.
fn minutes(draw: &mut Draw, points: usize, edges: &[Edge], spread: i64) -> Option<Vec<i64>> {
    let from = |point| plan_test::distances(points, edges, point).ok();
    let far: Vec<Vec<Option<i64>>> = (0..points).map(from).collect::<Option<_>>()?;
    let mut order: Vec<usize> = (0..points).collect();
    draw.shuffle(&mut order);
    let habit = draw.below(6);
    let mut set: Vec<(usize, i64)> = Vec::new();
    for v in order {
        let low = set
            .iter()
            .filter_map(|&(j, at)| Some(at - far[v][j]?))
            .max();
        let high = set
            .iter()
            .filter_map(|&(j, at)| Some(at + far[j][v]?))
            .min();
        let least = set.iter().map(|&(_, at)| at).min().unwrap_or(0);
        let most = set.iter().map(|&(_, at)| at).max().unwrap_or(0);
        let low = low.unwrap_or(high.unwrap_or(least).min(least) - spread);
        let high = high.unwrap_or(most.max(low) + spread);
        let ties = set.iter().map(|&(_, at)| at);
        let ties: Vec<i64> = ties.filter(|at| (low..=high).contains(at)).collect();
        let at = match habit {
            0 => low,
            1 => high,
            _ if !ties.is_empty() && draw.one_in(3) => draw.pick(&ties),
            _ => draw.edgy(low, high),
        };
        set.push((v, at));
    }
    set.sort_unstable();
    let least = set.iter().map(|&(_, at)| at).min()?;
    Some(set.iter().map(|&(_, at)| at - least).collect())
}

/// Minutes that keep these edges and have no faults but those that are meant.
fn found(
    draw: &mut Draw,
    plan: &Plan,
    edges: &[Edge],
    meant: impl Fn(&[Fault]) -> bool,
) -> Option<Vec<i64>> {
    for spread in [draw.pick(&[0, 1, 10, 1_000, BOUND]), 0] {
        let mut minutes = minutes(draw, plan.points(), edges, spread)?;
        let any = draw.between(0, BOUND);
        let first = draw.pick(&[0, 0, 1, BOUND, any]);
        minutes.iter_mut().for_each(|minute| *minute += first);
        if meant(&faults(plan, &minutes)) {
            return Some(minutes);
        }
    }
    None
}

/// A good sheet; some begin at the last minute, and some have gaps as long as they may be.
fn good(draw: &mut Draw, plan: &Plan) -> Option<Vec<i64>> {
    let durations = durations(draw, plan);
    let edges = plan_test::edges(plan, &durations);
    let minutes = found(draw, plan, &edges, <[Fault]>::is_empty)?;
    match draw.below(3) {
        0 => farthest(draw, plan, minutes),
        1 => stretched(draw, plan, &minutes, BOUND).or(Some(minutes)),
        _ => Some(minutes),
    }
}

/// The minutes with everything past `after` moved so that the next minute is `gap` later; none where that is sooner.
fn moved(minutes: &[i64], after: i64, gap: i64) -> Option<Vec<i64>> {
    let next = minutes.iter().copied().filter(|&at| at > after).min()?;
    let by = after + gap - next;
    let put = |&at: &i64| if at > after { at + by } else { at };
    (by >= 0).then(|| minutes.iter().map(put).collect())
}

/// The minutes with one gap made this long, if that leaves no other fault.
fn stretched(draw: &mut Draw, plan: &Plan, minutes: &[i64], gap: i64) -> Option<Vec<i64>> {
    let mut cuts = minutes.to_vec();
    draw.shuffle(&mut cuts);
    let cuts = cuts.into_iter();
    let mut moved = cuts.filter_map(|after| moved(minutes, after, gap));
    moved.find(|new| match faults(plan, new)[..] {
        [] => gap <= BOUND,
        [Fault::Gap(by)] => by == gap - BOUND,
        _ => false,
    })
}

/// The minutes with the first one and all gaps as long as they may be, wherever the records let them; points of one minute
/// are set apart too.
fn farthest(draw: &mut Draw, plan: &Plan, mut minutes: Vec<i64>) -> Option<Vec<i64>> {
    let first = minutes.iter().copied().min()?;
    minutes.iter_mut().for_each(|at| *at += BOUND - first);
    let mut order: Vec<usize> = (0..plan.points()).collect();
    draw.shuffle(&mut order);
    order.sort_by_key(|&point| minutes[point]);
    for k in 1..order.len() {
        let by = minutes[order[k - 1]] + BOUND - minutes[order[k]];
        let mut new = minutes.clone();
        order[k..].iter().for_each(|&point| new[point] += by);
        if faults(plan, &new).is_empty() {
            minutes = new;
        }
    }
    Some(minutes)
}

/// A sheet that is good but for its first minute.
fn first(draw: &mut Draw, plan: &Plan) -> Option<Vec<i64>> {
    let minutes = good(draw, plan)?;
    let first = minutes.iter().copied().min()?;
    let by = BOUND + 1 - first;
    Some(minutes.iter().map(|at| at + by).collect())
}

/// A sheet that is good but for one gap.
fn gap(draw: &mut Draw, plan: &Plan) -> Option<Vec<i64>> {
    let minutes = good(draw, plan)?;
    stretched(draw, plan, &minutes, BOUND + 1)
}

/// A sheet that is good but for one record, wait or duration, which is broken by one.
fn broken(draw: &mut Draw, plan: &Plan) -> Option<Vec<i64>> {
    for _ in 0..8 {
        let mut durations = durations(draw, plan);
        // What is broken is left out of the edges, and its two points are put one minute past what it allows.
        let mut plan_without = plan.clone();
        let mut apart = None;
        match draw.below(3) {
            0 if !plan.links.is_empty() => {
                let k = draw.below(plan.links.len());
                durations[k] = draw.pick(&[plan.links[k].x - 1, plan.links[k].y + 1]);
            }
            1 if !plan.waits.is_empty() => {
                let k = draw.below(plan.waits.len());
                let wait = plan_without.waits.remove(k);
                let link = plan.links.iter().position(|link| link.c == wait.c)?;
                let least = wait.w.min(durations[link]) - 1;
                apart = Some((plan.links[link].a, least, wait.v));
            }
            _ if !plan.ordinary.is_empty() => {
                let k = draw.below(plan.ordinary.len());
                let one = plan_without.ordinary.remove(k);
                apart = Some((one.x, one.d + 1, one.y));
            }
            _ => {}
        }
        let mut edges = plan_test::edges(&plan_without, &durations);
        if let Some((from, length, to)) = apart {
            edges.extend([(from, length, to), (to, -length, from)]);
        }
        let by_one = |faults: &[Fault]| {
            use Fault::{Long, Record, Short, Wait};
            matches!(
                faults,
                [Short(_, 1) | Long(_, 1) | Record(_, 1) | Wait(_, 1)]
            )
        };
        let minutes = found(draw, plan, &edges, by_one);
        if minutes.is_some() {
            return minutes;
        }
    }
    None
}

// --- Events ---

#[derive(Clone, Copy, PartialEq, Eq)]
pub enum Order {
    /// At each minute one event with the watched points, then one for each foreman's point.
    Plain,
    /// The watched points in one event or in several, in any order; the foreman's points after them in any order.
    Any,
    /// The same, and a foreman's point goes with watched ones where its waits let it.
    Joined,
    /// As in any order, with an event of its own for each point.
    Apart,
}

/// The events that play minutes, in such an order.
pub fn events(draw: &mut Draw, plan: &Plan, minutes: &[i64], order: Order) -> Vec<Event> {
    let mut times = minutes.to_vec();
    times.sort_unstable();
    times.dedup();
    let mut events: Vec<Event> = Vec::new();
    for minute in times {
        let points = (0..plan.points()).filter(|&point| minutes[point] == minute);
        let (mut watched, mut others): (Vec<_>, Vec<_>) = points.partition(|&p| plan.watched(p));
        if order != Order::Plain {
            draw.shuffle(&mut watched);
            draw.shuffle(&mut others);
        }
        let together = |draw: &mut Draw| match order {
            Order::Plain => true,
            Order::Any | Order::Joined => draw.one_in(2),
            Order::Apart => false,
        };
        let mut parts: Vec<Vec<usize>> = Vec::new();
        for c in watched {
            match parts.last_mut() {
                Some(part) if together(draw) => part.push(c),
                _ => parts.push(vec![c]),
            }
        }
        let with = match (parts.last(), others.first()) {
            (Some(part), Some(&v)) if order == Order::Joined => {
                let goes = may_go_with(plan, minutes, v, part);
                goes.then(|| others.remove(0))
            }
            _ => None,
        };
        let count = parts.len();
        for (k, watched) in parts.into_iter().enumerate() {
            let foreman = with.filter(|_| k + 1 == count);
            events.push(Event {
                minute,
                foreman,
                watched,
            });
        }
        for point in others {
            let foreman = Some(point);
            events.push(Event {
                minute,
                foreman,
                watched: Vec::new(),
            });
        }
    }
    events
}

/// May a foreman's point go into the event of these watched ones? Its window is that of the board before: it must have
/// waited w for each of them that it waits for.
fn may_go_with(plan: &Plan, minutes: &[i64], v: usize, watched: &[usize]) -> bool {
    let mut waits = plan
        .waits
        .iter()
        .filter(|wait| wait.v == v && watched.contains(&wait.c));
    waits.all(|wait| minutes[v] - minutes[plan.link_of(wait).a] >= wait.w)
}

/// A good sheet with one foreman's point at its C's minute, sooner than its w, put before that C: it must get 29.
fn out_of_order(draw: &mut Draw, plan: &Plan, minutes: &[i64]) -> Option<Sheet> {
    let early = |wait: &&oracle::plan::Wait| {
        let a = plan.link_of(wait).a;
        minutes[wait.v] == minutes[wait.c] && minutes[wait.v] - minutes[a] < wait.w
    };
    let early: Vec<_> = plan.waits.iter().filter(early).collect();
    if early.is_empty() {
        return None;
    }
    let wait = draw.pick(&early);
    let mut events = events(draw, plan, minutes, Order::Any);
    let from = events
        .iter()
        .position(|event| event.foreman == Some(wait.v))?;
    let event = events.remove(from);
    let to = events
        .iter()
        .position(|event| event.watched.contains(&wait.c))?;
    events.insert(to, event);
    Some(Sheet {
        minutes: minutes.to_vec(),
        events,
        due: Due::RefusedAt(to, 29),
        met: vec!["a point before the C it waits for"],
    })
}

/// A good sheet but for a C that is put into the event that starts its link, at that minute: it must get 25, and so must not
/// 26, which says that the minute is too soon.
fn with_its_start(draw: &mut Draw, plan: &Plan, minutes: &[i64]) -> Option<Sheet> {
    let hanging = plan.links.iter().filter(|link| links::hangs(plan, link));
    let hanging: Vec<&Link> = hanging.collect();
    if hanging.is_empty() {
        return None;
    }
    let link = draw.pick(&hanging);
    let mut events = events(draw, plan, minutes, Order::Any);
    for event in &mut events {
        event.watched.retain(|&c| c != link.c);
        if event.watched.contains(&link.a) {
            event.watched.push(link.c);
        }
    }
    events.retain(|event| event.points().count() > 0);
    let to = events
        .iter()
        .position(|event| event.watched.contains(&link.c))?;
    Some(Sheet {
        minutes: minutes.to_vec(),
        events,
        due: Due::RefusedAt(to, 25),
        met: vec!["an end in the event that starts it"],
    })
}

// --- What a sheet is an instance of ---

fn features(plan: &Plan, minutes: &[i64], events: &[Event], order: Order) -> Vec<&'static str> {
    let mut met = vec!["good sheets"];
    let mut add = |is: bool, key| {
        if is {
            met.push(key);
        }
    };
    add(order == Order::Plain, "in plain order");
    let foreman = events.iter().filter_map(|event| event.foreman);
    let foreman: Vec<_> = foreman.map(|point| (minutes[point], point)).collect();
    add(!foreman.is_sorted(), "in another order");
    for link in &plan.links {
        let p = minutes[link.c] - minutes[link.a];
        add(p == link.x, "the shortest duration");
        add(link.x < p && p < link.y, "a duration between");
        add(p == link.y, "the longest duration");
        let hangs = links::hangs(plan, link);
        let between = link.x < p && p < link.y;
        add(hangs && !between, "a link from an end, at its bound");
        add(hangs && between, "a link from an end, between");
    }
    for one in &plan.ordinary {
        add(
            minutes[one.y] - minutes[one.x] == one.d,
            "a record at its bound",
        );
    }
    for wait in &plan.waits {
        let a = minutes[plan.link_of(wait).a];
        let (waited, p) = (minutes[wait.v] - a, minutes[wait.c] - a);
        add(waited == wait.w && wait.w < p, "a wait at its w");
        add(waited == p && p < wait.w, "a wait at its C");
    }
    let mut at: Vec<i64> = minutes.to_vec();
    at.sort_unstable();
    add(at[0] == 0, "a first minute of 0");
    add(at[0] == BOUND, "a first minute of 100,000");
    for two in at.windows(2) {
        let is = two[1] - two[0] == BOUND;
        add(is, "a gap of 100,000");
        let later = |point: &usize| minutes[*point] == two[1] && plan.watched(*point);
        let watched = (0..plan.points()).any(|point| later(&point));
        add(is && watched, "a gap of 100,000, then watched");
    }
    let last = at[at.len() - 1];
    add(
        at.len() > 1 && last == BOUND * at.len() as i64,
        "the farthest minute",
    );
    at.dedup();
    for minute in at {
        let points = (0..plan.points()).filter(|&point| minutes[point] == minute);
        let (watched, others): (Vec<_>, Vec<_>) = points.partition(|&point| plan.watched(point));
        add(others.len() > 1, "foreman's points at one minute");
        add(watched.len() > 1, "watched points at one minute");
        add(
            !watched.is_empty() && !others.is_empty(),
            "both at one minute",
        );
        let now = events.iter().filter(|event| event.minute == minute);
        let sets = now.clone().filter(|event| !event.watched.is_empty());
        add(sets.clone().count() > 1, "watched points in several events");
        let with = sets.filter(|event| event.foreman.is_some()).count();
        add(with > 0, "watched with a foreman's point");
    }
    met
}

fn misses(plan: &Plan, minutes: &[i64], faults: &[Fault]) -> Vec<&'static str> {
    let which = match *faults {
        [Fault::First(1)] => "a first minute of 100,001",
        [Fault::Gap(1)] => "a gap of 100,001",
        [Fault::Short(_, 1)] => "a duration one too short",
        [Fault::Long(_, 1)] => "a duration one too long",
        [Fault::Record(_, 1)] => "a record broken by one",
        [Fault::Wait(k, 1)] => {
            let wait = &plan.waits[k];
            let p = minutes[wait.c] - minutes[plan.link_of(wait).a];
            if wait.w <= p {
                "a wait broken by one at its w"
            } else {
                "a wait broken by one at its C"
            }
        }
        _ => "more than one fault",
    };
    let mut met = vec!["near misses", which];
    if let [Fault::Short(link, 1) | Fault::Long(link, 1)] = faults {
        if links::hangs(plan, link) {
            met.push("a link from an end, one too short or long");
        }
    }
    met
}

// --- What must be printed ---

/// What the printing program `sheet` printed of a sheet, held to what is due: the first thing that is wrong, or else the
/// numbers of the events that were refused.
pub fn held(sheet: &Sheet, output: &[u8]) -> Result<Vec<u32>, String> {
    let text = String::from_utf8_lossy(output);
    let mut lines = text.lines();
    let mut refused: Vec<(usize, u32)> = Vec::new();
    let (mut clock, mut count) = (0, 0);
    for (k, event) in sheet.events.iter().enumerate() {
        let line = lines.next().unwrap_or("nothing");
        let words = line.split(' ').filter_map(|word| word.parse().ok());
        let [place, number, at, done] = words.collect::<Vec<i64>>()[..] else {
            return Err(format!("event {k}: {line:?}"));
        };
        if number == 0 {
            clock = event.minute;
            count += event.points().count() as i64;
        } else {
            refused.push((k, number as u32));
        }
        if (place, at, done) != (k as i64, clock, count) {
            return Err(format!(
                "event {k}: {line:?}, not clock {clock}, count {count}"
            ));
        }
    }
    let end = lines.next().unwrap_or("nothing");
    let right = match sheet.due {
        Due::Taken => refused.is_empty() && end == "end kept",
        Due::Refused => !refused.is_empty() && end == "end open",
        Due::RefusedAt(k, number) => refused.first() == Some(&(k, number)) && end == "end open",
    };
    if !right || lines.next().is_some() {
        let due = sheet.due;
        return Err(format!("refused: {refused:?}, {end:?}; due: {due:?}"));
    }
    Ok(refused.into_iter().map(|(_, number)| number).collect())
}

#[cfg(test)]
mod tests {
    use super::*;
    use crate::plans;

    /// The haul of document 01: minutes of the call, the truck's leaving, its arrival, and the loading.
    #[test]
    fn faults_of_the_haul() {
        let plan = &plans::haul_as_it_stands();
        let link = plan.links[0];
        let faults = |minutes: [i64; 4]| faults(plan, &minutes);
        assert_eq!(faults([0, 12, 40, 43]), []);
        // All bounds at once: x, 10 before the truck leaves, and loading at its arrival, sooner than 35 after.
        assert_eq!(faults([0, 10, 30, 30]), []);
        assert_eq!(faults([100_000, 100_010, 100_060, 100_045]), []);
        assert_eq!(
            faults([100_001, 100_011, 100_061, 100_046]),
            [Fault::First(1)]
        );
        assert_eq!(faults([0, 100_000, 100_020, 100_020]), []);
        assert_eq!(faults([0, 100_001, 100_021, 100_021]), [Fault::Gap(1)]);
        assert_eq!(faults([3, 12, 40, 43]), [Fault::Record(0, 1)]);
        assert_eq!(faults([0, 12, 40, 46]), [Fault::Record(1, 1)]);
        assert_eq!(faults([0, 12, 31, 31]), [Fault::Short(link, 1)]);
        assert_eq!(faults([0, 12, 63, 63]), [Fault::Long(link, 1)]);
        // Loading before the truck is there: 35 after it left, or at its arrival where that is sooner.
        assert_eq!(faults([0, 12, 60, 47]), []);
        assert_eq!(faults([0, 12, 60, 46]), [Fault::Wait(0, 1)]);
        assert_eq!(faults([0, 12, 40, 39]), [Fault::Wait(0, 1)]);
        assert_eq!(faults([-1, 9, 29, 29]), [Fault::Below(1)]);
    }

    /// What is drawn is good or has one fault, and every point is in one event, at its minute.
    #[test]
    fn sheets_are_what_they_say() {
        for batch in 0..100 {
            let draw = &mut Draw::new(1, batch);
            let plan = plans::that_passes(draw);
            for sheet in drawn(draw, &plan) {
                let count = faults(&plan, &sheet.minutes).len();
                assert_eq!(count, usize::from(sheet.due == Due::Refused));
                let mut seen: Vec<usize> = Vec::new();
                // A C put into the event that starts its link is the only one at another minute.
                let moved = match sheet.due {
                    Due::RefusedAt(k, 25) => sheet.events[k].watched.last().copied(),
                    _ => None,
                };
                for event in &sheet.events {
                    assert!(event
                        .points()
                        .all(|&point| (sheet.minutes[point] == event.minute)
                            != (moved == Some(point))));
                    seen.extend(event.points());
                }
                seen.sort_unstable();
                assert!(seen.into_iter().eq(0..plan.points()));
            }
        }
    }
}
