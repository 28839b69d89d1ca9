//! Draws event records for a plan: good ones, spoiled ones and noise, and whole streams of them.

use crate::draw::Draw;
use oracle::board::{self, Board};
use oracle::event;
use oracle::plan::{Link, Plan, RECORD};
use oracle::worst;

pub type Record = [u8; RECORD];

/// The record that ends the plan part.
pub const MARK: Record = [255; RECORD];

pub fn record(minute: u32, foreman: u8, set: u32) -> Record {
    let mut bytes = [0; RECORD];
    bytes[..4].copy_from_slice(&minute.to_le_bytes());
    bytes[4] = foreman;
    bytes[8..12].copy_from_slice(&set.to_le_bytes());
    bytes
}

fn running(plan: &Plan, at: &Board) -> Vec<Link> {
    let links = plan.links.iter().copied();
    links.filter(|link| board::is_running(at, link)).collect()
}

/// The last minute that an event may have: no link runs out before it, and it is not past the latest.
fn last_minute(plan: &Plan, at: &Board) -> i64 {
    let links = running(plan, at);
    let ends = links.iter().map(|link| at.minute(link.a) + link.y).min();
    let open = !board::open_points(plan, at).is_empty();
    let latest = open.then(|| board::latest(plan, at));
    let last = ends.into_iter().chain(latest).min();
    last.unwrap_or(at.clock())
}

/// An event that will be taken, if there is one; a calm one comes soon after it may.
pub fn good(draw: &mut Draw, plan: &Plan, at: &Board, calm: bool) -> Option<Record> {
    if board::outcome(plan, at) == board::Outcome::Stuck {
        return None;
    }
    let last = last_minute(plan, at);
    let links = running(plan, at);
    // Each choice: the foreman's point or 255, the watched points, and the first minute for it.
    let mut choices: Vec<(u8, u32, i64)> = Vec::new();
    for v in board::open_points(plan, at) {
        choices.push((v as u8, 0, board::low(plan, at, v)));
    }
    for link in &links {
        let first = at.clock().max(at.minute(link.a) + link.x);
        choices.push((255, 1 << link.c, first));
    }
    choices.retain(|&(_, _, first)| first <= last);
    if choices.is_empty() {
        return None;
    }
    let (foreman, mut set, first) = draw.pick(&choices);
    let far = if !calm && draw.one_in(3) {
        last
    } else {
        last.min(first + 10)
    };
    let minute = draw.edgy(first, far);
    for link in &links {
        if at.minute(link.a) + link.x <= minute && draw.one_in(3) {
            set |= 1 << link.c;
        }
    }
    Some(record(minute as u32, foreman, set))
}

/// A good event with one thing wrong, or nearly so.
pub fn spoiled(draw: &mut Draw, plan: &Plan, at: &Board, good: Record) -> Record {
    let mut bytes = good;
    let minute = u32::from_le_bytes([good[0], good[1], good[2], good[3]]);
    let mut put = |minute: u32| bytes[..4].copy_from_slice(&minute.to_le_bytes());
    match draw.below(13) {
        0 => put(minute.wrapping_sub(1)),
        1 => put(minute.wrapping_add(1)),
        2 => put(at.clock.wrapping_sub(1)),
        3 => put((last_minute(plan, at) + draw.between(0, 2)) as u32),
        4 => put(draw.pick(&[u32::MAX, 1 << 31, at.clock.wrapping_add(100_001), 0])),
        5 => {
            if let Some(&v) = board::open_points(plan, at).first() {
                let low = board::low(plan, at, v);
                return record((low - 1).max(0) as u32, v as u8, 0);
            }
        }
        6 => {
            if let Some(link) = running(plan, at).last() {
                let least = at.minute(link.a) + link.x - 1;
                let most = at.minute(link.a) + link.y + 1;
                put(draw.pick(&[least, most]) as u32);
                let set = 1u32 << link.c;
                bytes[8..12].copy_from_slice(&set.to_le_bytes());
            }
        }
        7 => bytes[4] = draw.below(plan.points()) as u8,
        8 => bytes[4] = draw.pick(&[255, 254, 32, 31, plan.points() as u8]),
        9 => {
            let bit = draw.below(plan.points());
            bytes[8 + bit / 8] ^= 1 << (bit % 8);
        }
        10 => {
            let bit = draw.below(32);
            bytes[8 + bit / 8] ^= 1 << (bit % 8);
        }
        11 => {
            // A link ends in the event that starts it; or, with the minute moved, one that hangs on another one too soon or late.
            let running = running(plan, at);
            let ended = |link: &&Link| running.iter().any(|first| first.c == link.a);
            let hung: Vec<&Link> = plan.links.iter().filter(ended).collect();
            let late: Vec<&Link> = running.iter().filter(|l| plan.watched(l.a)).collect();
            if !hung.is_empty() {
                let link = draw.pick(&hung);
                let first = running.iter().find(|first| first.c == link.a);
                let [from, to] = first.map_or([0, 0], |first| {
                    [first.x, first.y].map(|p| at.minute(first.a) + p)
                });
                put(draw.edgy(from.max(at.clock()), to) as u32);
                bytes[4] = 255;
                let set = 1u32 << link.a | 1 << link.c;
                bytes[8..12].copy_from_slice(&set.to_le_bytes());
            } else if !late.is_empty() {
                let link = draw.pick(&late);
                let a = at.minute(link.a);
                let (p, set) = draw.pick(&[
                    (link.x - 1, 1u32 << link.c),
                    (link.y + 1, 1 << link.c),
                    (link.y + 1, 0),
                ]);
                put((a + p) as u32);
                // 27 comes before anything about the foreman's point.
                bytes[4] = draw.below(plan.points()) as u8;
                bytes[8..12].copy_from_slice(&set.to_le_bytes());
            }
        }
        _ => {
            let place = draw.pick(&[5, 6, 7, 12, 13, 14, 15]);
            bytes[place] = draw.pick(&[1, 128, 255]);
        }
    }
    bytes
}

/// An end of a running link, with no foreman's point, one minute past the latest or later, while something is open: 30, if no link
/// is left behind.
pub fn too_late(draw: &mut Draw, plan: &Plan, at: &Board) -> Option<Record> {
    if board::open_points(plan, at).is_empty() {
        return None;
    }
    let latest = board::latest(plan, at);
    let ends = running(plan, at);
    let ends = ends.iter().filter(|l| at.minute(l.a) + l.y > latest);
    let ends: Vec<&Link> = ends.collect();
    if ends.is_empty() {
        return None;
    }
    let link = draw.pick(&ends);
    let first = (latest + 1).max(at.minute(link.a) + link.x);
    let minute = draw.edgy(first, at.minute(link.a) + link.y);
    Some(record(minute as u32, 255, 1 << link.c))
}

/// An event that has little to do with the board.
pub fn noise(draw: &mut Draw, plan: &Plan, at: &Board) -> Record {
    match draw.below(8) {
        0 => {
            let mut bytes = [0; RECORD];
            bytes.fill_with(|| draw.byte());
            bytes
        }
        1 => MARK,
        2 => [0; RECORD],
        _ => {
            let minute = (at.clock() + draw.between(-2, 12)).max(0) as u32;
            let foreman = if draw.one_in(3) {
                255
            } else {
                draw.below(plan.points()) as u8
            };
            let mut set = 0;
            for link in &plan.links {
                if draw.one_in(3) {
                    set |= 1 << link.c;
                }
            }
            if draw.one_in(8) {
                set |= 1 << draw.below(32);
            }
            record(minute, foreman, set)
        }
    }
}

/// The run of some projection of a plan that passes the test, with events between that are refused: each link that starts where
/// another ends is ended in the event that starts it, one minute too soon and too late, and left behind by one minute.
pub fn hanging(draw: &mut Draw, plan: &Plan) -> Vec<u8> {
    let durations: Vec<i64> = plan
        .links
        .iter()
        .map(|link| draw.edgy(link.x, link.y))
        .collect();
    let mut bytes = Vec::new();
    let mut at = Board::fresh();
    for event in worst::run(plan, &durations).map_or(Vec::new(), |run| run.events) {
        let set = u32::from_le_bytes([8, 9, 10, 11].map(|place| event[place]));
        let minute = u32::from_le_bytes([0, 1, 2, 3].map(|place| event[place]));
        for link in plan.links.iter().filter(|link| plan.watched(link.a)) {
            if set >> link.a & 1 == 1 {
                bytes.extend(record(minute, event[4], set | 1 << link.c));
            }
            if board::is_running(&at, link) {
                let after = |p: i64| (at.minute(link.a) + p) as u32;
                bytes.extend(record(after(link.x - 1), 255, 1 << link.c));
                bytes.extend(record(after(link.y + 1), 255, 1 << link.c));
                let v = draw.below(plan.points()) as u8;
                bytes.extend(record(after(link.y + 1), v, 0));
            }
        }
        bytes.extend(event);
        at = event::take(plan, &at, &event).1;
    }
    bytes
}

/// An event at the clock's minute for each foreman's point that is not open, for each watched one and for each done one, in any
/// order: unless the board is stuck or finished each gets 28.
pub fn not_open(draw: &mut Draw, plan: &Plan, at: &Board) -> Vec<Record> {
    let open = board::open_points(plan, at);
    let others = (0..plan.points()).filter(|v| !open.contains(v));
    let mut all: Vec<Record> = others.map(|v| record(at.clock, v as u8, 0)).collect();
    draw.shuffle(&mut all);
    all
}

/// A good run with such events before each of its own.
pub fn told_why(draw: &mut Draw, plan: &Plan) -> Vec<u8> {
    let mut at = Board::fresh();
    let mut bytes = not_open(draw, plan, &at).concat();
    while let Some(event) = good(draw, plan, &at, true) {
        bytes.extend(event);
        at = event::take(plan, &at, &event).1;
        bytes.extend(not_open(draw, plan, &at).concat());
    }
    bytes
}

/// What a stream is made of.
#[derive(Clone, Copy)]
pub enum Style {
    /// Good events only.
    Good,
    /// Good events, one of them spoiled.
    OneSpoiled,
    /// Good events, with spoiled ones and noise between.
    Mixed,
    /// Noise only.
    Noise,
}

pub const STYLES: [Style; 4] = [Style::Good, Style::OneSpoiled, Style::Mixed, Style::Noise];

/// A stream of events, to the end of the run or cut short, sometimes with events after the end.
pub fn stream(draw: &mut Draw, plan: &Plan, style: Style) -> Vec<u8> {
    let mut bytes = Vec::new();
    let mut at = Board::fresh();
    let most = if draw.one_in(5) {
        draw.below(plan.points() + 1)
    } else {
        3 * plan.points() + 2
    };
    // A jump of the clock ends a long run early.
    let calm = plan.points() > 6 && !draw.one_in(3);
    let spoil_at = draw.below(plan.points() + 1);
    for k in 0..most {
        let next = match style {
            Style::Noise => Some(noise(draw, plan, &at)),
            _ => good(draw, plan, &at, calm),
        };
        let Some(next) = next else { break };
        let spoil = match style {
            Style::OneSpoiled => k == spoil_at,
            Style::Mixed => draw.one_in(3),
            _ => false,
        };
        let mut wanted = vec![next];
        if spoil {
            let wrong = if draw.one_in(4) {
                noise(draw, plan, &at)
            } else {
                spoiled(draw, plan, &at, next)
            };
            wanted = if draw.one_in(2) {
                vec![wrong]
            } else {
                vec![wrong, next]
            };
        }
        for event in wanted {
            bytes.extend(event);
            at = event::take(plan, &at, &event).1;
        }
    }
    // Past the end of the run, or where it was cut.
    if draw.one_in(3) {
        for _ in 0..1 + draw.below(3) {
            let event = noise(draw, plan, &at);
            bytes.extend(event);
            at = event::take(plan, &at, &event).1;
        }
    }
    bytes
}
