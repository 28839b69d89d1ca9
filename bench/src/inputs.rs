//! The inputs: plans of given sizes that pass the plan test, a run of each, and requests for the probe.

use oracle::board::{self, Board, Outcome};
use oracle::event;
use oracle::plan::{Link, Ordinary, Plan, Wait, RECORD};

/// How large a plan is. Points are a multiple of 4, a quarter of them end links.
#[derive(Clone, Copy)]
pub struct Size {
    pub points: usize,
    pub ordinary: usize,
    pub waits: usize,
    /// A power of 2, at least 2 for each link.
    pub projections: usize,
}

impl Size {
    pub fn records(self) -> usize {
        self.points + self.points / 4 + self.ordinary + self.waits
    }
}

/// The largest plan of the form below: every kind of record but ordinary ones at its limit, of those all that the form has room
/// for, and 4,096 projections.
pub const FULL: Size = Size {
    points: 32,
    ordinary: 534,
    waits: 64,
    projections: 4_096,
};

/// The largest plan that there is: each pair of points has its ordinary record.
pub const LARGEST: Size = Size {
    ordinary: 992,
    ..FULL
};

/// Links of a plan, a quarter as many as points, the ends of which are the last points; from the point `first` on two start at each.
fn links(size: Size, first: usize) -> Vec<Link> {
    let n = size.points;
    let (count, calm) = (n / 4, (n - n / 4) / 2);
    let mut left = size.projections;
    let mut links = Vec::new();
    for k in 0..count {
        let after = count - 1 - k;
        let span = if after == 0 {
            left
        } else {
            (left >> after).clamp(2, 4)
        };
        left /= span;
        let x = 10 + k as i64;
        links.push(Link {
            a: first + k / 2 % calm,
            x,
            y: x + span as i64 - 1,
            c: n - count + k,
        });
    }
    links
}

/// So many waits, of the late points.
fn waits(size: Size, links: &[Link]) -> Vec<Wait> {
    let ends = size.points - links.len();
    let calm = ends / 2;
    let wait = |j: usize| {
        let link = links[j * 3 % links.len()];
        Wait {
            v: calm + j % (ends - calm),
            c: link.c,
            w: 1 + j as i64 % link.y,
        }
    };
    (0..size.waits).map(wait).collect()
}

fn ponds(points: usize) -> Vec<u32> {
    (0..points as u32).map(|point| 1_000_000 + point).collect()
}

/// The step from x to y of a plan that has one for each pair. Calm points are lowest, then ends of links, then late points, each higher than
/// the one before it; down from a late point steps are negative, and all others are longer the higher they end. So a step up and
/// one down behind it are never shorter than the step that joins the two points at once, and the plan passes.
fn step(n: usize, x: usize, y: usize) -> Ordinary {
    let ends = n - n / 4;
    let calm = ends / 2;
    let level = |p: usize| match p {
        p if p < calm => 0,
        p if p < ends => 2_000 + 100 * (p - calm) as i64,
        _ => 1_000,
    };
    let mix = ((7 * x + 13 * y) % 31) as i64;
    let is_late = calm <= x && x < ends;
    let d = if is_late && level(y) < level(x) {
        -1 - mix % 9
    } else {
        2_000 + level(y) + mix
    };
    Ordinary { x, d, y }
}

/// The plan that has a record for each pair of points.
fn whole(size: Size) -> Plan {
    let n = size.points;
    let links = links(size, 0);
    let pairs = (0..n).flat_map(|x| (0..n).map(move |y| (x, y)));
    let mut pairs: Vec<(usize, usize)> = pairs.filter(|(x, y)| x != y).collect();
    pairs.sort_by_key(|&(x, y)| (11 * x + 17 * y) % 37);
    Plan {
        ponds: ponds(n),
        ordinary: pairs.iter().map(|&(x, y)| step(n, x, y)).collect(),
        waits: waits(size, &links),
        links,
    }
}

/// A plan of 32 points in which four records lead from point 0 and four to it, and so many join others: what an event of point 0
/// changes is the same for any number.
pub fn around(others: usize) -> Plan {
    let links = links(LARGEST, 1);
    let to = (1..5).map(|y| Ordinary { x: 0, d: 900, y });
    let from = (12..16).map(|x| Ordinary { x, d: -5, y: 0 });
    let pairs = (1..32).flat_map(|x| (1..32).map(move |y| (x, y)));
    let mut pairs: Vec<(usize, usize)> = pairs.filter(|(x, y)| x != y).collect();
    pairs.sort_by_key(|&(x, y)| (11 * x + 17 * y) % 37);
    let others = pairs.iter().take(others).map(|&(x, y)| step(32, x, y));
    Plan {
        ponds: ponds(32),
        ordinary: to.chain(from).chain(others).collect(),
        waits: waits(LARGEST, &links),
        links,
    }
}

/// A plan that passes the test by its form, as compare/src/plans.rs has them: first the calm points, then the late ones,
/// then the ends of links. Negative steps start at late points and at ends; no step of zero or more leads to a late point,
/// and to an end only from its A.
pub fn plan(size: Size) -> Plan {
    let n = size.points;
    if size.ordinary == n * (n - 1) {
        return whole(size);
    }
    let ends = n - n / 4;
    let calm = ends / 2;
    let links = links(size, 0);
    let mut plan = Plan {
        ponds: ponds(n),
        waits: waits(size, &links),
        links,
        ..Plan::default()
    };
    // Steps up, which end at calm points, and steps down from late ones, in turn and each in a mixed order. Down the list of
    // late points they go to the ends, and around to the calm ones past them. No pair has two records: those would be twins.
    let mixed = |mut pairs: Vec<(usize, usize)>| {
        pairs.sort_by_key(|&(x, y)| (7 * x + 13 * y) % 31);
        pairs
    };
    let up = (0..n).flat_map(|x| (0..calm).map(move |y| (x, y)));
    let up = mixed(up.filter(|(x, y)| x != y).collect());
    let down = (calm..ends).flat_map(|x| (x + 1..n).chain(0..calm).map(move |y| (x, y)));
    let down = mixed(down.collect());
    for k in 0..up.len().max(down.len()) {
        let rise = up
            .get(k)
            .map(|&(x, y)| (x, 2_000 + (k * 13 % 50) as i64, y));
        let fall = down.get(k).map(|&(x, y)| (x, -1 - (k % 9) as i64, y));
        for (x, d, y) in rise.into_iter().chain(fall) {
            let twin = |old: &Ordinary| (old.x, old.y) == (x, y);
            if plan.ordinary.len() < size.ordinary && !plan.ordinary.iter().any(twin) {
                plan.ordinary.push(Ordinary { x, d, y });
            }
        }
    }
    plan
}

pub fn record(minute: i64, foreman: u8, set: u32) -> [u8; RECORD] {
    let mut bytes = [0; RECORD];
    bytes[..4].copy_from_slice(&(minute as u32).to_le_bytes());
    bytes[4] = foreman;
    bytes[8..12].copy_from_slice(&set.to_le_bytes());
    bytes
}

/// A run: its events, and the board before each and after the last.
pub struct Run {
    pub events: Vec<[u8; RECORD]>,
    pub boards: Vec<Board>,
}

/// The events that could come next: offered points at their Low, and links that end as soon as they may.
fn moves(plan: &Plan, at: &Board) -> Vec<[u8; RECORD]> {
    let open = board::open_points(plan, at).into_iter();
    let offered = open.map(|v| record(board::low(plan, at, v), v as u8, 0));
    let running = plan.links.iter().filter(|link| board::is_running(at, link));
    let ended = running.map(|link| {
        let minute = at.clock().max(at.minute(link.a) + link.x);
        record(minute, 255, 1 << link.c)
    });
    offered.chain(ended).collect()
}

/// A whole run of a plan that passes the test, by the earliest move each time.
pub fn run(plan: &Plan) -> Run {
    let mut boards = vec![Board::fresh()];
    let mut events = Vec::new();
    while board::outcome(plan, &boards[events.len()]) != Outcome::Finished {
        let at = boards[events.len()];
        let taken = |event: [u8; RECORD]| {
            let (refusal, after) = event::take(plan, &at, &event);
            (refusal == (0, 0)).then_some((event, after))
        };
        let moves = moves(plan, &at).into_iter().filter_map(taken);
        let (event, after) = moves
            .min_by_key(|(_, after)| after.clock)
            .expect("a plan that passes does not stick");
        events.push(event);
        boards.push(after);
    }
    Run { events, boards }
}

impl Run {
    /// The middle of the run, where something is offered: the events before it.
    pub fn middle(&self, plan: &Plan) -> usize {
        let offers = |&k: &usize| board::outcome(plan, &self.boards[k]) == Outcome::Offers;
        let half = self.events.len() / 2;
        (half..self.events.len())
            .find(offers)
            .expect("something is offered in the second half")
    }
}

/// An event that is refused only after every window was looked at.
pub fn refused(plan: &Plan, at: &Board) -> [u8; RECORD] {
    let point = |v: u8| record(at.clock(), v, 0);
    let mut all = (0..plan.points() as u8).map(point);
    let late = |event: &[u8; RECORD]| event::take(plan, at, event).0 .0 >= 28;
    all.find(late).expect("some point is shut or too early")
}

/// A plan as the office's text, some of its fields in quotes.
pub fn text(plan: &Plan) -> Vec<u8> {
    let words = ["", "point", "link", "ordinary", "wait"];
    let mut text = String::new();
    for (k, r) in plan.to_records().iter().enumerate() {
        let word = words[usize::from(r.kind)];
        let word = if k % 4 == 0 {
            format!("\"{word}\"")
        } else {
            word.to_string()
        };
        let code = r.code.checked_sub(1).map_or(String::new(), pond);
        text += &format!("{word},{},{},{},{},{code}\r\n", r.a, r.b, r.first, r.second);
    }
    text.into_bytes()
}

/// Two letters and four digits.
fn pond(code: u32) -> String {
    let letter = |k: u32| char::from(b'A' + k as u8);
    let letters = code / 10_000;
    format!(
        "{}{}{:04}",
        letter(letters / 26),
        letter(letters % 26),
        code % 10_000
    )
}

/// A request of the probe.
pub fn request(asked: u8, bytes: [u8; 3], numbers: [u32; 3]) -> Vec<u8> {
    let numbers = numbers.iter().flat_map(|number| number.to_le_bytes());
    [asked].into_iter().chain(bytes).chain(numbers).collect()
}

/// Requests that put a plan on the probe's desk.
pub fn with_plan(plan: &Plan) -> Vec<u8> {
    let records = plan.to_records();
    let mut bytes = request(1, [0; 3], [records.len() as u32, 0, 0]);
    for r in records {
        let numbers = [r.first as u32, r.second as u32, r.code];
        bytes.extend(request(2, [r.kind, r.a, r.b], numbers));
    }
    bytes
}

/// Requests that put a board there.
pub fn with_board(board: &Board) -> Vec<u8> {
    let mut bytes = request(3, [0; 3], [board.clock, board.done, 0]);
    for (point, &minute) in board.minutes.iter().enumerate() {
        bytes.extend(request(4, [point as u8, 0, 0], [minute, 0, 0]));
    }
    for (point, &number) in board.numbers.iter().enumerate() {
        bytes.extend(request(8, [point as u8, 0, 0], [number, 0, 0]));
    }
    bytes
}

/// Requests that put bytes there.
pub fn with_bytes(content: &[u8]) -> Vec<u8> {
    let mut bytes = request(5, [0; 3], [content.len() as u32, 0, 0]);
    for (k, eight) in content.chunks(8).enumerate() {
        let word = |at: usize| {
            let byte = |i: usize| eight.get(at + i).copied().unwrap_or(0);
            u32::from_le_bytes([byte(0), byte(1), byte(2), byte(3)])
        };
        bytes.extend(request(6, [0; 3], [8 * k as u32, word(0), word(4)]));
    }
    bytes
}

#[cfg(test)]
mod tests {
    use super::*;
    use oracle::plan_test::{plan_test, Answer};

    #[test]
    fn plans_are_whole_and_pass() {
        for (points, ordinary, waits) in [
            (8, 30, 60),
            (16, 55, 25),
            (32, 45, 15),
            (32, 256, 64),
            (32, 534, 64),
            (32, 992, 64),
        ] {
            let projections = 256;
            let size = Size {
                points,
                ordinary,
                waits,
                projections,
            };
            let plan = plan(size);
            assert_eq!(plan.records(), size.records());
            assert_eq!(oracle::plan::read(&plan.to_bytes()), Ok(plan.clone()));
            assert_eq!(plan_test(&plan), Ok(Answer::Yes(256)));
            let run = run(&plan);
            refused(&plan, &run.boards[run.middle(&plan)]);
        }
    }
}
