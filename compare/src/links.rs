//! Links that start where others end (document 02, "The second truck starts when the first arrives"): chains, forks and rings,
//! and what of them has come up in an input.

use crate::events::MARK;
use crate::requests::TEST;
use crate::wraps;
use oracle::board::{self, Board};
use oracle::event;
use oracle::plan::{self, Link, Plan, RawPlan, RawRecord, RECORD, ROOM};

/// What the links of a plan may be like.
pub const SHAPES: [&str; 5] = [CHAIN, "a chain of 8", FORK, "a ring of 2", "a ring of 3"];
/// A link starts where another ends, and no ring leads to it.
pub const CHAIN: &str = "a chain";
/// Two links start where one ends.
pub const FORK: &str = "a fork";

/// What may come of events about such links.
pub const EVENTS: [&str; 5] = [
    STARTS,
    "such a link ends",
    "an end in the event that starts it",
    "26 of such a link, by one",
    "27 of such a link, by one",
];
/// An event that is taken ends a link and starts another.
pub const STARTS: &str = "an end starts a link";

/// What a refusal with 10 may be about.
pub const TENS: [&str; 2] = ["10 of a link", "10 of a wait"];

/// The points from which one hangs on links, itself first: each is the A of the one before. In a ring they are cut off.
fn way_up(plan: &Plan, point: usize) -> Vec<usize> {
    let mut way = vec![point];
    while let Some(link) = plan.link_to(way[way.len() - 1]) {
        if way.len() > plan.links.len() {
            break;
        }
        way.push(link.a);
    }
    way
}

/// The foreman's point with which it begins that a point can happen; none if it hangs on a ring.
pub fn root(plan: &Plan, point: usize) -> Option<usize> {
    way_up(plan, point)
        .last()
        .copied()
        .filter(|&last| !plan.watched(last))
}

/// Do links of the plan start one another in a ring?
pub fn ringed(plan: &Plan) -> bool {
    plan.links.iter().any(|link| root(plan, link.c).is_none())
}

/// Does the link start where another ends?
pub fn hangs(plan: &Plan, link: &Link) -> bool {
    plan.watched(link.a)
}

/// What the plan's links are like, each once.
pub fn shapes(plan: &Plan) -> Vec<&'static str> {
    let mut found = [false; SHAPES.len()];
    for link in plan.links.iter().filter(|link| hangs(plan, link)) {
        let way = way_up(plan, link.c);
        if root(plan, link.c).is_some() {
            found[0] = true;
            found[1] |= way.len() == 9;
            let other = |other: &&Link| other.a == link.a && other.c != link.c;
            found[2] |= plan.links.iter().any(|one| other(&one));
        } else {
            let back = way[1..].iter().position(|&point| point == link.c);
            found[3] |= back == Some(1);
            found[4] |= back == Some(2);
        }
    }
    let named = SHAPES.into_iter().zip(found);
    named
        .filter(|(_, is)| *is)
        .map(|(shape, _)| shape)
        .collect()
}

/// What came of events, one after the other from the fresh board, each kind once.
fn played(plan: &Plan, events: &[u8]) -> Vec<&'static str> {
    let hanging = || plan.links.iter().filter(|link| hangs(plan, link));
    let mut found = [false; EVENTS.len()];
    if hanging().next().is_none() {
        return Vec::new();
    }
    let mut at = Board::fresh();
    for record in events.chunks_exact(RECORD) {
        let ((number, _), next) = event::take(plan, &at, record);
        let word = |at: usize| u32::from_le_bytes([0, 1, 2, 3].map(|place| record[at + place]));
        let set = word(8);
        let has = |point: usize| set >> point & 1 == 1;
        for link in hanging() {
            let runs = board::is_running(&at, link);
            let p = i64::from(word(0)) - at.minute(link.a);
            match number {
                0 => {
                    found[0] |= has(link.a);
                    found[1] |= has(link.c);
                }
                25 => {
                    let first = plan.link_to(link.a);
                    let first = first.is_some_and(|first| board::is_running(&at, &first));
                    found[2] |= first && has(link.a) && has(link.c);
                }
                26 => found[3] |= runs && has(link.c) && (p + 1 == link.x || p == link.y + 1),
                27 => found[4] |= runs && !has(link.c) && p == link.y + 1,
                _ => {}
            }
        }
        at = next;
    }
    let named = EVENTS.into_iter().zip(found);
    named.filter(|(_, is)| *is).map(|(what, _)| what).collect()
}

/// What comes up in an input of the printing programs.
pub fn of_input(input: &[u8]) -> Vec<&'static str> {
    let mark = input.chunks(RECORD).position(|record| record == MARK);
    let (part, events) = match mark {
        Some(mark) => (&input[..mark * RECORD], &input[(mark + 1) * RECORD..]),
        None => (input, &[][..]),
    };
    match plan::read(part) {
        Ok(plan) => [shapes(&plan), played(&plan, events)].concat(),
        Err((10, record)) => vec![ten(part[record as usize * RECORD])],
        Err(_) => Vec::new(),
    }
}

fn ten(kind: u8) -> &'static str {
    TENS[usize::from(kind == 4)]
}

/// What comes up in requests of the probe: plans about which something is asked, and of those that are tested also how many
/// projections they have.
pub fn of_requests(requests: &[u8]) -> Vec<&'static str> {
    let mut raw = RawPlan::empty();
    let (mut next, mut new) = (0u32, false);
    let mut found: Vec<&'static str> = Vec::new();
    for request in requests.chunks_exact(RECORD) {
        let number = |at: usize| u32::from_le_bytes([0, 1, 2, 3].map(|place| request[at + place]));
        match request[0] {
            0 => break,
            1 => (raw.count, next, new) = (number(4), number(8), true),
            2 => {
                raw.records[next as usize % ROOM] = RawRecord {
                    kind: request[1],
                    a: request[2],
                    b: request[3],
                    first: number(4) as i32,
                    second: number(8) as i32,
                    code: number(12),
                };
                (next, new) = (next.wrapping_add(1), true);
            }
            16..=21 | 23 | 24 if new => {
                new = false;
                let of_plan = match plan::check(&raw) {
                    Ok(plan) if request[0] == TEST => {
                        [shapes(&plan), wraps::of_plan(&plan)].concat()
                    }
                    Ok(plan) => shapes(&plan),
                    Err((10, record)) => vec![ten(raw.records[record as usize].kind)],
                    Err(_) => Vec::new(),
                };
                found.extend(of_plan);
            }
            _ => {}
        }
    }
    found.sort_unstable();
    found.dedup();
    found
}

#[cfg(test)]
mod tests {
    use super::*;
    use crate::events::record;

    /// A plan of so many points with links (A, C) of 2 to 3 minutes.
    fn linked(points: usize, links: &[(usize, usize)]) -> Plan {
        let link = |&(a, c): &(usize, usize)| Link { a, x: 2, y: 3, c };
        Plan {
            ponds: vec![0; points],
            links: links.iter().map(link).collect(),
            ..Plan::default()
        }
    }

    #[test]
    fn shapes_of_links() {
        let of = |points, links: &[(usize, usize)]| shapes(&linked(points, links));
        assert!(of(3, &[(0, 1), (0, 2)]).is_empty());
        assert_eq!(of(3, &[(1, 2), (0, 1)]), [CHAIN]);
        assert_eq!(of(4, &[(0, 1), (1, 2), (1, 3)]), [CHAIN, FORK]);
        let eight: Vec<_> = (0..8).map(|a| (a, a + 1)).collect();
        assert_eq!(of(9, &eight), [CHAIN, "a chain of 8"]);
        assert_eq!(of(9, &eight[1..]), [CHAIN]);
        assert_eq!(of(3, &[(0, 1), (1, 0)]), ["a ring of 2"]);
        // What hangs on a ring is no chain.
        assert_eq!(of(4, &[(0, 1), (1, 2), (2, 0), (1, 3)]), ["a ring of 3"]);
        let two = [(0, 1), (1, 0), (2, 3), (3, 4), (4, 2)];
        assert_eq!(of(5, &two), ["a ring of 2", "a ring of 3"]);
        assert_eq!(root(&linked(3, &[(1, 2), (0, 1)]), 2), Some(0));
        assert_eq!(root(&linked(3, &[(1, 2), (0, 1)]), 0), Some(0));
        assert!(ringed(&linked(5, &two)) && !ringed(&linked(9, &eight)));
    }

    #[test]
    fn what_comes_of_events() {
        let plan = linked(3, &[(0, 1), (1, 2)]);
        let of = |events: &[[u8; 16]]| {
            of_input(&[&plan.to_bytes()[..], &MARK, &events.concat()].concat())
        };
        let start = [record(0, 0, 0), record(2, 255, 2)];
        assert_eq!(of(&start[..1]), [CHAIN]);
        assert_eq!(of(&start), [CHAIN, STARTS]);
        let both = record(2, 255, 6);
        assert_eq!(of(&[start[0], both]), [CHAIN, EVENTS[2]]);
        // Before 0 is done it is no such event.
        assert_eq!(of(&[both]), [CHAIN]);
        let ended = |minute| of(&[start[0], start[1], record(minute, 255, 4)]);
        assert_eq!(ended(4), [CHAIN, STARTS, EVENTS[1]]);
        assert_eq!(ended(3), [CHAIN, STARTS, EVENTS[3]]);
        assert_eq!(ended(6), [CHAIN, STARTS, EVENTS[3]]);
        assert_eq!(ended(7), [CHAIN, STARTS]);
        let twice = linked(3, &[(0, 1), (2, 1)]).to_bytes();
        assert_eq!(of_input(&twice), ["10 of a link"]);
    }
}
