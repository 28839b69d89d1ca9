//! Corners of an event's last numbers: where 29 and 30 both fit, and where nothing is open, so that there is no 30.

use crate::draw::Draw;
use crate::events::{self, MARK};
use crate::plans;
use oracle::board::{self, Board};
use oracle::event;
use oracle::plan::{self, Link, Ordinary, Plan, BOUND, RECORD};

/// What an event may meet. With nothing open a link runs, so that past the clock + 100,000 its y has run out.
pub const CORNERS: [&str; 5] = [
    "29 where 30 fits too",
    "nothing open: taken at clock + 100,000",
    "nothing open: 26 past clock + 100,000",
    "nothing open: 27 past clock + 100,000",
    "nothing open: taken past the High of a shut point",
];

/// What an event meets that gets this number on a sound board.
pub fn of_event(plan: &Plan, at: &Board, event: &[u8], number: u32) -> Option<&'static str> {
    let minute = i64::from(u32::from_le_bytes(event.get(..4)?.try_into().ok()?));
    let far = at.clock() + BOUND;
    if number == 29 {
        return (minute > board::latest(plan, at)).then_some(CORNERS[0]);
    }
    if !matches!(number, 0 | 26 | 27) || !board::open_points(plan, at).is_empty() {
        return None;
    }
    let shut = (0..plan.points()).filter(|v| !at.is_done(*v) && !plan.watched(*v));
    let mut highs = shut.filter_map(|v| board::high(plan, at, v));
    match number {
        0 if minute == far => Some(CORNERS[1]),
        0 if highs.any(|high| high < minute) => Some(CORNERS[4]),
        26 if minute == far + 1 => Some(CORNERS[2]),
        27 if minute == far + 1 => Some(CORNERS[3]),
        _ => None,
    }
}

/// So many events of an input are looked at.
const EVENTS: usize = 200;

/// The plan and the events of an input of the printing programs, where the plan is accepted.
pub fn parts(input: &[u8]) -> Option<(Plan, &[u8])> {
    let mark = input.chunks(RECORD).position(|record| record == MARK)?;
    let plan = plan::read(&input[..mark * RECORD]).ok()?;
    Some((plan, &input[(mark + 1) * RECORD..]))
}

/// What comes up in an input of the printing programs.
pub fn of_input(input: &[u8]) -> Vec<&'static str> {
    let Some((plan, events)) = parts(input) else {
        return Vec::new();
    };
    let mut found = Vec::new();
    let mut at = Board::fresh();
    for event in events.chunks_exact(RECORD).take(EVENTS) {
        let ((number, _), next) = event::take(&plan, &at, event);
        found.extend(of_event(&plan, &at, event, number));
        at = next;
    }
    found.sort_unstable();
    found.dedup();
    found
}

/// A plan, the events that lead to a board, and one that meets a corner there.
pub struct Met {
    pub plan: Plan,
    pub run: Vec<u8>,
    pub at: Board,
    pub event: events::Record,
}

/// An event that meets this corner.
pub fn met(draw: &mut Draw, corner: &str) -> Met {
    loop {
        let (plan, run, event) = match corner {
            _ if corner == CORNERS[0] => between(draw),
            _ => nothing_open(draw, corner),
        };
        let mut at = Board::fresh();
        for event in &run {
            at = event::take(&plan, &at, event).1;
        }
        let ((number, _), _) = event::take(&plan, &at, &event);
        if of_event(&plan, &at, &event, number) == Some(corner) {
            let run = run.concat();
            return Met {
                plan,
                run,
                at,
                event,
            };
        }
    }
}

type Drawn = (Plan, Vec<events::Record>, events::Record);

/// Three points of which the third is held: a minute past the latest and before its Low.
fn between(draw: &mut Draw) -> Drawn {
    let mut plan = plans::held(draw);
    let gap = draw.between(2, 9);
    let [high, low] = [0, 1].map(|k| plan.ordinary[k]);
    plan.ordinary[1].d = -(high.d + gap);
    let start = draw.edgy(0, 40);
    let minute = start + high.d + draw.edgy(1, gap - 1);
    let run = vec![events::record(start as u32, high.x as u8, 0)];
    (plan, run, events::record(minute as u32, low.x as u8, 0))
}

/// A drive of up to 100,000 minutes, and a point that comes after it, and has to come soon after its start in some.
fn nothing_open(draw: &mut Draw, corner: &str) -> Drawn {
    let mut order = [0, 1, 2];
    draw.shuffle(&mut order);
    let [a, c, v] = order;
    let x = draw.edgy(2, BOUND - 1);
    let mut plan = Plan {
        ponds: vec![0; 3],
        links: vec![Link { a, x, y: BOUND, c }],
        ordinary: vec![Ordinary {
            x: v,
            d: -draw.edgy(1, 9),
            y: c,
        }],
        ..Plan::default()
    };
    let soon = corner == CORNERS[4];
    if soon || draw.one_in(2) {
        let (x, d, y) = (a, draw.edgy(0, x - 1), v);
        plan.ordinary.push(Ordinary { x, d, y });
    }
    let start = draw.edgy(0, BOUND);
    let run = vec![events::record(start as u32, a as u8, 0)];
    let far = (start + BOUND) as u32;
    let end = 1u32 << c;
    let event = match corner {
        _ if corner == CORNERS[1] => events::record(far, 255, end),
        _ if corner == CORNERS[2] => events::record(far + 1, 255, end),
        _ if corner == CORNERS[3] => events::record(far + 1, v as u8, 0),
        _ => {
            let minute = start + draw.edgy(x, BOUND - 1);
            events::record(minute as u32, 255, end)
        }
    };
    (plan, run, event)
}

/// A plan with more than 65,536 events: half of a run, events that are refused, and the rest of the run.
pub fn long_stream(draw: &mut Draw) -> Vec<u8> {
    let plan = plans::haul_as_it_stands();
    let mut at = Board::fresh();
    let mut run = Vec::new();
    while let Some(event) = events::good(draw, &plan, &at, true) {
        run.push(event);
        at = event::take(&plan, &at, &event).1;
    }
    let (first, rest) = run.split_at(run.len() / 2);
    at = Board::fresh();
    for event in first {
        at = event::take(&plan, &at, event).1;
    }
    let mut refused = Vec::new();
    while refused.len() < 24 {
        let event = match draw.below(3) {
            0 => events::spoiled(draw, &plan, &at, rest[0]),
            _ => events::noise(draw, &plan, &at),
        };
        if event::take(&plan, &at, &event).0 .0 != 0 {
            refused.push(event);
        }
    }
    let many = 65_530 + draw.below(40);
    let between: Vec<events::Record> = refused.iter().cycle().take(many).copied().collect();
    let after = refused[..10].concat();
    let events = [first.concat(), between.concat(), after, rest.concat()].concat();
    let more = refused[0];
    [&plan.to_bytes()[..], &MARK, &events, &more].concat()
}

#[cfg(test)]
mod tests {
    use super::*;

    /// Each corner is met, and the numbers are as they must be.
    #[test]
    fn each_is_met() {
        for batch in 0..40 {
            let draw = &mut Draw::new(10, batch);
            for corner in CORNERS {
                let Met {
                    plan,
                    run,
                    at,
                    event,
                } = met(draw, corner);
                let ((number, _), _) = event::take(&plan, &at, &event);
                let input = [&plan.to_bytes()[..], &MARK, &run, &event].concat();
                assert!(of_input(&input).contains(&corner), "{corner}: {number}");
            }
        }
    }

    /// The last event of the run is taken past 65,535, and the sheet is kept.
    #[test]
    fn a_stream_of_many_events() {
        let input = long_stream(&mut Draw::new(11, 0));
        let mut printed = Vec::new();
        oracle::text::sheet(&mut &input[..], &mut printed).unwrap();
        let text = String::from_utf8(printed).unwrap();
        let lines: Vec<&str> = text.lines().collect();
        assert!(lines.len() > 65_538 && lines.last() == Some(&"end kept"));
        let taken = |line: &&&str| line.split(' ').nth(1) == Some("0");
        assert!(lines[65_536..].iter().filter(taken).count() > 0);
    }
}
