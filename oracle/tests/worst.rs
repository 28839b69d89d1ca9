//! The worst finishing minute (document 02): the haul by hand, refusals, ties, and the runs against another way to the number.

mod common;

use common::*;
use oracle::board::{is_running, reply, Board, Outcome, Place};
use oracle::desk::{Said, Verb};
use oracle::event::take;
use oracle::plan::Plan;
use oracle::plan_test::{distances, edges, plan_test, Answer, Odometer};
use oracle::text::sheet;
use oracle::verdict::{verdict, Verdict};
use oracle::worst::{day, run, worst, Run, Worst};

/// What `desk worst` prints of a plan file, which is a refusal where there is one number.
fn worst_line(file: &[u8]) -> String {
    let said = Verb::Worst.said(file);
    let text = String::from_utf8(said.output).unwrap();
    let line = text.strip_suffix('\n').unwrap();
    let refused = line.starts_with("plan") || line.split(' ').count() == 2;
    assert_eq!((said.errors, said.status), (vec![], u8::from(refused)));
    line.to_string()
}

/// What `desk day` says of a plan file: standard output, or the line on standard error.
fn day_bytes(file: &[u8], projection: u32) -> Result<Vec<u8>, String> {
    match Verb::Day(projection).said(file) {
        Said {
            output,
            errors,
            status: 0,
        } if errors.is_empty() => Ok(output),
        Said {
            output,
            errors,
            status: 1,
        } if output.is_empty() => {
            let text = String::from_utf8(errors).unwrap();
            Err(text.strip_suffix('\n').unwrap().to_string())
        }
        other => panic!("{other:?}"),
    }
}

/// The events of a run as minute, foreman's point and set.
fn said(events: &[[u8; 16]]) -> Vec<(u32, u8, u32)> {
    let word = |event: &[u8; 16], at: usize| {
        u32::from_le_bytes([event[at], event[at + 1], event[at + 2], event[at + 3]])
    };
    let one = |event| (word(event, 0), event[4], word(event, 8));
    events.iter().map(one).collect()
}

/// Each event of a run is taken, and is the one that the reply to its board asks for; the last board is finished and kept.
fn taken(plan: &Plan, durations: &[i64], run: &Run) {
    let mut at = Board::fresh();
    for (event, (minute, foreman, set)) in run.events.iter().zip(said(&run.events)) {
        let reply = reply(plan, &at).unwrap();
        let offered = (0..)
            .zip(reply.places)
            .filter_map(|(point, place)| match place {
                Place::Offered(low) => Some((low, point)),
                _ => None,
            });
        let aim = offered.min();
        let links = plan.links.iter().zip(durations);
        let running = links.filter(|(link, _)| is_running(&at, link));
        let falls: Vec<(i64, usize)> = running
            .map(|(link, p)| (at.minute(link.a) + p, link.c))
            .collect();
        let next = falls.iter().min().map(|fall| fall.0);
        let due = match (reply.outcome, aim, next) {
            (Outcome::Offers, Some((low, point)), next) if next.is_none_or(|next| low <= next) => {
                (low, point)
            }
            (Outcome::Offers | Outcome::Waiting, _, Some(next)) => (next, NONE),
            other => panic!("{other:?}"),
        };
        assert_eq!((i64::from(minute), foreman), due);
        let now = falls.iter().filter(|fall| fall.0 == due.0);
        assert_eq!(set, now.fold(0, |set, fall| set | 1 << fall.1));
        let ((number, _), after) = take(plan, &at, event);
        assert_eq!(number, 0);
        at = after;
    }
    assert_eq!(at, run.last);
    assert_eq!(verdict(plan, &at), Ok(Verdict::Kept));
}

fn passes(plan: &Plan) -> bool {
    matches!(plan_test(plan), Ok(Answer::Yes(_)))
}

/// The call at 0, the truck leaves at 10 and arrives at 30 to 60. Loading is aimed at 45, 35 after it left: an arrival before
/// that comes first and opens the loading at once; one at 45 goes with it; one after it comes last.
#[test]
fn the_haul_by_hand() {
    let plan = haul();
    let two = 1 << 2;
    for p in 20..=50u32 {
        let arrival = 10 + p;
        let mut events = vec![(0, 0, 0), (10, 1, 0)];
        if arrival < 45 {
            events.extend([(arrival, NONE, two), (arrival, 3, 0)]);
        } else if arrival == 45 {
            events.push((45, 3, two));
        } else {
            events.extend([(45, 3, 0), (arrival, NONE, two)]);
        }
        assert_eq!(said(&day(&plan, p - 20).unwrap()), events);
        let run = run(&plan, &[i64::from(p)]).unwrap();
        assert_eq!((run.last.clock, run.last.count()), (arrival, 4));
    }
    let (minute, projection) = (60, 30);
    assert_eq!(worst(&plan), Ok(Worst { minute, projection }));
    assert_eq!(worst_line(&plan.to_bytes()), "worst 60 30");
    // Past the last projection there are no events.
    assert_eq!(day(&plan, 31), Ok(Vec::new()));
    assert_eq!(day(&plan, u32::MAX), Ok(Vec::new()));
    let file = plan.to_bytes();
    assert_eq!(day_bytes(&file, 31), Ok([&file[..], &[255; 16]].concat()));
}

/// What `desk day` prints is what `sheet` reads.
#[test]
fn a_day_as_a_sheet() {
    let input = day_bytes(&haul().to_bytes(), 15).unwrap();
    let mut output = Vec::new();
    sheet(&mut input.as_slice(), &mut output).unwrap();
    let expected = "0 0 0 1\n1 0 10 2\n2 0 45 4\nend kept\n";
    assert_eq!(String::from_utf8(output).unwrap(), expected);
}

#[test]
fn refusals() {
    assert_eq!(worst_line(&[]), "plan 1 0");
    assert_eq!(worst_line(&[1; 17]), "plan 2 0");
    assert_eq!(worst_line(&[1; 1_129 * 16]), "plan 3 0");
    // No mark is looked for: it is a record of kind 255.
    let marked = [haul().to_bytes(), vec![255; 16]].concat();
    assert_eq!(worst_line(&marked), "plan 4 9");
    let file = |points, rest: &[_]| plan(points, rest).to_bytes();
    // 13 comes before 60: this one has a cycle too.
    let cycle = [ordinary(2, -1, 3), ordinary(3, -1, 2)];
    let wide = [link(0, 1, 4_097, 1), cycle[0], cycle[1]];
    assert_eq!(worst_line(&file(4, &wide)), "worst 13");
    assert_eq!(
        worst_line(&file(4, &[link(0, 1, 4_096, 1)])),
        "worst 4096 4095"
    );
    assert_eq!(worst_line(&file(4, &cycle)), "worst 60");
    assert_eq!(worst_line(&haul_with(&[]).to_bytes()), "worst 60");
    assert_eq!(
        worst_line(&haul_with(&[wait(3, 2, 34)]).to_bytes()),
        "worst 60"
    );
    assert_eq!(day_bytes(&file(4, &wide), 0), Err("day 13".to_string()));
    assert_eq!(day_bytes(&file(4, &cycle), 9), Err("day 60".to_string()));
    assert_eq!(day_bytes(&[0; 16], 0), Err("plan 4 0".to_string()));
}

#[test]
fn the_first_projection_counts() {
    // Without links there is one run.
    assert_eq!(worst_line(&plan(1, &[]).to_bytes()), "worst 0 0");
    let step = plan(2, &[ordinary(1, -7, 0)]);
    assert_eq!(worst_line(&step.to_bytes()), "worst 7 0");
    // A step of 9 beside a drive of 3 to 8: all drives end by then.
    let late = plan(3, &[link(0, 3, 8, 1), ordinary(2, -9, 0)]);
    assert_eq!(worst_line(&late.to_bytes()), "worst 9 0");
    // A drive of 3 to 12: the last is the worst. Of two drives the first longest of either counts.
    let longer = plan(3, &[link(0, 3, 12, 1), ordinary(2, -9, 0)]);
    assert_eq!(worst_line(&longer.to_bytes()), "worst 12 9");
    let both = plan(3, &[link(0, 3, 5, 1), link(0, 2, 5, 2)]);
    assert_eq!(worst_line(&both.to_bytes()), "worst 5 3");
}

/// The lowest number of the points offered at the lowest minute; watched points of one minute together.
#[test]
fn the_order_of_a_run() {
    let rest = [
        link(3, 2, 3, 1),
        link(3, 2, 4, 4),
        ordinary(2, -5, 3),
        ordinary(0, -2, 3),
    ];
    let plan = plan(6, &rest);
    assert!(passes(&plan));
    let of = |durations: [i64; 2]| said(&run(&plan, &durations).unwrap().events);
    // 3 and 5 are free at 0; then 0 from 2 on, with the ends that fall on 2.
    let start = [(0, 3, 0), (0, 5, 0)];
    let ends = |points: &[u8]| points.iter().fold(0u32, |set, point| set | 1 << point);
    assert_eq!(
        of([2, 2]),
        [&start[..], &[(2, 0, ends(&[1, 4])), (5, 2, 0)]].concat()
    );
    assert_eq!(
        of([3, 3]),
        [
            &start[..],
            &[(2, 0, 0), (3, NONE, ends(&[1, 4])), (5, 2, 0)]
        ]
        .concat()
    );
    assert_eq!(
        of([3, 4]),
        [
            &start[..],
            &[
                (2, 0, 0),
                (3, NONE, ends(&[1])),
                (4, NONE, ends(&[4])),
                (5, 2, 0)
            ]
        ]
        .concat()
    );
}

/// Two trucks in a chain (document 02): the second drive, 1 to 2, begins with the arrival of the first, 0 to 1. Point 3 is aimed
/// at 5 after 0 and point 4 at 2 after 1, the arrival.
#[test]
fn an_arrival_starts_the_next_drive() {
    let rest = [
        link(0, 3, 6, 1),
        link(1, 1, 2, 2),
        ordinary(3, -5, 0),
        ordinary(4, -2, 1),
    ];
    let plan = plan(5, &rest);
    assert!(passes(&plan));
    let (one, two) = (1 << 1, 1 << 2);
    let of = |durations: [i64; 2]| said(&run(&plan, &durations).unwrap().events);
    // The arrival at 3 comes before the aim, and the second drive ends before the next: 4 is aimed at 5, as 3 is.
    assert_eq!(
        of([3, 1]),
        [
            (0, 0, 0),
            (3, NONE, one),
            (4, NONE, two),
            (5, 3, 0),
            (5, 4, 0)
        ]
    );
    // The second drive ends on the aim.
    assert_eq!(
        of([3, 2]),
        [(0, 0, 0), (3, NONE, one), (5, 3, two), (5, 4, 0)]
    );
    // The arrival falls on the aim: the second drive starts in that event, and does not end in it.
    assert_eq!(
        of([5, 1]),
        [(0, 0, 0), (5, 3, one), (6, NONE, two), (7, 4, 0)]
    );
    // The arrival comes past the first aim, and the board waits for it.
    assert_eq!(
        of([6, 2]),
        [(0, 0, 0), (5, 3, 0), (6, NONE, one), (8, 4, two)]
    );
    assert_eq!(worst_line(&plan.to_bytes()), "worst 8 6");
    // Without the foreman's points after it the drives alone: 3 to 6, and then 1 to 2.
    let alone = common::plan(3, &rest[..2]);
    assert_eq!(worst_line(&alone.to_bytes()), "worst 8 7");
    let ring = common::plan(3, &[link(0, 1, 2, 1), link(1, 1, 2, 0)]);
    assert_eq!(worst_line(&ring.to_bytes()), "worst 60");
    assert_eq!(day_bytes(&ring.to_bytes(), 0), Err("day 60".to_string()));
}

/// Another way to the same number: no choice of minutes that keeps a projection ends sooner than its longest chain of steps
/// back, and on a plan that passes each point comes at the first minute that its own chains leave. So the finishing minute is
/// the negated least distance between any two points.
#[test]
fn runs_end_with_the_longest_chain() {
    let mut random = Random::new(13);
    let (mut plans, mut runs, mut waits, mut longest, mut chains) = (0, 0, 0, 0, 0);
    while plans < 2_000 {
        let bound = random.between(1, 9);
        let plan = match plans % 2 {
            0 => random_plan(&mut random, bound),
            _ => chained_plan(&mut random, bound),
        };
        if !passes(&plan) {
            continue;
        }
        plans += 1;
        chains += usize::from(chained(&plan));
        waits += usize::from(!plan.waits.is_empty());
        let mut most = (0, 0);
        for (number, durations) in Odometer::new(&plan).enumerate() {
            let edges = edges(&plan, &durations);
            let all = (0..plan.points()).map(|x| distances(plan.points(), &edges, x).unwrap());
            let least = all.flatten().flatten().min().unwrap_or(0);
            let run = run(&plan, &durations).expect("it passes");
            assert_eq!(i64::from(run.last.clock), -least);
            assert!(run.events.len() <= plan.points());
            taken(&plan, &durations, &run);
            if -least > most.0 || number == 0 {
                most = (-least, number);
            }
            runs += 1;
        }
        let found = worst(&plan).unwrap();
        assert_eq!((i64::from(found.minute), found.projection as usize), most);
        longest += usize::from(most.1 > 0);
    }
    assert!(
        runs > 1_000 && waits > 50 && longest > 100 && chains > 900,
        "{runs} {waits} {longest} {chains}"
    );
}
