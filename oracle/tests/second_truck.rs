//! The second truck starts when the first arrives (document 02): links that start where others end, in chains and forks, which
//! run from the event that does their A, and rings of links, which reading accepts and the plan test reports as a cycle.

mod common;

use common::*;
use oracle::board::{is_running, low, outcome, reply, sound, Board, Outcome, Place};
use oracle::desk::Verb;
use oracle::event::take;
use oracle::plan::{read, Plan, RawRecord};
use oracle::plan_test::{edges, plan_test, Answer, Odometer};
use oracle::text::sheet;
use oracle::verdict::{verdict, Verdict};

fn passes(plan: &Plan) -> bool {
    matches!(plan_test(plan), Ok(Answer::Yes(_)))
}

/// Every pair of different points below `points`.
fn pairs(points: u8) -> Vec<(u8, u8)> {
    let all = (0..points).flat_map(|a| (0..points).map(move |c| (a, c)));
    all.filter(|(a, c)| a != c).collect()
}

/// All lists of three links on four points: the first of them whose C ends an earlier one gets 10, and no other does. Document
/// 01 gave 10 also where C started an earlier one, or A ended one: it never named a later link than the new rule does.
#[test]
fn number_10_is_for_a_second_end_alone() {
    let all = pairs(4);
    let (mut refused, mut only_before) = (0, 0);
    for &one in &all {
        for &two in &all {
            for &three in &all {
                let list = [one, two, three];
                let links: Vec<RawRecord> = list.iter().map(|&(a, c)| link(a, 1, 2, c)).collect();
                let second_end = (0..3).find(|&k| list[..k].iter().any(|old| old.1 == list[k].1));
                let due = second_end.map_or((0, 0), |k| (10, 4 + k as u32));
                assert_eq!(refusal(4, &links), due, "{list:?}");
                let clash = |old: &(u8, u8), new: (u8, u8)| {
                    old.0 == new.1 || old.1 == new.1 || old.1 == new.0
                };
                let before = (0..3).find(|&k| list[..k].iter().any(|old| clash(old, list[k])));
                assert!(second_end.is_none_or(|k| before.is_some_and(|before| before <= k)));
                refused += u32::from(second_end.is_some());
                only_before += u32::from(second_end.is_none() && before.is_some());
            }
        }
    }
    assert!(
        refused > 500 && only_before > 300,
        "{refused} {only_before}"
    );
}

/// A wait's rule as it was: its C ends a link, its V ends none, and V is not C's A, which may be watched.
#[test]
fn waits_as_they_were() {
    // 0 to 1, 1 to 2 and 1 to 3; 4 goes with nothing.
    let links = [link(0, 1, 2, 1), link(1, 1, 2, 2), link(1, 1, 2, 3)];
    for (v, c) in pairs(5) {
        let number = refusal(5, &[links[0], links[1], links[2], wait(v, c, 1)]).0;
        let due = match (v, c) {
            // C not watched, V watched, V is C's A.
            (_, 0 | 4) | (1..=3, _) | (0, 1) => 10,
            // 0 starts the first link, and may wait for what hangs on it.
            _ => 0,
        };
        assert_eq!(number, due, "{v} {c}");
    }
    // w is at most its own link's y.
    let links = [link(0, 1, 9, 1), link(1, 1, 4, 2)];
    let of = |w| refusal(4, &[links[0], links[1], wait(3, 2, w)]).0;
    assert_eq!([of(4), of(5), of(9)], [0, 11, 11]);
}

/// Two trucks: 0 the call, the first leaves at 1 and arrives at 2, which starts the second, which arrives at 3; 4 is the loading,
/// at most 5 after the second's arrival and at most 15 before it.
fn two_trucks() -> Plan {
    let rest = [
        link(1, 20, 50, 2),
        link(2, 10, 30, 3),
        ordinary(1, -10, 0),
        ordinary(3, 5, 4),
        ordinary(4, 15, 3),
        wait(4, 3, 15),
    ];
    plan(5, &rest)
}

#[test]
fn two_trucks_pass() {
    let plan = two_trucks();
    assert_eq!(plan_test(&plan), Ok(Answer::Yes(31 * 21)));
    // A duration is a link's own: the second's is walked inside the first's.
    let durations: Vec<Vec<i64>> = Odometer::new(&plan).collect();
    assert_eq!(durations[0], [20, 10]);
    assert_eq!(durations[20], [20, 30]);
    assert_eq!(durations[21], [21, 10]);
    let mut all = edges(&plan, &[33, 12]);
    all.sort_unstable();
    let due = [
        (1, -10, 0),
        (1, 33, 2),
        (2, -33, 1),
        (2, 12, 3),
        (3, -12, 2),
        (3, 5, 4),
        (4, -12, 2),
        (4, 15, 3),
    ];
    assert_eq!(all, due);
    // A wait one too short: the first truck at its shortest, the second at its longest.
    let mut short = plan.clone();
    short.waits[0].w = 14;
    assert_eq!(plan_test(&short), Ok(Answer::Pair(20, 4, 0)));
}

#[test]
fn the_second_starts_in_the_event_that_ends_the_first() {
    let plan = two_trucks();
    let [first, second] = [plan.links[0], plan.links[1]];
    let left = after(
        &plan,
        &Board::fresh(),
        &[event(0, 0, &[]), event(12, 1, &[])],
    );
    assert!(is_running(&left, &first) && !is_running(&left, &second));
    // The loading waits for the second's A, which is not done.
    assert_eq!(outcome(&plan, &left), Outcome::Waiting);
    assert_eq!(number(&plan, &left, &event(40, 4, &[])), 28);
    // The second does not run: it cannot end, not even with the first, nor in its place.
    for minute in [32, 40, 62] {
        assert_eq!(number(&plan, &left, &event(minute, NONE, &[2, 3])), 25);
        assert_eq!(number(&plan, &left, &event(minute, NONE, &[3])), 25);
        assert_eq!(number(&plan, &left, &event(minute, 4, &[2, 3])), 25);
        // Its window is that of the board before the event.
        assert_eq!(number(&plan, &left, &event(minute, 4, &[2])), 28);
    }
    let there = after(&plan, &left, &[event(40, NONE, &[2])]);
    assert!(!is_running(&there, &first) && is_running(&there, &second));
    // Its duration counts from 40, the event's minute, and not from 12.
    let at = |minute| number(&plan, &there, &event(minute, NONE, &[3]));
    assert_eq!([at(40), at(49), at(50), at(70), at(71)], [26, 26, 0, 0, 26]);
    assert_eq!(low(&plan, &there, 4), 55);
    let of = reply(&plan, &there).unwrap();
    assert_eq!((of.outcome, of.latest), (Outcome::Offers, 100_040));
    assert_eq!(of.places[4], Place::Offered(55));
    let at = |minute| number(&plan, &there, &event(minute, 4, &[]));
    assert_eq!([at(54), at(55), at(70), at(71)], [29, 0, 0, 27]);
    let both = after(&plan, &there, &[event(58, NONE, &[3])]);
    let at = |minute| number(&plan, &both, &event(minute, 4, &[]));
    assert_eq!([at(57), at(58), at(63), at(64)], [24, 0, 0, 30]);
    let done = after(&plan, &both, &[event(60, 4, &[])]);
    assert_eq!(verdict(&plan, &done), Ok(Verdict::Kept));
    // The wait is judged from the second's A: 14 after 40 with the arrival at 58.
    let soon = board(&[(0, 0), (1, 12), (2, 40), (3, 58), (4, 54)]);
    assert_eq!(verdict(&plan, &soon), Ok(Verdict::Broken(10)));
}

#[test]
fn sound_boards() {
    let plan = plan(4, &[link(0, 2, 4, 1), link(1, 3, 5, 2)]);
    let sound = |done: &[(usize, u32)]| sound(&plan, &board(done));
    // A done watched point has its A done, all the way.
    assert!(sound(&[(0, 7), (1, 9), (2, 12)]));
    assert!(!sound(&[(0, 7), (2, 12)]));
    assert!(!sound(&[(1, 9), (2, 12)]));
    assert!(!sound(&[(1, 9)]) && !sound(&[(2, 9)]));
    // Its duration is from that A.
    let ended = |minute| sound(&[(0, 7), (1, 9), (2, minute)]);
    assert_eq!([11, 12, 14, 15].map(ended), [false, true, true, false]);
    let first = |minute| sound(&[(0, 7), (1, minute), (2, 14)]);
    assert_eq!([8, 9, 11, 12].map(first), [false, true, true, false]);
    // A running link has not run out: the second from 9, the first from 7.
    let second_runs = |clock| sound(&[(0, 7), (1, 9), (3, clock)]);
    assert_eq!([9, 13, 14, 15].map(second_runs), [true, true, true, false]);
    let first_runs = |clock| sound(&[(0, 7), (3, clock)]);
    assert_eq!([7, 11, 12].map(first_runs), [true, true, false]);
}

#[test]
fn a_fork() {
    // 0 to 1, and then both 1 to 2 and 1 to 3.
    let plan = plan(4, &[link(1, 2, 4, 2), link(0, 1, 3, 1), link(1, 3, 5, 3)]);
    assert_eq!(plan_test(&plan), Ok(Answer::Yes(27)));
    let there = after(
        &plan,
        &Board::fresh(),
        &[event(5, 0, &[]), event(7, NONE, &[1])],
    );
    assert!([0, 2].iter().all(|&k| is_running(&there, &plan.links[k])));
    assert!(!is_running(&there, &plan.links[1]));
    let at = |minute, set: &[u8]| number(&plan, &there, &event(minute, NONE, set));
    // Together from 10 to 11, one alone before or after; 2 cannot be left behind past 11.
    let together = [9, 10, 11, 12].map(|minute| at(minute, &[2, 3]));
    assert_eq!(together, [26, 0, 0, 26]);
    assert_eq!(
        [8, 9, 11, 12].map(|minute| at(minute, &[2])),
        [26, 0, 0, 26]
    );
    assert_eq!(
        [9, 10, 11, 12].map(|minute| at(minute, &[3])),
        [26, 0, 0, 27]
    );
    let last = after(&plan, &there, &[event(9, NONE, &[2])]);
    assert_eq!(outcome(&plan, &last), Outcome::Waiting);
    assert_eq!(number(&plan, &last, &event(12, NONE, &[3])), 0);
    assert_eq!(number(&plan, &last, &event(13, NONE, &[3])), 26);
}

/// Points 0 up to `length` in a chain, each link of 2 to 3 minutes.
fn chain(length: u8) -> Vec<RawRecord> {
    (0..length).map(|a| link(a, 2, 3, a + 1)).collect()
}

/// Chains of up to eight links, in file order and the other way round, with a point that has to come after the last end.
#[test]
fn chains_of_up_to_eight() {
    for length in 1..=8u8 {
        for turned in [false, true] {
            let mut links = chain(length);
            if turned {
                links.reverse();
            }
            let after_it = [links, vec![ordinary(length + 1, -1, length)]].concat();
            let plan = plan(length + 2, &after_it);
            assert_eq!(plan_test(&plan), Ok(Answer::Yes(1 << length)));
            // Each end in an event of its own, since none can end in the one that starts it.
            let last = u32::from(length);
            let mut events = vec![event(0, 0, &[])];
            let mut at = after(&plan, &Board::fresh(), &events);
            for c in 1..=length {
                let started = plan.links.iter().filter(|link| is_running(&at, link));
                assert_eq!(started.count(), 1);
                assert_eq!(outcome(&plan, &at), Outcome::Waiting);
                let minute = 2 * u32::from(c);
                for other in 1..=length {
                    let due = if other == c { 0 } else { 25 };
                    let only = event(minute, NONE, &[other]);
                    assert_eq!(number(&plan, &at, &only), due);
                    if other != c {
                        let both = event(minute, NONE, &[c, other]);
                        assert_eq!(number(&plan, &at, &both), 25);
                    }
                }
                events.push(event(minute, NONE, &[c]));
                at = after(&plan, &at, &events[events.len() - 1..]);
            }
            events.push(event(2 * last + 1, length + 1, &[]));
            let input = [&plan.to_bytes()[..], &[255; 16], &events.concat()].concat();
            let mut output = Vec::new();
            sheet(&mut input.as_slice(), &mut output).unwrap();
            let text = String::from_utf8(output).unwrap();
            assert!(text.ends_with("\nend kept\n"), "{text}");
            assert_eq!(text.lines().count() as u32, last + 3);
            // The longest chain of all.
            let said = Verb::Worst.said(&plan.to_bytes());
            let due = format!("worst {} {}\n", 3 * last + 1, (1 << length) - 1);
            assert_eq!(String::from_utf8(said.output).unwrap(), due);
        }
    }
    // A ninth is one too many.
    assert_eq!(refusal(10, &chain(9)), (6, 18));
}

/// Links of a ring of so many points, from point `from` on.
fn ring(from: u8, length: u8, bounds: impl Fn(u8) -> (i32, i32)) -> Vec<RawRecord> {
    let one = |k: u8| {
        let (x, y) = bounds(k);
        link(from + k, x, y, from + (k + 1) % length)
    };
    (0..length).map(one).collect()
}

#[test]
fn rings_are_accepted_and_a_cycle_at_0() {
    for length in 2..=8u8 {
        for far in [1, 40, 99_999] {
            let plan = plan(length, &ring(0, length, |_| (far, far + 1)));
            assert_eq!(read(&plan.to_bytes()), Ok(plan.clone()));
            assert_eq!(plan_test(&plan), Ok(Answer::Cycle(0)));
            // Nothing is open, and nothing runs.
            assert_eq!(outcome(&plan, &Board::fresh()), Outcome::Stuck);
            assert_eq!(number(&plan, &Board::fresh(), &event(0, 0, &[])), 22);
            assert_eq!(number(&plan, &Board::fresh(), &event(1, NONE, &[1])), 22);
        }
    }
    // 13 comes before the cycle.
    let wide = plan(3, &ring(0, 2, |_| (1, 65)));
    assert_eq!(plan_test(&wide), Err((13, 0)));
    // Beside a point that can be done, and a link that hangs on the ring.
    let hung = [ring(0, 3, |_| (1, 2)), vec![link(2, 1, 2, 4)]].concat();
    let plan = plan(5, &hung);
    assert_eq!(plan_test(&plan), Ok(Answer::Cycle(0)));
    let of = reply(&plan, &Board::fresh()).unwrap();
    assert_eq!(of.outcome, Outcome::Offers);
    let due = [0, 1, 2, 4].map(|point: usize| of.places[point]);
    assert_eq!(due, [Place::Watched; 4]);
    let done = after(&plan, &Board::fresh(), &[event(9, 3, &[])]);
    assert_eq!(outcome(&plan, &done), Outcome::Stuck);
    // No board on which a point of a ring is done is sound: somewhere round it a duration is below zero.
    for set in 1..8u32 {
        for minutes in 0..6u32.pow(3) {
            let points = (0..3).filter(|point| set >> point & 1 == 1);
            let at: Vec<_> = points
                .map(|point| (point, minutes / 6u32.pow(point as u32) % 6))
                .collect();
            assert!(!sound(&plan, &board(&at)));
        }
    }
}

/// Any small plan with a ring added: cycle at 0, whatever else is in it.
#[test]
fn a_ring_in_any_plan() {
    let mut random = Random::new(8);
    for round in 0..2_000 {
        let plan = match round % 2 {
            0 => random_plan(&mut random, 7),
            _ => chained_plan(&mut random, 7),
        };
        let points = plan.points() as u8;
        let length = random.between(2, 3) as u8;
        let x = random.between(1, 3);
        let mut all = plan.to_records();
        let at = random.below(plan.links.len() + 1) + plan.points();
        for record in ring(points, length, |_| (x, x + 1)).into_iter().rev() {
            all.insert(at, record);
        }
        for k in 0..length {
            all.insert(plan.points() + usize::from(k), point(points + k, 0));
        }
        let with_ring = read(&bytes(&all)).unwrap();
        assert!(ringed(&with_ring));
        assert_eq!(plan_test(&with_ring), Ok(Answer::Cycle(0)), "{with_ring:?}");
    }
}

/// Small plans with links that start where others end, that pass the test; every other one has a wait.
fn passing_chains(seed: u64, count: usize, points: usize) -> Vec<Plan> {
    let mut random = Random::new(seed);
    let mut plans = Vec::new();
    while plans.len() < count {
        let bound = random.between(1, 7);
        let plan = chained_plan(&mut random, bound);
        let waited = plans.len() % 2 == 0 || !plan.waits.is_empty();
        if plan.points() <= points && waited && passes(&plan) {
            plans.push(plan);
        }
    }
    plans
}

/// Demand 3 by trying everything: the foreman takes any offered point at any minute from its Low to some minutes past it or to the
/// latest, and haulage ends any of the running links wherever its bounds let it, with the foreman's point, before it or after.
#[test]
fn every_choice_finishes() {
    let mut runs = 0;
    for plan in passing_chains(81, 150, 4) {
        every_choice(&plan, &Board::fresh(), 0, &mut runs);
    }
    assert!(runs > 10_000, "{runs}");
}

fn every_choice(plan: &Plan, at: &Board, events: usize, runs: &mut u64) {
    let of = reply(plan, at).unwrap();
    if of.outcome == Outcome::Finished {
        assert!(events <= plan.points());
        assert!(at.clock() <= 100_000 * plan.points() as i64);
        assert_eq!(verdict(plan, at), Ok(Verdict::Kept));
        *runs += 1;
        return;
    }
    assert_ne!(of.outcome, Outcome::Stuck, "{plan:?} {at:?}");
    let running: Vec<_> = plan
        .links
        .iter()
        .filter(|link| is_running(at, link))
        .collect();
    let must_end = running.iter().map(|link| at.minute(link.a) + link.y).min();
    // The foreman's choices, and the minutes at which something may end.
    let mut choices: Vec<(i64, u8)> = Vec::new();
    for (point, place) in of.places.iter().enumerate() {
        if let Place::Offered(low) = *place {
            let last = of.latest.min(low + 2);
            choices.extend((low..=last).map(|minute| (minute, point as u8)));
        }
    }
    choices.retain(|choice| must_end.is_none_or(|last| choice.0 <= last));
    if let Some(last) = must_end {
        choices.extend((at.clock()..=last).map(|minute| (minute, NONE)));
    }
    let mut moves = 0;
    for (minute, foreman) in choices {
        let could = running.iter().filter(|link| {
            let duration = minute - at.minute(link.a);
            link.x <= duration && duration <= link.y
        });
        let could: Vec<u8> = could.map(|link| link.c as u8).collect();
        for subset in 0..1u32 << could.len() {
            let set = (0..could.len()).filter(|k| subset >> k & 1 == 1);
            let set: Vec<u8> = set.map(|k| could[k]).collect();
            if foreman == NONE && set.is_empty() {
                continue;
            }
            let ((number, _), next) = take(plan, at, &event(minute as u32, foreman, &set));
            // Where something is offered, haulage alone may come no later than the latest.
            if number == 30 && foreman == NONE && minute > of.latest {
                assert_eq!(of.outcome, Outcome::Offers);
                continue;
            }
            assert_eq!(number, 0, "{plan:?} {at:?} {minute} {foreman} {set:?}");
            moves += 1;
            every_choice(plan, &next, events + 1, runs);
        }
    }
    assert!(moves > 0, "{plan:?} {at:?}");
}

/// Are these minutes a good sheet? In the request's own words, but for the first minute and gaps, which are small here.
fn good(plan: &Plan, minutes: &[i64]) -> bool {
    let picked = |c: usize| minutes[c] - minutes[plan.link_to(c).unwrap().a];
    let links = plan.links.iter();
    let records = plan.ordinary.iter();
    let waits = plan.waits.iter();
    links
        .clone()
        .all(|link| (link.x..=link.y).contains(&picked(link.c)))
        && records
            .clone()
            .all(|one| minutes[one.y] - minutes[one.x] <= one.d)
        && waits.clone().all(|wait| {
            let a = plan.link_to(wait.c).unwrap().a;
            minutes[wait.v] - minutes[a] >= wait.w.min(picked(wait.c))
        })
}

/// No good sheet is forbidden, and nothing else is taken whole: all choices of minutes of small plans. At each minute the watched
/// points come in one event, and then the foreman's one by one.
#[test]
fn all_sheets_of_small_chains() {
    let (mut goods, mut others) = (0, 0);
    for plan in passing_chains(82, 200, 4) {
        let points = plan.points() as u32;
        let past: i64 = if points == 3 { 10 } else { 9 };
        for choice in 0..past.pow(points) {
            let minutes: Vec<i64> = (0..points)
                .map(|point| choice / past.pow(point) % past)
                .collect();
            let good = good(&plan, &minutes);
            // Most others are far off: of those only some.
            if !good && choice % 7 != 0 {
                continue;
            }
            let mut at = Board::fresh();
            let mut taken = true;
            for minute in 0..past {
                let now = (0..points as u8).filter(|&point| minutes[usize::from(point)] == minute);
                let (watched, mine): (Vec<u8>, Vec<u8>) =
                    now.partition(|&point| plan.watched(point.into()));
                let mut events = Vec::new();
                if !watched.is_empty() {
                    events.push(event(minute as u32, NONE, &watched));
                }
                events.extend(mine.iter().map(|&point| event(minute as u32, point, &[])));
                for event in events {
                    let ((number, _), next) = take(&plan, &at, &event);
                    taken &= number == 0;
                    at = next;
                }
            }
            assert_eq!(taken, good, "{plan:?} {minutes:?}");
            if good {
                assert!((0..points as usize).all(|point| at.minute(point) == minutes[point]));
                assert_eq!(verdict(&plan, &at), Ok(Verdict::Kept));
                goods += 1;
            } else {
                others += 1;
            }
        }
    }
    assert!(goods > 1_000 && others > 10_000, "{goods} {others}");
}

/// An imported sheet with a chain and one with a ring.
#[test]
fn imported() {
    let points = "point,0,,,,\r\npoint,1,,,,\r\npoint,2,,,,\r\n";
    let of = |links: &str| Verb::Import.said(format!("{points}{links}").as_bytes());
    let chain = of("link,0,1,1,2,\r\nlink,1,2,1,2,\r\n");
    let due = plan(3, &[link(0, 1, 2, 1), link(1, 1, 2, 2)]);
    assert_eq!((chain.output, chain.status), (due.to_bytes(), 0));
    let ring = of("link,0,1,1,2,\r\nlink,1,0,1,2,\r\n");
    let due = plan(3, &[link(0, 1, 2, 1), link(1, 1, 2, 0)]);
    assert_eq!((&ring.output, ring.status), (&due.to_bytes(), 0));
    let tested = Verb::Test.said(&ring.output);
    assert_eq!(
        (&tested.output[..], tested.status),
        (&b"test cycle 0\n"[..], 0)
    );
    let twice = of("link,0,1,1,2,\r\nlink,2,1,1,2,\r\n");
    assert_eq!(
        (&twice.errors[..], twice.status),
        (&b"import 10 4\n"[..], 1)
    );
}
