//! Why is it shut? The first record in file order that keeps a point so, in the reply's list, beside 28 and in what is printed.

mod common;

use common::*;
use oracle::board::{
    held_by, is_open, reply, shut_by, sound, Board, Outcome, Place, NO_LIST, PLACES,
};
use oracle::event::take;
use oracle::plan::{read, Plan, RawRecord, RECORD};
use oracle::text::offers;

fn list(plan: &Plan, board: &Board) -> (Outcome, i64, Vec<Place>) {
    let reply = reply(plan, board).unwrap();
    assert_eq!(reply.places[plan.points()..], NO_LIST[plan.points()..]);
    let places = reply.places[..plan.points()].to_vec();
    (reply.outcome, reply.latest, places)
}

fn shut(record: u32) -> Place {
    Place::Shut(Some(record))
}

/// The number for an event and the record beside it.
fn told(plan: &Plan, before: &Board, minute: u32, foreman: u8, set: &[u8]) -> (u32, u32) {
    take(plan, before, &event(minute, foreman, set)).0
}

/// Points 0 to 3, link 4, records 5, 6 and 7, wait 8.
#[test]
fn the_haul() {
    let plan = haul();
    let fresh = Board::fresh();
    let places = vec![Place::Offered(0), shut(5), Place::Watched, shut(8)];
    assert_eq!(list(&plan, &fresh), (Outcome::Offers, 100_000, places));
    let called = board(&[(0, 0)]);
    let places = vec![Place::Done(0), Place::Offered(10), Place::Watched, shut(8)];
    assert_eq!(list(&plan, &called), (Outcome::Offers, 100_000, places));
    // The truck has left: the wait holds nothing shut any more, though the truck is not there.
    let left = hauling(&plan);
    assert_eq!(list(&plan, &left).2[3], Place::Offered(47));
    // Loaded before the truck is there: nothing is left but to wait.
    let loaded = board(&[(0, 0), (1, 12), (3, 50)]);
    let places = [Place::Done(0), Place::Done(12), Place::Watched];
    let places = [&places[..], &[Place::Done(50)]].concat();
    assert_eq!(list(&plan, &loaded), (Outcome::Waiting, 0, places));
    // Too late for the loading.
    let late = board(&[(1, 12), (2, 40), (0, 46)]);
    let places = [Place::Done(46), Place::Done(12), Place::Done(40)];
    let places = [&places[..], &[Place::Held]].concat();
    assert_eq!(list(&plan, &late), (Outcome::Stuck, 0, places));
    let finished = board(&[(0, 0), (1, 12), (2, 40), (3, 43)]);
    assert_eq!(reply(&plan, &finished).unwrap().places, NO_LIST);
}

#[test]
fn number_28_of_the_haul() {
    let plan = haul();
    let fresh = Board::fresh();
    assert_eq!(told(&plan, &fresh, 0, 1, &[]), (28, 5));
    assert_eq!(told(&plan, &fresh, 0, 3, &[]), (28, 8));
    assert_eq!(told(&plan, &fresh, 100_001, 3, &[]), (28, 8));
    // Watched, and done.
    assert_eq!(told(&plan, &fresh, 0, 2, &[]), (28, 0));
    let left = hauling(&plan);
    assert_eq!(told(&plan, &left, 47, 0, &[]), (28, 0));
    assert_eq!(told(&plan, &left, 47, 2, &[]), (28, 0));
    // No other number has a record.
    for (minute, point, set, number) in [
        (0, 4, &[][..], 23),
        (11, 3, &[], 24),
        (47, 3, &[0], 25),
        (31, NONE, &[2], 26),
        (63, 1, &[], 27),
        (46, 3, &[], 29),
        (40, 3, &[2], 29),
    ] {
        assert_eq!(told(&plan, &left, minute, point, set), (number, 0));
    }
    assert_eq!(told(&plan, &fresh, 100_001, 0, &[]), (30, 0));
}

/// Points 0 to 5, links 6 and 7 from 0 to 4 and from 1 to 5, records 8 to 12, waits 13 to 16.
fn barred() -> Plan {
    plan(
        6,
        &[
            link(0, 2, 5, 4),
            link(1, 2, 5, 5),
            ordinary(3, 0, 2),
            ordinary(3, 7, 1),
            ordinary(3, -1, 0),
            ordinary(3, -1, 4),
            ordinary(4, -9, 2),
            wait(2, 5, 3),
            wait(2, 4, 3),
            wait(3, 5, 3),
            wait(2, 5, 4),
        ],
    )
}

#[test]
fn the_first_of_several() {
    let plan = barred();
    let all = |board: &Board, v: usize| -> Vec<u32> {
        held_by(&plan, board)[v].iter().copied().collect()
    };
    let fresh = Board::fresh();
    // Of 3: not 8, whose d is 0, nor 9, which is above.
    assert_eq!(all(&fresh, 3), [10, 11, 15]);
    assert_eq!(all(&fresh, 2), [13, 14, 16]);
    // A watched point is held by nothing, though its record 12 would.
    assert!(all(&fresh, 4).is_empty());
    let started = board(&[(0, 0)]);
    assert_eq!(
        (all(&started, 3), shut_by(&plan, &started, 3)),
        (vec![11, 15], Some(11))
    );
    // 14 waits for 4, which has not come; but its A has, so it holds nothing.
    assert_eq!(
        (all(&started, 2), shut_by(&plan, &started, 2)),
        (vec![13, 16], Some(13))
    );
    let there = board(&[(0, 0), (4, 2)]);
    assert_eq!(
        (all(&there, 3), shut_by(&plan, &there, 3)),
        (vec![15], Some(15))
    );
    let other = board(&[(1, 0)]);
    assert_eq!(
        (all(&other, 2), shut_by(&plan, &other, 2)),
        (vec![14], Some(14))
    );
    assert_eq!(
        (all(&other, 3), shut_by(&plan, &other, 3)),
        (vec![10, 11], Some(10))
    );
    let both = board(&[(0, 0), (1, 0)]);
    assert_eq!((all(&both, 2), shut_by(&plan, &both, 2)), (vec![], None));
    // A done point is held by nothing either, though 11 would hold it.
    let odd = board(&[(0, 0), (3, 1)]);
    assert!(sound(&plan, &odd) && all(&odd, 3).is_empty());
    assert_eq!(told(&plan, &odd, 1, 3, &[]), (28, 0));
    assert_eq!(told(&plan, &odd, 1, 4, &[]), (28, 0));
    assert_eq!(told(&plan, &odd, 1, 2, &[]), (28, 13));
}

#[test]
fn stuck_boards() {
    // 1 is open and late, 2 is shut by its record to 1, 3 is watched; the link runs all the same.
    let rest = [
        link(0, 1, 9, 3),
        ordinary(0, 4, 1),
        ordinary(1, -5, 0),
        ordinary(2, -1, 1),
    ];
    let late = plan(4, &rest);
    let places = vec![Place::Done(2), Place::Held, shut(7), Place::Watched];
    assert_eq!(list(&late, &board(&[(0, 2)])), (Outcome::Stuck, 0, places));
    // Nothing is open and nothing runs.
    let ring = plan(3, &[link(0, 1, 2, 1), link(1, 1, 2, 0), ordinary(2, -1, 0)]);
    let places = vec![Place::Watched, Place::Watched, shut(5)];
    assert_eq!(list(&ring, &Board::fresh()), (Outcome::Stuck, 0, places));
    assert_eq!(told(&ring, &Board::fresh(), 0, 2, &[]), (22, 0));
}

/// The plan of the first so many records of a file.
fn first_records(records: &[RawRecord], count: usize) -> Plan {
    read(&bytes(&records[..count])).unwrap()
}

/// Document 01's rule alone says which record is first: the one with which, read from the front, the file no longer leaves
/// the point open. So a point is open exactly when no record holds it.
#[test]
fn the_first_record_with_which_a_file_leaves_a_point_shut() {
    let mut random = Random::new(6);
    let (mut open, mut by_ordinary, mut by_wait, mut second) = (0, 0, 0, 0);
    for round in 0..20_000 {
        let plan = match round % 2 {
            0 => random_plan(&mut random, 4),
            _ => chained_plan(&mut random, 4),
        };
        let records = plan.to_records();
        let fewest = plan.points() + plan.links.len();
        let waits = fewest + plan.ordinary.len();
        // Any points done, whether or not that is sound: the rules are about what is done.
        let mut at = Board::fresh();
        for point in 0..plan.points() {
            if random.below(3) == 0 {
                at.done |= 1 << point;
            }
        }
        let held = held_by(&plan, &at);
        for (v, holders) in held.iter().enumerate().take(plan.points()) {
            assert_eq!(shut_by(&plan, &at, v), holders.first().copied());
            if plan.watched(v) || at.is_done(v) {
                assert!(holders.is_empty());
                continue;
            }
            let shuts = |&count: &usize| !is_open(&first_records(&records, count), &at, v);
            let first = (fewest..=records.len()).find(shuts);
            // The last one of so many records is the one.
            let first = first.map(|count| count as u32 - 1);
            assert_eq!(holders.first().copied(), first, "{plan:?} {at:?} {v}");
            assert_eq!(is_open(&plan, &at, v), holders.is_empty());
            match first {
                None => open += 1,
                Some(number) if (number as usize) < waits => by_ordinary += 1,
                Some(_) => by_wait += 1,
            }
            second += u32::from(holders.len() > 1);
        }
        assert!(held[plan.points()..].iter().all(|none| none.is_empty()));
    }
    let seen = [open, by_ordinary, by_wait, second];
    assert!(seen.iter().all(|count| *count > 300), "{seen:?}");
}

/// Each reply of a run: what the list says and what 28 says of every point go together.
#[test]
fn the_list_and_28_go_together() {
    let mut random = Random::new(7);
    let mut seen = [0; 4];
    for round in 0..6_000 {
        let plan = match round % 2 {
            0 => random_plan(&mut random, 4),
            _ => chained_plan(&mut random, 4),
        };
        let mut now = Board::fresh();
        for _ in 0..8 {
            let (outcome, latest, places) = list(&plan, &now);
            assert!(outcome == Outcome::Offers || latest == 0);
            for (v, place) in places.iter().enumerate() {
                let number = told(&plan, &now, now.clock, v as u8, &[]);
                let due = match *place {
                    _ if outcome == Outcome::Finished => (21, 0),
                    _ if outcome == Outcome::Stuck => (22, 0),
                    Place::Done(_) | Place::Watched => (28, 0),
                    Place::Shut(record) => (28, record.unwrap()),
                    // An end that something open has is at the clock or later.
                    Place::Held => (29, 0),
                    Place::Offered(low) if low > now.clock() => (29, 0),
                    Place::Offered(_) => (0, 0),
                };
                assert_eq!(number, due, "{plan:?} {now:?} {v}");
                seen[outcome as usize] += 1;
                if outcome == Outcome::Waiting {
                    assert!(!matches!(place, Place::Held | Place::Offered(_)));
                }
                if outcome == Outcome::Stuck {
                    assert_eq!(*place == Place::Held, is_open(&plan, &now, v));
                }
            }
            let minute = now.clock + random.below(5) as u32;
            let point = random.below(plan.points() + 1) as u8;
            let point = if point as usize == plan.points() {
                NONE
            } else {
                point
            };
            let set: Vec<u8> = plan.links.iter().map(|link| link.c as u8).collect();
            let set: Vec<u8> = set.into_iter().filter(|_| random.below(2) == 0).collect();
            now = take(&plan, &now, &event(minute, point, &set)).1;
        }
    }
    assert!(seen.iter().all(|count| *count > 200), "{seen:?}");
}

fn printed(plan: &Plan, events: &[[u8; RECORD]]) -> String {
    let mut input = plan.to_bytes();
    input.extend([255; RECORD]);
    input.extend(events.concat());
    let mut output = Vec::new();
    offers(&mut input.as_slice(), &mut output).unwrap();
    String::from_utf8(output).unwrap()
}

#[test]
fn what_offers_prints() {
    // 28 with its record and without, a waiting board's list, and a stuck one's.
    let rest = [
        link(0, 2, 5, 1),
        ordinary(2, -100_000, 1),
        ordinary(1, 7, 2),
        wait(3, 1, 5),
    ];
    let plan = plan(4, &rest);
    let events = [
        event(0, 3, &[]),
        event(0, 0, &[]),
        event(0, 0, &[]),
        event(0, 1, &[]),
        event(5, 3, &[]),
        event(5, 2, &[]),
        event(5, NONE, &[1]),
    ];
    let expected = "\
test cycle 0
board 0 0 offers 100000
point 0 0 offered 0
point 1 0 watched
point 2 0 shut 5 ordinary 2 -100000 1
point 3 0 shut 7 wait 3 1 5
event 0 28 7
board 0 0 offers 100000
point 0 0 offered 0
point 1 0 watched
point 2 0 shut 5 ordinary 2 -100000 1
point 3 0 shut 7 wait 3 1 5
event 1 0
board 0 1 offers 100000
point 0 0 done 0
point 1 0 watched
point 2 0 shut 5 ordinary 2 -100000 1
point 3 0 offered 5
event 2 28
board 0 1 offers 100000
point 0 0 done 0
point 1 0 watched
point 2 0 shut 5 ordinary 2 -100000 1
point 3 0 offered 5
event 3 28
board 0 1 offers 100000
point 0 0 done 0
point 1 0 watched
point 2 0 shut 5 ordinary 2 -100000 1
point 3 0 offered 5
event 4 0
board 5 2 waiting
point 0 0 done 0
point 1 0 watched
point 2 0 shut 5 ordinary 2 -100000 1
point 3 0 done 5
event 5 28 5
board 5 2 waiting
point 0 0 done 0
point 1 0 watched
point 2 0 shut 5 ordinary 2 -100000 1
point 3 0 done 5
event 6 0
board 5 3 stuck
point 0 0 done 0
point 1 0 done 5
point 2 0 held
point 3 0 done 5
end stuck
";
    assert_eq!(printed(&plan, &events), expected);
}

/// The last record of a full plan can be the one.
#[test]
fn the_last_record_of_a_full_plan() {
    let mut rest = vec![link(0, 1, 2, 1)];
    // Every pair of points, none of them negative.
    rest.extend(ordinaries(992));
    rest.extend([wait(2, 1, 2); 63]);
    rest.push(wait(3, 1, 2));
    let plan = plan(32, &rest);
    let places = list(&plan, &Board::fresh()).2;
    assert_eq!(places[2..5], [shut(1_025), shut(1_088), Place::Offered(0)]);
    assert_eq!(plan.records(), 1_089);
    assert_eq!(told(&plan, &Board::fresh(), 0, 3, &[]), (28, 1_088));
    assert_eq!(NO_LIST.len(), PLACES);
}
