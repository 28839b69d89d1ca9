//! The places where a first reading goes wrong, and the wrong readings of document 01.

mod common;
use common::*;
use oracle::board::{
    high, is_open, latest, least_high, low, reply, Board, Outcome, Place, NO_LIST,
};
use oracle::plan_test::{edges, fault, plan_test, Answer, Fault};
use oracle::verdict::{verdict, Verdict};

#[test]
fn h_below_zero() {
    let plan = plan(3, &[link(0, 1, 5, 1), ordinary(1, -10, 2)]);
    let now = after(
        &plan,
        &Board::fresh(),
        &[event(0, 0, &[]), event(3, NONE, &[1])],
    );
    assert_eq!(least_high(&plan, &now), Some(-7));
    assert_eq!(latest(&plan, &now), -7);
    let reply = reply(&plan, &now).unwrap();
    assert_eq!((reply.outcome, reply.latest), (Outcome::Stuck, 0));
    // The list has nothing below zero either (document 02).
    let list = [Place::Done(0), Place::Done(3), Place::Held];
    assert_eq!(reply.places[..3], list);
    assert_eq!(number(&plan, &now, &event(3, 2, &[])), 22);
}

#[test]
fn projections_far_past_64_bits() {
    let links: Vec<_> = (0..8).map(|n| link(n, 1, 100_000, 8 + n)).collect();
    assert_eq!(plan_test(&plan(16, &links)), Err((13, 0)));
}

#[test]
fn the_bound_of_27_is_strict() {
    let plan = plan(4, &[link(0, 1, 5, 1)]);
    let now = board(&[(0, 0)]);
    assert_eq!(number(&plan, &now, &event(6, 2, &[])), 27);
    let now = after(&plan, &now, &[event(5, 2, &[])]);
    let now = after(&plan, &now, &[event(5, NONE, &[1])]);
    assert_eq!(now, board(&[(0, 0), (2, 5), (1, 5)]));
}

#[test]
fn the_latest_binds_watched_points_where_something_is_open() {
    let open = plan(3, &[link(0, 10, 20, 1), ordinary(0, 12, 2)]);
    let now = board(&[(0, 0)]);
    assert_eq!(number(&open, &now, &event(12, NONE, &[1])), 0);
    assert_eq!(number(&open, &now, &event(13, NONE, &[1])), 30);
    // The same with point 2 shut: nothing is open, and nothing is past the latest.
    let rest = [link(0, 10, 20, 1), ordinary(0, 12, 2), ordinary(2, -1, 1)];
    let shut = plan(3, &rest);
    assert_eq!(reply(&shut, &now).unwrap().outcome, Outcome::Waiting);
    assert_eq!(number(&shut, &now, &event(13, NONE, &[1])), 0);
    assert_eq!(number(&shut, &now, &event(20, NONE, &[1])), 0);
}

#[test]
fn all_done_and_stuck_come_before_23() {
    let one = plan(1, &[]);
    assert_eq!(number(&one, &board(&[(0, 0)]), &[1, 2, 3]), 21);
    let stuck = plan(2, &[ordinary(0, -5, 1), ordinary(1, -5, 0)]);
    assert_eq!(number(&stuck, &Board::fresh(), &[]), 22);
    assert_eq!(number(&stuck, &Board::fresh(), &[255; 16]), 22);
}

#[test]
fn each_number_is_tested_over_the_whole_set_first() {
    let plan = plan(
        5,
        &[link(0, 10, 20, 1), link(0, 30, 40, 2), link(3, 1, 9, 4)],
    );
    let now = board(&[(0, 0)]);
    // 1 is outside its bounds, 4 does not end a running link.
    assert_eq!(number(&plan, &now, &event(5, NONE, &[1, 4])), 25);
    // 1 ran out, 2 in the set is outside its bounds.
    assert_eq!(number(&plan, &now, &event(25, NONE, &[2])), 26);
    assert_eq!(number(&plan, &now, &event(35, NONE, &[2])), 27);
    assert_eq!(number(&plan, &now, &event(15, NONE, &[1])), 0);
}

#[test]
fn high_takes_negative_d_and_watched_points() {
    let rest = [
        link(0, 1, 50, 1),
        ordinary(1, -3, 2),
        ordinary(0, 100, 2),
        ordinary(0, 4, 3),
        ordinary(3, -1, 4),
        ordinary(0, 1, 1),
    ];
    let plan = plan(5, &rest);
    let now = board(&[(0, 10), (1, 30)]);
    assert_eq!(high(&plan, &now, 2), Some(27));
    assert_eq!(high(&plan, &now, 3), Some(14));
    assert_eq!(high(&plan, &now, 4), None);
    // 3 is not open, so its High is left out; so is that of the watched point.
    assert_eq!(least_high(&plan, &now), Some(27));
    assert!(!is_open(&plan, &board(&[(0, 10)]), 1));
    assert_eq!(least_high(&plan, &board(&[(0, 10)])), Some(110));
}

#[test]
fn low_forgets_a_wait_and_open_needs_its_a() {
    let plan = plan(4, &[link(0, 5, 50, 1), ordinary(3, 0, 2), wait(2, 1, 40)]);
    assert!(!is_open(&plan, &Board::fresh(), 2));
    assert!(is_open(&plan, &Board::fresh(), 3)); // d = 0 does not shut
    let running = board(&[(0, 10)]);
    assert!(is_open(&plan, &running, 2));
    assert_eq!(low(&plan, &running, 2), 50);
    assert_eq!(low(&plan, &board(&[(0, 10), (1, 20)]), 2), 20);
    // A record with d = 0 or more still bounds from below once its Y is done.
    assert_eq!(low(&plan, &board(&[(0, 10), (2, 60)]), 3), 60);
}

#[test]
fn a_pair_at_0_comes_before_a_cycle_at_1() {
    let rest = [link(0, 1, 2, 1), ordinary(0, 1, 1)];
    assert_eq!(plan_test(&plan(5, &rest)), Ok(Answer::Cycle(1)));
    let rest = [rest[0], rest[1], ordinary(2, 5, 3), ordinary(3, -2, 4)];
    assert_eq!(plan_test(&plan(5, &rest)), Ok(Answer::Pair(0, 2, 4)));
    // Within one projection a cycle comes first.
    let both = [
        ordinary(0, 5, 1),
        ordinary(1, -2, 2),
        ordinary(3, -1, 4),
        ordinary(4, 0, 3),
    ];
    assert_eq!(plan_test(&plan(5, &both)), Ok(Answer::Cycle(0)));
}

#[test]
fn order_of_the_file_numbers() {
    assert_eq!(refusal(2, &[ordinary(2, 0, 2)]), (8, 2));
    let mut file = bytes(&records(32, &[]));
    file.extend(record(1, 32, 7, 0, 0, 0).bytes());
    assert_eq!(oracle::plan::read(&file), Err((6, 32)));
    assert_eq!(oracle::plan::read(&[0; 1_129 * 16]), Err((3, 0)));
}

#[test]
fn links_may_share_an_a_and_a_wait_has_its_own_y() {
    let links = [link(0, 10, 20, 1), link(0, 30, 40, 2)];
    let with = |v, c, w| refusal(4, &[links[0], links[1], wait(v, c, w)]);
    assert_eq!(with(3, 1, 20), (0, 0));
    assert_eq!(with(3, 1, 21), (11, 6));
    assert_eq!(with(3, 2, 40), (0, 0));
    assert_eq!(with(3, 2, 41), (11, 6));
    assert_eq!(with(3, 2, 1), (0, 0)); // w below x
    let plan = plan(4, &links);
    let ended = after(&plan, &board(&[(0, 0)]), &[event(15, NONE, &[1])]);
    assert_eq!(number(&plan, &ended, &event(30, NONE, &[2])), 0);
}

#[test]
fn the_largest_minute_is_not_below_the_clock() {
    let plan = plan(3, &[link(0, 1, 5, 1)]);
    let running = board(&[(0, 7)]);
    assert_eq!(number(&plan, &running, &event(u32::MAX, NONE, &[1])), 26);
    assert_eq!(number(&plan, &running, &event(u32::MAX, 2, &[])), 27);
    let ended = board(&[(0, 7), (1, 9)]);
    assert_eq!(number(&plan, &ended, &event(u32::MAX, 2, &[])), 30);
}

#[test]
fn a_broken_record_is_counted_in_the_file() {
    let plan = plan(2, &[link(0, 1, 5, 1), ordinary(1, 0, 0), ordinary(0, 2, 1)]);
    let last = |minute| {
        let events = [event(0, 0, &[]), event(minute, NONE, &[1])];
        verdict(&plan, &after(&plan, &Board::fresh(), &events))
    };
    assert_eq!(last(2), Ok(Verdict::Kept));
    assert_eq!(last(3), Ok(Verdict::Broken(4)));
    // On a board by value a wait can be broken.
    let haul = haul();
    let by_value = |minute| verdict(&haul, &board(&[(0, 0), (1, 12), (2, 40), (3, minute)]));
    assert_eq!(by_value(39), Ok(Verdict::Broken(8)));
    assert_eq!(by_value(40), Ok(Verdict::Kept));
    // w is the lesser one: C − A = 48 and w = 35.
    let by_value = |minute| verdict(&haul, &board(&[(0, 0), (1, 12), (2, 60), (3, minute)]));
    assert_eq!(by_value(46), Ok(Verdict::Broken(8)));
    assert_eq!(by_value(47), Ok(Verdict::Kept));
    assert_eq!(by_value(44), Ok(Verdict::Broken(7))); // the ordinary record comes first
}

#[test]
fn held_means_past_h() {
    let rest = [ordinary(0, 10, 1), ordinary(2, -11, 0), ordinary(3, -10, 0)];
    let plan = plan(4, &rest);
    let reply = reply(&plan, &board(&[(0, 0)])).unwrap();
    assert_eq!((reply.outcome, reply.latest), (Outcome::Offers, 10));
    let expected = [
        Place::Done(0),
        Place::Offered(0),
        Place::Held,
        Place::Offered(10),
    ];
    assert_eq!(reply.places[..4], expected);
    // Low at clock + 100,000 is still offered.
    let far = common::plan(2, &[ordinary(1, -100_000, 0)]);
    let reply = oracle::board::reply(&far, &board(&[(0, 5)])).unwrap();
    assert_eq!(reply.places[1], Place::Offered(100_005));
    assert_eq!(reply.latest, 100_005);
}

#[test]
fn finished_carries_nothing_and_waiting_a_list() {
    let plan = plan(
        3,
        &[link(0, 1, 5, 1), ordinary(2, -1, 1), ordinary(1, 3, 2)],
    );
    let finished = reply(&plan, &board(&[(0, 0), (1, 4), (2, 5)])).unwrap();
    assert_eq!((finished.outcome, finished.latest), (Outcome::Finished, 0));
    assert_eq!(finished.places, NO_LIST);
    // Document 02: the list of a waiting board is filled, and its latest stays 0.
    let waiting = reply(&plan, &board(&[(0, 0)])).unwrap();
    assert_eq!((waiting.outcome, waiting.latest), (Outcome::Waiting, 0));
    let list = [Place::Done(0), Place::Watched, Place::Shut(Some(4))];
    assert_eq!(waiting.places[..3], list);
    assert_eq!(waiting.places[3..], NO_LIST[3..]);
    // A watched point that is done reads done; room past the last point reads shut.
    let offers = reply(&plan, &board(&[(0, 0), (1, 4)])).unwrap();
    assert_eq!(offers.places[1], Place::Done(4));
    assert_eq!(offers.places[2], Place::Offered(5));
    assert_eq!(offers.places[3..], NO_LIST[3..]);
}

#[test]
fn a_running_link_does_not_unstick_a_board() {
    let rest = [link(0, 1, 5, 1), ordinary(0, 2, 2), ordinary(2, -3, 0)];
    let plan = plan(3, &rest);
    let reply = reply(&plan, &board(&[(0, 0)])).unwrap();
    assert_eq!(reply.outcome, Outcome::Stuck);
}

/// A plan after document 000, figure 1. From V = 2 to Y = 3 the allowed paths have lengths
/// 13 − max(2, p) by A, and 6 + p − max(2, p) by A and C; 2, 4, 3 has 6 − 1 = 5, but is not
/// allowed. At p = 1 the second is 5, from p = 8 the first is at most 5, between them both are 6
/// or more.
#[test]
fn a_plan_that_fails_only_inside_its_bounds() {
    let rest = [
        link(0, 1, 10, 1),
        ordinary(2, -2, 0),
        ordinary(1, 6, 3),
        ordinary(0, 13, 3),
        ordinary(2, 6, 4),
        ordinary(4, -1, 3),
        wait(2, 1, 10),
    ];
    let plan = plan(5, &rest);
    for p in 1..=10 {
        let expected = match p {
            2..=7 => Some(Fault::Pair(2, 3)),
            _ => None,
        };
        assert_eq!(fault(5, &edges(&plan, &[p])), expected, "{p}");
    }
    assert_eq!(plan_test(&plan), Ok(Answer::Pair(1, 2, 3)));
}

#[test]
fn a_wait_is_projected_by_the_shorter_of_w_and_p() {
    // With −50 in every projection the first would have a cycle of 20 + 5 − 50.
    assert_eq!(
        plan_test(&haul_with(&[wait(3, 2, 50)])),
        Ok(Answer::Yes(31))
    );
}

#[test]
fn windows_are_those_before_the_event() {
    // Once 1 is done, 2 is bound to 3 minutes after it and the wait is forgotten; not before.
    let rest = [
        link(0, 10, 20, 1),
        ordinary(1, 3, 2),
        ordinary(3, -1, 1),
        wait(2, 1, 15),
    ];
    let plan = plan(4, &rest);
    let now = board(&[(0, 0)]);
    assert_eq!(number(&plan, &now, &event(14, 2, &[1])), 29);
    assert_eq!(number(&plan, &now, &event(15, 2, &[1])), 0);
    // 3 is opened by point 1, but not in the same event.
    assert_eq!(number(&plan, &now, &event(15, 3, &[1])), 28);
}

#[test]
fn projections_in_order_last_link_fastest() {
    // A record that one duration breaks: a cycle in the first projection with that duration.
    let links = [link(0, 1, 2, 1), link(2, 1, 3, 3)];
    let cap = |x, d, y| [links[0], links[1], ordinary(x, d, y)];
    assert_eq!(plan_test(&plan(4, &cap(2, 2, 3))), Ok(Answer::Cycle(2)));
    assert_eq!(plan_test(&plan(4, &cap(0, 1, 1))), Ok(Answer::Cycle(3)));
    assert_eq!(plan_test(&plan(4, &cap(0, 2, 1))), Ok(Answer::Yes(6)));
}
