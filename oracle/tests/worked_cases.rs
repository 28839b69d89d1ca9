//! The thirteen worked cases of document 01.

mod common;
use common::*;
use oracle::board::{reply, Board, Outcome, Place, NO_LIST};
use oracle::plan::read;
use oracle::plan_test::{distances, edges, plan_test, vee_distances, Answer};
use oracle::text::sheet;

#[test]
fn case_1_the_test_says_yes() {
    assert_eq!(plan_test(&haul()), Ok(Answer::Yes(31)));
}

#[test]
fn case_2_without_the_wait() {
    let plan = haul_with(&[]);
    assert_eq!(plan_test(&plan), Ok(Answer::Pair(0, 3, 0)));
    let edges = edges(&plan, &[20]);
    assert_eq!(distances(4, &edges, 3).unwrap()[0], Some(-15));
    // 3 to 2 is no negative edge, so nothing allowed leads from 3 to 0.
    assert_eq!(vee_distances(4, &edges, 3).unwrap()[0], None);
}

#[test]
fn case_3_with_wait_34() {
    let plan = haul_with(&[wait(3, 2, 34)]);
    assert_eq!(plan_test(&plan), Ok(Answer::Pair(30, 3, 0)));
    let edges = edges(&plan, &[50]);
    assert_eq!(distances(4, &edges, 3).unwrap()[0], Some(-45));
    assert_eq!(vee_distances(4, &edges, 3).unwrap()[0], Some(-44));
}

#[test]
fn case_4_fresh() {
    let reply = reply(&haul(), &Board::fresh()).unwrap();
    assert_eq!(reply.outcome, Outcome::Offers);
    assert_eq!(reply.latest, 100_000);
    // 1 is shut by its record to 0, and 3 by its wait (document 02): records 5 and 8.
    let expected = [
        Place::Offered(0),
        Place::Shut(Some(5)),
        Place::Watched,
        Place::Shut(Some(8)),
    ];
    assert_eq!(reply.places[..4], expected);
    assert_eq!(reply.places[4..], NO_LIST[4..]);
}

#[test]
fn case_5_then_3_is_offered() {
    let plan = haul();
    let reply = reply(&plan, &hauling(&plan)).unwrap();
    assert_eq!(reply.outcome, Outcome::Offers);
    assert_eq!(reply.latest, 100_012);
    let expected = [
        Place::Done(0),
        Place::Done(12),
        Place::Watched,
        Place::Offered(47),
    ];
    assert_eq!(reply.places[..4], expected);
}

#[test]
fn case_6_bounds_of_the_drive() {
    let plan = haul();
    let now = hauling(&plan);
    let at = |minute| number(&plan, &now, &event(minute, NONE, &[2]));
    assert_eq!([at(31), at(32), at(62), at(63)], [26, 0, 0, 26]);
}

#[test]
fn case_7_too_early_and_run_out() {
    let plan = haul();
    let now = hauling(&plan);
    assert_eq!(number(&plan, &now, &event(46, 3, &[])), 29);
    assert_eq!(number(&plan, &now, &event(63, 3, &[])), 27);
}

#[test]
fn case_8_with_the_set() {
    let plan = haul();
    let now = hauling(&plan);
    assert_eq!(number(&plan, &now, &event(45, 3, &[2])), 29);
    let last = after(&plan, &now, &[event(47, 3, &[2])]);
    // Points 2 and 3 are of one event.
    let done = board(&[(0, 0), (1, 12), (2, 47), (3, 47)]);
    assert_eq!(last, numbered(done, &[1, 2, 3, 3]));
    assert_eq!(reply(&plan, &last).unwrap().outcome, Outcome::Finished);
}

#[test]
fn case_9_after_the_drive() {
    let plan = haul();
    let now = after(&plan, &hauling(&plan), &[event(40, NONE, &[2])]);
    let reply = reply(&plan, &now).unwrap();
    assert_eq!(reply.places[3], Place::Offered(40));
    assert_eq!(reply.latest, 45);
    assert_eq!(number(&plan, &now, &event(45, 3, &[])), 0);
    assert_eq!(number(&plan, &now, &event(46, 3, &[])), 30);
}

#[test]
fn case_10_stuck_when_fresh() {
    let plan = plan(2, &[ordinary(0, -5, 1), ordinary(1, -5, 0)]);
    let reply = reply(&plan, &Board::fresh()).unwrap();
    assert_eq!((reply.outcome, reply.latest), (Outcome::Stuck, 0));
    // Each by its record to the other (document 02).
    let shut = [Place::Shut(Some(2)), Place::Shut(Some(3))];
    assert_eq!(reply.places[..2], shut);
    assert_eq!(plan_test(&plan), Ok(Answer::Cycle(0)));
}

/// With the limit of document 02: 360 of document 01 is 1,128.
#[test]
fn case_11_room() {
    // 32 points, 8 links, an ordinary record for each pair of points (more would be twins), 64 waits.
    let mut rest = Vec::new();
    for n in 0..8 {
        rest.push(link(n, 1, 2, 8 + n));
    }
    rest.extend(ordinaries(992));
    rest.extend([wait(20, 8, 2)].repeat(64));
    let full = records(32, &rest);
    assert_eq!(full.len(), 1_096);
    assert_eq!(read(&bytes(&full)).unwrap().records(), 1_096);
    let mut more = full.clone();
    more.push(wait(20, 8, 2));
    assert_eq!(read(&bytes(&more)), Err((6, 1_096)));

    // 1,128 bad records pass test 3, 1,129 don't.
    assert_eq!(read(&[9; 18_048]), Err((4, 0)));
    assert_eq!(read(&[9; 18_048 + 16]), Err((3, 0)));
    // Nor do they where only one past the first 1,128 is wrong.
    more.resize(1_129, wait(20, 8, 2));
    assert_eq!(read(&bytes(&more[..1_128])), Err((6, 1_096)));
    assert_eq!(read(&bytes(&more)), Err((3, 0)));

    assert_eq!(refusal(32, &[]), (0, 0));
    assert_eq!(refusal(33, &[]), (6, 32));
}

#[test]
fn case_12_bounds() {
    let with = |w| [link(1, 20, 50, 2), wait(3, 2, w)];
    assert_eq!(refusal(4, &with(50)), (0, 0));
    assert_eq!(refusal(4, &with(51)), (11, 5));
    assert_eq!(refusal(4, &[link(1, 20, 20, 2)]), (11, 4));
    assert_eq!(refusal(4, &[link(1, 20, 21, 2)]), (0, 0));
}

#[test]
fn case_13_the_print() {
    let mut input = haul().to_bytes();
    input.extend([255; 16]);
    input.extend(event(0, 0, &[]));
    input.extend(event(12, 1, &[]));
    input.extend(event(40, NONE, &[2]));
    input.extend(event(43, 3, &[]));
    let mut output = Vec::new();
    sheet(&mut input.as_slice(), &mut output).unwrap();
    let expected = "0 0 0 1\n1 0 12 2\n2 0 40 3\n3 0 43 4\nend kept\n";
    assert_eq!(String::from_utf8(output).unwrap(), expected);
}
