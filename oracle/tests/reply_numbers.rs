//! Each reply number at its exact edge, and not one step before it.

mod common;
use common::*;
use oracle::board::{reply, sound, Board};
use oracle::by_value;
use oracle::event::take;
use oracle::plan::{check, read, read_by_value, read_with, write, RawPlan, RawRecord};
use oracle::plan_test::{plan_test, Answer};
use oracle::verdict::{judge, verdict, Listed, Verdict};

/// The refusal of these bytes, (0, 0) if there is none.
fn reading(bytes: &[u8]) -> (u32, u32) {
    read(bytes).err().unwrap_or((0, 0))
}

/// Four points and these records, with one byte of the last record changed.
fn with_byte(rest: &[RawRecord], at: usize, byte: u8) -> (u32, u32) {
    let mut file = bytes(&records(4, rest));
    let last = file.len() - 16;
    file[last + at] = byte;
    reading(&file)
}

#[test]
fn numbers_1_and_2_lengths() {
    let file = bytes(&records(2, &[]));
    assert_eq!(reading(&[]), (1, 0));
    assert_eq!(reading(&file[..1]), (2, 0));
    assert_eq!(reading(&file[..15]), (2, 0));
    assert_eq!(reading(&file[..16]), (0, 0));
    assert_eq!(reading(&file[..17]), (2, 0));
    assert_eq!(reading(&file[..31]), (2, 0));
    assert_eq!(reading(&file[..32]), (0, 0));
}

#[test]
fn number_3_too_many() {
    assert_eq!(reading(&[0; 361 * 16]), (4, 0));
    assert_eq!(reading(&[0; 1_128 * 16]), (4, 0));
    assert_eq!(reading(&[0; 1_128 * 16 + 1]), (2, 0));
    assert_eq!(reading(&[0; 1_129 * 16]), (3, 0));
    assert_eq!(reading(&[0; 1_129 * 16 + 15]), (2, 0));
    assert_eq!(reading(&[0; 5_000 * 16]), (3, 0));
}

#[test]
fn number_4_kinds() {
    for kind in 0..=255 {
        let answer = refusal(2, &[record(kind, 0, 1, 0, 0, 0)]);
        let expected = match kind {
            1 => (7, 2),  // byte 2 of a point
            2 => (11, 2), // a link from 0 to 0 minutes
            3 => (0, 0),  // all that an ordinary record needs
            4 => (10, 2), // 1 is not watched
            _ => (4, 2),
        };
        assert_eq!(answer, expected);
    }
    assert_eq!(reading(&[255; 16]), (4, 0));
}

#[test]
fn number_5_falling_kinds() {
    let all = [
        point(4, 9),
        link(0, 1, 2, 1),
        ordinary(0, 1, 1),
        wait(2, 1, 1),
    ];
    for (i, before) in all.iter().enumerate() {
        for (j, next) in all.iter().enumerate() {
            // The link that a wait needs.
            let mut rest = vec![all[1]; usize::from(i > 1)];
            rest.push(*before);
            rest.push(*next);
            let place = 4 + rest.len() as u32 - 1;
            let answer = refusal(4, &rest);
            if j < i {
                assert_eq!(answer, (5, place));
            } else {
                assert_ne!(answer.0, 5);
            }
        }
    }
    // An unknown kind gives 4 before 5.
    assert_eq!(
        refusal(2, &[ordinary(0, 1, 1), record(0, 0, 1, 0, 0, 0)]),
        (4, 3)
    );
}

#[test]
fn number_6_one_too_many() {
    assert_eq!(refusal(32, &[]), (0, 0));
    assert_eq!(refusal(33, &[]), (6, 32));
    let links: Vec<_> = (0..9).map(|n| link(n, 1, 2, n + 10)).collect();
    assert_eq!(refusal(32, &links[..8]), (0, 0));
    assert_eq!(refusal(32, &links), (6, 40));
    // Twins are refused before there can be one too many of the ordinary records (document 02).
    let all = ordinaries(992);
    assert_eq!(refusal(32, &all), (0, 0));
    assert_eq!(refusal(32, &[&all[..], &all[..33]].concat()), (15, 1_024));
    let mut waits = vec![link(0, 1, 2, 1)];
    waits.extend(vec![wait(2, 1, 1); 65]);
    assert_eq!(refusal(3, &waits[..65]), (0, 0));
    assert_eq!(refusal(3, &waits), (6, 3 + 65));
}

#[test]
fn number_7_fields_shown_as_0() {
    let point = [point(4, 0)];
    let link = [link(0, 1, 2, 1)];
    let ordinary = [ordinary(0, 1, 1)];
    let wait = [link[0], wait(2, 1, 1)];
    let kinds: [(&[RawRecord], &[usize]); 4] = [
        (&point, &[2, 3, 4, 5, 6, 7, 8, 9, 10, 11]),
        (&link, &[3, 12, 13, 14, 15]),
        (&ordinary, &[3, 8, 9, 10, 11, 12, 13, 14, 15]),
        (&wait, &[3, 8, 9, 10, 11, 12, 13, 14, 15]),
    ];
    for (rest, zeros) in kinds {
        let place = 4 + rest.len() as u32 - 1;
        for at in 1..16 {
            for byte in [1, 128, 255] {
                let answer = with_byte(rest, at, byte);
                assert_eq!(answer == (7, place), zeros.contains(&at), "{at} {byte}");
            }
            if zeros.contains(&at) {
                assert_eq!(with_byte(rest, at, 0), (0, 0));
            }
        }
    }
    // A pond code may be any value.
    for at in 12..16 {
        assert_eq!(with_byte(&point, at, 255), (0, 0));
    }
}

#[test]
fn number_8_missing_points() {
    assert_eq!(reading(&bytes(&[point(1, 0)])), (8, 0));
    assert_eq!(refusal(2, &[point(1, 0)]), (8, 2));
    assert_eq!(refusal(2, &[point(2, 0)]), (0, 0));
    assert_eq!(refusal(2, &[point(3, 0)]), (8, 2));
    assert_eq!(refusal(3, &[link(2, 1, 2, 1)]), (0, 0));
    assert_eq!(refusal(3, &[link(3, 1, 2, 1)]), (8, 3));
    assert_eq!(refusal(3, &[link(1, 1, 2, 3)]), (8, 3));
    assert_eq!(refusal(3, &[ordinary(2, 1, 0)]), (0, 0));
    assert_eq!(refusal(3, &[ordinary(3, 1, 0)]), (8, 3));
    assert_eq!(refusal(3, &[ordinary(0, 1, 255)]), (8, 3));
    let started = link(0, 1, 2, 1);
    assert_eq!(refusal(3, &[started, wait(2, 1, 1)]), (0, 0));
    assert_eq!(refusal(3, &[started, wait(3, 1, 1)]), (8, 4));
    assert_eq!(refusal(3, &[started, wait(2, 3, 1)]), (8, 4));
    // A file without points has no point to name.
    assert_eq!(refusal(0, &[ordinary(0, 1, 1)]), (8, 0));
}

#[test]
fn number_9_equal_points() {
    assert_eq!(refusal(2, &[link(1, 1, 2, 1)]), (9, 2));
    assert_eq!(refusal(2, &[ordinary(0, 1, 0)]), (9, 2));
    assert_eq!(refusal(2, &[link(0, 1, 2, 1), wait(1, 1, 1)]), (9, 3));
    assert_eq!(refusal(2, &[ordinary(0, 1, 1)]), (0, 0));
    // A point's own record has bytes 1 and 2 both 0.
    assert_eq!(refusal(1, &[]), (0, 0));
}

#[test]
fn number_10_links_and_waits() {
    let old = link(0, 1, 2, 1);
    // C ends an earlier link.
    assert_eq!(refusal(5, &[old, link(2, 1, 2, 1)]), (10, 6));
    assert_eq!(refusal(5, &[old, link(0, 1, 2, 1)]), (10, 6));
    // Document 02, the second truck: C may start an earlier link, and A may end one.
    assert_eq!(refusal(5, &[old, link(2, 1, 2, 0)]), (0, 0));
    assert_eq!(refusal(5, &[old, link(1, 1, 2, 2)]), (0, 0));
    assert_eq!(refusal(5, &[old, link(1, 1, 2, 0)]), (0, 0));
    // A shared A is allowed.
    assert_eq!(refusal(5, &[old, link(0, 1, 2, 2)]), (0, 0));
    assert_eq!(refusal(5, &[old, link(2, 1, 2, 3)]), (0, 0));
    // C not watched, V watched, V is C's A; V may be the A of another link.
    let two = [old, link(2, 1, 2, 3)];
    let with = |v, c| refusal(5, &[two[0], two[1], wait(v, c, 1)]);
    assert_eq!(with(4, 0), (10, 7));
    assert_eq!(with(3, 4), (10, 7));
    assert_eq!(with(3, 1), (10, 7));
    assert_eq!(with(0, 1), (10, 7));
    assert_eq!(with(2, 1), (0, 0));
    assert_eq!(with(4, 1), (0, 0));
    // 10 comes before 11.
    assert_eq!(refusal(5, &[old, link(2, 0, 0, 1)]), (10, 6));
    assert_eq!(refusal(5, &[old, wait(0, 1, 0)]), (10, 6));
}

#[test]
fn number_11_bounds() {
    let link_of = |x, y| refusal(2, &[link(0, x, y, 1)]).0;
    assert_eq!([link_of(0, 5), link_of(1, 5)], [11, 0]);
    assert_eq!([link_of(5, 5), link_of(4, 5), link_of(6, 5)], [11, 0, 11]);
    assert_eq!([link_of(1, 100_000), link_of(1, 100_001)], [0, 11]);
    assert_eq!(
        [link_of(99_999, 100_000), link_of(100_000, 100_001)],
        [0, 11]
    );
    assert_eq!([link_of(-1, 5), link_of(i32::MIN, i32::MAX)], [11, 11]);
    let record_of = |d| refusal(2, &[ordinary(0, d, 1)]).0;
    assert_eq!([record_of(-100_000), record_of(-100_001)], [0, 11]);
    assert_eq!([record_of(100_000), record_of(100_001)], [0, 11]);
    assert_eq!(
        [record_of(i32::MIN), record_of(i32::MAX), record_of(0)],
        [11, 11, 0]
    );
    let wait_of = |w| refusal(3, &[link(0, 5, 9, 1), wait(2, 1, w)]).0;
    assert_eq!(
        [wait_of(0), wait_of(1), wait_of(9), wait_of(10)],
        [11, 0, 0, 11]
    );
    assert_eq!([wait_of(-1), wait_of(i32::MIN)], [11, 11]);
}

/// Document 02, twin records.
#[test]
fn number_15_twins() {
    let (tight, loose) = (ordinary(0, -5, 1), ordinary(0, 9, 1));
    let other = ordinary(1, 3, 2);
    // Whatever the bounds, and at the second of the two.
    assert_eq!(refusal(3, &[tight, loose]), (15, 4));
    assert_eq!(refusal(3, &[loose, tight]), (15, 4));
    assert_eq!(refusal(3, &[tight, tight]), (15, 4));
    assert_eq!(refusal(3, &[tight, other, loose]), (15, 5));
    assert_eq!(
        refusal(3, &[other, tight, ordinary(2, 1, 0), loose]),
        (15, 6)
    );
    assert_eq!(refusal(3, &[tight, loose, tight]), (15, 4));
    // The other way round, from the same point, or to the same point, is no twin.
    assert_eq!(refusal(3, &[tight, ordinary(1, -5, 0)]), (0, 0));
    assert_eq!(refusal(3, &[tight, ordinary(0, -5, 2)]), (0, 0));
    assert_eq!(refusal(3, &[tight, ordinary(2, -5, 1)]), (0, 0));
    // Nor is a link or a wait on the same two points, and two waits are none.
    let started = link(0, 1, 9, 1);
    assert_eq!(refusal(3, &[started, tight]), (0, 0));
    assert_eq!(
        refusal(3, &[started, ordinary(2, -5, 1), wait(2, 1, 4)]),
        (0, 0)
    );
    assert_eq!(refusal(3, &[started, wait(2, 1, 4), wait(2, 1, 5)]), (0, 0));
    // At each place among many.
    let all = ordinaries(992);
    for place in (1..32).chain((32..992).step_by(31)).chain([991]) {
        for of in [0, place / 2, place - 1] {
            let mut some = all.clone();
            some[place] = ordinary(all[of].a, 3, all[of].b);
            assert_eq!(refusal(32, &some), (15, 32 + place as u32));
        }
    }
    // After 6, which the old limit shows, and 7, 8 and 9, and before 11.
    let one_more = bytes(&records(32, &[&all[..256], &all[..1]].concat()));
    assert_eq!(read_with(256, &one_more), Err((6, 288)));
    assert_eq!(read_with(257, &one_more), Err((15, 288)));
    assert_eq!(refusal(3, &[tight, record(3, 0, 1, 9, 1, 0)]), (7, 4));
    assert_eq!(refusal(3, &[tight, ordinary(0, 9, 3)]), (8, 4));
    assert_eq!(refusal(3, &[tight, ordinary(0, 9, 0)]), (9, 4));
    assert_eq!(refusal(3, &[tight, ordinary(0, 100_001, 1)]), (15, 4));
    assert_eq!(refusal(3, &[tight, ordinary(0, i32::MIN, 1)]), (15, 4));
    // A record that is refused itself comes first.
    assert_eq!(refusal(3, &[ordinary(0, 100_001, 1), tight]), (11, 3));
}

#[test]
fn the_first_bad_record_is_named() {
    let rest = [ordinary(0, 1, 1), ordinary(0, 1, 0), ordinary(0, 1, 9)];
    assert_eq!(refusal(2, &rest), (9, 3));
}

#[test]
fn number_12_short_buffer() {
    let plan = haul().to_raw();
    let file = haul().to_bytes();
    let mut short = vec![7; file.len() - 1];
    assert_eq!(write(&plan, &mut short), (12, 0));
    assert!(short.iter().all(|&byte| byte == 7));
    assert_eq!(write(&plan, &mut []), (12, 0));
    let mut exact = vec![7; file.len()];
    assert_eq!(write(&plan, &mut exact), (0, 0));
    assert_eq!(exact, file);
    let mut long = vec![7; file.len() + 5];
    assert_eq!(write(&plan, &mut long), (0, 0));
    assert_eq!(long[..file.len()], file);
    assert_eq!(long[file.len()..], [7; 5]);
    // A plan that no file could hold comes before 12, and changes nothing.
    let mut bad = plan.clone();
    bad.records[5].a = 9;
    assert_eq!(write(&bad, &mut []), (8, 5));
    assert_eq!(write(&bad, &mut long), (8, 5));
    assert_eq!(long[..file.len()], file);
}

#[test]
fn number_13_too_many_projections() {
    let one = |y| plan_test(&plan(2, &[link(0, 1, y, 1)]));
    assert_eq!(one(4096), Ok(Answer::Yes(4096)));
    assert_eq!(one(4097), Err((13, 0)));
    let two = |y| plan_test(&plan(4, &[link(0, 1, 64, 1), link(2, 1, y, 3)]));
    assert_eq!(two(64), Ok(Answer::Yes(4096)));
    assert_eq!(two(65), Err((13, 0)));
}

#[test]
fn number_20_unsound_boards() {
    let plan = haul();
    let good = board(&[(0, 0), (1, 12)]);
    assert!(sound(&plan, &Board::fresh()));
    assert!(sound(&plan, &good));

    // Done points are in the plan.
    assert!(sound(&plan, &board(&[(0, 0), (3, 0)])));
    assert!(!sound(&plan, &board(&[(0, 0), (4, 0)])));
    assert!(!sound(&plan, &board(&[(0, 0), (31, 0)])));

    // A point not done holds 0, past the plan's last point too.
    for point in [2, 3, 4, 31] {
        let mut bad = good;
        bad.minutes[point] = 1;
        assert!(!sound(&plan, &bad));
    }

    // The clock is the largest done minute, or 0 with none done.
    for clock in [11, 13] {
        let mut bad = good;
        bad.clock = clock;
        assert!(!sound(&plan, &bad));
    }
    let mut bad = Board::fresh();
    bad.clock = 1;
    assert!(!sound(&plan, &bad));

    // A done watched point has its A done and its duration in bounds.
    assert!(!sound(&plan, &board(&[(0, 0), (2, 30)])));
    let ended = |minute| sound(&plan, &board(&[(0, 0), (1, 12), (2, minute)]));
    assert_eq!(
        [ended(31), ended(32), ended(62), ended(63)],
        [false, true, true, false]
    );
    assert!(!sound(&plan, &board(&[(1, 12), (2, 0)])));

    // A running link has A + y ≥ clock.
    let running = |minute| sound(&plan, &board(&[(0, 0), (1, 12), (3, minute)]));
    assert_eq!([running(62), running(63)], [true, false]);

    // Clock ≤ 100,000 × the number of done points.
    let two = common::plan(2, &[]);
    assert!(sound(&two, &board(&[(0, 100_000)])));
    assert!(!sound(&two, &board(&[(0, 100_001)])));
    assert!(sound(&two, &board(&[(0, 3), (1, 200_000)])));
    assert!(!sound(&two, &board(&[(0, 3), (1, 200_001)])));
    assert!(!sound(&two, &board(&[(0, u32::MAX), (1, u32::MAX)])));

    // Every call with a board answers 20, before 21 to 31.
    let bad = board(&[(0, 0), (1, 12), (2, 31), (3, 31)]);
    assert_eq!(reply(&plan, &bad), Err((20, 0)));
    assert_eq!(take(&plan, &bad, &[]), ((20, 0), bad));
    assert_eq!(verdict(&plan, &bad), Err((20, 0)));
    assert_eq!(judge(&plan, &bad, &[]), Err((20, 0)));
}

#[test]
fn number_21_all_done() {
    let plan = plan(2, &[]);
    let finished = board(&[(0, 0), (1, 0)]);
    assert_eq!(number(&plan, &finished, &event(0, 0, &[])), 21);
    assert_eq!(number(&plan, &board(&[(0, 0)]), &event(0, 1, &[])), 0);
}

#[test]
fn number_22_stuck() {
    // Low of 1 is the clock, H is 10.
    let plan = plan(3, &[ordinary(0, 10, 1), ordinary(2, 100, 0)]);
    assert_eq!(
        number(&plan, &board(&[(0, 0), (2, 10)]), &event(10, 1, &[])),
        0
    );
    assert_eq!(
        number(&plan, &board(&[(0, 0), (2, 11)]), &event(11, 1, &[])),
        22
    );
    // A running link keeps a board waiting only where nothing is open.
    let running = |rest: &[RawRecord]| {
        let plan = common::plan(3, rest);
        number(&plan, &board(&[(0, 0)]), &event(3, NONE, &[1]))
    };
    assert_eq!(running(&[link(0, 1, 5, 1), ordinary(2, -1, 1)]), 0);
    let late = [link(0, 1, 5, 1), ordinary(0, 10, 2), ordinary(2, -11, 0)];
    assert_eq!(running(&late), 22);
    let just = [link(0, 1, 5, 1), ordinary(0, 10, 2), ordinary(2, -10, 0)];
    assert_eq!(running(&just), 0);
}

#[test]
fn number_23_no_event() {
    let plan = plan(4, &[link(0, 1, 5, 3)]);
    let now = board(&[(0, 0)]);
    let good = event(1, 1, &[3]);
    assert_eq!(number(&plan, &now, &good), 0);
    for length in [0, 1, 15] {
        assert_eq!(number(&plan, &now, &good[..length]), 23);
    }
    let mut long = good.to_vec();
    long.push(0);
    assert_eq!(number(&plan, &now, &long), 23);
    for at in [5, 6, 7, 12, 13, 14, 15] {
        let mut bad = good;
        bad[at] = 1;
        assert_eq!(number(&plan, &now, &bad), 23);
    }
    // 4 is not in the plan; 3 is, but is watched.
    assert_eq!(number(&plan, &now, &event(1, 3, &[])), 28);
    assert_eq!(number(&plan, &now, &event(1, 4, &[])), 23);
    assert_eq!(number(&plan, &now, &event(1, 254, &[])), 23);
    assert_eq!(number(&plan, &now, &event(1, NONE, &[3])), 0);
    assert_eq!(number(&plan, &now, &event(1, NONE, &[4])), 23);
    assert_eq!(number(&plan, &now, &event(1, NONE, &[3, 31])), 23);
    assert_eq!(number(&plan, &now, &event(1, NONE, &[])), 23);
}

#[test]
fn number_24_below_the_clock() {
    let plan = plan(2, &[]);
    let now = board(&[(0, 7)]);
    assert_eq!(number(&plan, &now, &event(7, 1, &[])), 0);
    assert_eq!(number(&plan, &now, &event(6, 1, &[])), 24);
    assert_eq!(number(&plan, &now, &event(0, 1, &[])), 24);
}

#[test]
fn number_25_no_running_link() {
    let plan = plan(5, &[link(0, 1, 9, 1), link(2, 1, 9, 3)]);
    let now = board(&[(0, 0)]);
    let with = |set: &[u8]| number(&plan, &now, &event(5, NONE, set));
    assert_eq!(with(&[1]), 0);
    assert_eq!(with(&[3]), 25); // its A is not done
    assert_eq!(with(&[4]), 25); // not watched
    assert_eq!(with(&[0]), 25); // done, not watched
    assert_eq!(with(&[1, 3]), 25);
    let ended = board(&[(0, 0), (1, 5)]);
    assert_eq!(number(&plan, &ended, &event(5, NONE, &[1])), 25);
    // A link started in an event can't end in it.
    assert_eq!(number(&plan, &now, &event(5, 2, &[3])), 25);
}

#[test]
fn number_26_outside_its_bounds() {
    let plan = plan(2, &[link(0, 3, 9, 1)]);
    let now = board(&[(0, 10)]);
    let at = |minute| number(&plan, &now, &event(minute, NONE, &[1]));
    assert_eq!([at(12), at(13), at(19), at(20)], [26, 0, 0, 26]);
}

#[test]
fn number_27_run_out() {
    let plan = plan(3, &[link(0, 3, 9, 1)]);
    let now = board(&[(0, 10)]);
    let at = |minute| number(&plan, &now, &event(minute, 2, &[]));
    assert_eq!([at(10), at(19), at(20)], [0, 0, 27]);
}

#[test]
fn number_28_not_open() {
    let rest = [
        link(0, 3, 9, 1),
        ordinary(2, -1, 3),
        ordinary(4, 0, 2),
        wait(5, 1, 4),
    ];
    let plan = plan(6, &rest);
    let fresh = Board::fresh();
    let with = |point| number(&plan, &fresh, &event(5, point, &[]));
    assert_eq!(with(0), 0);
    assert_eq!(with(1), 28); // watched
    assert_eq!(with(2), 28); // 3 is not done
    assert_eq!(with(3), 0);
    assert_eq!(with(4), 0); // d = 0 does not shut
    assert_eq!(with(5), 28); // the wait's A is not done
    let now = board(&[(0, 0), (3, 0)]);
    assert_eq!(number(&plan, &now, &event(5, 0, &[])), 28); // done
    assert_eq!(number(&plan, &now, &event(5, 2, &[])), 0);
    assert_eq!(number(&plan, &now, &event(5, 5, &[])), 0);
}

#[test]
fn number_29_before_its_earliest() {
    let plan = plan(4, &[link(0, 3, 9, 1), ordinary(2, -4, 0), wait(3, 1, 6)]);
    let now = board(&[(0, 10)]);
    let at = |minute, point| number(&plan, &now, &event(minute, point, &[]));
    assert_eq!([at(13, 2), at(14, 2)], [29, 0]);
    assert_eq!([at(15, 3), at(16, 3)], [29, 0]);
}

#[test]
fn number_30_past_the_latest() {
    let free = plan(2, &[]);
    let now = board(&[(0, 5)]);
    let at = |minute| number(&free, &now, &event(minute, 1, &[]));
    assert_eq!([at(100_005), at(100_006)], [0, 30]);
    let bound = plan(3, &[ordinary(0, 10, 1)]);
    // The High of point 1 bounds point 2 as well.
    for point in [1, 2] {
        let at = |minute| number(&bound, &now, &event(minute, point, &[]));
        assert_eq!([at(15), at(16)], [0, 30]);
    }
}

#[test]
fn number_31_not_all_done() {
    let plan = plan(2, &[ordinary(0, 5, 1)]);
    assert_eq!(verdict(&plan, &Board::fresh()), Err((31, 0)));
    let most = board(&[(0, 0)]);
    assert_eq!(verdict(&plan, &most), Err((31, 0)));
    let bad = Listed {
        x: 9,
        y: 0,
        bound: 0,
    };
    assert_eq!(judge(&plan, &most, &[bad]), Err((31, 0)));
    assert_eq!(verdict(&plan, &board(&[(0, 0), (1, 5)])), Ok(Verdict::Kept));
    assert_eq!(
        verdict(&plan, &board(&[(0, 0), (1, 6)])),
        Ok(Verdict::Broken(2))
    );
}

#[test]
fn event_numbers_come_in_order() {
    // Links 0 to 1 and 2 to 3 are running, 4 is shut, 5 is open with a window of 20 to 30.
    let rest = [
        link(0, 5, 50, 1),
        link(2, 5, 60, 3),
        ordinary(4, -1, 6),
        ordinary(5, -20, 0),
        ordinary(0, 30, 5),
    ];
    let plan = plan(7, &rest);
    let now = board(&[(0, 0), (2, 2)]);
    let with = |minute, point, set: &[u8]| number(&plan, &now, &event(minute, point, set));
    assert_eq!(with(1, 9, &[6]), 23);
    assert_eq!(with(1, 4, &[6]), 24);
    assert_eq!(with(4, 4, &[1, 6]), 25);
    assert_eq!(with(61, 4, &[3, 6]), 25);
    assert_eq!(with(63, 4, &[3]), 26); // 3 ends too late, and 1 ran out
    assert_eq!(with(55, 4, &[3]), 27);
    assert_eq!(with(50, 4, &[3]), 28); // past the latest too
    assert_eq!(with(10, 4, &[3]), 28);
    assert_eq!(with(19, 5, &[3]), 29);
    assert_eq!(with(20, 5, &[3]), 0);
    assert_eq!(with(30, 5, &[3]), 0);
    assert_eq!(with(31, 5, &[3]), 30);
    assert_eq!(with(31, NONE, &[3]), 30);
    assert_eq!(with(30, NONE, &[3]), 0);
}

#[test]
fn record_numbers_come_in_order() {
    // Each record has two faults; the lower number is given.
    assert_eq!(
        refusal(2, &[ordinary(0, 1, 1), record(0, 0, 0, 0, 0, 0)]),
        (4, 3)
    );
    let links: Vec<_> = (0..8).map(|n| link(n, 1, 2, n + 10)).collect();
    let mut more = links.clone();
    more.push(record(2, 0, 0, 0, 0, 9));
    assert_eq!(refusal(32, &more), (6, 40));
    assert_eq!(refusal(2, &[record(3, 9, 9, 0, 1, 0)]), (7, 2));
    assert_eq!(refusal(2, &[ordinary(2, 1, 2)]), (8, 2));
    assert_eq!(refusal(2, &[link(0, 1, 2, 1), link(1, 1, 2, 1)]), (9, 3));
    assert_eq!(refusal(2, &[ordinary(1, 100_001, 1)]), (9, 2));
    assert_eq!(refusal(3, &[link(0, 1, 2, 1), link(2, 5, 2, 1)]), (10, 4));
}

#[test]
fn plans_by_value() {
    let good = haul().to_raw();
    assert_eq!(check(&good), Ok(haul()));
    assert_eq!(good.count, 9);
    assert_eq!(check(&RawPlan::empty()), Err((1, 0)));
    for count in [1_129, u32::MAX] {
        let mut bad = good.clone();
        bad.count = count;
        assert_eq!(check(&bad), Err((3, 0)));
    }
    // 1,128 records pass test 3; here the first unused one is of kind 0.
    for count in [361, 1_128] {
        let mut bad = good.clone();
        bad.count = count;
        assert_eq!(check(&bad), Err((4, 9)));
    }
    // Garbage in unused room counts for nothing.
    let mut dirty = good.clone();
    dirty.records[9] = record(200, 1, 2, 3, 4, 5);
    assert_eq!(check(&dirty), Ok(haul()));
    assert_eq!(dirty, good);
    // A bad plan comes before all else.
    let mut bad = good.clone();
    bad.records[5].second = 1;
    let mut unsound = Board::fresh();
    unsound.clock = 5;
    assert_eq!(by_value::sound(&bad, &unsound), Err((7, 5)));
    assert_eq!(by_value::reply(&bad, &unsound), Err((7, 5)));
    assert_eq!(by_value::take(&bad, &unsound, &[]), (7, 5, unsound));
    assert_eq!(by_value::verdict(&bad, &unsound), Err((7, 5)));
    assert_eq!(by_value::judge(&bad, &unsound, &[]), Err((7, 5)));
    assert_eq!(by_value::plan_test(&bad), Err((7, 5)));
    assert_eq!(by_value::sound(&good, &unsound), Err((20, 0)));
    assert_eq!(by_value::take(&good, &unsound, &[]), (20, 0, unsound));
    assert_eq!(by_value::plan_test(&good), Ok(Answer::Yes(31)));
}

#[test]
fn reading_by_value() {
    let (number, record, plan) = read_by_value(&haul().to_bytes());
    assert_eq!((number, record), (0, 0));
    assert_eq!(plan, haul().to_raw());
    assert!(plan.records[9..]
        .iter()
        .all(|unused| *unused == RawRecord::default()));
    let mut file = haul().to_bytes();
    file[16 * 6] = 0;
    let (number, record, plan) = read_by_value(&file);
    assert_eq!((number, record, plan.count), (4, 6, 0));
    assert!(plan
        .records
        .iter()
        .all(|unused| *unused == RawRecord::default()));
}

#[test]
fn the_lent_list() {
    let plan = plan(3, &[ordinary(0, -100, 1)]);
    let last = board(&[(0, 0), (1, 5), (2, 9)]);
    let one = |x, bound, y| Listed { x, y, bound };
    let judged = |list: &[Listed]| judge(&plan, &last, list);
    // The plan's own records are not looked at.
    assert_eq!(judged(&[]), Ok(Verdict::Kept));
    assert_eq!(judged(&[one(0, 5, 1), one(1, 4, 2)]), Ok(Verdict::Kept));
    assert_eq!(
        judged(&[one(0, 5, 1), one(1, 3, 2)]),
        Ok(Verdict::Broken(1))
    );
    assert_eq!(
        judged(&[one(0, 4, 1), one(1, 3, 2)]),
        Ok(Verdict::Broken(0))
    );
    // 8 is looked for in the whole list first.
    assert_eq!(judged(&[one(0, 4, 1), one(0, 0, 3)]), Err((8, 1)));
    assert_eq!(
        judged(&[one(0, 4, 1), one(3, 0, 0), one(9, 0, 9)]),
        Err((8, 1))
    );
    assert_eq!(judged(&[one(u32::MAX, 0, 0)]), Err((8, 0)));
    // Bounds may be any signed 32-bit number; the points may be equal.
    assert_eq!(
        judged(&[one(0, i32::MAX, 1), one(2, -9, 0)]),
        Ok(Verdict::Kept)
    );
    assert_eq!(judged(&[one(0, i32::MIN, 1)]), Ok(Verdict::Broken(0)));
    assert_eq!(judged(&[one(1, 0, 1)]), Ok(Verdict::Kept));
    assert_eq!(judged(&[one(1, -1, 1)]), Ok(Verdict::Broken(0)));
}
