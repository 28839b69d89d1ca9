//! More constraints (document 02): 1,024 ordinary records where document 01 had 256. The reader with the old limit is held
//! beside the new one.

mod common;

use common::*;
use oracle::plan::{read, read_with, room, RawRecord, OLD_ORDINARIES, ORDINARIES, ROOM};
use oracle::Refusal;

fn old(file: &[u8]) -> Result<oracle::plan::Plan, Refusal> {
    read_with(OLD_ORDINARIES, file)
}

#[test]
fn the_rooms() {
    assert_eq!((OLD_ORDINARIES, room(OLD_ORDINARIES)), (256, 360));
    assert_eq!((ORDINARIES, ROOM, 16 * ROOM), (1_024, 1_128, 18_048));
}

/// What the old reader accepts is accepted as the same plan and written byte for byte as before. Where the two say different
/// things the old one says 3, of a file of more than 360 records, or 6 at the 257th ordinary record.
fn compare(file: &[u8]) -> (u32, u32) {
    let (before, now) = (old(file), read(file));
    if let Ok(plan) = &before {
        assert_eq!(now.as_ref(), Ok(plan));
        assert_eq!(plan.to_bytes(), file);
    }
    if let Ok(plan) = &now {
        assert_eq!(plan.to_bytes(), file);
    }
    let number = |answer: &Result<_, Refusal>| answer.as_ref().err().map_or(0, |refusal| refusal.0);
    if before != now {
        let kinds = file.chunks(16).map(|record| record[0]);
        let ordinary = kinds.enumerate().filter(|(_, kind)| *kind == 3);
        let one_more = ordinary.map(|(place, _)| place).nth(256);
        match before {
            Err((3, 0)) => assert!(file.len() > 5_760),
            Err((6, place)) => assert_eq!(one_more, Some(place as usize)),
            other => panic!("{other:?}"),
        }
    }
    (number(&before), number(&now))
}

/// So many ordinary records, then waits up to this many records in all, after 32 points and a link.
fn sized(ordinary: usize, in_all: usize) -> Vec<u8> {
    let mut rest = vec![link(0, 1, 2, 1)];
    rest.extend(ordinaries(ordinary));
    rest.resize(in_all - 32, wait(2, 1, 1));
    bytes(&records(32, &rest))
}

#[test]
fn at_the_edges() {
    // 256 and 257 ordinary records, and no more waits than allowed.
    assert_eq!(compare(&sized(256, 300)), (0, 0));
    assert_eq!(compare(&sized(257, 300)), (6, 0));
    // 360 and 361 records.
    assert_eq!(compare(&sized(300, 360)), (6, 0));
    assert_eq!(compare(&sized(300, 361)), (3, 0));
    // The largest that twins allow, and up to 1,128 and 1,129 records: one wait too many, then 3.
    assert_eq!(compare(&sized(992, 1_089)), (3, 0));
    assert_eq!(compare(&sized(992, 1_090)), (3, 6));
    assert_eq!(compare(&sized(992, 1_128)), (3, 6));
    assert_eq!(compare(&sized(992, 1_129)), (3, 3));
    assert_eq!(compare(&sized(992, 2_000)), (3, 3));
    // Not whole records: 2 comes first for both.
    assert_eq!(compare(&sized(992, 1_129)[1..]), (2, 2));
    // A fault before the 257th ordinary record is found by both, unless it is too long for the old one.
    let mut early = sized(300, 340);
    early[40 * 16 + 3] = 1;
    assert_eq!(compare(&early), (7, 7));
    let mut late = sized(300, 340);
    late[330 * 16 + 3] = 1;
    assert_eq!(compare(&late), (6, 7));
    early.extend(wait(2, 1, 1).bytes().repeat(30));
    assert_eq!(compare(&early), (3, 7));
    // A refusal at an ordinary record is never 6 by the new limit: there are no 1,024 pairs. By a limit of 992 it is.
    let twins = [ordinaries(992), ordinaries(33)].concat();
    let twins = bytes(&records(32, &twins));
    assert_eq!(read(&twins), Err((15, 1_024)));
    assert_eq!(read_with(992, &twins), Err((6, 1_024)));
}

/// Files of any size, good ones and with a byte or two changed.
#[test]
fn on_random_files() {
    let mut random = Random::new(2);
    let mut seen = [0; 4];
    for _ in 0..3_000 {
        let small = random.below(3) == 0;
        let mut file = if small {
            let most = random.between(1, 9);
            random_plan(&mut random, most).to_bytes()
        } else {
            let ordinary = [200, 255, 256, 257, 258, 320, 992][random.below(7)];
            let waits = random.below(70);
            sized(ordinary, 33 + ordinary + waits)
        };
        for _ in 0..random.below(3) {
            let at = random.below(file.len());
            file[at] = [0, 1, 2, 3, 4, 31, 32, 255][random.below(8)];
        }
        match compare(&file) {
            (0, 0) => seen[0] += 1,
            (3, _) => seen[1] += 1,
            (6, 0) => seen[2] += 1,
            (old, new) if old == new => seen[3] += 1,
            _ => {}
        }
    }
    assert!(seen.iter().all(|count| *count > 20), "{seen:?}");
}

/// A plan by value has room for as many.
#[test]
fn by_value() {
    let file = sized(992, 1_089);
    let (number, record, plan) = oracle::plan::read_by_value(&file);
    assert_eq!((number, record, plan.count), (0, 0, 1_089));
    assert_eq!(plan.records.len(), 1_128);
    let unused = &plan.records[1_089..];
    assert!(unused.iter().all(|one| *one == RawRecord::default()));
    let mut buffer = vec![9; 18_048];
    assert_eq!(oracle::plan::write(&plan, &mut buffer), (0, 0));
    assert_eq!(buffer[..file.len()], file);
    assert_eq!(buffer[file.len()..], vec![9; 18_048 - file.len()]);
}
