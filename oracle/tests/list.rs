//! The verb `list`: listings that are packed to the same bytes.

mod common;

use common::*;
use oracle::desk::{Said, Verb};
use oracle::pack::pack;

fn said(words: &[&str], input: &[u8]) -> Said {
    Verb::of(words).expect("a verb").said(input)
}

#[test]
fn the_listing_of_the_haul() {
    let mut plan = haul();
    plan.ponds = vec![0, 41_705, u32::MAX, 1];
    let file = plan.to_bytes();
    let listing = "point 0 0\npoint 1 41705\npoint 2 4294967295\npoint 3 1\nlink 1 20 50 2\n\
                   ordinary 1 -10 0\nordinary 2 5 3\nordinary 3 15 2\nwait 3 2 35\n";
    let list = said(&["list"], &file);
    assert_eq!(String::from_utf8(list.output).unwrap(), listing);
    assert_eq!((list.errors.len(), list.status), (0, 0));
    assert_eq!(pack(listing.as_bytes()), Ok(file));
    // A refused file: the line on standard error, and nothing written.
    let bad = bytes(&records(2, &[ordinary(0, 1, 1), ordinary(0, 2, 1)]));
    let list = said(&["list"], &bad);
    assert_eq!(
        (list.output.len(), &list.errors[..], list.status),
        (0, &b"plan 15 3\n"[..], 1)
    );
}

#[test]
fn listings_are_packed_to_the_same_bytes() {
    let mut random = Random::new(21);
    for _ in 0..500 {
        let bound = random.between(1, 100_000);
        let mut plan = random_plan(&mut random, bound);
        for pond in &mut plan.ponds {
            *pond = random.below(1 << 32) as u32;
        }
        let file = plan.to_bytes();
        assert_eq!(pack(&said(&["list"], &file).output), Ok(file));
    }
}
