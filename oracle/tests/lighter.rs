//! A lighter plan: what goes and what stays, the order, and everything that the request promises, on random plans.

mod common;

use common::*;
use oracle::close::close;
use oracle::lighter::{lighter, passes, tables, without};
use oracle::plan::Plan;

fn dropped(points: u8, rest: &[oracle::plan::RawRecord]) -> Vec<usize> {
    lighter(&plan(points, rest)).unwrap().dropped
}

#[test]
fn what_goes() {
    // Said by two others together, in both orders of the file.
    assert_eq!(
        dropped(
            3,
            &[ordinary(2, -7, 0), ordinary(1, -4, 0), ordinary(2, -3, 1)]
        ),
        [3]
    );
    // One minute more, and it counts.
    let counts = [ordinary(2, -8, 0), ordinary(1, -4, 0), ordinary(2, -3, 1)];
    assert_eq!(dropped(3, &counts), []);
    // Of two records to points that come together either may go: the first does.
    let tied = [
        ordinary(0, 0, 1),
        ordinary(1, 0, 0),
        ordinary(2, -3, 0),
        ordinary(2, -3, 1),
    ];
    assert_eq!(dropped(3, &tied), [5]);
    // What a link says in every projection.
    let drive = link(0, 20, 50, 1);
    assert_eq!(dropped(2, &[drive, ordinary(0, 50, 1)]), [3]);
    assert_eq!(dropped(2, &[drive, ordinary(1, -20, 0)]), [3]);
    // What a wait says.
    let waited = [
        drive,
        ordinary(2, -19, 0),
        ordinary(2, 0, 1),
        wait(2, 1, 50),
    ];
    assert_eq!(dropped(3, &waited)[0], 4);
}

/// A record that the distances do not need, but the test does.
#[test]
fn for_the_test_alone() {
    // From 2 to 1 it is -5 by way of 0, up and then down: only the record shows it the other way round.
    let rest = [ordinary(2, 5, 0), ordinary(0, -10, 1), ordinary(2, -5, 1)];
    let whole = plan(3, &rest);
    assert!(passes(&whole));
    let less = without(&whole, 2);
    assert!(tables(&less).eq(tables(&whole)) && !passes(&less));
    assert_eq!(lighter(&whole).unwrap().dropped, []);
}

#[test]
fn the_haul() {
    // From 3 to 2 it is 15 by the wait and the longest drive, which record 7 says again.
    let light = lighter(&haul()).unwrap();
    assert_eq!(light.dropped, [7]);
    assert_eq!(light.plan, without(&haul(), 2));
    assert_eq!(lighter(&haul_with(&[])), Err(60));
    let cycle = plan(2, &[ordinary(0, -5, 1), ordinary(1, -5, 0)]);
    assert_eq!(lighter(&cycle), Err(60));
    assert_eq!(lighter(&plan(2, &[link(0, 1, 4_097, 1)])), Err(13));
    assert_eq!(
        lighter(&plan(2, &[link(0, 1, 4_096, 1)])).unwrap().dropped,
        []
    );
}

/// It passes, distances are the same in every projection, nothing else could go, and nothing but ordinary records went.
fn promised(plan: &Plan) -> usize {
    let light = lighter(plan).unwrap();
    assert!(passes(&light.plan));
    assert!(tables(&light.plan).eq(tables(plan)));
    for place in 0..light.plan.ordinary.len() {
        let less = without(&light.plan, place);
        assert!(!passes(&less) || !tables(&less).eq(tables(plan)));
    }
    let first = plan.points() + plan.links.len();
    let all = plan.ordinary.iter().enumerate();
    let left = all.filter(|(place, _)| !light.dropped.contains(&(first + place)));
    let left: Vec<_> = left.map(|(_, one)| *one).collect();
    let wanted = Plan {
        ordinary: left,
        ..plan.clone()
    };
    assert_eq!(light.plan, wanted);
    assert!(light.dropped.windows(2).all(|two| two[0] < two[1]));
    light.dropped.len()
}

#[test]
fn what_is_promised() {
    let mut random = Random::new(11);
    let (mut some, mut none) = (0, 0);
    while some.min(none) < 300 {
        let bound = random.between(1, 9);
        let plan = match random.below(3) {
            0 => random_plan(&mut random, bound),
            1 => chained_plan(&mut random, bound),
            _ => {
                let plan = random_plan(&mut random, bound);
                match close(&plan) {
                    Ok(made) => made,
                    Err(_) => continue,
                }
            }
        };
        if plan.ordinary.is_empty() || !passes(&plan) {
            continue;
        }
        match promised(&plan) {
            0 => none += 1,
            _ => some += 1,
        }
    }
}
