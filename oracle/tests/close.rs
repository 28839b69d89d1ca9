//! Plans without watched steps (document 02): by hand, each number at its edge, and the made plan against what is promised of it.

mod common;

use common::*;
use oracle::close::close;
use oracle::plan::{Ordinary, Plan};
use oracle::plan_test::{plan_test, Answer};

/// The made records as (X, d, Y), or the number.
fn made(points: u8, rest: &[oracle::plan::RawRecord]) -> Result<Vec<(usize, i64, usize)>, u32> {
    let made = close(&plan(points, rest))?;
    assert!(made.links.is_empty() && made.waits.is_empty());
    let triple = |one: &Ordinary| (one.x, one.d, one.y);
    Ok(made.ordinary.iter().map(triple).collect())
}

#[test]
fn by_hand() {
    assert_eq!(made(1, &[]), Ok(vec![]));
    assert_eq!(made(3, &[]), Ok(vec![]));
    // First point slowest; a pair that no path joins has none, nor has a point itself.
    let chain = [ordinary(2, -3, 1), ordinary(1, -4, 0)];
    assert_eq!(
        made(3, &chain),
        Ok(vec![(1, -4, 0), (2, -7, 0), (2, -3, 1)])
    );
    // The shorter way counts, not the record.
    let loose = [ordinary(0, 9, 2), ordinary(0, 3, 1), ordinary(1, -1, 2)];
    assert_eq!(made(3, &loose), Ok(vec![(0, 3, 1), (0, 2, 2), (1, -1, 2)]));
    let tight = [ordinary(0, 1, 2), ordinary(0, 3, 1), ordinary(1, -1, 2)];
    assert_eq!(made(3, &tight), Ok(vec![(0, 3, 1), (0, 1, 2), (1, -1, 2)]));
    // A cycle of zero is none below zero.
    let tied = [ordinary(0, 4, 1), ordinary(1, -4, 0)];
    assert_eq!(made(2, &tied), Ok(vec![(0, 4, 1), (1, -4, 0)]));
    // Pond codes are carried over.
    let mut coded = plan(3, &chain);
    coded.ponds = vec![7, 0, u32::MAX];
    assert_eq!(close(&coded).unwrap().ponds, [7, 0, u32::MAX]);
}

#[test]
fn refusals_at_their_edges() {
    let cycle = [ordinary(0, 4, 1), ordinary(1, -5, 0)];
    let far = [ordinary(2, 100_000, 3), ordinary(3, 1, 4)];
    let watched = [link(5, 1, 2, 6)];
    assert_eq!(made(7, &cycle), Err(62));
    assert_eq!(made(7, &far), Err(63));
    assert_eq!(made(7, &watched), Err(61));
    // In that order.
    assert_eq!(made(7, &[cycle, far].concat()), Err(62));
    assert_eq!(made(7, &[&watched[..], &cycle, &far].concat()), Err(61));
    assert_eq!(made(7, &[watched[0], wait(0, 6, 1)]), Err(61));
    // A distance at the bound and one past it, either way; none of the records is past it.
    let two = |one, other| made(3, &[ordinary(0, one, 1), ordinary(1, other, 2)]).err();
    assert_eq!([two(99_999, 1), two(100_000, 1)], [None, Some(63)]);
    assert_eq!([two(-99_999, -1), two(-100_000, -1)], [None, Some(63)]);
    assert_eq!([two(100_000, 0), two(-100_000, 0)], [None, None]);
    assert_eq!(
        [two(100_000, -100_000), two(-50_000, -50_000)],
        [None, None]
    );
    // A path past the bound where a shorter one is within it.
    let both = [
        ordinary(0, 100_000, 1),
        ordinary(1, 1, 2),
        ordinary(0, 100_000, 2),
    ];
    assert_eq!(made(3, &both).map(|all| all.len()), Ok(3));
    // The whole chain of 32 points: the sum of 31 steps.
    let chain = |step| -> Vec<_> { (0..31).map(|k| ordinary(k, step, k + 1)).collect() };
    assert_eq!(made(32, &chain(3_225)).map(|all| all.len()), Ok(496));
    assert_eq!(made(32, &chain(3_226)), Err(63));
    assert_eq!(made(32, &chain(-3_226)), Err(63));
    // A ring of all points joins every pair.
    let ring = [chain(1), vec![ordinary(31, 0, 0)]].concat();
    assert_eq!(made(32, &ring).map(|all| all.len()), Ok(992));
    // A cycle whose distances would be past the bound, going round and round.
    let round = [ordinary(0, -100_000, 1), ordinary(1, -100_000, 0)];
    assert_eq!(made(2, &round), Err(62));
}

/// A random plan without links and waits.
fn unwatched(random: &mut Random) -> Plan {
    let points = random.between(1, 7) as u8;
    let least = random.between(-6, 1);
    let mut rest = Vec::new();
    for x in 0..points {
        for y in (0..points).filter(|y| *y != x) {
            if random.below(3) == 0 {
                rest.push(ordinary(x, random.between(least, 9), y));
            }
        }
    }
    plan(points, &rest)
}

/// The shortest distances by going through every point in turn (Floyd and Warshall); none if a cycle is below zero.
fn through_each(plan: &Plan) -> Option<Vec<Vec<Option<i64>>>> {
    let points = plan.points();
    let mut d = vec![vec![None; points]; points];
    for (x, row) in d.iter_mut().enumerate() {
        row[x] = Some(0);
    }
    for one in &plan.ordinary {
        let least = d[one.x][one.y].map_or(one.d, |known: i64| known.min(one.d));
        d[one.x][one.y] = Some(least);
    }
    for via in 0..points {
        for x in 0..points {
            for y in 0..points {
                if let (Some(one), Some(two)) = (d[x][via], d[via][y]) {
                    let least = d[x][y].map_or(one + two, |known| known.min(one + two));
                    d[x][y] = Some(least);
                }
            }
        }
    }
    let cycle = (0..points).any(|x| d[x][x] < Some(0));
    (!cycle).then_some(d)
}

fn keeps(plan: &Plan, minutes: &[i64]) -> bool {
    let kept = |one: &Ordinary| minutes[one.y] - minutes[one.x] <= one.d;
    plan.ordinary.iter().all(kept)
}

#[test]
fn what_is_promised() {
    let mut random = Random::new(12);
    let (mut closed, mut cycles, mut kept, mut failed_before) = (0, 0, 0, 0);
    for _ in 0..4_000 {
        let plan = unwatched(&mut random);
        let Some(distances) = through_each(&plan) else {
            assert_eq!(close(&plan), Err(62));
            cycles += 1;
            continue;
        };
        let made = close(&plan).unwrap();
        closed += 1;
        failed_before += usize::from(plan_test(&plan) != Ok(Answer::Yes(1)));
        // One for each pair, first point slowest.
        let mut expected = Vec::new();
        for (x, row) in distances.iter().enumerate() {
            for (y, d) in row.iter().enumerate().filter(|(y, _)| *y != x) {
                expected.extend(d.map(|d| Ordinary { x, d, y }));
            }
        }
        assert_eq!(made.ordinary, expected);
        // A file holds it, it passes the test, and made again it is the same.
        assert_eq!(oracle::plan::read(&made.to_bytes()), Ok(made.clone()));
        assert_eq!(plan_test(&made), Ok(Answer::Yes(1)));
        assert_eq!(close(&made), Ok(made.clone()));
        // The same choices of minutes keep it.
        for _ in 0..20 {
            let any = (0..plan.points()).map(|_| random.between(0, 8).into());
            let minutes: Vec<i64> = any.collect();
            assert_eq!(keeps(&plan, &minutes), keeps(&made, &minutes));
            kept += usize::from(keeps(&plan, &minutes));
        }
    }
    assert!(
        closed > 500 && cycles > 200 && kept > 500 && failed_before > 100,
        "{closed} {cycles} {kept} {failed_before}"
    );
}
