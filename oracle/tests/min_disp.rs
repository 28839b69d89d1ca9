//! Document 000's minDisp: its worked figures, the largest distances over all projections, and the fewest records of tiny plans,
//! found by trying all of them.

mod common;

use common::*;
use oracle::close::close;
use oracle::lighter::{lighter, passes, tables, Table};
use oracle::min_disp::{in_setting, min_disp, most, Reading};
use oracle::plan::{Ordinary, Plan, Wait};

/// The largest distances over all projections, by trying all of them.
fn largest(plan: &Plan) -> Table {
    let points = plan.points();
    let mut all: Table = vec![vec![Some(i64::MIN); points]; points];
    for table in tables(plan) {
        for (row, new) in all.iter_mut().zip(table) {
            for (cell, new) in row.iter_mut().zip(new) {
                *cell = cell.zip(new).map(|(a, b)| a.max(b));
            }
        }
    }
    all
}

/// Figure 2: V, A, C and Y are 0 to 3.
fn figure_2(more: &[oracle::plan::RawRecord]) -> Plan {
    let mut rest = vec![link(1, 1, 10, 2), ordinary(1, 13, 3), ordinary(2, 6, 3)];
    rest.extend_from_slice(more);
    rest.push(wait(0, 2, 6));
    plan(4, &rest)
}

#[test]
fn figures() {
    assert!(passes(&figure_2(&[])));
    assert_eq!(most(&figure_2(&[]), Reading::Strict).0[0][3], Some(7));
    // What the structure entails may go, one minute less may not.
    let left = |d| min_disp(&figure_2(&[ordinary(0, d, 3)]), Reading::Strict).ordinary;
    assert_eq!(left(7), [(1, 13, 3), (2, 6, 3)]);
    assert_eq!(left(6), [(0, 6, 3), (1, 13, 3), (2, 6, 3)]);
    // Figure 3: A2 is 4, V2 is 5, C2 is 6, and A2 waits as V does in figure 2.
    let nested = plan(
        7,
        &[
            link(1, 1, 10, 2),
            link(4, 1, 10, 6),
            ordinary(1, 13, 3),
            ordinary(2, 6, 3),
            ordinary(4, 9, 3),
            ordinary(6, 2, 3),
            wait(4, 2, 6),
            wait(5, 6, 6),
        ],
    );
    let d = most(&nested, Reading::Strict).0;
    assert_eq!((d[4][3], d[5][3]), (Some(7), Some(2)));
}

#[test]
fn the_haul() {
    let fewest = min_disp(&haul(), Reading::Strict);
    assert_eq!(fewest.ordinary, [(1, -10, 0), (2, 5, 3)]);
    assert_eq!(fewest.waits, haul().waits);
    assert!(fewest.stands(&haul()));
}

/// As in the test of `lighter`: of two records to points that come together one may go, of two from them none.
#[test]
fn points_that_come_together() {
    let count = |rest: &[oracle::plan::RawRecord]| {
        let plan = plan(3, rest);
        let fewest = min_disp(&plan, Reading::Strict);
        assert!(fewest.stands(&plan));
        fewest.ordinary.len()
    };
    let tie = [ordinary(0, 0, 1), ordinary(1, 0, 0)];
    assert_eq!(
        count(&[tie[0], tie[1], ordinary(2, -3, 0), ordinary(2, -3, 1)]),
        3
    );
    assert_eq!(
        count(&[tie[0], tie[1], ordinary(0, -3, 2), ordinary(1, -3, 2)]),
        4
    );
    assert_eq!(
        count(&[tie[0], tie[1], ordinary(0, 3, 2), ordinary(1, 3, 2)]),
        3
    );
}

/// Line 41 as printed drops the wait of a point that comes with its C, and lines 30 to 36 what else says so.
#[test]
fn a_point_that_comes_with_an_end() {
    let plan = plan(
        3,
        &[
            link(0, 1, 3, 1),
            ordinary(1, 0, 2),
            ordinary(2, 0, 1),
            wait(2, 1, 3),
        ],
    );
    assert!(passes(&plan));
    assert!(!min_disp(&plan, Reading::Printed).stands(&plan));
    let fewest = min_disp(&plan, Reading::Strict);
    assert!(fewest.stands(&plan));
    assert_eq!((fewest.ordinary.len(), fewest.waits.len()), (1, 1));
}

/// No ordinary record from V to C stands beside the wait: as printed, record (2, 6, 3) is kept, though from 2 to 3 it is 5 at most.
#[test]
fn a_wait_that_was_typed() {
    let plan = plan(
        4,
        &[
            link(0, 1, 5, 1),
            ordinary(1, 4, 3),
            ordinary(2, 6, 3),
            wait(2, 1, 4),
        ],
    );
    assert!(passes(&plan));
    let left = |reading| min_disp(&plan, reading).ordinary;
    assert_eq!(left(Reading::Printed), [(1, 4, 3), (2, 6, 3)]);
    assert_eq!(left(Reading::Strict), [(1, 4, 3)]);
    assert_eq!(least(&plan, true), 1);
}

#[test]
fn a_point_that_comes_just_when_its_wait_is_over() {
    let plan = plan(
        4,
        &[
            link(0, 1, 10, 1),
            ordinary(0, 5, 2),
            ordinary(2, 3, 3),
            ordinary(1, 3, 3),
            wait(2, 1, 5),
        ],
    );
    assert!(passes(&plan));
    // As printed it drops record (2, 3, 3) for a path that ends with that record.
    assert!(!min_disp(&plan, Reading::Printed).stands(&plan));
    assert!(min_disp(&plan, Reading::Strict).stands(&plan));
}

fn with(plan: &Plan, ordinary: Vec<Ordinary>, waits: Vec<Wait>) -> Plan {
    Plan {
        ordinary,
        waits,
        ..plan.clone()
    }
}

/// The members of a list whose bits are set.
fn some<T: Copy>(all: &[T], bits: u32) -> Vec<T> {
    let set = |place: &usize| bits >> place & 1 == 1;
    (0..all.len()).filter(set).map(|place| all[place]).collect()
}

/// The least number of ordinary records, of all that there could be, and of these waits, that stand for the plan. A record with
/// a bound below the largest distance changes a distance, and one above it helps nothing.
fn least(plan: &Plan, all_waits: bool) -> usize {
    let wanted: Vec<Table> = tables(plan).collect();
    let d = largest(plan);
    let mut could = Vec::new();
    for x in 0..plan.points() {
        for y in (0..plan.points()).filter(|y| *y != x) {
            could.extend(d[x][y].map(|d| Ordinary { x, d, y }));
        }
    }
    let mut least = usize::MAX;
    let every = (1u32 << plan.waits.len()) - 1;
    for kept in 0..=every {
        if all_waits && kept != every {
            continue;
        }
        let waits = some(&plan.waits, kept);
        for bits in 0..1u32 << could.len() {
            let count = bits.count_ones() as usize + if all_waits { 0 } else { waits.len() };
            if count < least {
                let less = with(plan, some(&could, bits), waits.clone());
                if tables(&less).eq(wanted.iter().cloned()) && passes(&less) {
                    least = count;
                }
            }
        }
    }
    least
}

/// A plan of at most four points with some of them at fixed minutes from one another, and a record or two more.
fn tied(random: &mut Random) -> Plan {
    let points = random.between(3, 4) as u8;
    let at: Vec<i32> = (0..points).map(|_| random.between(0, 2)).collect();
    let mut rest = Vec::new();
    for x in 0..points {
        for y in 0..points {
            let fixed = x < 3 && y < 3;
            if x != y && (fixed || random.below(2) == 0) {
                let more = if fixed { 0 } else { random.between(0, 2) };
                let d = at[usize::from(y)] - at[usize::from(x)] + more;
                rest.push(ordinary(x, d, y));
            }
        }
    }
    plan(points, &rest)
}

/// A link, one or two points that wait for its end, and any records.
fn waiting(random: &mut Random) -> Plan {
    let x = random.between(1, 2);
    let y = x + random.between(1, 4);
    let mut rest = vec![link(0, x, y, 1)];
    for from in 0..4 {
        for to in 0..4 {
            if from != to && random.below(3) == 0 {
                rest.push(ordinary(from, random.between(-2, y + 2), to));
            }
        }
    }
    for v in 2..3 + random.below(2) {
        rest.push(wait(v as u8, 1, random.between(x + 1, y)));
    }
    plan(4, &rest)
}

/// The plan with its largest distances for records, in any order.
fn filled(random: &mut Random, plan: &Plan) -> Plan {
    let mut all = Vec::new();
    for (x, row) in largest(plan).iter().enumerate() {
        for (y, d) in row.iter().enumerate().filter(|(y, _)| *y != x) {
            all.extend(d.map(|d| Ordinary { x, d, y }));
        }
    }
    for place in (1..all.len()).rev() {
        all.swap(place, random.below(place + 1));
    }
    with(plan, all, plan.waits.clone())
}

/// A tiny plan in the setting that passes the test.
fn tiny(random: &mut Random) -> Plan {
    loop {
        let bound = random.between(1, 6);
        let made = match random.below(16) {
            0 => tied(random),
            1 => close(&random_plan(random, bound)).unwrap_or_default(),
            2 => random_plan(random, bound),
            _ => waiting(random),
        };
        let few = (1..=4).contains(&made.points()) && made.waits.len() < 3;
        if few && in_setting(&made) && passes(&made) {
            return match random.below(2) {
                0 => filled(random, &made),
                _ => made,
            };
        }
    }
}

#[test]
fn tiny_plans() {
    let mut random = Random::new(5);
    // Plans with links, with points at a fixed distance, of which a wait goes, of which `lighter` leaves more.
    let mut seen = [0; 4];
    let mut printed = 0;
    for _ in 0..1_000 {
        let plan = tiny(&mut random);
        let largest = largest(&plan);
        let points = 0..plan.points();
        assert_eq!(most(&plan, Reading::Strict).0, largest, "{plan:?}");
        let fewest = min_disp(&plan, Reading::Strict);
        assert!(fewest.stands(&plan), "{plan:?}");
        printed += usize::from(!min_disp(&plan, Reading::Printed).stands(&plan));
        assert_eq!(fewest.ordinary.len(), least(&plan, true), "{plan:?}");
        let both = fewest.ordinary.len() + fewest.waits.len();
        assert_eq!(both, least(&plan, false), "{plan:?}");
        let light = lighter(&plan).unwrap().plan.ordinary.len();
        assert!(light >= fewest.ordinary.len());
        let fixed = |x: usize, y: usize| {
            let sum = largest[x][y].zip(largest[y][x]).map(|(a, b)| a + b);
            x != y && sum == Some(0)
        };
        seen[0] += usize::from(!plan.links.is_empty());
        seen[1] += usize::from(points.clone().any(|x| points.clone().any(|y| fixed(x, y))));
        seen[2] += usize::from(fewest.waits.len() < plan.waits.len());
        seen[3] += usize::from(light > fewest.ordinary.len());
    }
    println!("{seen:?}, as printed it does not stand for {printed}");
    assert!(
        seen.iter().all(|count| *count > 4) && printed > 4,
        "{seen:?}"
    );
}
