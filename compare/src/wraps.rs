//! Plans of far more projections than the test tries, whose number is small again where it is kept in 32 bits or in 64.

use crate::draw::Draw;
use crate::events::MARK;
use oracle::plan::{self, Link, Plan, BOUND, RECORD};
use oracle::plan_test;

/// What becomes of the number: it is 0, or from 1 to 4,096.
pub const WRAPS: [&str; 4] = [
    "13: 0 in 32 bits",
    "13: few in 32 bits",
    "13: 0 in 64 bits",
    "13: few in 64 bits",
];

/// The number of projections. Eight links of 100,000 durations have fewer than 2^128.
fn projections(plan: &Plan) -> u128 {
    let spans = plan.links.iter().map(|link| (link.y - link.x + 1) as u128);
    spans.product()
}

/// What becomes of the number of a plan's projections.
pub fn of_plan(plan: &Plan) -> Vec<&'static str> {
    let count = projections(plan);
    let most = plan_test::MOST as u128;
    let mut found = Vec::new();
    for (k, bits) in [32, 64].into_iter().enumerate() {
        if count >> bits > 0 {
            match count % (1 << bits) {
                0 => found.push(WRAPS[2 * k]),
                few if few <= most => found.push(WRAPS[2 * k + 1]),
                _ => {}
            }
        }
    }
    found
}

/// What comes up in an input of the printing programs.
pub fn of_input(input: &[u8]) -> Vec<&'static str> {
    let mark = input.chunks(RECORD).position(|record| record == MARK);
    let part = &input[..mark.map_or(input.len(), |mark| mark * RECORD)];
    plan::read(part).map_or(Vec::new(), |plan| of_plan(&plan))
}

/// Numbers from 2 to 100,000, at most eight, whose product is this, if there are such.
fn spans(draw: &mut Draw, product: u128) -> Option<Vec<i64>> {
    let mut primes: Vec<i64> = Vec::new();
    let mut rest = product;
    let mut prime = 2;
    while rest > 1 && prime <= BOUND as u128 {
        while rest % prime == 0 {
            primes.push(prime as i64);
            rest /= prime;
        }
        prime += 1;
    }
    if rest > 1 {
        return None;
    }
    // The largest first, each put to one that has room for it, now and then to a new one.
    let mut spans: Vec<i64> = Vec::new();
    for &prime in primes.iter().rev() {
        let room = |span: &&mut i64| **span * prime <= BOUND;
        match spans.iter_mut().find(room) {
            Some(span) if !draw.one_in(5) => *span *= prime,
            _ => spans.push(prime),
        }
    }
    (spans.len() <= 8).then_some(spans)
}

/// A product that is small again in so many bits, just past what they hold or a few times as much.
fn product(draw: &mut Draw, wrap: &str) -> u128 {
    let bits = if wrap.ends_with("32 bits") { 32 } else { 64 };
    let times = draw.pick(&[1, 1, 1, 2, 3, 5]);
    let few = if wrap.starts_with("13: 0") {
        0
    } else {
        draw.edgy(1, plan_test::MOST) as u128
    };
    (times << bits) + few
}

/// A plan of which that becomes: links from any points, and nothing else that the test could miss.
pub fn plan(draw: &mut Draw, wrap: &str) -> Plan {
    loop {
        let product = product(draw, wrap);
        let Some(mut spans) = spans(draw, product) else {
            continue;
        };
        draw.shuffle(&mut spans);
        let mut plan = Plan {
            ponds: vec![0; 2 * spans.len()],
            ..Plan::default()
        };
        for (k, span) in spans.into_iter().enumerate() {
            let x = draw.edgy(1, BOUND + 1 - span);
            let (y, c) = (x + span - 1, 2 * k + 1);
            // From its own point, from that of the first, or where the one before ends.
            let a = draw.pick(&[2 * k, 2 * k, 0, (2 * k).saturating_sub(1)]);
            plan.links.push(Link { a, x, y, c });
        }
        if of_plan(&plan).contains(&wrap) {
            return plan;
        }
    }
}

#[cfg(test)]
mod tests {
    use super::*;

    /// Each is found, read back and refused with 13.
    #[test]
    fn they_are_found() {
        for batch in 0..40 {
            let draw = &mut Draw::new(9, batch);
            for wrap in WRAPS {
                let made = plan(draw, wrap);
                assert_eq!(plan::read(&made.to_bytes()), Ok(made.clone()));
                assert_eq!(plan_test::plan_test(&made), Err((13, 0)));
                let count = projections(&made);
                let small = [count as u32 as u64, count as u64];
                assert!(small.iter().any(|small| *small <= 4_096), "{count}");
            }
        }
    }
}
