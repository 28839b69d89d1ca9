//! The verb `explain`: why the test says no.

mod common;

use common::*;
use oracle::desk::{Said, Verb};
use oracle::explain::{explain, steps};
use oracle::plan::Plan;
use oracle::plan_test::{plan_test, Answer, Odometer};

fn said(words: &[&str], input: &[u8]) -> Said {
    Verb::of(words).expect("a verb").said(input)
}

fn told(plan: &Plan) -> String {
    explain(plan).unwrap_or_else(|refusal| refusal)
}

/// Worked cases 1, 2, 3 and 10 of document 01.
#[test]
fn worked_cases() {
    assert_eq!(told(&haul()), "test yes 31");
    let without = "test pair 0 3 0\ndrive 1 2 20\nshortest -15\nallowed none\nstep 7 3 2 15\nstep 4 2 1 -20\n\
                   step 5 1 0 -10\nsum -15";
    assert_eq!(told(&haul_with(&[])), without);
    let shorter = "test pair 30 3 0\ndrive 1 2 50\nshortest -45\nallowed -44\nstep 7 3 2 15\nstep 4 2 1 -50\n\
                   step 5 1 0 -10\nsum -45";
    assert_eq!(told(&haul_with(&[wait(3, 2, 34)])), shorter);
    let cycle = plan(2, &[ordinary(0, -5, 1), ordinary(1, -5, 0)]);
    let lines: Vec<String> = told(&cycle).lines().map(str::to_string).collect();
    assert_eq!(
        (lines.len(), &lines[0][..], &lines[3][..]),
        (4, "test cycle 0", "sum -10")
    );
    assert_eq!(told(&plan(2, &[link(0, 1, 4_097, 1)])), "test 13");
}

/// Refusals are those of `test`, byte for byte, and so is yes.
#[test]
fn what_test_says() {
    let many = plan(2, &[link(0, 1, 4_097, 1)]).to_bytes();
    for file in [&[][..], &[7; 16], &many, &haul().to_bytes()] {
        assert_eq!(said(&["explain"], file), said(&["test"], file));
    }
}

/// Of random plans: the steps are edges of their records, they join, and the sum is as told.
#[test]
fn walks() {
    let mut random = Random::new(22);
    let (mut cycles, mut pairs) = (0, 0);
    while cycles.min(pairs) < 300 {
        let bound = random.between(1, 9);
        let plan = match random.below(2) {
            0 => random_plan(&mut random, bound),
            _ => chained_plan(&mut random, bound),
        };
        let answer = plan_test(&plan).unwrap();
        let (number, ends) = match answer {
            Answer::Yes(_) => continue,
            Answer::Cycle(number) => (number, None),
            Answer::Pair(number, x, y) => (number, Some((x, y))),
        };
        let durations = Odometer::new(&plan).nth(number as usize).unwrap();
        let all = steps(&plan, &durations);
        let text = told(&plan);
        let walk: Vec<Vec<i64>> = text
            .lines()
            .filter_map(|line| line.strip_prefix("step "))
            .map(|line| line.split(' ').map(|word| word.parse().unwrap()).collect())
            .collect();
        for step in &walk {
            let same = |one: &oracle::explain::Step| {
                let [record, from, to] = [one.record, one.from, one.to].map(|it| it as i64);
                step[..] == [record, from, to, one.length]
            };
            assert!(all.iter().any(same), "{text}");
        }
        assert!(walk.windows(2).all(|two| two[0][2] == two[1][1]), "{text}");
        let sum: i64 = walk.iter().map(|step| step[3]).sum();
        assert!(text.ends_with(&format!("\nsum {sum}")), "{text}");
        let is = (walk[0][1] as usize, walk[walk.len() - 1][2] as usize);
        match ends {
            Some(pair) => {
                assert!(is == pair && text.contains(&format!("\nshortest {sum}\n")));
                pairs += 1;
            }
            None => {
                assert!(is.0 == is.1 && sum < 0, "{text}");
                cycles += 1;
            }
        }
    }
}
