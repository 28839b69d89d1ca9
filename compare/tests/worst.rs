//! The runs of document 02's worst finishing minute, on drawn plans that pass the test, of any size: none sticks, and each
//! ends with the longest chain of steps back.

use compare::draw::Draw;
use compare::plans;
use oracle::plan_test::{distances, edges, Odometer};
use oracle::worst::run;

#[test]
fn runs_of_drawn_plans() {
    for batch in 0..150 {
        let draw = &mut Draw::new(13, batch);
        let plan = plans::that_passes(draw);
        // A few of the projections.
        let every = 1 + draw.below(20);
        for durations in Odometer::new(&plan).step_by(every) {
            let edges = edges(&plan, &durations);
            let all = (0..plan.points()).map(|x| distances(plan.points(), &edges, x).unwrap());
            let least = all.flatten().flatten().min().unwrap_or(0);
            let run = run(&plan, &durations).expect("it passes");
            assert_eq!(i64::from(run.last.clock), -least);
        }
    }
}
