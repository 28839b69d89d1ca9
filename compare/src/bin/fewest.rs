//! Counts how many records `desk lighter` leaves beside the fewest that minDisp keeps: fewest SEED PLANS WORDS...
//! Started by compare/fewest from the folder above. WORDS start our program `desk`.

use compare::draw::Draw;
use compare::fewest;
use compare::programs::{self, ENDED_WELL};
use oracle::lighter::passes;
use oracle::min_disp::{min_disp, Reading};
use oracle::plan::{self, Plan};
use std::io;
use std::process::ExitCode;

/// What is summed up of the plans of a row.
#[derive(Default)]
struct Row {
    plans: usize,
    before: usize,
    lighter: usize,
    fewest: usize,
    /// Plans of which both leave as many, of which `lighter` leaves fewer, and the most that it leaves more.
    same: usize,
    fewer: usize,
    more: usize,
    /// Plans of which minDisp's result was shown to be the fewest.
    least: usize,
    waits: usize,
    fewest_waits: usize,
    /// Plans of which minDisp's result has other distances or does not pass; as printed, and read strictly.
    broken: [usize; 2],
}

fn main() -> ExitCode {
    let words: Vec<String> = std::env::args().collect();
    let numbers = match &words[..] {
        [_, seed, plans, _, ..] => seed.parse().ok().zip(plans.parse().ok()),
        _ => None,
    };
    let Some((seed, plans)) = numbers else {
        eprintln!("usage: fewest SEED PLANS WORDS...");
        return ExitCode::from(2);
    };
    programs::watch();
    match table(seed, plans, &words[3..]) {
        Ok(()) => ExitCode::SUCCESS,
        Err(error) => {
            eprintln!("fewest: {error}");
            ExitCode::FAILURE
        }
    }
}

/// Prints the table, with so many plans of each form.
fn table(seed: u64, plans: u64, words: &[String]) -> io::Result<()> {
    println!("| plans | points | tied | plans | records | `lighter` | minDisp | the same | at most | shown least | waits | minDisp |");
    println!("|---|---|---|---:|---:|---:|---:|---:|---:|---:|---:|---:|");
    let (mut fewer, mut broken) = (0, [0; 2]);
    for (k, form) in fewest::FORMS.into_iter().enumerate() {
        let mut rows = fewest::TIES.map(|_| Row::default());
        for number in 0..plans {
            let draw = &mut Draw::new(seed, k as u64 * 1_000_000 + number);
            let plan = fewest::plan(draw, form);
            let light = lighter(words, &plan)?;
            add(&mut rows[fewest::tied(&plan)], draw, &plan, &light);
        }
        for (row, tied) in rows.iter().zip(fewest::TIES) {
            fewer += row.fewer;
            broken = [0, 1].map(|k| broken[k] + row.broken[k]);
            if row.plans > 0 {
                let (what, least, most) = form;
                println!(
                    "| {what} | {least} to {most} | {tied} | {} | {} | {} | {} | {} | {} | {} | {} | {} |",
                    row.plans,
                    row.before,
                    row.lighter,
                    row.fewest,
                    row.same,
                    row.more,
                    row.least,
                    row.waits,
                    row.fewest_waits
                );
            }
        }
    }
    println!();
    println!("`lighter` leaves fewer than minDisp: {fewer}");
    println!(
        "left out, since what minDisp leaves does not stand: {}",
        broken[1]
    );
    println!(
        "as document 000 prints it, it would not stand for: {}",
        broken[0]
    );
    Ok(())
}

fn add(row: &mut Row, draw: &mut Draw, plan: &Plan, light: &Plan) {
    row.broken[0] += usize::from(!min_disp(plan, Reading::Printed).stands(plan));
    let fewest = min_disp(plan, Reading::Strict);
    if !fewest.stands(plan) {
        row.broken[1] += 1;
        return;
    }
    let (left, least) = (light.ordinary.len(), fewest.ordinary.len());
    row.plans += 1;
    row.before += plan.ordinary.len();
    row.lighter += left;
    row.fewest += least;
    row.same += usize::from(left == least);
    row.fewer += usize::from(left < least);
    row.more = row.more.max(left.saturating_sub(least));
    row.least += usize::from(shown_least(draw, plan, least));
    row.waits += plan.waits.len();
    row.fewest_waits += fewest.waits.len();
}

/// Is it plain that no fewer ordinary records will do?
fn shown_least(draw: &mut Draw, plan: &Plan, least: usize) -> bool {
    let needed = fewest::needed(draw, plan);
    needed.ordinary.len() == least
}

/// What our program leaves of a plan.
fn lighter(words: &[String], plan: &Plan) -> io::Result<Plan> {
    let words = [words, &["lighter".to_string()]].concat();
    let shown = programs::run(&words, &plan.to_bytes())?;
    let read = plan::read(&shown.bytes).ok().filter(passes);
    match read.filter(|_| shown.ended == ENDED_WELL) {
        Some(light) => Ok(light),
        None => Err(io::Error::other("`desk lighter` gave no plan that passes")),
    }
}
