//! A foreman's day of the haul, by the Rust crate: haul examples/haul/plan.run
//! It tests the plan, tells what happens as it happens, and says after each event what may be done next.
use ponds::{Day, Event, Outcome, Plan, Refusal, Rooms, State, Test, Verdict};
use std::process::ExitCode;

const STEPS: [&str; 4] = [
    "the crew is called",
    "the truck leaves",
    "the truck arrives",
    "the fish are loaded",
];

/// What may be done now, a line for each step.
fn show(day: &Day) {
    let reply = day.reply();
    match reply.outcome() {
        Outcome::Finished => return println!("Everything is done."),
        Outcome::Stuck => println!("Nothing can come in time any more."),
        Outcome::Waiting => {}
        Outcome::Offers { latest } => println!("The next step has to come by minute {latest}."),
    }
    for (step, state) in STEPS.iter().zip(reply.states()) {
        let said = match state {
            State::Done(minute) => format!("done at {minute}"),
            State::Watched => "comes when it comes".into(),
            State::Shut(record) => format!("not yet: record {} of the plan", record.unwrap_or(0)),
            State::Held => "too late for now".into(),
            State::Offered(low) => format!("from minute {low} on"),
        };
        println!("  {step:<20}{said}");
    }
}

/// What happened, and how it is answered.
fn tell(day: &mut Day, step: usize, event: Event) {
    print!("\nMinute {}, {}: ", event.minute, STEPS[step]);
    match day.take(event) {
        Ok(()) => println!("taken."),
        Err(refusal) => println!("refused with {refusal} Nothing has changed."),
    }
    show(day);
}

fn run(file: &[u8]) -> Result<(), Refusal> {
    let plan = Plan::new(file)?;
    let (Test::Yes(tried), worst) = (plan.test()?, plan.worst()?) else {
        println!("The plan does not provide for everything.");
        return Ok(());
    };
    println!(
        "All {tried} drive times are provided for. At worst it is over at minute {}.",
        worst.minute
    );
    let mut rooms = Box::new(Rooms::new());
    let mut day = plan.begin(&mut rooms);
    show(&day);
    tell(&mut day, 0, Event::done(0, 0));
    tell(&mut day, 1, Event::done(12, 1));
    tell(&mut day, 2, Event::seen(40, 2));
    tell(&mut day, 3, Event::done(46, 3)); // too late: it has to be within 5 minutes
    tell(&mut day, 3, Event::done(43, 3));
    match day.verdict()? {
        Verdict::Kept => println!("\nThe verdict: every record of the plan was kept."),
        Verdict::Broken(record) => println!("\nThe verdict: record {record} was broken."),
    }
    Ok(())
}

fn main() -> ExitCode {
    let name = std::env::args().nth(1).unwrap_or_default();
    let file = std::fs::read(name).unwrap_or_default();
    match run(&file) {
        Ok(()) => ExitCode::SUCCESS,
        Err(refusal) => {
            println!("Refused with {refusal}");
            ExitCode::FAILURE
        }
    }
}
