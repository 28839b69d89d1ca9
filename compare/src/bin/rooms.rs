//! Compares what our engine answers over rooms of any content with the equation: rooms SEED SECONDS OURS THEIRS [EMULATOR WORDS].
//! Started by compare/rooms from the folder above. `rooms stored` writes what crates/rooms_probe/stdin has.

use compare::programs::{self, Both, Way, ENDED_WELL};
use compare::rooms::{self, Case, Count, KEYS};
use std::io::{self, Write};
use std::process::ExitCode;
use std::time::{Duration, Instant};

/// Where something has not come up when the time is over, it goes on for at most so many times as long: under an emulator
/// inputs come slower.
const PATIENCE: u32 = 4;

/// Where inputs are kept on which the programs differ.
const KEPT: &str = "compare/kept";

fn main() -> ExitCode {
    let words: Vec<String> = std::env::args().collect();
    if words[1..] == ["stored"] {
        let input = rooms::input(&rooms::stored());
        return match io::stdout().write_all(&input) {
            Ok(()) => ExitCode::SUCCESS,
            Err(_) => ExitCode::FAILURE,
        };
    }
    let numbers = match &words[..] {
        [_, seed, seconds, _, _, ..] => seed.parse().ok().zip(seconds.parse().ok()),
        _ => None,
    };
    let Some((seed, seconds)) = numbers.filter(|&(_, seconds)| (0.0..=1e7).contains(&seconds))
    else {
        eprintln!("usage: rooms SEED SECONDS OURS THEIRS [EMULATOR WORDS]");
        return ExitCode::from(2);
    };
    programs::watch();
    let mut ours = words[5..].to_vec();
    ours.push(words[3].clone());
    let name = format!("rooms-{}.input", std::process::id());
    let both = Both {
        name: "rooms_probe".to_string(),
        ours,
        theirs: words[4].clone(),
        scratch: std::env::temp_dir().join(name),
    };
    let same = compare(&both, seed, Duration::from_secs_f64(seconds));
    // It is there only if an input was read from it.
    let _ = std::fs::remove_file(&both.scratch);
    match same {
        Ok(true) => ExitCode::SUCCESS,
        Ok(false) => ExitCode::FAILURE,
        Err(error) => {
            eprintln!("rooms: {error}");
            ExitCode::from(2)
        }
    }
}

/// How a batch reaches the programs.
fn way(batch: u64) -> Way {
    match batch % 3 {
        0 => Way::File,
        1 => Way::Pipe,
        _ => Way::Pieces(1_000),
    }
}

/// Compares, and says what came of it: were they the same, and did everything come up?
fn compare(both: &Both, seed: u64, time: Duration) -> io::Result<bool> {
    println!("seed {seed}");
    let (start, count) = (Instant::now(), Count::default());
    let (mut cases, mut events) = (0, 0);
    for batch in 0.. {
        let past = start.elapsed();
        let all = count.missing().is_empty();
        if past > time && (all || past > time * PATIENCE) {
            break;
        }
        let drawn = rooms::batch(seed, batch);
        let input = rooms::input(&drawn);
        let (ours, theirs) = both.run(&input, way(batch))?;
        if let Some((k, what)) = rooms::difference(&drawn, &ours.bytes, &theirs.bytes) {
            tell(seed, batch, k, &drawn, &what)?;
            return Ok(false);
        }
        if [&ours.ended, &theirs.ended]
            .iter()
            .any(|&end| end != ENDED_WELL)
        {
            println!("ended otherwise: {}, {}", ours.ended, theirs.ended);
            tell(seed, batch, drawn.len(), &drawn, "how it ended")?;
            return Ok(false);
        }
        for case in &drawn {
            count.case(case);
            events += case.events.len();
        }
        cases += drawn.len();
    }
    let seconds = start.elapsed().as_secs_f64();
    println!("{cases} rooms with {events} events the same, {seconds:.0} seconds");
    for key in KEYS {
        println!("{:>9}  {key}", count.of(key));
    }
    let missing = count.missing();
    for key in &missing {
        println!("never came up: {key}");
    }
    Ok(missing.is_empty())
}

/// Keeps the case on which the programs differ, or the whole batch, and says where.
fn tell(seed: u64, batch: u64, k: usize, drawn: &[Case], what: &str) -> io::Result<()> {
    std::fs::create_dir_all(KEPT)?;
    let file = format!("{KEPT}/rooms-{seed}-{batch}-{k}");
    let kept = match drawn.get(k) {
        Some(case) => {
            println!("a difference; rooms made as: {}", case.what);
            case.bytes()
        }
        None => rooms::input(drawn),
    };
    std::fs::write(&file, kept)?;
    println!("{what}");
    println!("to see it: bin/run-program rooms_probe < {file} | cmp - <(oracle/target/release/oracle-rooms_probe < {file})");
    Ok(())
}
