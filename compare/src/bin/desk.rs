//! Compares our `desk` with the independent one on drawn asks: desk SEED SECONDS OURS THEIRS VERBS...
//! Started by compare/desk from the folder above.

use compare::asks::{self, Ask};
use compare::desk::{self, Compared, Found, Limits};
use compare::programs::{self, Shown, Way};
use compare::smaller;
use std::io;
use std::path::PathBuf;
use std::process::ExitCode;
use std::thread;
use std::time::{Duration, Instant};

/// Where something has not come up when the time is over, it goes on for at most so many times as long: under an emulator
/// inputs come slower.
const PATIENCE: u32 = 4;

/// Where inputs are kept on which the programs differ.
const KEPT: &str = "compare/kept";

fn main() -> ExitCode {
    let words: Vec<String> = std::env::args().collect();
    let numbers = match &words[..] {
        [_, seed, seconds, _, _, _, ..] => seed.parse().ok().zip(seconds.parse().ok()),
        _ => None,
    };
    let Some((seed, seconds)) = numbers.filter(|&(_, seconds)| (0.0..=1e7).contains(&seconds))
    else {
        eprintln!("usage: desk SEED SECONDS OURS THEIRS VERBS...");
        return ExitCode::from(2);
    };
    let verbs: Vec<&str> = words[5..].iter().map(String::as_str).collect();
    if let Some(verb) = verbs.iter().find(|verb| !asks::VERBS.contains(verb)) {
        let all = asks::VERBS.join(" ");
        eprintln!("desk: {verb} is no verb that can be compared; these are: {all}");
        return ExitCode::from(2);
    }
    programs::watch();
    let both = Both {
        ours: words[3].clone(),
        theirs: words[4].clone(),
        verbs,
    };
    let workers = thread::available_parallelism().map_or(1, usize::from);
    let same = compare(&both, seed, Duration::from_secs_f64(seconds), workers);
    for worker in 0..workers {
        // It is there only if an input was read from it.
        let _ = std::fs::remove_file(scratch(worker));
    }
    match same {
        Ok(true) => ExitCode::SUCCESS,
        Ok(false) => ExitCode::FAILURE,
        Err(error) => {
            eprintln!("desk: {error}");
            ExitCode::from(2)
        }
    }
}

/// The two programs, and the verbs that are compared.
struct Both<'a> {
    ours: String,
    theirs: String,
    verbs: Vec<&'a str>,
}

/// The file from which a worker gives inputs.
fn scratch(worker: usize) -> PathBuf {
    let name = format!("desk-{}-{worker}.input", std::process::id());
    std::env::temp_dir().join(name)
}

impl Both<'_> {
    fn run(
        &self,
        worker: usize,
        words: &[String],
        input: &[u8],
        way: Way,
    ) -> io::Result<(Shown, Shown)> {
        let ours = [std::slice::from_ref(&self.ours), words].concat();
        let theirs = [std::slice::from_ref(&self.theirs), words].concat();
        programs::run_with_errors(&ours, &theirs, input, way, &scratch(worker))
    }
}

/// Compares, and says what came of it: were they the same, and did everything come up?
fn compare(both: &Both, seed: u64, time: Duration, workers: usize) -> io::Result<bool> {
    println!("seed {seed}");
    let start = Instant::now();
    let limits = Limits {
        least: time,
        most: time * PATIENCE,
        batches: u64::MAX,
    };
    let run = |worker: usize, ask: &Ask, way: Way| both.run(worker, &ask.words, &ask.input, way);
    let Compared { asks, count, found } = desk::compare(&run, &both.verbs, seed, limits, workers)?;
    if let Some(found) = found {
        println!("a difference, after {asks} inputs");
        tell(both, seed, &found)?;
        return Ok(false);
    }
    let seconds = start.elapsed().as_secs_f64();
    let rate = asks as f64 / seconds;
    println!("{asks} inputs the same, {seconds:.0} seconds, {rate:.0} a second");
    let (missing, strange) = desk::print(&both.verbs, &count);
    for key in &missing {
        println!("never came up: {key}");
    }
    for key in &strange {
        println!("cannot come up, but did: {key}");
    }
    Ok(missing.is_empty() && strange.is_empty())
}

/// Keeps an input on which the programs differ, makes it smaller, and prints what each program says of it.
fn tell(both: &Both, seed: u64, found: &Found) -> io::Result<()> {
    let Found {
        batch, k, ask, way, ..
    } = found;
    std::fs::create_dir_all(KEPT)?;
    let file = format!("{KEPT}/desk-{seed}-{batch}-{k}");
    let whole = format!("{file}.whole");
    std::fs::write(&whole, &ask.input)?;
    let words = ask.words.join(" ");
    println!(
        "desk {words}; made as: {}; given by {way:?}; kept in {whole}",
        ask.what
    );
    let differ = |way: Way, input: &[u8]| {
        let (ours, theirs) = both.run(0, &ask.words, input, way)?;
        let fault = desk::fault(&ask.words, input, &ours);
        Ok(fault.is_some() || desk::differ(&both.verbs, &ask.words, &ours, &theirs))
    };
    // Read from a file is the simplest way to see it again.
    let way = if differ(Way::File, &ask.input)? {
        Way::File
    } else {
        println!("no difference when it is read from a file");
        *way
    };
    let still = |input: &[u8]| differ(way, input);
    let verb = ask.words.first().map_or("", String::as_str);
    let small = if ["import", "pack"].contains(&verb) {
        smaller::smaller_text(&still, &ask.input)?
    } else {
        smaller::smaller(&still, &ask.input)?
    };
    std::fs::write(&file, &small)?;
    println!(
        "made smaller, from {} bytes to {}: {file}",
        ask.input.len(),
        small.len()
    );
    let (ours, theirs) = both.run(0, &ask.words, &small, way)?;
    if let Some(fault) = desk::fault(&ask.words, &small, &ours) {
        println!("what ours says is wrong by itself: {fault}");
    }
    show("ours", &ours);
    show("the independent program", &theirs);
    let quoted: Vec<String> = ask.words.iter().map(|word| format!("'{word}'")).collect();
    let quoted = quoted.join(" ");
    println!(
        "to see it: diff <({} {quoted} < {file} 2>&1 | od -c) <({} {quoted} < {file} 2>&1 | od -c)",
        both.ours, both.theirs
    );
    Ok(())
}

fn show(whose: &str, shown: &Shown) {
    println!("{whose}, {}:", shown.ended);
    for (name, bytes) in [("output", &shown.bytes), ("error", &shown.errors)] {
        let some = &bytes[..bytes.len().min(2_000)];
        println!(
            "  standard {name}, {} bytes: {}",
            bytes.len(),
            some.escape_ascii()
        );
    }
}
