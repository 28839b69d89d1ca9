//! Compares our programs with the independent ones on drawn inputs: compare SEED MINUTES OURS THEIRS NAMES [WORDS...]
//! Started by compare/run from the folder above. A program NAME is OURSNAME on our side and THEIRSNAME on the other;
//! WORDS start a program of ours where it can't be started by itself.

use compare::corners;
use compare::count::{self, Count};
use compare::draw::Draw;
use compare::inputs::{self, Input};
use compare::links;
use compare::programs::{self, Both, Shown, Way};
use compare::requests;
use compare::shut;
use compare::smaller;
use compare::soundness;
use compare::wraps;
use std::io;
use std::path::{Path, PathBuf};
use std::process::ExitCode;
use std::sync::atomic::{AtomicBool, AtomicU64, Ordering};
use std::sync::Mutex;
use std::thread;
use std::time::{Duration, Instant};

/// Where something has not come up when the time is over, it goes on for at most so many times as long: under an emulator
/// inputs come slower.
const PATIENCE: u32 = 4;

/// Where inputs are kept on which the programs differ.
const KEPT: &str = "compare/kept";

fn main() -> ExitCode {
    let words: Vec<String> = std::env::args().collect();
    let numbers = match &words[..] {
        [_, seed, minutes, _, _, _, ..] => seed.parse().ok().zip(minutes.parse().ok()),
        _ => None,
    };
    let Some((seed, minutes)) = numbers.filter(|&(_, minutes)| (0.0..=1e6).contains(&minutes))
    else {
        eprintln!("usage: compare SEED MINUTES OURS THEIRS NAMES [WORDS...]");
        return ExitCode::from(2);
    };
    let [ours, theirs, names] = [&words[3], &words[4], &words[5]];
    let pair = |name: &str| Both {
        name: name.to_string(),
        ours: [&words[6..], &[format!("{ours}{name}")]].concat(),
        theirs: format!("{theirs}{name}"),
        scratch: scratch(0),
    };
    let pairs: Vec<Both> = names.split_whitespace().map(pair).collect();
    programs::watch();
    let same = compare(&pairs, seed, Duration::from_secs_f64(minutes * 60.0));
    // It is there only if an input was read from it.
    let _ = std::fs::remove_file(scratch(0));
    match same {
        Ok(true) => ExitCode::SUCCESS,
        Ok(false) => ExitCode::FAILURE,
        Err(error) => {
            eprintln!("compare: {error}");
            ExitCode::from(2)
        }
    }
}

/// The file from which a worker gives inputs.
fn scratch(worker: usize) -> PathBuf {
    let name = format!("compare-{}-{worker}.input", std::process::id());
    std::env::temp_dir().join(name)
}

/// An input on which the programs of one name differ: number `k` of its batch.
struct Found {
    name: String,
    batch: u64,
    k: usize,
    input: Input,
    way: Way,
}

/// What the workers share.
struct Shared {
    seed: u64,
    until: Instant,
    at_most: Instant,
    next_batch: AtomicU64,
    compared: AtomicU64,
    stop: AtomicBool,
    /// Streams that both engines were given.
    both_engines: AtomicU64,
    /// One for each name.
    counts: Mutex<Vec<Count>>,
}

/// Compares until the time is over and everything has come up, or a difference is found; is all well?
fn compare(pairs: &[Both], seed: u64, time: Duration) -> io::Result<bool> {
    println!("seed {seed}");
    let start = Instant::now();
    let shared = Shared {
        seed,
        until: start + time,
        at_most: start + time * PATIENCE,
        next_batch: AtomicU64::new(0),
        compared: AtomicU64::new(0),
        stop: AtomicBool::new(false),
        both_engines: AtomicU64::new(0),
        counts: Mutex::new(vec![Count::default(); pairs.len()]),
    };
    let workers = thread::available_parallelism().map_or(1, usize::from);
    let results: Vec<io::Result<Option<Found>>> = thread::scope(|scope| {
        let start = |worker| {
            let mut pairs = pairs.to_vec();
            for both in &mut pairs {
                both.scratch = scratch(worker);
            }
            let shared = &shared;
            scope.spawn(move || {
                let result = work(&pairs, shared);
                if !matches!(result, Ok(None)) {
                    shared.stop.store(true, Ordering::Relaxed);
                }
                // It is there only if an input was read from it.
                let _ = std::fs::remove_file(scratch(worker));
                result
            })
        };
        let started: Vec<_> = (1..=workers).map(start).collect();
        let join = |worker: thread::ScopedJoinHandle<_>| worker.join().expect("no worker fails");
        started.into_iter().map(join).collect()
    });
    let compared = shared.compared.into_inner();
    for result in results {
        if let Some(found) = result? {
            println!("a difference, after {compared} inputs");
            let both = pairs.iter().find(|both| both.name == found.name);
            tell(both.expect("it was one of them"), seed, &found)?;
            return Ok(false);
        }
    }
    let seconds = start.elapsed().as_secs_f64();
    let rate = compared as f64 / seconds;
    println!("{compared} inputs the same, {seconds:.0} seconds, {rate:.0} a second");
    let names: Vec<&str> = pairs.iter().map(|both| both.name.as_str()).collect();
    let streams = shared.both_engines.into_inner();
    if ["probe", "offers"].iter().all(|name| names.contains(name)) {
        println!("{streams} streams to both engines, from the fresh board");
    }
    let counts = shared.counts.into_inner().expect("no worker fails");
    let (mut missing, strange) = count::print(&names, &counts);
    if names.contains(&"probe") && names.len() > 1 && streams == 0 {
        missing.push("a stream to both engines".to_string());
    }
    for key in &missing {
        println!("never came up: {key}");
    }
    for key in &strange {
        println!("cannot come up, but did: {key}");
    }
    Ok(missing.is_empty() && strange.is_empty())
}

/// Is the time over? Not before everything has come up, unless it takes far too long.
fn over(pairs: &[Both], shared: &Shared) -> bool {
    let now = Instant::now();
    if now < shared.until {
        return false;
    }
    let names: Vec<&str> = pairs.iter().map(|both| both.name.as_str()).collect();
    let counts = shared.counts.lock().expect("no worker fails");
    shared.at_most <= now || count::complete(&names, &counts)
}

/// Takes batch after batch, until the time is over, a difference is found or another worker says stop.
fn work(pairs: &[Both], shared: &Shared) -> io::Result<Option<Found>> {
    while !over(pairs, shared) {
        let batch = shared.next_batch.fetch_add(1, Ordering::Relaxed);
        let mut draw = Draw::new(shared.seed, batch);
        let mut counts = vec![Count::default(); pairs.len()];
        // The probe takes requests, the printing programs sheets, and the probe their streams as well.
        let mut again = None;
        for probe in [false, true] {
            let concerned = |both: &&Both| (both.name == "probe") == probe;
            if !pairs.iter().any(|both| concerned(&both)) {
                continue;
            }
            let inputs = if probe {
                let mut inputs = requests::batch(&mut draw, batch);
                inputs.extend(again.take());
                inputs
            } else {
                let inputs = inputs::batch(&mut draw, batch);
                let (input, streams) = requests::again(&inputs);
                again = input;
                if pairs.iter().any(|both| both.name == "probe") {
                    shared.both_engines.fetch_add(streams, Ordering::Relaxed);
                }
                inputs
            };
            for (k, input) in inputs.into_iter().enumerate() {
                if shared.stop.load(Ordering::Relaxed) {
                    return Ok(None);
                }
                let way = way(&mut draw, &input);
                let of_input = if probe {
                    let of_links = links::of_requests(&input.bytes);
                    [of_links, soundness::of_requests(&input.bytes)].concat()
                } else {
                    let of_links = links::of_input(&input.bytes);
                    [of_links, corners::of_input(&input.bytes)].concat()
                };
                // The printing program of document 01 tells nothing of why, and tests no plan.
                let why = match probe {
                    true => shut::of_requests(&input.bytes),
                    false if pairs.iter().any(|both| both.name == "offers") => {
                        let of_plan = wraps::of_input(&input.bytes);
                        [shut::of_input(&input.bytes), of_plan].concat()
                    }
                    false => Vec::new(),
                };
                for (both, count) in pairs.iter().zip(&mut counts) {
                    if !concerned(&both) {
                        continue;
                    }
                    let (ours, theirs) = both.run(&input.bytes, way)?;
                    if programs::differ(&ours, &theirs) {
                        let name = both.name.clone();
                        return Ok(Some(Found {
                            name,
                            batch,
                            k,
                            input,
                            way,
                        }));
                    }
                    count.add(&both.name, &ours.bytes);
                    let told = both.name != "sheet";
                    for key in of_input.iter().chain(why.iter().filter(|_| told)) {
                        count.one(key.to_string());
                    }
                }
                shared.compared.fetch_add(1, Ordering::Relaxed);
            }
        }
        let mut all = shared.counts.lock().expect("no worker fails");
        for (one, count) in all.iter_mut().zip(counts) {
            one.join(count);
        }
    }
    Ok(None)
}

/// How an input reaches the programs.
fn way(draw: &mut Draw, input: &Input) -> Way {
    match draw.below(12) {
        0 => Way::File,
        1 if input.bytes.len() <= 1_000 => Way::Pieces(1 + draw.below(20)),
        2 => Way::Pieces(100 + draw.below(900)),
        _ => Way::Pipe,
    }
}

/// Keeps an input on which the programs differ, makes it smaller, and prints what each program says of it.
fn tell(both: &Both, seed: u64, found: &Found) -> io::Result<()> {
    let Found {
        name,
        batch,
        k,
        input,
        way,
    } = found;
    std::fs::create_dir_all(KEPT)?;
    let file = format!("{KEPT}/{name}-{seed}-{batch}-{k}");
    let whole = format!("{file}.whole");
    std::fs::write(Path::new(&whole), &input.bytes)?;
    println!(
        "{name}; made as: {}; given by {way:?}; kept in {whole}",
        input.what
    );
    // Read from a file is the simplest way to see it again.
    let way = if both.differ(&input.bytes, Way::File)? {
        Way::File
    } else {
        println!("no difference when it is read from a file");
        *way
    };
    let small = smaller::smaller(&|new| both.differ(new, way), &input.bytes)?;
    std::fs::write(Path::new(&file), &small)?;
    println!(
        "made smaller, from {} bytes to {}: {file}",
        input.bytes.len(),
        small.len()
    );
    for record in small.chunks(oracle::plan::RECORD) {
        let bytes: Vec<String> = record.iter().map(|byte| format!("{byte:02x}")).collect();
        println!("  {}", bytes.join(" "));
    }
    let (ours, theirs) = both.run(&small, way)?;
    show("ours", &ours);
    show("the independent program", &theirs);
    println!(
        "to see it: diff <({} < {file}) <({} < {file})",
        both.ours.join(" "),
        both.theirs
    );
    Ok(())
}

fn show(whose: &str, shown: &Shown) {
    println!("{whose}, {}:", shown.ended);
    print!("{}", String::from_utf8_lossy(&shown.bytes));
    if !shown.bytes.ends_with(b"\n") {
        println!("(no line feed at the end)");
    }
}
