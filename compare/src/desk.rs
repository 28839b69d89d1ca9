//! Compares two programs `desk` on drawn asks: standard output, standard error and status, byte for byte.

use crate::asks::{self, Ask, READING};
use crate::count::Count;
use crate::draw::Draw;
use crate::explains;
use crate::icalendar;
use crate::programs::{Shown, Way};
use crate::texts;
use oracle::pack;
use std::io;
use std::sync::atomic::{AtomicBool, AtomicU64, Ordering};
use std::sync::Mutex;
use std::thread;
use std::time::{Duration, Instant};

/// How `desk` ends well, with a refusal, and where it is not used well.
pub const ENDINGS: [&str; 3] = ["exit status: 0", "exit status: 1", "exit status: 2"];

/// Runs both programs: ours, then the independent one. The number is the worker's.
pub type Run<'a> = &'a (dyn Fn(usize, &Ask, Way) -> io::Result<(Shown, Shown)> + Sync);

/// How long it goes on: until everything has come up, no shorter and no longer than so, and at most so many batches.
#[derive(Clone, Copy)]
pub struct Limits {
    pub least: Duration,
    pub most: Duration,
    pub batches: u64,
}

/// An ask on which the programs differ: number `k` of its batch.
pub struct Found {
    pub batch: u64,
    pub k: usize,
    pub ask: Ask,
    pub way: Way,
    pub ours: Shown,
    pub theirs: Shown,
    /// What is wrong with what ours said, where that can be told from it alone.
    pub fault: Option<String>,
}

/// What a comparison brought.
pub struct Compared {
    pub asks: u64,
    pub count: Count,
    pub found: Option<Found>,
}

/// Do they differ, or does one end as `desk` never does? The line about wrong usage is each program's own: it must be one
/// line that names every verb that is compared, and nothing else is said. The line about a listing that is too much is not. So
/// are the steps of an explanation, which are checked by themselves.
pub fn differ(verbs: &[&str], words: &[String], ours: &Shown, theirs: &Shown) -> bool {
    let [mut ours, mut theirs] = [ours, theirs].map(|shown| plain(verbs, shown));
    if words == ["explain"] {
        for shown in [&mut ours, &mut theirs] {
            shown.bytes = explains::fixed(&shown.bytes);
        }
    }
    ours != theirs || !ENDINGS.contains(&ours.ended.as_str())
}

fn plain(verbs: &[&str], shown: &Shown) -> Shown {
    let mut shown = shown.clone();
    if too_much(&shown) {
        return shown;
    }
    let text = String::from_utf8_lossy(&shown.errors).into_owned();
    let one_line = text.ends_with('\n') && text.lines().count() == 1;
    let words: Vec<&str> = text
        .split(|letter: char| !letter.is_ascii_alphabetic())
        .collect();
    if shown.ended == ENDINGS[2] && one_line && verbs.iter().all(|verb| words.contains(verb)) {
        shown.errors = b"the verbs".to_vec();
    }
    shown
}

/// Is it said that a listing is too much?
fn too_much(shown: &Shown) -> bool {
    shown.ended == ENDINGS[2] && shown.errors == format!("{}\n", pack::TOO_MUCH).into_bytes()
}

/// What is wrong with what was said, where that can be told without the other program: a calendar is read again and held to
/// the sheet, a listing is packed again, and an explanation held to the plan.
pub fn fault(words: &[String], input: &[u8], shown: &Shown) -> Option<String> {
    let [verb, rest @ ..] = words else {
        return None;
    };
    if shown.ended != ENDINGS[0] {
        return None;
    }
    match (verb.as_str(), rest) {
        ("calendar", origin) => {
            let numbers: Option<Vec<i64>> = origin.iter().map(|word| word.parse().ok()).collect();
            match numbers.and_then(|numbers| numbers.try_into().ok()) {
                Some(origin) => icalendar::fault(input, origin, &shown.bytes),
                None => Some("a calendar of words that are none".to_string()),
            }
        }
        ("list", []) if pack::pack(&shown.bytes).as_deref() != Ok(input) => {
            Some("a listing that is not packed to the same bytes".to_string())
        }
        ("explain", []) => explains::checked(input, &shown.bytes).err(),
        _ => None,
    }
}

/// What came up in what was said of an ask.
fn keys(ask: &Ask, shown: &Shown) -> Vec<String> {
    let verb = ask.words.first().map_or("", String::as_str);
    if verb == "pack" && too_much(shown) {
        return vec!["pack too much".to_string()];
    }
    if shown.ended == ENDINGS[2] {
        return vec!["wrong usage".to_string()];
    }
    if verb == "lighter" && shown.ended == ENDINGS[0] {
        return vec![dropped(&shown.errors)];
    }
    if verb == "explain" && shown.ended == ENDINGS[0] {
        return explained(ask, shown);
    }
    let file = !matches!(verb, "test" | "worst" | "explain");
    if file && shown.ended == ENDINGS[0] && shown.errors.is_empty() {
        return vec![format!("{verb} file")];
    }
    let (said, silent) = if file {
        (&shown.errors, &shown.bytes)
    } else {
        (&shown.bytes, &shown.errors)
    };
    let text = String::from_utf8_lossy(said);
    let line = text.strip_suffix('\n').unwrap_or("");
    let words: Vec<&str> = line.split(' ').collect();
    let refused = shown.ended == ENDINGS[1];
    let past = |key: &str, projection: &str| {
        let mut keys = vec![format!("{verb} {key}")];
        if projection != "0" {
            keys.push(format!("{verb} {key} past projection 0"));
        }
        keys
    };
    let expected = || {
        let (what, number) = line
            .strip_prefix("pack: expected ")?
            .split_once(", at line ")?;
        let known = pack::EXPECTED.contains(&what) && number.parse::<u32>().is_ok();
        known.then(|| vec![format!("pack expected {what}")])
    };
    match (verb, &words[..]) {
        _ if !silent.is_empty() || line.contains('\n') => {}
        ("pack", _) if refused && expected().is_some() => return expected().unwrap_or_default(),
        ("import", ["import", number, _]) if refused => return vec![format!("import {number}")],
        ("explain", ["test", number]) if refused => return vec![format!("explain {number}")],
        (_, ["plan", number, _]) if refused => return vec![format!("{verb} plan {number}")],
        (_, [name, number]) if refused && *name == verb => return vec![format!("{verb} {number}")],
        ("test", ["test", "yes", _]) if !refused => return vec!["test yes".to_string()],
        ("test", ["test", "cycle", at]) if !refused => return past("cycle", at),
        ("test", ["test", "pair", at, _, _]) if !refused => return past("pair", at),
        ("worst", ["worst", _, at]) if !refused => return past("minute", at),
        _ => {}
    }
    vec![format!("unknown answer to {verb}: {line:?}")]
}

/// What came up in an explanation.
fn explained(ask: &Ask, shown: &Shown) -> Vec<String> {
    let text = String::from_utf8_lossy(&shown.bytes);
    let first = text.lines().next().unwrap_or("");
    let words: Vec<&str> = first.split(' ').collect();
    let mut keys = explains::checked(&ask.input, &shown.bytes).unwrap_or_default();
    if let ["test", answer @ ("cycle" | "pair"), at, ..] = words[..] {
        keys.push(format!("explain {answer}"));
        if at != "0" {
            keys.push(format!("explain {answer} past projection 0"));
        }
    }
    keys
}

/// What came up in the lines about the records that went.
fn dropped(errors: &[u8]) -> String {
    let text = String::from_utf8_lossy(errors);
    let number = |line: &str| line.strip_prefix("dropped ")?.parse::<u32>().ok();
    let whole = text.is_empty() || text.ends_with('\n');
    if !whole || text.lines().any(|line| number(line).is_none()) {
        return format!("unknown lines of lighter: {text:?}");
    }
    match text.is_empty() {
        true => "lighter dropped none".to_string(),
        false => "lighter dropped some".to_string(),
    }
}

/// What must come up for these verbs: what is said, and the cases.
pub fn expected(verbs: &[&str]) -> Vec<String> {
    let mut all = vec!["wrong usage".to_string()];
    for &verb in verbs {
        let plan = READING.map(|number| format!("plan {number}")).to_vec();
        let own: &[&str] = match verb {
            "test" => &[
                "yes",
                "cycle",
                "cycle past projection 0",
                "pair",
                "pair past projection 0",
                "13",
            ],
            "worst" => &["minute", "minute past projection 0", "13", "60"],
            "day" => &["file", "13", "60"],
            "close" => &["file", "61", "62", "63"],
            "calendar" => &["file", "31", "51"],
            "lighter" => &["dropped none", "dropped some", "13", "60"],
            "pack" => &["file", "too much"],
            "list" => &["file"],
            "explain" => &[
                "yes",
                "cycle",
                "cycle past projection 0",
                "pair",
                "pair past projection 0",
                "13",
            ],
            _ => &["file", "40", "41", "42", "43"],
        };
        let own = own.iter().map(|own| own.to_string());
        let said: Vec<String> = match verb {
            "import" => own
                .chain(texts::READERS.map(|number| number.to_string()))
                .collect(),
            "pack" => own
                .chain(pack::EXPECTED.map(|what| format!("expected {what}")))
                .collect(),
            _ => own.chain(plan).collect(),
        };
        all.extend(said.into_iter().map(|said| format!("{verb} {said}")));
        all.extend(asks::cases(verb));
    }
    // What `list` prints is packed too.
    if verbs.contains(&"list") && !verbs.contains(&"pack") {
        all.push("pack file".to_string());
    }
    all
}

/// What the workers share.
struct Shared<'a> {
    run: Run<'a>,
    verbs: &'a [&'a str],
    expected: Vec<String>,
    seed: u64,
    start: Instant,
    limits: Limits,
    next_batch: AtomicU64,
    asks: AtomicU64,
    stop: AtomicBool,
    count: Mutex<Count>,
}

/// Compares on drawn asks, by so many workers; stops at the first difference.
pub fn compare(
    run: Run,
    verbs: &[&str],
    seed: u64,
    limits: Limits,
    workers: usize,
) -> io::Result<Compared> {
    let shared = Shared {
        run,
        verbs,
        expected: expected(verbs),
        seed,
        start: Instant::now(),
        limits,
        next_batch: AtomicU64::new(0),
        asks: AtomicU64::new(0),
        stop: AtomicBool::new(false),
        count: Mutex::default(),
    };
    let results: Vec<io::Result<Option<Found>>> = thread::scope(|scope| {
        let shared = &shared;
        let start = |worker| {
            scope.spawn(move || {
                let result = work(worker, shared);
                if !matches!(result, Ok(None)) {
                    shared.stop.store(true, Ordering::Relaxed);
                }
                result
            })
        };
        let started: Vec<_> = (0..workers).map(start).collect();
        let join = |worker: thread::ScopedJoinHandle<_>| worker.join().expect("no worker fails");
        started.into_iter().map(join).collect()
    });
    let mut found = None;
    for result in results {
        found = found.or(result?);
    }
    Ok(Compared {
        asks: shared.asks.into_inner(),
        count: shared.count.into_inner().expect("no worker fails"),
        found,
    })
}

fn over(shared: &Shared, batch: u64) -> bool {
    let time = shared.start.elapsed();
    if batch >= shared.limits.batches || time >= shared.limits.most {
        return true;
    }
    let count = shared.count.lock().expect("no worker fails");
    time >= shared.limits.least && shared.expected.iter().all(|key| count.of(key) > 0)
}

fn work(worker: usize, shared: &Shared) -> io::Result<Option<Found>> {
    loop {
        let batch = shared.next_batch.fetch_add(1, Ordering::Relaxed);
        if over(shared, batch) {
            return Ok(None);
        }
        let mut draw = Draw::new(shared.seed, batch);
        let asks = asks::batch(&mut draw, batch, shared.verbs);
        for (k, ask) in asks.into_iter().enumerate() {
            if shared.stop.load(Ordering::Relaxed) || shared.start.elapsed() >= shared.limits.most {
                return Ok(None);
            }
            let way = way(&mut draw, &ask);
            let (ours, theirs) = (shared.run)(worker, &ask, way)?;
            let fault = fault(&ask.words, &ask.input, &ours);
            if fault.is_some() || differ(shared.verbs, &ask.words, &ours, &theirs) {
                return Ok(Some(Found {
                    batch,
                    k,
                    ask,
                    way,
                    ours,
                    theirs,
                    fault,
                }));
            }
            shared.asks.fetch_add(1, Ordering::Relaxed);
            let mut count = shared.count.lock().expect("no worker fails");
            for key in keys(&ask, &ours).into_iter().chain(ask.cases) {
                count.one(key);
            }
        }
    }
}

/// How an input reaches the programs.
fn way(draw: &mut Draw, ask: &Ask) -> Way {
    match draw.below(8) {
        0 => Way::File,
        1 if ask.input.len() <= 1_000 => Way::Pieces(1 + draw.below(20)),
        2 => Way::Pieces(1_000 + draw.below(3_000)),
        _ => Way::Pipe,
    }
}

/// Prints how often each came up, those that differ only in a column in one row; answers what never came up, and what came
/// up but can't.
pub fn print(verbs: &[&str], count: &Count) -> (Vec<String>, Vec<String>) {
    let expected = expected(verbs);
    let mut rows: Vec<(&str, String)> = Vec::new();
    for key in &expected {
        let (row, column) = key.split_once(", column ").unwrap_or((key, ""));
        let cell = match column {
            "" => format!("{:>8}", count.of(key)),
            _ => format!("{:>8} in column {column}", count.of(key)),
        };
        match rows.last_mut() {
            Some((last, cells)) if *last == row => *cells += &format!(",{cell}"),
            _ => rows.push((row, cell)),
        }
    }
    for (row, cells) in rows {
        println!("{row:<48}{cells}");
    }
    let never = expected.iter().filter(|key| count.of(key) == 0);
    let strange = count.keys().filter(|key| !expected.contains(key));
    (never.cloned().collect(), strange.cloned().collect())
}
