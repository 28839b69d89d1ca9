//! Plays sheets of plans that pass the test, good ones and near misses: sheets SEED PLANS OURS THEIRS NAMES [WORDS...]
//! Started by compare/sheets from the folder above; the programs are named as for the comparison. Each good sheet must be
//! taken whole by both programs of a name, and no other may be, whatever the order of its events.

use compare::count::Count;
use compare::draw::Draw;
use compare::links;
use compare::plans;
use compare::printed::{self, Place, Reply};
use compare::programs::{self, Both, Way};
use compare::requests::{Requests, SAID, STREAM, VERDICT};
use compare::sheets::{self, Due, Event, Order, Sheet, EXPECTED};
use oracle::board::Board;
use oracle::plan::{Plan, RECORD};
use std::io;
use std::path::PathBuf;
use std::process::ExitCode;
use std::sync::atomic::{AtomicU64, Ordering};
use std::thread;
use std::time::Instant;

/// Where a sheet is kept that does not go as it must.
const KEPT: &str = "compare/kept";
/// After so many plans comes a tiny one, of which all choices of minutes are tried.
const TINY: u64 = 8;
/// So many choices of minutes of one plan at most.
const CHOICES: i64 = 630;

fn main() -> ExitCode {
    let words: Vec<String> = std::env::args().collect();
    let numbers = match &words[..] {
        [_, seed, plans, _, _, _, ..] => seed.parse().ok().zip(plans.parse().ok()),
        _ => None,
    };
    let Some((seed, plans)) = numbers else {
        eprintln!("usage: sheets SEED PLANS OURS THEIRS NAMES [WORDS...]");
        return ExitCode::from(2);
    };
    let [ours, theirs, names] = [&words[3], &words[4], &words[5]];
    let pair = |name: &str| Both {
        name: name.to_string(),
        ours: [&words[6..], &[format!("{ours}{name}")]].concat(),
        theirs: format!("{theirs}{name}"),
        scratch: PathBuf::new(),
    };
    programs::watch();
    let pairs: Vec<Both> = names.split_whitespace().map(pair).collect();
    match play(&pairs, seed, plans) {
        Ok(true) => ExitCode::SUCCESS,
        Ok(false) => ExitCode::FAILURE,
        Err(error) => {
            eprintln!("sheets: {error}");
            ExitCode::from(2)
        }
    }
}

/// What is wrong, with the program and the input that show it.
struct Wrong {
    what: String,
    name: String,
    input: Vec<u8>,
}

/// Draws all plans and plays their sheets; did all go as they must, and did everything come up?
fn play(pairs: &[Both], seed: u64, plans: u64) -> io::Result<bool> {
    println!("seed {seed}");
    let start = Instant::now();
    let next = AtomicU64::new(0);
    let workers = thread::available_parallelism().map_or(1, usize::from);
    let results: Vec<io::Result<(Count, Option<Wrong>)>> = thread::scope(|scope| {
        let work = || Worker::new(pairs).work(&next, seed, plans);
        let started: Vec<_> = (0..workers).map(|_| scope.spawn(work)).collect();
        let join = |worker: thread::ScopedJoinHandle<_>| worker.join().expect("no worker fails");
        started.into_iter().map(join).collect()
    });
    let mut count = Count::default();
    for result in results {
        let (one, wrong) = result?;
        count.join(one);
        if let Some(wrong) = wrong {
            std::fs::create_dir_all(KEPT)?;
            let file = format!("{KEPT}/sheet-{seed}");
            std::fs::write(&file, &wrong.input)?;
            println!("{}: {}", wrong.name, wrong.what);
            for both in pairs.iter().filter(|both| both.name == wrong.name) {
                println!("to see it: {} < {file}", both.ours.join(" "));
                println!("and:       {} < {file}", both.theirs);
            }
            return Ok(false);
        }
    }
    let seconds = start.elapsed().as_secs_f64();
    let [good, near] = ["good sheets", "near misses"].map(|key| count.of(key));
    println!("{plans} plans, {good} good sheets and {near} near misses went as they must, {seconds:.0} seconds");
    // What only one of the programs shows is not waited for where that is left out.
    let runs = |name: &str| pairs.iter().any(|both| both.name == name);
    let shown = |key: &&str| match *key {
        TRIED | TAKEN | CHAINED => runs("probe"),
        key => runs("sheet") || !key.starts_with("refused with"),
    };
    let expected = EXPECTED.into_iter().chain([TRIED, TAKEN, CHAINED]);
    let expected: Vec<&str> = expected.filter(shown).collect();
    for key in &expected {
        println!("{key:<40}{:>10}", count.of(key));
    }
    let missing: Vec<_> = expected.iter().filter(|key| count.of(key) == 0).collect();
    for key in &missing {
        println!("never came up: {key}");
    }
    Ok(missing.is_empty())
}

struct Worker<'a> {
    pairs: &'a [Both],
    count: Count,
}

impl Worker<'_> {
    fn new(pairs: &[Both]) -> Worker<'_> {
        Worker {
            pairs,
            count: Count::default(),
        }
    }

    /// Takes plan after plan; stops at the first thing that is wrong, and so do the others.
    fn work(
        mut self,
        next: &AtomicU64,
        seed: u64,
        plans: u64,
    ) -> io::Result<(Count, Option<Wrong>)> {
        let mut wrong = None;
        while wrong.is_none() {
            let number = next.fetch_add(1, Ordering::Relaxed);
            if number >= plans {
                break;
            }
            let draw = &mut Draw::new(seed, number);
            wrong = self.drawn(draw, number)?;
            if wrong.is_none() && number % TINY == TINY - 1 {
                wrong = self.tiny(draw, number / TINY % 2 == 0)?;
            }
            if wrong.is_some() {
                next.store(plans, Ordering::Relaxed);
            }
        }
        Ok((self.count, wrong))
    }

    fn one(&mut self, key: &str) {
        self.count.one(key.to_string());
    }

    /// The sheets of one plan, through every program.
    fn drawn(&mut self, draw: &mut Draw, number: u64) -> io::Result<Option<Wrong>> {
        let plan = plans::of_number(draw, number);
        let sheets = sheets::drawn(draw, &plan);
        for pair in self.pairs {
            let wrong = match pair.name.as_str() {
                "sheet" => self.lines(pair, &plan, &sheets)?,
                "offers" => boards(pair, &plan, &sheets)?,
                _ => finished(pair, &plan, &sheets)?,
            };
            if wrong.is_some() {
                return Ok(wrong);
            }
        }
        let kinds = [
            ("plans with links", plan.links.len()),
            ("plans with waits", plan.waits.len()),
        ];
        let kinds = kinds.iter().filter(|(_, records)| *records > 0);
        let kinds = kinds.map(|(key, _)| *key);
        for key in kinds.chain(links::shapes(&plan)) {
            self.one(key);
        }
        for key in sheets.iter().flat_map(|sheet| &sheet.met) {
            self.one(key);
        }
        Ok(None)
    }

    /// Each sheet through `sheet`: its lines and its end.
    fn lines(&mut self, both: &Both, plan: &Plan, sheets: &[Sheet]) -> io::Result<Option<Wrong>> {
        for sheet in sheets {
            let input = sheet.input(plan);
            let (ours, theirs) = both.run(&input, Way::Pipe)?;
            let said = [
                sheets::held(sheet, &ours.bytes),
                sheets::held(sheet, &theirs.bytes),
            ];
            match said {
                [Err(what), _] => return Ok(wrong(both, input, format!("ours: {what}"))),
                [_, Err(what)] => {
                    return Ok(wrong(
                        both,
                        input,
                        format!("the independent program: {what}"),
                    ))
                }
                _ if programs::differ(&ours, &theirs) => {
                    return Ok(wrong(both, input, "the two differ".to_string()))
                }
                [Ok(refused), _] if sheet.due == Due::Refused => {
                    for number in refused {
                        self.one(&format!("refused with {number}"));
                    }
                }
                _ => {}
            }
        }
        Ok(None)
    }

    /// All choices of minutes of a tiny plan up to some minute: taken whole exactly where the sheet is good. With
    /// `chained` a link starts where another ends.
    fn tiny(&mut self, draw: &mut Draw, chained: bool) -> io::Result<Option<Wrong>> {
        let Some(both) = self.pairs.iter().find(|both| both.name == "probe") else {
            return Ok(None);
        };
        let (plan, past) = loop {
            let plan = plans::passing(draw);
            let points = plan.points() as u32;
            let past = (2..)
                .take_while(|past: &i64| past.pow(points) <= CHOICES)
                .last();
            let past = past.unwrap_or(2);
            let chain = links::shapes(&plan).contains(&links::CHAIN);
            // So short that some minutes may be good.
            let least: i64 = plan.links.iter().map(|link| link.x).sum();
            let short = !chained || least + 2 <= past;
            if points <= 4 && !plan.links.is_empty() && chain == chained && short {
                break (plan, past);
            }
        };
        let points = plan.points() as u32;
        let mut requests = Requests::default();
        requests.plan(&plan);
        // The buffer is filled once: each choice has as many events as there are points.
        requests.buffer(&[], RECORD * plan.points(), 0);
        let mut wanted = Vec::new();
        for choice in 0..past.pow(points) {
            let minutes = (0..points)
                .map(|point| choice / past.pow(point) % past)
                .collect::<Vec<_>>();
            let events = sheets::events(draw, &plan, &minutes, Order::Apart);
            requests.put(&bytes(&events), 0);
            stream(&mut requests, &events);
            let good = sheets::faults(&plan, &minutes).is_empty();
            self.one(TRIED);
            if good {
                self.one(TAKEN);
            }
            if good && chained {
                self.one(CHAINED);
            }
            wanted.push((minutes, good));
        }
        let wanted: Vec<_> = wanted
            .iter()
            .map(|(minutes, good)| (&minutes[..], *good))
            .collect();
        handed_back(both, &plan, requests, &wanted)
    }
}

/// All choices of minutes of tiny plans, and those that are good and were taken.
const TRIED: &str = "choices of minutes of tiny plans";
const TAKEN: &str = "of these good";
const CHAINED: &str = "and with a chain of links";

fn wrong(both: &Both, input: Vec<u8>, what: String) -> Option<Wrong> {
    let name = both.name.clone();
    Some(Wrong { what, name, input })
}

/// Good sheets through `offers`: each board shows the minutes of the points done so far.
fn boards(both: &Both, plan: &Plan, sheets: &[Sheet]) -> io::Result<Option<Wrong>> {
    // One will do: the plan test, which `offers` runs first, takes its time.
    let Some(sheet) = sheets.iter().find(|sheet| sheet.due == Due::Taken) else {
        return Ok(None);
    };
    let input = sheet.input(plan);
    let (ours, theirs) = both.run(&input, Way::Pipe)?;
    if programs::differ(&ours, &theirs) {
        return Ok(wrong(both, input, "the two differ".to_string()));
    }
    let what = match printed::read(&ours.bytes) {
        Ok(printed) => not_as_drawn(sheet, &printed),
        Err(what) => Some(what),
    };
    Ok(what.and_then(|what| wrong(both, input, what)))
}

fn not_as_drawn(sheet: &Sheet, printed: &printed::Printed) -> Option<String> {
    if !printed.test.starts_with("yes ") || printed.end != "kept" {
        return Some(format!("test {}, end {}", printed.test, printed.end));
    }
    let mut minutes: Vec<Option<i64>> = vec![None; sheet.minutes.len()];
    for (k, board) in printed.boards.iter().enumerate() {
        if let Some(event) = k.checked_sub(1).and_then(|before| sheet.events.get(before)) {
            for &point in event.points() {
                minutes[point] = Some(sheet.minutes[point]);
            }
        }
        let shown = |place: &Place| match *place {
            Place::Done(minute) => Some(minute),
            _ => None,
        };
        let fits = match &board.reply {
            Reply::Offers { places, .. } | Reply::Waiting { places } => {
                places.iter().map(shown).eq(minutes.iter().copied())
            }
            Reply::Finished => k == sheet.events.len(),
            Reply::Stuck { .. } => false,
        };
        if board.number != 0 || !fits || board.count != minutes.iter().flatten().count() {
            return Some(format!("after {k} events the board is not as drawn"));
        }
    }
    let finished = printed.boards.last().map(|board| &board.reply) == Some(&Reply::Finished);
    (!finished).then(|| "not finished".to_string())
}

/// All sheets through `probe`, as streams: the minutes of the board that is handed back, and the verdict on it.
fn finished(both: &Both, plan: &Plan, sheets: &[Sheet]) -> io::Result<Option<Wrong>> {
    let mut requests = Requests::default();
    requests.plan(plan);
    for sheet in sheets {
        let events = bytes(&sheet.events);
        requests.buffer(&events, events.len(), 0);
        stream(&mut requests, &sheet.events);
    }
    let wanted = sheets
        .iter()
        .map(|sheet| (&sheet.minutes[..], sheet.due == Due::Taken));
    handed_back(both, plan, requests, &wanted.collect::<Vec<_>>())
}

/// Asks for the events in the buffer as a stream from the fresh board, and for the verdict.
fn stream(requests: &mut Requests, events: &[Event]) {
    requests.board(&Board::fresh());
    let room = SAID * events.len();
    requests.ask(STREAM, [0; 3], [room as u32, 0, 0]);
    requests.call(VERDICT);
}

fn bytes(events: &[Event]) -> Vec<u8> {
    events.iter().flat_map(Event::record).collect()
}

/// Runs such requests and looks at each board handed back: all points done at these minutes and kept, or else not all done.
fn handed_back(
    both: &Both,
    plan: &Plan,
    requests: Requests,
    wanted: &[(&[i64], bool)],
) -> io::Result<Option<Wrong>> {
    let input = requests.0;
    let (ours, theirs) = both.run(&input, Way::Pipe)?;
    if programs::differ(&ours, &theirs) {
        return Ok(wrong(both, input, "the two differ".to_string()));
    }
    let text = String::from_utf8_lossy(&ours.bytes);
    let numbers: Vec<u32> = text
        .split_whitespace()
        .filter_map(|word| word.parse().ok())
        .collect();
    // Of each stream: its answer, clock and set, 32 minutes, 32 event numbers, and the answer to the verdict.
    let answers = numbers.chunks(4 + 4 + 32 + 32 + 4);
    if answers.len() != wanted.len() {
        return Ok(wrong(
            both,
            input,
            "not an answer for each stream".to_string(),
        ));
    }
    let all = (0..plan.points()).fold(0, |set, point| set | 1u32 << point);
    for (k, (answer, (minutes, good))) in answers.zip(wanted).enumerate() {
        let as_drawn = answer[5..7] == [*minutes.iter().max().unwrap_or(&0) as u32, all]
            && minutes
                .iter()
                .zip(&answer[8..])
                .all(|(minute, said)| *minute == i64::from(*said));
        let right = match *good {
            true => answer[..2] == [24, 0] && as_drawn && answer[72..] == [18, 0, 0, 0],
            false => answer[..2] == [24, 0] && answer[6] != all && answer[72..] == [18, 31, 0, 0],
        };
        if !right {
            let what = if *good { "good" } else { "not good" };
            return Ok(wrong(
                both,
                input,
                format!("stream {k}, which is {what}: {answer:?}"),
            ));
        }
    }
    Ok(None)
}
