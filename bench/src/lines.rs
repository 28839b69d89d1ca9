//! One line of the table each: both sides on the same input, in turn.

use crate::inputs::{self, Size, LARGEST};
use crate::measure::{spread, Machine, Words};
use oracle::plan::Plan;
use std::io;

/// So often each line is measured, both sides in turn.
const RUNS: usize = 7;
/// A side is to take about so many seconds in each.
const SECONDS: f64 = 0.05;
/// Requests of the probe.
const REPEAT: u8 = 7;
pub const REPLY: u8 = 16;
pub const TAKE: u8 = 17;
pub const VERDICT: u8 = 18;
pub const READ: u8 = 22;
/// Ends a plan part of what `sheet` reads.
const MARK: [u8; 16] = [255; 16];

/// The programs, each the words that start it.
pub struct Bench {
    pub plain: Words,
    pub probe: Words,
    pub sheet: Words,
    pub desk: Words,
    /// No words where there is no C interface to call.
    pub calls: Words,
}

/// The two sides of a line.
struct Sides {
    ours: Words,
    plain: Words,
}

/// What is printed of a line beside its times.
struct Title<'a> {
    what: &'a str,
    points: usize,
    records: usize,
    projections: usize,
}

fn title(what: &str, size: Size) -> Title<'_> {
    Title {
        what,
        points: size.points,
        records: size.records(),
        projections: size.projections,
    }
}

/// What stands on the desk for a call.
fn desk(plan: &Plan, asked: u8) -> Vec<u8> {
    if asked == READ {
        return inputs::with_bytes(&plan.to_bytes());
    }
    let mut bytes = inputs::with_plan(plan);
    let run = inputs::run(plan);
    let at = match asked {
        VERDICT => run.events.len(),
        _ => run.middle(plan),
    };
    bytes.extend(inputs::with_board(&run.boards[at]));
    if asked == TAKE {
        bytes.extend(inputs::with_bytes(&run.events[at]));
    }
    bytes
}

fn request(asked: u8, number: u32) -> Vec<u8> {
    inputs::request(asked, [0; 3], [number, 0, 0])
}

/// What `sheet` reads: a plan and events.
fn sheet_of(plan: &Plan, events: &[[u8; 16]]) -> Vec<u8> {
    [plan.to_bytes(), MARK.to_vec(), events.concat()].concat()
}

/// What a call through C is given: a plan and the events before the call, up to the middle of a run for events and replies.
fn asked_through(plan: &Plan, kind: &str) -> Vec<u8> {
    let run = inputs::run(plan);
    let middle = run.middle(plan);
    let events = match kind {
        "check" | "begin" => 0,
        "calendar" | "verdict" => run.events.len(),
        _ if kind.starts_with("event") => middle + 1,
        _ => middle,
    };
    sheet_of(plan, &run.events[..events])
}

impl Bench {
    fn sides(&self, ours: &Words, verb: &str, plain: &str) -> Sides {
        let with = |words: &Words, word: &str| {
            let word = word.split_whitespace().map(str::to_string);
            words.iter().cloned().chain(word).collect()
        };
        Sides {
            ours: with(ours, verb),
            plain: with(&self.plain, plain),
        }
    }

    /// A call of the probe, repeated so often that it can be timed.
    pub fn call(&self, what: &str, size: Size, asked: u8) -> io::Result<()> {
        let sides = self.sides(&self.probe, "", "probe");
        let machine = Machine::new();
        let desk = desk(&inputs::plan(size), asked);
        let ask = |times: u32| [desk.clone(), request(REPEAT, times), request(asked, 0)].concat();
        let mut times = 500;
        loop {
            machine.input(&ask(times))?;
            let seconds = machine.run(&sides.plain, false)?.1;
            if seconds > SECONDS || times > 50_000_000 {
                break;
            }
            times = (f64::from(times) * (SECONDS / seconds.max(1e-3)).clamp(1.5, 20.0)) as u32;
        }
        machine.input_without(&ask(0))?;
        machine.input(&ask(times))?;
        let timing = Timing {
            without: Some(&sides),
            times: f64::from(times),
            runs: RUNS,
        };
        line(&machine, &sides, title(what, size), timing)
    }

    /// The plan test of a file by the program; what it takes for a file that is refused at once is taken off.
    pub fn test(&self, what: &str, size: Size, plain: &str) -> io::Result<()> {
        let sides = self.sides(&self.desk, "test", plain);
        let machine = Machine::new();
        machine.input_without(&[0])?;
        machine.input(&inputs::plan(size).to_bytes())?;
        line(&machine, &sides, title(what, size), less(&sides))
    }

    /// A million events through the printing program, refused after every window was looked at.
    pub fn million(&self, what: &str, size: Size, plain: &str, runs: usize) -> io::Result<()> {
        const EVENTS: usize = 1_000_000;
        let sides = self.sides(&self.sheet, "", plain);
        let machine = Machine::new();
        let plan = inputs::plan(size);
        let run = inputs::run(&plan);
        let at = run.middle(&plan);
        let mut input = sheet_of(&plan, &run.events[..at]);
        input.extend(inputs::refused(&plan, &run.boards[at]).repeat(EVENTS - at));
        machine.input(&input)?;
        line(&machine, &sides, title(what, size), whole(runs))
    }

    /// The whole verb `desk worst` against both plain ways, and the runs alone, without the test before them.
    pub fn worst(&self, what: &str, size: Size) -> io::Result<()> {
        let machine = Machine::new();
        let file = inputs::plan(size).to_bytes();
        machine.input(&file)?;
        machine.input_without(&file)?;
        let tests = self.sides(&self.desk, "test", "test");
        for (way, plain) in [
            ("kept counts", "worst-counts"),
            ("all records read again", "worst"),
        ] {
            let sides = self.sides(&self.desk, "worst", plain);
            let all = format!("{what}, against {way}");
            line(&machine, &sides, title(&all, size), whole(RUNS))?;
            let runs = format!("{what}, its runs alone, against {way}");
            line(&machine, &sides, title(&runs, size), less(&tests))?;
        }
        Ok(())
    }

    /// A plan made lighter by the whole program.
    pub fn lighter(&self, size: Size, runs: usize) -> io::Result<()> {
        let sides = self.sides(&self.desk, "lighter", "lighter");
        let machine = Machine::new();
        machine.input(&inputs::plan(size).to_bytes())?;
        line(&machine, &sides, title("a lighter plan", size), whole(runs))
    }

    /// A text imported by the whole program.
    pub fn import(&self, what: &str, text: &[u8]) -> io::Result<()> {
        let sides = self.sides(&self.desk, "import", "import");
        let machine = Machine::new();
        machine.input(text)?;
        line(&machine, &sides, title(what, LARGEST), whole(RUNS))
    }

    /// A call through C, on a plan of this size and a run of it.
    pub fn through(&self, what: &str, size: Size, kind: &str) -> io::Result<()> {
        self.timed(title(what, size), kind, || {
            asked_through(&inputs::plan(size), kind)
        })
    }

    /// The same event of point 0 with more records that do not name it, on the fresh board.
    pub fn around(&self, others: usize) -> io::Result<()> {
        let event = inputs::record(0, 0, 0);
        for (way, kind) in [
            ("kept counts", "event"),
            ("all records read again", "event-plain"),
        ] {
            let plan = inputs::around(others);
            let what = format!("the same event, {others} records elsewhere, against {way}");
            let title = Title {
                what: &what,
                points: 32,
                records: plan.records(),
                projections: 4_096,
            };
            self.timed(title, kind, || sheet_of(&plan, &[event]))?;
        }
        Ok(())
    }

    /// A text imported through C.
    pub fn text(&self, what: &str, text: &[u8]) -> io::Result<()> {
        let title = Title {
            what,
            points: 0,
            records: text.iter().filter(|&&byte| byte == b'\n').count().max(1),
            projections: 0,
        };
        self.timed(title, "import", || text.to_vec())
    }

    /// What the C program says of both sides, which it runs and times itself.
    fn timed(&self, title: Title, kind: &str, input: impl Fn() -> Vec<u8>) -> io::Result<()> {
        if self.calls.is_empty() {
            return Ok(());
        }
        let machine = Machine::new();
        machine.input(&input())?;
        let words = [self.calls.clone(), vec![kind.to_string()]].concat();
        let said = String::from_utf8_lossy(&machine.run(&words, true)?.0).into_owned();
        let mut lines = said.lines();
        let same = lines.next() == Some("same");
        let mut seconds = [Vec::new(), Vec::new()];
        for line in lines {
            let numbers: Vec<f64> = line.split(' ').filter_map(|one| one.parse().ok()).collect();
            let [ours, plain] = numbers[..] else {
                return Err(io::Error::other(format!("calls {kind} said {line}")));
            };
            seconds[0].push(ours * 1e-9);
            seconds[1].push(plain * 1e-9);
        }
        print(title, seconds, same);
        Ok(())
    }
}

/// How a line is timed: what is taken off, from the programs that do all but what is timed, how often a run makes the call, and how
/// many runs there are.
struct Timing<'a> {
    without: Option<&'a Sides>,
    times: f64,
    runs: usize,
}

/// A whole program.
fn whole(runs: usize) -> Timing<'static> {
    Timing {
        without: None,
        times: 1.0,
        runs,
    }
}

/// A program less what these do.
fn less(without: &Sides) -> Timing<'_> {
    Timing {
        without: Some(without),
        times: 1.0,
        runs: RUNS,
    }
}

/// Measures both sides in turn on the input that is there, and prints the line.
fn line(machine: &Machine, sides: &Sides, title: Title, timing: Timing) -> io::Result<()> {
    let same = machine.run(&sides.ours, true)?.0 == machine.run(&sides.plain, true)?.0;
    let mut seconds = [Vec::new(), Vec::new()];
    for _ in 0..timing.runs {
        for (side, words) in [&sides.ours, &sides.plain].into_iter().enumerate() {
            let less = timing.without.map(|less| [&less.ours, &less.plain][side]);
            let less = less.map_or(Ok(0.0), |words| machine.run_without(words))?;
            let taken = machine.run(words, false)?.1;
            seconds[side].push((taken - less) / timing.times);
        }
    }
    print(title, seconds, same);
    Ok(())
}

/// The line of what both sides took, run by run.
fn print(title: Title, seconds: [Vec<f64>; 2], same: bool) {
    let ratios = seconds[0].iter().zip(&seconds[1]);
    let [ratio, least, largest] = spread(ratios.map(|(ours, plain)| ours / plain).collect());
    let [ours, plain] = seconds.map(|all| spread(all)[0]);
    println!(
        "| {} | {} | {} | {} | {} | {} | {ratio:.2} | {least:.2} | {largest:.2} |{}",
        title.what,
        title.points,
        title.records,
        title.projections,
        time(ours),
        time(plain),
        if same {
            ""
        } else {
            " THE TWO DO NOT SAY THE SAME"
        },
    );
}

/// A time that can be read.
fn time(seconds: f64) -> String {
    match seconds {
        s if s < 1e-6 => format!("{:.0} ns", s * 1e9),
        s if s < 1e-3 => format!("{:.2} µs", s * 1e6),
        s if s < 1.0 => format!("{:.1} ms", s * 1e3),
        s => format!("{s:.2} s"),
    }
}
