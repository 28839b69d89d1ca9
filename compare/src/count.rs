//! Counts what came up in what was printed: reply numbers, endings, the replies and tests that `offers` prints, and the
//! answers of the probe; and what links and boards there were in the inputs.

use crate::corners::CORNERS;
use crate::links::{EVENTS, SHAPES, TENS};
use crate::shut;
use crate::soundness;
use crate::wraps::WRAPS;
use std::collections::BTreeMap;

/// What must come up in the lines of both printing programs: numbers on the plan line, numbers of events, and endings.
fn printing() -> Vec<String> {
    let plan = (1..=11).chain([15]);
    let plan = plan.map(|number| format!("plan {number}"));
    let event = std::iter::once(0).chain(21..=30);
    let event = event.map(|number| format!("event {number}"));
    let endings = ["end kept", "end broken", "end stuck", "end open", "tail"];
    let endings = endings.into_iter().chain(FAR).map(str::to_string);
    plan.chain(event).chain(endings).collect()
}

/// Events past what 16 bits can count.
const FAR: [&str; 2] = ["taken past event 65535", "refused past event 65535"];

/// What must come up besides in the lines of `offers`.
const OFFERS: [&str; 19] = [
    "test yes",
    "test cycle",
    "test pair",
    "test 13",
    "board finished",
    "board stuck",
    "board waiting",
    "board offers",
    "point done",
    "point watched",
    "point shut, ordinary",
    "point shut, wait",
    "point held",
    "point offered",
    "board waiting, a point shut",
    "board stuck, a point shut",
    "board stuck, a point held",
    "event 28 with a record",
    "event 28 without",
];

/// What must come up in the answers of the probe, by the number of the call (compare/PROBE.md): `plan` is a refused plan.
const PROBE: [(&str, &[&str]); 13] = [
    ("16", &["plan", "20", "101", "102", "103", "104"]),
    (
        "place",
        &["1", "2", "3 with a record", "3 without", "4", "5"],
    ),
    ("waiting, place", &["1", "2", "3 with a record"]),
    ("stuck, place", &["1", "2", "3 with a record", "4"]),
    (
        "17",
        &[
            "0", "plan", "20", "21", "22", "23", "24", "25", "26", "27", "28", "29", "30",
        ],
    ),
    ("28", &["with a record", "without"]),
    ("18", &["0", "plan", "20", "31", "100"]),
    (
        "19",
        &[
            "0", "1", "3", "4", "5", "6", "7", "8", "9", "10", "11", "15",
        ],
    ),
    ("20", &["0", "plan", "12"]),
    ("21", &["plan", "13", "101", "102", "103"]),
    (
        "22",
        &[
            "0", "1", "2", "3", "4", "5", "6", "7", "8", "9", "10", "11", "15",
        ],
    ),
    ("23", &["0", "plan", "8", "20", "31", "100"]),
    ("24", &["0", "plan", "20"]),
];

/// What must come up in the lines of a program.
fn expected(name: &str) -> Vec<String> {
    let mut all = Vec::new();
    if name == "probe" {
        for (call, answers) in PROBE {
            all.extend(answers.iter().map(|answer| format!("{call} {answer}")));
        }
        all.extend(SHAPES.iter().chain(&TENS).map(|key| key.to_string()));
        all.extend(soundness::keys().map(str::to_string));
        let why = shut::LISTS.iter().chain(&shut::TOLD);
        let why = why.chain(&shut::STREAMED);
        all.extend(why.map(|key| key.to_string()));
        all.extend(WRAPS.iter().chain(&CORNERS).map(|key| key.to_string()));
        return all;
    }
    all.extend(printing());
    if name == "offers" {
        all.extend(OFFERS.map(str::to_string));
        let why = shut::LISTS.iter().chain(&shut::TOLD);
        all.extend(why.chain(&WRAPS).map(|key| key.to_string()));
    }
    let links = SHAPES.iter().chain(&TENS).chain(&EVENTS);
    all.extend(links.chain(&CORNERS).map(|key| key.to_string()));
    all
}

/// Is that a record, and not none?
fn with_a_record(record: &str) -> &'static str {
    match record {
        "0" => "without",
        _ => "with a record",
    }
}

/// The keys of the probe's answers, each with as many lines after it as it has.
fn probe_keys(text: &str) -> Vec<String> {
    let mut keys = Vec::new();
    let mut lines = text.lines();
    // The last check's number: 8 of a list that is judged is the plan's own where the check has refused the plan.
    let mut checked = "0";
    while let Some(line) = lines.next() {
        let words: Vec<&str> = line.split(' ').collect();
        let [call, number, record, _] = words[..] else {
            keys.push(format!("unknown line {line:?}"));
            continue;
        };
        if call == "19" {
            checked = number;
        }
        let of_list = (call, number, checked) == ("23", "8", "0");
        let of_plan =
            matches!(number.parse(), Ok(1..=11 | 15)) && !matches!(call, "19" | "22") && !of_list;
        let answer = if of_plan { "plan" } else { number };
        let more = match (call, number) {
            ("16", _) => 32,
            ("17" | "24", _) => 17,
            ("21", "103") | ("22", _) => 1,
            ("18" | "19" | "20" | "21" | "23", _) => 0,
            // A number that is no call's is answered with itself.
            _ => continue,
        };
        keys.push(format!("{call} {answer}"));
        if (call, number) == ("17", "28") {
            keys.push(format!("28 {}", with_a_record(record)));
        }
        for line in lines.by_ref().take(more) {
            if call == "16" {
                let words: Vec<&str> = line.split(' ').collect();
                let state = match words[..] {
                    [_, "3", record, _] => format!("3 {}", with_a_record(record)),
                    [_, state, _, _] => state.to_string(),
                    _ => "none".to_string(),
                };
                // Room past the last point is in every list.
                if state != "3 without" {
                    match number {
                        "102" => keys.push(format!("stuck, place {state}")),
                        "103" => keys.push(format!("waiting, place {state}")),
                        _ => {}
                    }
                }
                keys.push(format!("place {state}"));
            }
        }
    }
    keys
}

/// What a line is counted under.
fn key(line: &str) -> String {
    let words: Vec<&str> = line.split(' ').collect();
    match words[..] {
        ["plan", number, _] => format!("plan {number}"),
        ["end", "broken", _] => "end broken".to_string(),
        ["end", ending] => format!("end {ending}"),
        ["tail"] => "tail".to_string(),
        ["test", "pair", _, _, _] => "test pair".to_string(),
        ["test", answer @ ("yes" | "cycle"), _] => format!("test {answer}"),
        ["test", number] => format!("test {number}"),
        ["event", _, "28", _] => "event 28 with a record".to_string(),
        ["event", _, "28"] => "event 28 without".to_string(),
        ["event", _, number] => format!("event {number}"),
        ["board", _, _, "offers", _] => "board offers".to_string(),
        ["board", _, _, outcome] => format!("board {outcome}"),
        ["point", _, _, place @ ("done" | "offered"), _] => format!("point {place}"),
        ["point", _, _, "shut", _, kind @ ("ordinary" | "wait"), _, _, _] => {
            format!("point shut, {kind}")
        }
        ["point", _, _, place] => format!("point {place}"),
        [_, number, _, _] => format!("event {number}"),
        _ => format!("unknown line {line:?}"),
    }
}

/// Of the line of an event past 65,535: was it taken?
fn far(line: &str) -> Option<&'static str> {
    let words: Vec<&str> = line.split(' ').collect();
    let (event, number) = match words[..] {
        ["event", event, number, ..] => (event, number),
        [event, number, _, _] => (event, number),
        _ => return None,
    };
    let far = event.parse::<u64>().is_ok_and(|event| event > 65_535);
    far.then_some(FAR[usize::from(number != "0")])
}

/// The keys of the lines of a printing program: of each line by itself, and of a board's list with its outcome.
fn printed_keys(text: &str) -> Vec<String> {
    let mut keys = Vec::new();
    let mut board = String::new();
    for line in text.lines() {
        let key = key(line);
        if let Some(place) = key.strip_prefix("point ") {
            let place = place.split(',').next().unwrap_or(place);
            let told = matches!(
                (&board[..], place),
                ("board waiting" | "board stuck", "shut") | ("board stuck", "held")
            );
            if told {
                keys.push(format!("{board}, a point {place}"));
            }
        }
        if key.starts_with("board ") {
            board.clone_from(&key);
        }
        keys.extend(far(line).map(str::to_string));
        // What is told of 28 is a 28.
        if key.starts_with("event 28 ") {
            keys.push("event 28".to_string());
        }
        keys.push(key);
    }
    keys
}

/// How often each came up in the lines of one program.
#[derive(Clone, Default)]
pub struct Count {
    seen: BTreeMap<String, u64>,
}

impl Count {
    /// Counts the lines of one output of a program.
    pub fn add(&mut self, name: &str, output: &[u8]) {
        let text = String::from_utf8_lossy(output);
        let keys = match name {
            "probe" => probe_keys(&text),
            _ => printed_keys(&text),
        };
        for key in keys {
            self.one(key);
        }
    }

    /// Counts one more of a key.
    pub fn one(&mut self, key: String) {
        *self.seen.entry(key).or_default() += 1;
    }

    /// Adds the counts of another.
    pub fn join(&mut self, other: Count) {
        for (key, count) in other.seen {
            *self.seen.entry(key).or_default() += count;
        }
    }

    /// All that came up.
    pub fn keys(&self) -> impl Iterator<Item = &String> {
        self.seen.keys()
    }

    pub fn of(&self, key: &str) -> u64 {
        self.seen.get(key).copied().unwrap_or(0)
    }
}

/// Has everything come up that must?
pub fn complete(names: &[&str], counts: &[Count]) -> bool {
    let all = |(name, count): (&&str, &Count)| expected(name).iter().all(|key| count.of(key) > 0);
    names.iter().zip(counts).all(all)
}

/// Prints the table, a column for each program; answers what never came up, and what came up but can't.
pub fn print(names: &[&str], counts: &[Count]) -> (Vec<String>, Vec<String>) {
    let (mut missing, mut strange) = (Vec::new(), Vec::new());
    let mut rows: Vec<String> = Vec::new();
    for (name, count) in names.iter().zip(counts) {
        let expected = expected(name);
        let never = expected.iter().filter(|key| count.of(key) == 0);
        missing.extend(never.map(|key| format!("{name}: {key}")));
        let others = count.seen.keys().filter(|key| !expected.contains(key));
        strange.extend(others.map(|key| format!("{name}: {key}")));
        let new = expected.into_iter().filter(|key| !rows.contains(key));
        let new: Vec<String> = new.collect();
        rows.extend(new);
    }
    let head: String = names.iter().map(|name| format!("{name:>10}")).collect();
    println!("{:<40}{head}", "");
    for key in rows {
        let cell = |count: &Count| format!("{:>10}", count.of(&key));
        let row: String = counts.iter().map(cell).collect();
        println!("{key:<40}{row}");
    }
    (missing, strange)
}
