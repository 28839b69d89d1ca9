//! The program `desk`: a verb and its words, standard input to standard output.

use crate::calendar::{self, Origin};
use crate::close;
use crate::explain;
use crate::import;
use crate::lighter::{self, Lighter};
use crate::pack::{self, Refused};
use crate::plan::{self, Plan};
use crate::text::{self, MARK};
use crate::worst::{self, Worst};
use crate::Refusal;

/// What was said on standard output and on standard error, and how it ended: 0, 1 for a refusal, 2 for wrong usage.
#[derive(Clone, PartialEq, Eq, Debug)]
pub struct Said {
    pub output: Vec<u8>,
    pub errors: Vec<u8>,
    pub status: u8,
}

/// A verb with its words.
#[derive(Clone, Copy, PartialEq, Eq, Debug)]
pub enum Verb {
    Test,
    Worst,
    Day(u32),
    Import,
    Close,
    Calendar(Origin),
    Lighter,
    Pack,
    List,
    Explain,
}

/// The line about wrong usage.
const USAGE: &str = "usage: oracle-desk test | worst | day PROJECTION | import | close | \
                     calendar YEAR MONTH DAY HOUR MINUTE | lighter | pack | list | explain";

impl Verb {
    /// None where there is no such verb, or the words are not its words.
    pub fn of(words: &[&str]) -> Option<Verb> {
        match words {
            ["test"] => Some(Verb::Test),
            ["worst"] => Some(Verb::Worst),
            ["day", projection] => number(projection).map(Verb::Day),
            ["import"] => Some(Verb::Import),
            ["close"] => Some(Verb::Close),
            ["calendar", origin @ ..] => {
                let numbers: Option<Vec<u32>> = origin.iter().map(|word| number(word)).collect();
                let numbers: [u32; 5] = numbers?.try_into().ok()?;
                Some(Verb::Calendar(Origin::of(numbers)))
            }
            ["lighter"] => Some(Verb::Lighter),
            ["pack"] => Some(Verb::Pack),
            ["list"] => Some(Verb::List),
            ["explain"] => Some(Verb::Explain),
            _ => None,
        }
    }

    /// What is said of this standard input.
    pub fn said(self, input: &[u8]) -> Said {
        match self {
            Verb::Test => lines(test(input)),
            Verb::Worst => lines(worst(input)),
            Verb::Day(projection) => file(day(input, projection)),
            Verb::Import => file(import(input)),
            Verb::Close => file(close(input)),
            Verb::Calendar(origin) => file(calendar(input, &origin)),
            Verb::Lighter => lighter(input),
            Verb::Pack => pack(input),
            Verb::List => file(list(input)),
            Verb::Explain => lines(explain(input)),
        }
    }
}

/// What is said of a verb or words that are none.
pub fn wrong_usage() -> Said {
    Said {
        output: Vec::new(),
        errors: line(USAGE),
        status: 2,
    }
}

/// Decimal digits, as many zeros in front as one likes, that fit 32 bits. `parse` would take a plus too.
fn number(word: &str) -> Option<u32> {
    let digits = word.bytes().all(|byte| byte.is_ascii_digit());
    word.parse().ok().filter(|_| digits)
}

fn line(text: &str) -> Vec<u8> {
    format!("{text}\n").into_bytes()
}

/// A verb that prints lines: a refusal is one of them.
fn lines(answer: Result<String, String>) -> Said {
    let status = u8::from(answer.is_err());
    let (Ok(text) | Err(text)) = answer;
    Said {
        output: line(&text),
        errors: Vec::new(),
        status,
    }
}

/// A verb whose standard output is a file: a refusal goes to standard error.
fn file(answer: Result<Vec<u8>, String>) -> Said {
    match answer {
        Ok(output) => Said {
            output,
            errors: Vec::new(),
            status: 0,
        },
        Err(text) => Said {
            output: Vec::new(),
            errors: line(&text),
            status: 1,
        },
    }
}

fn bad_plan((number, record): Refusal) -> String {
    format!("plan {number} {record}")
}

/// The plan of a file that is nothing more, or how its refusal is said.
fn plan(file: &[u8]) -> Result<Plan, String> {
    plan::read(file).map_err(bad_plan)
}

fn test(file: &[u8]) -> Result<String, String> {
    text::test_line(&plan(file)?)
}

fn worst(file: &[u8]) -> Result<String, String> {
    match worst::worst(&plan(file)?) {
        Ok(Worst { minute, projection }) => Ok(format!("worst {minute} {projection}")),
        Err(number) => Err(format!("worst {number}")),
    }
}

/// The plan file, the mark and the events of the projection's run: what `sheet` and `offers` read.
fn day(file: &[u8], projection: u32) -> Result<Vec<u8>, String> {
    let events = worst::day(&plan(file)?, projection);
    let events = events.map_err(|number| format!("day {number}"))?;
    Ok([file, &MARK, &events.concat()].concat())
}

/// The plan file of a text. The reader's own numbers are said as the others are: the record is the line.
fn import(text: &[u8]) -> Result<Vec<u8>, String> {
    let plan = import::import(text);
    let plan = plan.map_err(|(number, line)| format!("import {number} {line}"))?;
    Ok(plan.to_bytes())
}

/// The file of the made plan.
fn close(file: &[u8]) -> Result<Vec<u8>, String> {
    let made = close::close(&plan(file)?);
    let made = made.map_err(|number| format!("close {number}"))?;
    Ok(made.to_bytes())
}

/// The calendar of the board after all events of what `sheet` reads.
fn calendar(input: &[u8], origin: &Origin) -> Result<Vec<u8>, String> {
    let after = text::board_after(input).expect("bytes can be read");
    let (plan, board) = after.map_err(bad_plan)?;
    let text = calendar::calendar(&plan, &board, origin);
    let text = text.map_err(|number| format!("calendar {number}"))?;
    Ok(text.into_bytes())
}

/// The file of the lighter plan, and on standard error a line for each record that went.
fn lighter(file_in: &[u8]) -> Said {
    let light = plan(file_in)
        .and_then(|plan| lighter::lighter(&plan).map_err(|number| format!("lighter {number}")));
    match light {
        Ok(Lighter { plan, dropped }) => Said {
            output: plan.to_bytes(),
            errors: dropped
                .iter()
                .flat_map(|number| line(&format!("dropped {number}")))
                .collect(),
            status: 0,
        },
        Err(text) => file(Err(text)),
    }
}

/// The listing of a plan file, a line for each record.
fn list(file: &[u8]) -> Result<Vec<u8>, String> {
    let plan = plan(file)?;
    let records = 0..plan.records() as u32;
    let lines = records.flat_map(|number| line(&text::listed(&plan, number)));
    Ok(lines.collect())
}

/// What `test` says, and why it says no.
fn explain(file: &[u8]) -> Result<String, String> {
    explain::explain(&plan(file)?)
}

/// The bytes of a listing, or a line about what was expected. That it is too much is wrong usage.
fn pack(listing: &[u8]) -> Said {
    let line_of = |refused| match refused {
        Refused::Line(expected, number) => {
            let expected = pack::EXPECTED[expected - 1];
            (1, format!("pack: expected {expected}, at line {number}"))
        }
        Refused::TooMuch => (2, pack::TOO_MUCH.to_string()),
    };
    match pack::pack(listing).map_err(line_of) {
        Ok(output) => file(Ok(output)),
        Err((status, text)) => Said {
            status,
            ..file(Err(text))
        },
    }
}
