//! The printing program and the longer print of offers.

use crate::board::{self, Board, Outcome, Place};
use crate::event;
use crate::plan::{self, Link, Ordinary, Plan, Wait, RECORD, ROOM};
use crate::plan_test::{self, Answer};
use crate::verdict::{self, Verdict};
use crate::Refusal;
use std::io::{self, ErrorKind, Read, Write};

/// The record that ends the plan part.
pub const MARK: [u8; RECORD] = [255; RECORD];

/// The next record; fewer than 16 bytes only at the end of the input.
fn next_record(input: &mut impl Read) -> io::Result<Vec<u8>> {
    let mut record = vec![0; RECORD];
    let mut have = 0;
    while have < RECORD {
        match input.read(&mut record[have..]) {
            Ok(0) => break,
            Ok(more) => have += more,
            Err(error) if error.kind() == ErrorKind::Interrupted => {}
            Err(error) => return Err(error),
        }
    }
    record.truncate(have);
    Ok(record)
}

/// The plan part: the records before the first record of 255, else the whole input. Of too many
/// records one too many is kept, which gives the same reply.
fn plan_part(input: &mut impl Read) -> io::Result<Vec<u8>> {
    let mut bytes = Vec::new();
    loop {
        let record = next_record(input)?;
        if record == MARK {
            return Ok(bytes);
        }
        let whole = record.len() == RECORD;
        if !whole || bytes.len() <= ROOM * RECORD {
            bytes.extend(record);
        }
        if !whole {
            return Ok(bytes);
        }
    }
}

/// The program of document 01.
pub fn sheet(input: &mut impl Read, output: &mut impl Write) -> io::Result<()> {
    run(input, output, false)
}

/// The same input, with the plan test and every reply printed.
pub fn offers(input: &mut impl Read, output: &mut impl Write) -> io::Result<()> {
    run(input, output, true)
}

/// The plan and the board after all events of such an input, refused ones and an unfinished last record left aside; or the
/// plan's refusal.
pub fn board_after(mut input: &[u8]) -> io::Result<Result<(Plan, Board), Refusal>> {
    let plan = match plan::read(&plan_part(&mut input)?) {
        Ok(plan) => plan,
        Err(refusal) => return Ok(Err(refusal)),
    };
    let mut board = Board::fresh();
    loop {
        let record = next_record(&mut input)?;
        if record.len() < RECORD {
            return Ok(Ok((plan, board)));
        }
        board = event::take(&plan, &board, &record).1;
    }
}

fn run(input: &mut impl Read, output: &mut impl Write, full: bool) -> io::Result<()> {
    let plan = match plan::read(&plan_part(input)?) {
        Ok(plan) => plan,
        Err((number, record)) => {
            writeln!(output, "plan {number} {record}")?;
            return output.flush();
        }
    };
    let mut board = Board::fresh();
    if full {
        let (Ok(line) | Err(line)) = test_line(&plan);
        writeln!(output, "{line}")?;
        print_board(&plan, &board, output)?;
    }
    let mut k: u64 = 0;
    // After a plan part that the end of the input ended, this finds nothing more.
    let left_over = loop {
        let record = next_record(input)?;
        if record.len() < RECORD {
            break record;
        }
        let ((number, why), after) = event::take(&plan, &board, &record);
        board = after;
        if full {
            // Record 0 is a point's, so that it never keeps anything shut.
            match why {
                0 => writeln!(output, "event {k} {number}")?,
                _ => writeln!(output, "event {k} {number} {why}")?,
            }
            print_board(&plan, &board, output)?;
        } else {
            writeln!(output, "{k} {number} {} {}", board.clock, board.count())?;
        }
        k += 1;
    };
    if !left_over.is_empty() {
        writeln!(output, "tail")?;
    }
    writeln!(output, "end {}", end(&plan, &board))?;
    output.flush()
}

/// What stands after `end`.
fn end(plan: &Plan, board: &Board) -> String {
    match verdict::verdict(plan, board) {
        Ok(Verdict::Kept) => "kept".to_string(),
        Ok(Verdict::Broken(record)) => format!("broken {record}"),
        Err(_) => match board::outcome(plan, board) {
            Outcome::Stuck => "stuck".to_string(),
            _ => "open".to_string(),
        },
    }
}

/// What the plan test says, or refuses to say.
pub fn test_line(plan: &Plan) -> Result<String, String> {
    match plan_test::plan_test(plan) {
        Ok(Answer::Yes(count)) => Ok(format!("test yes {count}")),
        Ok(Answer::Cycle(p)) => Ok(format!("test cycle {p}")),
        Ok(Answer::Pair(p, x, y)) => Ok(format!("test pair {p} {x} {y}")),
        Err((number, _)) => Err(format!("test {number}")),
    }
}

fn print_board(plan: &Plan, board: &Board, output: &mut impl Write) -> io::Result<()> {
    write!(output, "board {} {} ", board.clock, board.count())?;
    let reply = match board::reply(plan, board) {
        Ok(reply) => reply,
        // Boards reached by events are sound; were one not, it would show.
        Err((number, _)) => return writeln!(output, "refused {number}"),
    };
    match reply.outcome {
        Outcome::Finished => return writeln!(output, "finished"),
        Outcome::Stuck => writeln!(output, "stuck")?,
        Outcome::Waiting => writeln!(output, "waiting")?,
        Outcome::Offers => writeln!(output, "offers {}", reply.latest)?,
    }
    for (point, (pond, place)) in plan.ponds.iter().zip(reply.places).enumerate() {
        write!(output, "point {point} {pond} ")?;
        match place {
            Place::Done(minute) => writeln!(output, "done {minute}")?,
            Place::Watched => writeln!(output, "watched")?,
            Place::Shut(Some(why)) => writeln!(output, "shut {why} {}", listed(plan, why))?,
            // Of a point of the plan something always keeps it shut; were there nothing, it would show.
            Place::Shut(None) => writeln!(output, "shut")?,
            Place::Held => writeln!(output, "held")?,
            Place::Offered(low) => writeln!(output, "offered {low}")?,
        }
    }
    Ok(())
}

/// A record, by its number in the file, as a listing has it.
pub fn listed(plan: &Plan, number: u32) -> String {
    let mut place = number as usize;
    if let Some(pond) = plan.ponds.get(place) {
        return format!("point {place} {pond}");
    }
    place -= plan.points();
    if let Some(Link { a, x, y, c }) = plan.links.get(place) {
        return format!("link {a} {x} {y} {c}");
    }
    place -= plan.links.len();
    match plan.ordinary.get(place) {
        Some(Ordinary { x, d, y }) => format!("ordinary {x} {d} {y}"),
        None => {
            let Wait { v, c, w } = plan.waits[place - plan.ordinary.len()];
            format!("wait {v} {c} {w}")
        }
    }
}
