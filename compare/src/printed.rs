//! Reads what `offers` printed: the plan test, the reply to each board, the number of each event, and the ending.

/// What stands for one point in a list.
#[derive(Clone, PartialEq, Eq, Debug)]
pub enum Place {
    Done(i64),
    Watched,
    Shut(Holder),
    Held,
    Offered(i64),
}

/// A record that keeps a point shut: its number in the plan file, and its words as a listing has them.
#[derive(Clone, PartialEq, Eq, Debug)]
pub struct Holder {
    pub number: usize,
    pub listed: String,
}

/// The reply to a board, with the list of its points unless all is done.
#[derive(Clone, PartialEq, Eq, Debug)]
pub enum Reply {
    Finished,
    Stuck { places: Vec<Place> },
    Waiting { places: Vec<Place> },
    Offers { latest: i64, places: Vec<Place> },
}

impl Reply {
    /// The list, if the board has one.
    pub fn places(&self) -> Option<&[Place]> {
        match self {
            Reply::Finished => None,
            Reply::Stuck { places } | Reply::Waiting { places } | Reply::Offers { places, .. } => {
                Some(places)
            }
        }
    }

    fn places_mut(&mut self) -> Option<&mut Vec<Place>> {
        match self {
            Reply::Finished => None,
            Reply::Stuck { places } | Reply::Waiting { places } | Reply::Offers { places, .. } => {
                Some(places)
            }
        }
    }
}

/// A board as it is printed, and the number of the event before it (0 for the fresh board) with its record, if it has one.
#[derive(Clone, PartialEq, Eq, Debug)]
pub struct Board {
    pub number: i64,
    pub record: Option<usize>,
    pub clock: i64,
    pub count: usize,
    pub reply: Reply,
}

#[derive(Clone, Debug)]
pub struct Printed {
    /// What stands after `test`.
    pub test: String,
    /// The fresh board, then one for each event.
    pub boards: Vec<Board>,
    /// What stands after `end`.
    pub end: String,
}

/// Reads a whole output, or says which line has no place in it.
pub fn read(output: &[u8]) -> Result<Printed, String> {
    let text = String::from_utf8_lossy(output);
    let mut lines = text.lines();
    let mut test = None;
    let mut boards: Vec<Board> = Vec::new();
    let (mut number, mut record) = (0, None);
    let mut end = None;
    for line in &mut lines {
        let strange = || format!("a line out of place: {line:?}");
        let words: Vec<&str> = line.split(' ').collect();
        match words[..] {
            ["test", ..] if test.is_none() && boards.is_empty() => {
                test = line.strip_prefix("test ").map(str::to_string);
            }
            ["event", k, answer, ref named @ ..]
                if k.parse() == Ok(boards.len().wrapping_sub(1)) =>
            {
                number = answer.parse().map_err(|_| strange())?;
                record = match named {
                    [] => None,
                    [named] => Some(named.parse().map_err(|_| strange())?),
                    _ => return Err(strange()),
                };
            }
            ["board", clock, count, ref reply @ ..] => boards.push(Board {
                number,
                record,
                clock: clock.parse().map_err(|_| strange())?,
                count: count.parse().map_err(|_| strange())?,
                reply: reply_of(reply).ok_or_else(strange)?,
            }),
            ["point", point, _, ref place @ ..] => {
                let places = boards.last_mut().map(|board| board.reply.places_mut());
                let Some(places) = places.flatten() else {
                    return Err(strange());
                };
                if point.parse() != Ok(places.len()) {
                    return Err(strange());
                }
                places.push(place_of(place).ok_or_else(strange)?);
            }
            ["end", ..] => {
                end = line.strip_prefix("end ").map(str::to_string);
                break;
            }
            _ => return Err(strange()),
        }
    }
    match (test, end, lines.next()) {
        (Some(test), Some(end), None) => Ok(Printed { test, boards, end }),
        _ => Err("no test line, no end line, or a line after it".to_string()),
    }
}

fn reply_of(words: &[&str]) -> Option<Reply> {
    match *words {
        ["finished"] => Some(Reply::Finished),
        ["stuck"] => Some(Reply::Stuck { places: Vec::new() }),
        ["waiting"] => Some(Reply::Waiting { places: Vec::new() }),
        ["offers", latest] => Some(Reply::Offers {
            latest: latest.parse().ok()?,
            places: Vec::new(),
        }),
        _ => None,
    }
}

fn place_of(words: &[&str]) -> Option<Place> {
    match *words {
        ["done", minute] => Some(Place::Done(minute.parse().ok()?)),
        ["watched"] => Some(Place::Watched),
        ["shut", number, ref listed @ ..] => Some(Place::Shut(Holder {
            number: number.parse().ok()?,
            listed: listed.join(" "),
        })),
        ["held"] => Some(Place::Held),
        ["offered", low] => Some(Place::Offered(low.parse().ok()?)),
        _ => None,
    }
}
