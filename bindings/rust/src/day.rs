//! A day: what happened, and what may happen next.

use crate::{sys, Plan, Refusal};
use crate::{BOARD, BROKEN, KEPT, LINKS, LIST, MOST_POINTS, RECORD_BYTES, REPLY, ROWS};

/// The rooms of a day, some 35 KB. Let them be static, or put them into a box.
#[derive(Clone)]
pub struct Rooms {
    rows: [u32; ROWS],
    links: [u32; LINKS],
    kept: [u32; KEPT],
    into: [u16; LIST],
    out: [u16; LIST],
    ends: [u16; LIST],
}

impl Rooms {
    /// Rooms that hold no day yet.
    pub const fn new() -> Rooms {
        Rooms {
            rows: [0; ROWS],
            links: [0; LINKS],
            kept: [0; KEPT],
            into: [0; LIST],
            out: [0; LIST],
            ends: [0; LIST],
        }
    }
}

impl Default for Rooms {
    fn default() -> Rooms {
        Rooms::new()
    }
}

/// A day of a plan that has begun.
pub struct Day<'a> {
    plan: Plan<'a>,
    rooms: &'a mut Rooms,
}

/// What happened at a minute.
#[derive(Clone, Copy, PartialEq, Eq, Debug)]
pub struct Event {
    /// The minute.
    pub minute: u32,
    /// The foreman's point that was done.
    pub point: Option<u8>,
    /// The watched points that were seen to happen, point i as bit i.
    pub happened: u32,
}

impl Event {
    /// A foreman's point was done.
    pub const fn done(minute: u32, point: u8) -> Event {
        Event {
            minute,
            point: Some(point),
            happened: 0,
        }
    }

    /// A watched point was seen to happen; none past point 31 is.
    pub const fn seen(minute: u32, point: u8) -> Event {
        let event = Event {
            minute,
            point: None,
            happened: 0,
        };
        event.with(point)
    }

    /// The same event, at which a watched point was seen to happen too; none past point 31 is.
    pub const fn with(mut self, point: u8) -> Event {
        if (point as usize) < MOST_POINTS {
            self.happened |= 1 << point;
        }
        self
    }

    /// The sixteen bytes of the event, as a stream of events has them. The point 255 reads as none.
    pub fn bytes(self) -> [u8; RECORD_BYTES] {
        let mut bytes = [0; RECORD_BYTES];
        bytes[..4].copy_from_slice(&self.minute.to_le_bytes());
        bytes[4] = self.point.unwrap_or(255);
        bytes[8..12].copy_from_slice(&self.happened.to_le_bytes());
        bytes
    }
}

/// What a board is.
#[derive(Clone, Copy, PartialEq, Eq, Debug)]
pub enum Outcome {
    /// Everything is done.
    Finished,
    /// No step can come in time any more; never where the plan test says yes.
    Stuck,
    /// Nothing can be done before something that is watched has happened.
    Waiting,
    /// Something may be done, up to the latest minute.
    Offers {
        /// The last minute of every window.
        latest: u32,
    },
}

/// What is said of a point.
#[derive(Clone, Copy, PartialEq, Eq, Debug)]
pub enum State {
    /// Done at a minute.
    Done(u32),
    /// It can only be watched.
    Watched,
    /// It cannot be done yet: the first record that keeps it so; none of a point that is not in the plan.
    Shut(Option<u32>),
    /// It is open, but its first minute is past the latest.
    Held,
    /// It may be done from a minute on.
    Offered(u32),
}

/// The reply to a board. That to a finished board has no list: every point reads shut, and the board has the minutes.
#[derive(Clone, Copy, PartialEq, Eq, Debug)]
pub struct Reply {
    numbers: [u32; REPLY],
    points: usize,
}

impl Reply {
    /// What the board is.
    pub fn outcome(&self) -> Outcome {
        match self.numbers[0] {
            0 => Outcome::Finished,
            1 => Outcome::Stuck,
            2 => Outcome::Waiting,
            3 => Outcome::Offers {
                latest: self.numbers[1],
            },
            _ => unreachable!("{BROKEN}"),
        }
    }

    /// What is said of a point; one past the last reads shut.
    pub fn state(&self, point: usize) -> State {
        if point >= MOST_POINTS {
            return State::Shut(None);
        }
        let value = self.numbers[3 + 2 * point];
        match self.numbers[2 + 2 * point] {
            0 => State::Done(value),
            1 => State::Watched,
            // Record 0 is a point's, and keeps nothing shut.
            2 => State::Shut((value != 0).then_some(value)),
            3 => State::Held,
            4 => State::Offered(value),
            _ => unreachable!("{BROKEN}"),
        }
    }

    /// What is said of each point of the plan, in order.
    pub fn states(&self) -> impl Iterator<Item = State> + '_ {
        (0..self.points).map(|point| self.state(point))
    }
}

/// A board.
#[derive(Clone, Copy, PartialEq, Eq, Debug)]
pub struct Board {
    /// The minute of the last event, 0 before the first.
    pub clock: u32,
    /// The set of done points, point i as bit i.
    pub done: u32,
    /// The minute of each done point, else 0.
    pub minutes: [u32; MOST_POINTS],
    /// For each done point the number of the event that did it, from 1; else 0.
    pub events: [u32; MOST_POINTS],
}

/// The verdict on a finished day.
#[derive(Clone, Copy, PartialEq, Eq, Debug)]
pub enum Verdict {
    /// Every record was kept.
    Kept,
    /// The first record that was not.
    Broken(u32),
}

/// The date, hour and minute of a day's minute 0, in UTC.
#[derive(Clone, Copy, PartialEq, Eq, Debug)]
pub struct Start {
    /// The year, 1970 to 2099.
    pub year: u32,
    /// The month, from 1.
    pub month: u32,
    /// The day of the month, from 1.
    pub day: u32,
    /// The hour, 0 to 23.
    pub hour: u32,
    /// The minute, 0 to 59.
    pub minute: u32,
}

impl<'a> Day<'a> {
    /// The fresh board of a plan.
    pub(crate) fn begin(plan: Plan<'a>, rooms: &'a mut Rooms) -> Day<'a> {
        let file = plan.file();
        // SAFETY: a slice is not null and has its length; the rooms are parts of one borrow that nothing else has.
        let answer = unsafe {
            sys::ponds_begin(
                file.as_ptr(),
                file.len(),
                &mut rooms.links,
                &mut rooms.rows,
                &mut rooms.into,
                &mut rooms.out,
                &mut rooms.ends,
                &mut rooms.kept,
            )
        };
        assert_eq!(answer as u32, 0, "{BROKEN}"); // the plan has been accepted before
        Day { plan, rooms }
    }

    /// The plan.
    pub fn plan(&self) -> Plan<'a> {
        self.plan
    }

    /// Takes what happened. One of 21 to 30 where it cannot be, the record beside 28; then nothing has changed.
    pub fn take(&mut self, event: Event) -> Result<(), Refusal> {
        self.take_bytes(&event.bytes())
    }

    /// Takes an event by its bytes; any number of them but sixteen is refused.
    pub fn take_bytes(&mut self, event: &[u8]) -> Result<(), Refusal> {
        let rooms = &mut *self.rooms;
        // SAFETY: a slice is not null and has its length; the rooms are parts of one borrow that nothing else has.
        let answer = unsafe {
            sys::ponds_take(
                &rooms.links,
                &rooms.rows,
                &rooms.into,
                &rooms.out,
                &rooms.ends,
                &mut rooms.kept,
                event.as_ptr(),
                event.len(),
            )
        };
        Refusal::of(answer).map(|_| ())
    }

    /// What may happen next.
    pub fn reply(&self) -> Reply {
        let rooms = &*self.rooms;
        let mut numbers = [0; REPLY];
        // SAFETY: the rooms are borrowed, and the reply is our own.
        unsafe {
            sys::ponds_reply(
                &rooms.links,
                &rooms.rows,
                &rooms.out,
                &rooms.kept,
                &mut numbers,
            )
        };
        let points = self.plan.points();
        Reply { numbers, points }
    }

    /// The board.
    pub fn board(&self) -> Board {
        let mut numbers = [0; BOARD];
        // SAFETY: as above.
        unsafe { sys::ponds_board(&self.rooms.kept, &mut numbers) };
        let mut board = Board {
            clock: numbers[0],
            done: numbers[1],
            minutes: [0; MOST_POINTS],
            events: [0; MOST_POINTS],
        };
        board.minutes.copy_from_slice(&numbers[2..2 + MOST_POINTS]);
        board.events.copy_from_slice(&numbers[2 + MOST_POINTS..]);
        board
    }

    /// The verdict; 31 where not everything is done.
    pub fn verdict(&self) -> Result<Verdict, Refusal> {
        let file = self.plan.file();
        let mut verdict = [0; 2];
        // SAFETY: as above.
        let answer = unsafe {
            sys::ponds_verdict(file.as_ptr(), file.len(), &self.rooms.kept, &mut verdict)
        };
        Refusal::of(answer)?;
        Ok(match verdict {
            [0, _] => Verdict::Kept,
            [_, record] => Verdict::Broken(record),
        })
    }

    /// The finished day as iCalendar text, written to the front of `out`, which may be as long as
    /// [`MOST_CALENDAR`](crate::MOST_CALENDAR). 31 where not everything is done, 51 where the start is no minute of 1970 to 2099,
    /// 52 where `out` is too short.
    pub fn calendar<'o>(&self, start: Start, out: &'o mut [u8]) -> Result<&'o str, Refusal> {
        let file = self.plan.file();
        // SAFETY: slices are not null and have their lengths, and a borrow that writes overlaps no other.
        let answer = unsafe {
            sys::ponds_calendar(
                file.as_ptr(),
                file.len(),
                &self.rooms.kept,
                start.year,
                start.month,
                start.day,
                start.hour,
                start.minute,
                out.as_mut_ptr(),
                out.len(),
            )
        };
        let length = Refusal::of(answer)? as usize;
        Ok(core::str::from_utf8(&out[..length]).expect(BROKEN))
    }
}
