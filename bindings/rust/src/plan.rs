//! Plans: files that have been accepted, their test, and what the desk makes of them.

use crate::{sys, Day, Refusal, Rooms, BROKEN, MOST_RECORDS, RECORD_BYTES};

/// A plan file that has been accepted, over its bytes.
#[derive(Clone, Copy, Debug)]
pub struct Plan<'f> {
    file: &'f [u8],
}

/// What the plan test answers. Points and projections are counted from 0.
#[derive(Clone, Copy, PartialEq, Eq, Debug)]
pub enum Test {
    /// Every time that the links may take is provided for; so many projections were tried.
    Yes(u32),
    /// The first projection in which records contradict one another.
    Cycle(u32),
    /// The first projection in which some step would hang on what can only be watched, and the two points.
    Pair {
        /// The projection.
        projection: u32,
        /// The first point of the pair.
        x: u32,
        /// The second.
        y: u32,
    },
}

/// The worst finishing minute, and the first projection that reaches it.
#[derive(Clone, Copy, PartialEq, Eq, Debug)]
pub struct Worst {
    /// The minute.
    pub minute: u32,
    /// The projection.
    pub projection: u32,
}

/// A plan without the records that it does not need.
#[derive(Clone, Copy, Debug)]
pub struct Lighter<'o> {
    /// The lighter plan.
    pub plan: Plan<'o>,
    /// The records of the plan as it came in that went, in order.
    pub dropped: &'o [u32],
}

impl<'f> Plan<'f> {
    /// The plan of a file; or its first fault, one of 1 to 11 and 15.
    pub fn new(file: &'f [u8]) -> Result<Plan<'f>, Refusal> {
        // SAFETY: a slice is not null, and has its length.
        Refusal::of(unsafe { sys::ponds_check(file.as_ptr(), file.len()) })?;
        Ok(Plan { file })
    }

    /// The bytes of the file.
    pub fn file(self) -> &'f [u8] {
        self.file
    }

    /// How many records it has.
    pub fn records(self) -> usize {
        self.file.len() / RECORD_BYTES
    }

    /// How many points it has: they are its first records.
    pub fn points(self) -> usize {
        let records = self.file.chunks(RECORD_BYTES);
        records.take_while(|record| record[0] == 1).count()
    }

    /// The pond code of a point, 0 for no pond; none past the last point.
    pub fn pond(self, point: usize) -> Option<u32> {
        let record = self.record(point)?;
        let code = u32::from_le_bytes([record[12], record[13], record[14], record[15]]);
        (record[0] == 1).then_some(code)
    }

    /// The sixteen bytes of a record.
    pub fn record(self, number: usize) -> Option<&'f [u8]> {
        self.file.chunks(RECORD_BYTES).nth(number)
    }

    /// The plan test; 13 where there are too many projections.
    pub fn test(self) -> Result<Test, Refusal> {
        let mut answer = [0; 4];
        // SAFETY: a slice is not null and has its length; the room is our own.
        Refusal::of(unsafe { sys::ponds_test(self.file.as_ptr(), self.file.len(), &mut answer) })?;
        let [kind, projection, x, y] = answer;
        Ok(match kind {
            0 => Test::Yes(projection),
            1 => Test::Cycle(projection),
            2 => Test::Pair { projection, x, y },
            _ => unreachable!("{BROKEN}"),
        })
    }

    /// The worst finishing minute; 13, or 60 where the plan does not pass the test.
    pub fn worst(self) -> Result<Worst, Refusal> {
        let mut worst = [0; 2];
        // SAFETY: as above.
        Refusal::of(unsafe { sys::ponds_worst(self.file.as_ptr(), self.file.len(), &mut worst) })?;
        let [minute, projection] = worst;
        Ok(Worst { minute, projection })
    }

    /// The events of a projection's run, written to the front of `out`, which may be as long as [`MOST_DAY`](crate::MOST_DAY);
    /// none for a projection past the last. 13, 60, or 12 where `out` is too short.
    pub fn day(self, projection: u32, out: &mut [u8]) -> Result<&[u8], Refusal> {
        let (file, length) = (self.file.as_ptr(), self.file.len());
        // SAFETY: slices are not null and have their lengths, and a borrow that writes overlaps no other.
        let events = Refusal::of(unsafe {
            sys::ponds_day(file, length, projection, out.as_mut_ptr(), out.len())
        })?;
        Ok(&out[..RECORD_BYTES * events as usize])
    }

    /// Of a plan without links and waits the plan with every distance as a record, written to the front of `out`, which may be
    /// as long as [`MOST_FILE`](crate::MOST_FILE). 61, 62, 63, or 12 where `out` is too short.
    pub fn close(self, out: &mut [u8]) -> Result<Plan<'_>, Refusal> {
        let (file, length) = (self.file.as_ptr(), self.file.len());
        // SAFETY: as above.
        let records = unsafe { sys::ponds_close(file, length, out.as_mut_ptr(), out.len()) };
        Plan::new(&out[..RECORD_BYTES * Refusal::of(records)? as usize])
    }

    /// The plan without the records that it does not need, written to the front of `out`, which may be as long as the plan's
    /// file; the room `dropped` is for the numbers of those that went. 13, 60, or 12 where `out` is too short. On a large plan of
    /// many projections this takes minutes.
    pub fn lighter<'o>(
        self,
        out: &'o mut [u8],
        dropped: &'o mut [u32; MOST_RECORDS],
    ) -> Result<Lighter<'o>, Refusal> {
        let (file, length) = (self.file.as_ptr(), self.file.len());
        // SAFETY: as above.
        let records = Refusal::of(unsafe {
            sys::ponds_lighter(file, length, out.as_mut_ptr(), out.len(), dropped)
        })?;
        let went = self.records() - records as usize;
        Ok(Lighter {
            plan: Plan::new(&out[..RECORD_BYTES * records as usize])?,
            dropped: &dropped[..went],
        })
    }

    /// Begins a day of the plan: the fresh board, in these rooms.
    pub fn begin<'a>(self, rooms: &'a mut Rooms) -> Day<'a>
    where
        'f: 'a,
    {
        Day::begin(self, rooms)
    }
}

/// The plan of comma-separated text from the growers' office, its file written to the front of `out`, which may be as long as
/// [`MOST_FILE`](crate::MOST_FILE). With the line: 40 to 43, and the reader's own numbers; or 12 where `out` is too short.
pub fn import<'o>(text: &[u8], out: &'o mut [u8]) -> Result<Plan<'o>, Refusal> {
    // SAFETY: slices are not null and have their lengths, and a borrow that writes overlaps no other.
    let answer =
        unsafe { sys::ponds_import(text.as_ptr(), text.len(), out.as_mut_ptr(), out.len()) };
    Plan::new(&out[..RECORD_BYTES * Refusal::of(answer)? as usize])
}
