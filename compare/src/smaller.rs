//! Makes an input on which the programs differ smaller: drops events, then plan records, then turns bytes to 0; of a text
//! drops lines, then bytes.

use crate::events::MARK;
use oracle::plan::RECORD;
use std::io;
use std::time::{Duration, Instant};

/// Making smaller stops after this long.
const PATIENCE: Duration = Duration::from_secs(60);

/// Do the programs differ on this input?
pub type Differ<'a> = &'a dyn Fn(&[u8]) -> io::Result<bool>;

struct Work<'a> {
    differ: Differ<'a>,
    until: Instant,
    bytes: Vec<u8>,
}

/// The smallest input found on which the programs still differ.
pub fn smaller(differ: Differ, input: &[u8]) -> io::Result<Vec<u8>> {
    let mut work = Work::new(differ, input);
    loop {
        let before = work.bytes.clone();
        work.drop_records(true)?;
        work.drop_records(false)?;
        work.drop_end()?;
        work.zero_bytes()?;
        if work.bytes == before || Instant::now() > work.until {
            return Ok(work.bytes);
        }
    }
}

/// The smallest text found on which the programs still differ.
pub fn smaller_text(differ: Differ, text: &[u8]) -> io::Result<Vec<u8>> {
    let mut work = Work::new(differ, text);
    loop {
        let before = work.bytes.clone();
        work.drop_pieces(|bytes| bytes.split_inclusive(|&byte| byte == b'\n').collect())?;
        work.drop_pieces(|bytes| bytes.chunks(1).collect())?;
        if work.bytes == before || Instant::now() > work.until {
            return Ok(work.bytes);
        }
    }
}

impl Work<'_> {
    fn new<'a>(differ: Differ<'a>, input: &[u8]) -> Work<'a> {
        Work {
            differ,
            until: Instant::now() + PATIENCE,
            bytes: input.to_vec(),
        }
    }

    /// Drops pieces, many at once and then fewer.
    fn drop_pieces(&mut self, pieces: impl Fn(&[u8]) -> Vec<&[u8]>) -> io::Result<()> {
        let mut many = pieces(&self.bytes).len().div_ceil(2);
        while many > 0 {
            let mut at = 0;
            loop {
                let all = pieces(&self.bytes);
                if at >= all.len() || Instant::now() > self.until {
                    break;
                }
                let to = all.len().min(at + many);
                let new = [all[..at].concat(), all[to..].concat()].concat();
                if !self.try_keep(new)? {
                    at += many;
                }
            }
            many /= 2;
        }
        Ok(())
    }

    /// Keeps the new input if the programs differ on it too.
    fn try_keep(&mut self, new: Vec<u8>) -> io::Result<bool> {
        let kept = Instant::now() < self.until && (self.differ)(&new)?;
        if kept {
            self.bytes = new;
        }
        Ok(kept)
    }

    /// Where the events begin, else the end of the input.
    fn events_start(&self) -> usize {
        let mark = self.bytes.chunks(RECORD).position(|record| record == MARK);
        mark.map_or(self.bytes.len(), |place| (place + 1) * RECORD)
    }

    /// Drops records, of the events or of the plan part, many at once and then fewer.
    fn drop_records(&mut self, events: bool) -> io::Result<()> {
        let mut many = self.bytes.len() / RECORD + 1;
        while many > 0 {
            let mut at = if events { self.events_start() } else { 0 };
            loop {
                let end = if events {
                    self.bytes.len()
                } else {
                    self.events_start()
                };
                if at >= end {
                    break;
                }
                let to = end.min(at + many * RECORD);
                let new = [&self.bytes[..at], &self.bytes[to..]].concat();
                if !self.try_keep(new)? {
                    at += many * RECORD;
                }
            }
            many /= 2;
        }
        Ok(())
    }

    /// Drops bytes of an unfinished last record.
    fn drop_end(&mut self) -> io::Result<()> {
        while self.bytes.len() % RECORD != 0 {
            let new = self.bytes[..self.bytes.len() - 1].to_vec();
            if !self.try_keep(new)? {
                break;
            }
        }
        Ok(())
    }

    fn zero_bytes(&mut self) -> io::Result<()> {
        for at in 0..self.bytes.len() {
            if self.bytes[at] != 0 {
                let mut new = self.bytes.clone();
                new[at] = 0;
                self.try_keep(new)?;
            }
        }
        Ok(())
    }
}
