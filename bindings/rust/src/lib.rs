//! The proved dispatcher as a library for Rust: safe types over the archive that `bin/archive` writes. Nothing is
//! allocated and nothing is global; what a call needs it is lent.
//!
//! A [`Plan`] is a plan file that has been accepted. It is tested, and its days are played in [`Rooms`] that the caller holds:
//! a [`Day`] takes what happened and says what may happen next, as a [`Reply`]. What is not as it has to be is a [`Refusal`],
//! with its number and its words.
//!
//! ```
//! use ponds::{Event, Outcome, Rooms, State, Test, Verdict};
//!
//! // A truck leaves for a pond; the drive takes 20 to 50 minutes, and nobody knows how long before it is over.
//! let text = b"point,0,,,,\r\npoint,1,,,,\r\npoint,2,,,,AE1704\r\npoint,3,,,,AE1704\r\nlink,1,2,20,50,\r\n\
//!              ordinary,1,0,-10,,\r\nordinary,2,3,5,,\r\nordinary,3,2,15,,\r\nwait,3,2,35,,\r\n";
//! let mut file = [0; ponds::MOST_FILE];
//! let plan = ponds::import(text, &mut file)?;
//! assert_eq!(plan.test()?, Test::Yes(31));
//! assert_eq!(plan.worst()?.minute, 60);
//!
//! let mut rooms = Box::new(Rooms::new());
//! let mut day = plan.begin(&mut rooms);
//! day.take(Event::done(0, 0))?; // the crew is called
//! day.take(Event::done(12, 1))?; // the truck leaves
//! let reply = day.reply();
//! assert_eq!(reply.outcome(), Outcome::Offers { latest: 100_012 });
//! assert_eq!(reply.state(3), State::Offered(47));
//!
//! let refusal = day.take(Event::done(46, 3)).unwrap_err();
//! assert_eq!(refusal.to_string(), "29: It is too early for this point.");
//!
//! day.take(Event::seen(40, 2))?; // it arrives
//! day.take(Event::done(43, 3))?; // the fish are loaded
//! assert_eq!(day.reply().outcome(), Outcome::Finished);
//! assert_eq!(day.verdict()?, Verdict::Kept);
//! # Ok::<(), ponds::Refusal>(())
//! ```
#![no_std]
#![deny(missing_docs)]

mod day;
mod plan;
mod refusal;
mod sys;

pub use day::{Board, Day, Event, Outcome, Reply, Rooms, Start, State, Verdict};
pub use plan::{import, Lighter, Plan, Test, Worst};
pub use refusal::Refusal;

/// Points of a plan, at most; places of a board.
pub const MOST_POINTS: usize = 32;
/// Records of a plan, at most.
pub const MOST_RECORDS: usize = 1_128;
/// Bytes of a record and of an event.
pub const RECORD_BYTES: usize = 16;
/// Bytes of the longest plan file: enough for every plan that is written.
pub const MOST_FILE: usize = MOST_RECORDS * RECORD_BYTES;
/// Bytes that are enough for the events of every day that is written.
pub const MOST_DAY: usize = MOST_POINTS * RECORD_BYTES;
/// Bytes that are enough for every calendar.
pub const MOST_CALENDAR: usize = 4_278;

const LINKS: usize = 98;
const ROWS: usize = 6_768;
const LIST: usize = 1_161;
const KEPT: usize = 195;
const REPLY: usize = 66;
const BOARD: usize = 66;

/// What cannot be: the archive's contracts rule it out.
const BROKEN: &str = "libponds.a is not the archive that this crate is for";
