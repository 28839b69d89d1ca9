//! An independent program for the rules of document 01 and the requests of document 02, written from those alone, to be
//! compared byte for byte with the proved one. All arithmetic is signed, in `i64`. Only `rooms`, of which the documents say
//! nothing, is from elsewhere: its head says from where.

pub mod board;
pub mod by_value;
pub mod calendar;
pub mod close;
pub mod desk;
pub mod event;
pub mod explain;
pub mod import;
pub mod lighter;
pub mod min_disp;
pub mod pack;
pub mod plan;
pub mod plan_test;
pub mod probe;
pub mod rooms;
pub mod text;
pub mod verdict;
pub mod worst;

/// A reply number and the record beside it; 0 where the number has no record of its own.
pub type Refusal = (u32, u32);
