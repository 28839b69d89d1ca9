//! The archive's functions, as include/ponds.h declares them; tests/header.rs holds the two together. What each owes and
//! answers is said there: pointers are not null, rooms do not overlap, and slices are a pointer and a length.

use crate::{BOARD, KEPT, LINKS, LIST, MOST_RECORDS, REPLY, ROWS};

extern "C" {
    pub fn ponds_check(file: *const u8, length: usize) -> u64;
    pub fn ponds_test(file: *const u8, length: usize, answer: *mut [u32; 4]) -> u64;
    pub fn ponds_worst(file: *const u8, length: usize, worst: *mut [u32; 2]) -> u64;
    pub fn ponds_day(
        file: *const u8,
        length: usize,
        projection: u32,
        out: *mut u8,
        room: usize,
    ) -> u64;
    pub fn ponds_close(file: *const u8, length: usize, out: *mut u8, room: usize) -> u64;
    pub fn ponds_lighter(
        file: *const u8,
        length: usize,
        out: *mut u8,
        room: usize,
        dropped: *mut [u32; MOST_RECORDS],
    ) -> u64;
    pub fn ponds_import(text: *const u8, length: usize, out: *mut u8, room: usize) -> u64;
    pub fn ponds_begin(
        file: *const u8,
        length: usize,
        links: *mut [u32; LINKS],
        rows: *mut [u32; ROWS],
        into: *mut [u16; LIST],
        out: *mut [u16; LIST],
        ends: *mut [u16; LIST],
        kept: *mut [u32; KEPT],
    ) -> u64;
    pub fn ponds_take(
        links: *const [u32; LINKS],
        rows: *const [u32; ROWS],
        into: *const [u16; LIST],
        out: *const [u16; LIST],
        ends: *const [u16; LIST],
        kept: *mut [u32; KEPT],
        event: *const u8,
        length: usize,
    ) -> u64;
    pub fn ponds_reply(
        links: *const [u32; LINKS],
        rows: *const [u32; ROWS],
        out: *const [u16; LIST],
        kept: *const [u32; KEPT],
        reply: *mut [u32; REPLY],
    ) -> u64;
    pub fn ponds_board(kept: *const [u32; KEPT], board: *mut [u32; BOARD]) -> u64;
    pub fn ponds_verdict(
        file: *const u8,
        length: usize,
        kept: *const [u32; KEPT],
        verdict: *mut [u32; 2],
    ) -> u64;
    pub fn ponds_calendar(
        file: *const u8,
        length: usize,
        kept: *const [u32; KEPT],
        year: u32,
        month: u32,
        day: u32,
        hour: u32,
        minute: u32,
        out: *mut u8,
        room: usize,
    ) -> u64;
}
