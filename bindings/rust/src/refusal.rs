//! A refusal: its number, the record or the line that it is about, and its words, which are those of docs/NUMBERS.md.

use core::error::Error;
use core::fmt;

/// The page that says what each number means.
const PAGE: &str = include_str!("../../../docs/NUMBERS.md");

/// What was refused, by its number.
#[derive(Clone, Copy, PartialEq, Eq, Debug)]
pub struct Refusal {
    number: u32,
    place: u32,
}

impl Refusal {
    /// Nothing where the answer is 0 in its lower half, else what was refused.
    pub(crate) fn of(answer: u64) -> Result<u32, Refusal> {
        let (number, place) = (answer as u32, (answer >> 32) as u32);
        match number {
            0 => Ok(place),
            _ => Err(Refusal { number, place }),
        }
    }

    /// The reply number, as documents 01 and 02 have it.
    pub fn number(self) -> u32 {
        self.number
    }

    /// The record that it is about, or for [`import`](crate::import) the line, counted from 0; 0 beside a number that is about
    /// none.
    pub fn place(self) -> u32 {
        self.place
    }

    /// What happened, in words.
    pub fn what(self) -> &'static str {
        self.column(2)
    }

    /// What to do about it, in words.
    pub fn advice(self) -> &'static str {
        self.column(3)
    }

    /// A column of the number's row of the page; nothing where the page does not have the number.
    fn column(self, column: usize) -> &'static str {
        let cell = |row: &'static str, at: usize| row.split('|').nth(at).unwrap_or("").trim();
        let mut rows = PAGE.lines().filter(|row| row.starts_with('|'));
        let row = rows.find(|row| cell(row, 1).parse() == Ok(self.number));
        row.map_or("", |row| cell(row, column))
    }

    /// Is the number about a record or a line?
    fn has_place(self) -> bool {
        matches!(self.number, 4..=11 | 15 | 40..=43) || self.place != 0
    }
}

impl fmt::Display for Refusal {
    /// `NUMBER: WHAT`, or `NUMBER at PLACE: WHAT`.
    fn fmt(&self, f: &mut fmt::Formatter<'_>) -> fmt::Result {
        write!(f, "{}", self.number)?;
        if self.has_place() {
            write!(f, " at {}", self.place)?;
        }
        write!(f, ": {}", self.what())
    }
}

impl Error for Refusal {}

#[cfg(test)]
mod tests {
    extern crate std;
    use super::*;
    use std::string::ToString;
    use std::vec::Vec;

    const PLAN: [u32; 14] = [1, 2, 3, 4, 5, 6, 7, 8, 9, 10, 11, 12, 13, 15];
    const DAY: [u32; 12] = [20, 21, 22, 23, 24, 25, 26, 27, 28, 29, 30, 31];
    const DESK: [u32; 10] = [40, 41, 42, 43, 51, 52, 60, 61, 62, 63];

    fn of(number: u32, place: u32) -> Refusal {
        Refusal { number, place }
    }

    #[test]
    fn every_number_has_words_and_no_other() {
        let numbers = [&PLAN[..], &DAY, &DESK].concat();
        for number in 0..200 {
            let refusal = of(number, 0);
            let there = numbers.contains(&number);
            assert_eq!(!refusal.what().is_empty(), there, "{number}");
            assert_eq!(!refusal.advice().is_empty(), there, "{number}");
        }
        let rows = PAGE.lines().filter(|row| {
            let words: Vec<&str> = row.split('|').collect();
            words.len() == 5 && words[1].trim().parse::<u32>().is_ok()
        });
        assert_eq!(rows.count(), numbers.len());
    }

    #[test]
    fn the_words_are_the_row_of_the_page() {
        for number in [2, 15, 28, 43, 63] {
            let (what, advice) = (of(number, 0).what(), of(number, 0).advice());
            let row = std::format!("| {number} | {what} | {advice} |");
            assert!(PAGE.lines().any(|line| line == row), "{row}");
        }
    }

    #[test]
    fn a_place_is_told_where_there_is_one() {
        assert!(of(4, 0).to_string().starts_with("4 at 0: "));
        assert!(of(28, 8).to_string().starts_with("28 at 8: "));
        assert!(of(28, 0).to_string().starts_with("28: "));
        assert_eq!(of(29, 0).to_string(), "29: It is too early for this point.");
    }
}
