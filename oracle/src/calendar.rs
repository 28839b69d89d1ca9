//! Sheets in the crews' calendars (document 02): a finished board as an iCalendar text by RFC 5545, numbers 20, 31 and 51.
//! Dates are found by going on from day to day, a month's last day being known: without a formula, and without counting the
//! days before a month or a year.

use crate::board::{self, Board};
use crate::plan::Plan;

const MINUTES_OF_DAY: u32 = 24 * 60;

/// A day of the Gregorian calendar, or numbers that are none.
#[derive(Clone, Copy, PartialEq, Eq, Debug)]
pub struct Date {
    pub year: u32,
    pub month: u32,
    pub day: u32,
}

/// The first day that an origin may be on, and the last year.
const FIRST: Date = Date {
    year: 1970,
    month: 1,
    day: 1,
};
const LAST_YEAR: u32 = 2099;

impl Date {
    /// The day after a day.
    pub fn next(self) -> Date {
        let Date { year, month, day } = self;
        if day < last_day(year, month) {
            let day = day + 1;
            Date { year, month, day }
        } else if month < 12 {
            let month = month + 1;
            Date {
                year,
                month,
                day: 1,
            }
        } else {
            Date {
                year: year + 1,
                month: 1,
                day: 1,
            }
        }
    }
}

fn last_day(year: u32, month: u32) -> u32 {
    match month {
        // Every fourth year has a leap day; of the years that end a century every fourth.
        2 if year % 100 == 0 => 28 + u32::from(year % 400 == 0),
        2 => 28 + u32::from(year % 4 == 0),
        4 | 6 | 9 | 11 => 30,
        _ => 31,
    }
}

/// All days from the first, one after the other.
pub fn days() -> impl Iterator<Item = Date> {
    std::iter::successors(Some(FIRST), |date| Some(date.next()))
}

/// The date, hour and minute of minute 0, as the caller gives them: any numbers.
#[derive(Clone, Copy, PartialEq, Eq, Debug)]
pub struct Origin {
    pub date: Date,
    pub hour: u32,
    pub minute: u32,
}

impl Origin {
    /// From year, month, day, hour and minute.
    pub fn of([year, month, day, hour, minute]: [u32; 5]) -> Origin {
        let date = Date { year, month, day };
        Origin { date, hour, minute }
    }

    /// Is it a date between 1970 and 2099, with an hour and a minute of the day?
    pub fn is_one(&self) -> bool {
        let mut to_last = days().take_while(|date| date.year <= LAST_YEAR);
        self.hour < 24 && self.minute < 60 && to_last.any(|date| date == self.date)
    }

    /// The UTC form of so many minutes after it. The years bind the origin only.
    pub fn stamp(&self, minutes: u32) -> String {
        let mut date = self.date;
        let mut left = 60 * self.hour + self.minute + minutes;
        while left >= MINUTES_OF_DAY {
            date = date.next();
            left -= MINUTES_OF_DAY;
        }
        let Date { year, month, day } = date;
        let (hour, minute) = (left / 60, left % 60);
        format!("{year:04}{month:02}{day:02}T{hour:02}{minute:02}00Z")
    }
}

/// The text of a finished board, or 20, 31 or 51.
pub fn calendar(plan: &Plan, board: &Board, origin: &Origin) -> Result<String, u32> {
    if !board::sound(plan, board) {
        return Err(20);
    }
    if !board::all_done(plan, board) {
        return Err(31);
    }
    if !origin.is_one() {
        return Err(51);
    }
    Ok(text(plan, board, |minute| origin.stamp(minute)))
}

/// The text of a finished board, each minute shown as `stamp` shows it.
pub fn text(plan: &Plan, board: &Board, stamp: impl Fn(u32) -> String) -> String {
    let mut lines = vec![
        "BEGIN:VCALENDAR".to_string(),
        "VERSION:2.0".to_string(),
        "PRODID:-//Ponds//Sheets//EN".to_string(),
    ];
    for (point, pond) in plan.ponds.iter().enumerate() {
        let start = stamp(board.minutes[point]);
        lines.push("BEGIN:VEVENT".to_string());
        lines.push(format!("UID:{point}-{start}"));
        lines.push(format!("DTSTAMP:{start}"));
        lines.push(format!("DTSTART:{start}"));
        lines.push(format!("SUMMARY:Point {point} {pond}"));
        lines.push("END:VEVENT".to_string());
    }
    lines.push("END:VCALENDAR".to_string());
    lines.into_iter().map(|line| line + "\r\n").collect()
}
