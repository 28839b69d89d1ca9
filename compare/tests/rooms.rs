//! The comparison of rooms of any content: the equation agrees with itself, everything comes up, and on rooms that were begun it
//! is the rules' own answer; each of some wrong equations is found.

use compare::draw::Draw;
use compare::events::{self, STYLES};
use compare::plans::{self, Sizes};
use compare::rooms::{self, answers, Case, Count};
use oracle::board::{self, Board, Outcome, Place};
use oracle::event;
use oracle::plan::{Plan, RECORD, ROOM as RECORDS};
use oracle::rooms::*;
use std::sync::OnceLock;

/// Some batches, what the programs read of each, and what is answered.
struct Batch {
    cases: Vec<Case>,
    input: Vec<u8>,
    right: Vec<u8>,
}

/// In so many batches every wrong equation has to be found.
const BATCHES: u64 = 100;

fn batches() -> &'static [Batch] {
    static ALL: OnceLock<Vec<Batch>> = OnceLock::new();
    ALL.get_or_init(|| {
        let batch = |number: u64| {
            let cases = rooms::batch(1, number);
            let input = rooms::input(&cases);
            let right = answers(&AsStated, &input);
            Batch {
                cases,
                input,
                right,
            }
        };
        (0..BATCHES).map(batch).collect()
    })
}

#[test]
fn all_comes_up() {
    for seed in 1..3 {
        let count = Count::default();
        for number in 0..60 {
            for case in rooms::batch(seed, number) {
                count.case(&case);
            }
        }
        assert_eq!(count.missing(), Vec::<&str>::new(), "seed {seed}");
    }
}

/// What is stored of our program is what is said here, and answered by the equation.
#[test]
fn the_stored_cases_are_these() {
    let stored = |name: &str| {
        let folder = concat!(env!("CARGO_MANIFEST_DIR"), "/../crates/rooms_probe/");
        std::fs::read(format!("{folder}{name}")).unwrap()
    };
    let cases = rooms::stored();
    let input = rooms::input(&cases);
    assert!(stored("stdin") == input);
    let right = answers(&AsStated, &input);
    assert_eq!(rooms::difference(&cases, &stored("stdout"), &right), None);
    let count = Count::default();
    cases.iter().for_each(|case| count.case(case));
    for key in ["taken", "begun", "a walk of `into` stopped by its fuel"] {
        assert!(count.of(key) > 0, "{key}");
    }
}

/// What is counted answers as the equation does, and as many bytes as are said.
#[test]
fn counting_changes_nothing() {
    for batch in &batches()[..20] {
        let count = Count::default();
        assert!(answers(&count, &batch.input) == batch.right);
        let answered: usize = batch.cases.iter().map(Case::answered).sum();
        assert_eq!(answered, batch.right.len());
    }
}

/// The reply of the rules as the numbers of a room.
fn reply_room(plan: &Plan, at: &Board) -> Vec<u32> {
    let reply = board::reply(plan, at).unwrap();
    let outcome = match reply.outcome {
        Outcome::Finished => 0,
        Outcome::Stuck => 1,
        Outcome::Waiting => 2,
        Outcome::Offers => 3,
    };
    let mut room = vec![outcome, reply.latest as u32];
    for place in reply.places {
        room.extend(match place {
            Place::Done(minute) => [0, minute as u32],
            Place::Watched => [1, 0],
            Place::Shut(record) => [2, record.unwrap_or(0)],
            Place::Held => [3, 0],
            Place::Offered(low) => [4, low as u32],
        });
    }
    room
}

fn board_room(at: &Board) -> Vec<u32> {
    let mut room = vec![at.clock, at.done];
    room.extend(at.minutes);
    room.extend(at.numbers);
    room
}

/// On rooms that were begun, through streams with refused events between, the equation is what the rules say of the board.
#[test]
fn begun_rooms_follow_the_rules() {
    let (mut taken, mut refused) = (0, 0);
    for number in 0..300 {
        let mut draw = Draw::new(7, number);
        let plan = match number % 6 {
            0 => plans::haul(&mut draw),
            1 => plans::any_trucks(&mut draw),
            2 => plans::barred(&mut draw),
            3 => plans::stuck(&mut draw),
            4 => plans::any_ringed(&mut draw),
            _ => {
                let sizes = Sizes::small(&mut draw);
                plans::roomy(&mut draw, sizes)
            }
        };
        let mut rooms = Rooms::from_bytes(&[7; BYTES]);
        assert_eq!(AsStated.begin(&mut rooms, &plan.to_bytes()), (0, 0));
        let mut at = Board::fresh();
        let stream = events::stream(&mut draw, &plan, STYLES[number as usize % STYLES.len()]);
        for bytes in stream.chunks(RECORD) {
            assert_eq!(AsStated.reply(&rooms), reply_room(&plan, &at));
            let (found, next) = event::take(&plan, &at, bytes);
            assert_eq!(AsStated.take(&mut rooms, bytes), found);
            at = next;
            assert_eq!(AsStated.board(&rooms), board_room(&at));
            match found.0 {
                0 => taken += 1,
                _ => refused += 1,
            }
        }
    }
    assert!(taken > 300 && refused > 300, "{taken} {refused}");
}

/// Is a wrong equation found?
fn found(what: &str, wrong: &dyn Equation) -> bool {
    for (number, batch) in batches().iter().enumerate() {
        let said = answers(wrong, &batch.input);
        if let Some((k, place)) = rooms::difference(&batch.cases, &said, &batch.right) {
            println!("{what}: batch {number}, {}: {place}", batch.cases[k].what);
            return true;
        }
    }
    false
}

fn all_found(all: &[(&str, &dyn Equation)]) {
    let missed = all.iter().filter(|(what, wrong)| !found(what, *wrong));
    let missed: Vec<&str> = missed.map(|&(what, _)| what).collect();
    println!("{} wrong equations", all.len());
    assert_eq!(missed, Vec::<&str>::new());
}

/// A wrong equation: a name, and one definition said otherwise.
macro_rules! wrong {
    ($($name:ident $what:literal { $($body:item)* })*) => {
        $(
            struct $name;
            impl Equation for $name { $($body)* }
        )*

        #[test]
        fn wrong_equations_are_found() {
            all_found(&[$(($what, &$name)),*]);
        }
    };
}

wrong! {
    LessFuel "a walk reads one entry less" {
        fn fuel(&self) -> usize { RECORDS - 1 }
    }
    MoreFuel "a walk reads one entry more" {
        fn fuel(&self) -> usize { RECORDS + 1 }
    }
    OnceEach "a walk stops where it has been" {
        fn entries(&self, list: &[u16], key: u64) -> Vec<usize> {
            let mut met = Vec::new();
            for entry in AsStated.entries(list, key) {
                if met.contains(&entry) {
                    break;
                }
                met.push(entry);
            }
            met
        }
    }
    NoLastRecord "the last record is in no list" {
        fn entries(&self, list: &[u16], key: u64) -> Vec<usize> {
            let all = AsStated.entries(list, key).into_iter();
            all.take_while(|&entry| entry + 1 < RECORDS).collect()
        }
    }
    KindByte "the lowest byte of a kind counts" {
        fn row(&self, rows: &[u32], number: usize) -> Row {
            let row = AsStated.row(rows, number);
            Row { kind: row.kind % 256, ..row }
        }
    }
    AnyOrdinary "every kind but a wait is ordinary" {
        fn is_ordinary(&self, row: &Row) -> bool { row.kind != 4 }
    }
    WaitOrMore "a kind past 4 is a wait" {
        fn is_wait(&self, row: &Row) -> bool { row.kind >= 4 }
    }
    HoldingCut "a second number of which 16 bits are 0 holds nothing" {
        fn holding(&self, row: &Row) -> bool {
            self.is_ordinary(row) && row.second as u16 > 0 || self.is_wait(row)
        }
    }
    HoldingZero "an ordinary record of d = 0 holds" {
        fn holding(&self, row: &Row) -> bool {
            self.is_ordinary(row) && (row.second > 0 || row.first == 0) || self.is_wait(row)
        }
    }
    HeldCut "a first point past 31 is 31" {
        fn held(&self, row: &Row) -> usize { row.from.min(31) as usize }
    }
    UntilCut "a point that it leads to past 31 is 31" {
        fn until(&self, row: &Row) -> usize { row.to.min(31) as usize }
    }
    OverCut "a second point past 31 is 31" {
        fn over(&self, row: &Row) -> usize { row.over.min(31) as usize }
    }
    ReachWraps "a minute past the largest wraps" {
        fn reach(&self, minute: u32, base: u32, up: u64, down: u64) -> u32 {
            let sum = minute.wrapping_add(base).wrapping_add(up as u32);
            sum.saturating_sub(down as u32)
        }
    }
    ReachStopsFirst "a sum stops at the largest before what is taken off" {
        fn reach(&self, minute: u32, base: u32, up: u64, down: u64) -> u32 {
            let sum = minute.saturating_add(base).saturating_add(up as u32);
            sum.saturating_sub(down as u32)
        }
    }
    ReachBelow "a minute below 0 wraps" {
        fn reach(&self, minute: u32, base: u32, up: u64, down: u64) -> u32 {
            let sum = i128::from(minute) + i128::from(base) + i128::from(up as u32);
            let sum = sum - i128::from(down as u32);
            if sum < 0 { sum as u32 } else { sum.min(i128::from(NEVER)) as u32 }
        }
    }
    LowTurned "Low with up and down turned" {
        fn low_by(&self, row: &Row, minute: u32) -> u32 {
            if self.is_ordinary(row) { self.reach(minute, 0, row.first, row.second) } else { 0 }
        }
    }
    LowOfAll "Low from every kind of record" {
        fn low_by(&self, row: &Row, minute: u32) -> u32 {
            self.reach(minute, 0, row.second, row.first)
        }
    }
    RunSecond "a wait's second number is taken off" {
        fn run_by(&self, row: &Row, minute: u32) -> u32 {
            if self.is_wait(row) { self.reach(minute, 0, row.first, row.second) } else { 0 }
        }
    }
    HighPlain "High is not 100,000 up" {
        fn high_by(&self, row: &Row, minute: u32) -> u32 {
            if self.is_ordinary(row) { self.reach(minute, 0, row.first, row.second) } else { NEVER }
        }
    }
    HighForgets "High forgets negative d" {
        fn high_by(&self, row: &Row, minute: u32) -> u32 {
            if self.is_ordinary(row) { self.reach(minute, 100_000, row.first, 0) } else { NEVER }
        }
    }
    HighOfAll "High from every kind of record" {
        fn high_by(&self, row: &Row, minute: u32) -> u32 {
            self.reach(minute, 100_000, row.first, row.second)
        }
    }
    CountWraps "a count falls below 0" {
        fn free(&self, kept: &mut [u32], row: &Row, minute: u32) {
            let none = self.holding(row) && kept[COUNTS + self.held(row)] == 0;
            AsStated.free(kept, row, minute);
            if none {
                kept[COUNTS + self.held(row)] = NEVER;
            }
        }
    }
    CountTwice "a count falls twice" {
        fn free(&self, kept: &mut [u32], row: &Row, minute: u32) {
            AsStated.free(kept, row, minute);
            if self.holding(row) && kept[COUNTS + self.held(row)] > 0 {
                kept[COUNTS + self.held(row)] -= 1;
            }
        }
    }
    CountOfAll "every row takes from a count" {
        fn free(&self, kept: &mut [u32], row: &Row, minute: u32) {
            AsStated.free(kept, row, minute);
            let held = self.held(row);
            if !self.holding(row) {
                kept[COUNTS + held] = kept[COUNTS + held].saturating_sub(1);
            }
        }
    }
    LowStored "Low is what the last record says" {
        fn free(&self, kept: &mut [u32], row: &Row, minute: u32) {
            AsStated.free(kept, row, minute);
            if self.is_ordinary(row) {
                kept[LOWS + self.held(row)] = self.low_by(row, minute);
            }
        }
    }
    BoundTo "a High at the point that the row leads to" {
        fn bound(&self, kept: &mut [u32], row: &Row, minute: u32) {
            let at = HIGHS + self.until(row);
            kept[at] = kept[at].min(self.high_by(row, minute));
        }
    }
    RunsOn "a wait goes on running after its C" {
        fn running(&self, kept: &[u32], row: &Row) -> u32 {
            let until = self.until(row);
            if self.is_wait(row) && member(kept[DONE], until) {
                self.reach(kept[MINUTES + until], 0, row.first, 0)
            } else {
                0
            }
        }
    }
    RunsBefore "a wait runs before its A" {
        fn running(&self, kept: &[u32], row: &Row) -> u32 {
            let (until, over) = (self.until(row), self.over(row));
            if self.is_wait(row) && !member(kept[DONE], over) {
                self.reach(kept[MINUTES + until], 0, row.first, 0)
            } else {
                0
            }
        }
    }
    RemadeHigher "running waits only rise" {
        fn remake(&self, rooms: &mut Rooms, number: usize) {
            let at = RUNS + self.held(&self.row(&rooms.rows, number));
            let old = rooms.kept[at];
            AsStated.remake(rooms, number);
            rooms.kept[at] = rooms.kept[at].max(old);
        }
    }
    RemadeWaits "only waits make running waits anew" {
        fn remake(&self, rooms: &mut Rooms, number: usize) {
            if self.is_wait(&self.row(&rooms.rows, number)) {
                AsStated.remake(rooms, number);
            }
        }
    }
    RemadeBefore "running waits are made anew before the point is done" {
        fn mark(&self, rooms: &mut Rooms, minute: u32, number: u32, point: usize) {
            for entry in self.entries(&rooms.ends, point as u64) {
                self.remake(rooms, entry);
            }
            let ends = std::mem::replace(&mut rooms.ends, vec![RECORDS as u16; LIST]);
            AsStated.mark(rooms, minute, number, point);
            rooms.ends = ends;
        }
    }
    ListsTurned "the two lists turned" {
        fn mark(&self, rooms: &mut Rooms, minute: u32, number: u32, point: usize) {
            std::mem::swap(&mut rooms.into, &mut rooms.out);
            AsStated.mark(rooms, minute, number, point);
            std::mem::swap(&mut rooms.into, &mut rooms.out);
        }
    }
    CallsFromBoard "the event's number from the largest on the board" {
        fn next_call(&self, kept: &[u32]) -> u32 {
            let done = members(kept[DONE]);
            let last = done.iter().map(|&point| kept[CALLS + point]).max();
            last.unwrap_or(0).saturating_add(1)
        }
    }
    CallsWrap "the event's number wraps" {
        fn next_call(&self, kept: &[u32]) -> u32 { kept[LAST].wrapping_add(1) }
    }
    ForemanFirst "the foreman's point first" {
        fn event_points(&self, event: &[u8]) -> Vec<usize> {
            let mut points = AsStated.event_points(event);
            if event_point(event) < POINTS {
                points.rotate_right(1);
            }
            points
        }
    }
    SetFalling "the set's points falling" {
        fn event_points(&self, event: &[u8]) -> Vec<usize> {
            let mut points = members(event_set(event));
            points.reverse();
            points.extend(Some(event_point(event)).filter(|&point| point < POINTS));
            points
        }
    }
    NoClock "the clock stays" {
        fn event_done(&self, rooms: &mut Rooms, event: &[u8]) {
            let clock = rooms.clock();
            AsStated.event_done(rooms, event);
            rooms.kept[CLOCK] = clock;
        }
    }
    NoLast "the last event's number stays" {
        fn event_done(&self, rooms: &mut Rooms, event: &[u8]) {
            let last = rooms.kept[LAST];
            AsStated.event_done(rooms, event);
            rooms.kept[LAST] = last;
        }
    }
    AllPoints "every point is the plan's" {
        fn foremans(&self, rooms: &Rooms, point: usize) -> bool {
            point < POINTS && !member(rooms.watched(), point) && !member(rooms.done(), point)
        }
    }
    PointsByte "the lowest byte of how many points there are" {
        fn foremans(&self, rooms: &Rooms, point: usize) -> bool {
            let points = rooms.points() as u8;
            point < usize::from(points)
                && !member(rooms.watched(), point)
                && !member(rooms.done(), point)
        }
    }
    DoneOpen "a done point may be open" {
        fn is_open(&self, rooms: &Rooms, point: usize) -> bool {
            (point as u64) < u64::from(rooms.points())
                && !member(rooms.watched(), point)
                && rooms.kept[COUNTS + point] == 0
        }
    }
    WatchedOpen "a watched point may be open" {
        fn is_open(&self, rooms: &Rooms, point: usize) -> bool {
            (point as u64) < u64::from(rooms.points())
                && !member(rooms.done(), point)
                && rooms.kept[COUNTS + point] == 0
        }
    }
    LowNoClock "Low without the clock" {
        fn low(&self, kept: &[u32], point: usize) -> u32 {
            kept[LOWS + point].max(kept[RUNS + point])
        }
    }
    LowNoRuns "Low without running waits" {
        fn low(&self, kept: &[u32], point: usize) -> u32 {
            kept[CLOCK].max(kept[LOWS + point])
        }
    }
    HighOfEvery "H of all points" {
        fn windows(&self, rooms: &Rooms) -> Windows {
            let windows = AsStated.windows(rooms);
            let high = rooms.kept[HIGHS..MINUTES].iter().min();
            Windows { high: *high.unwrap_or(&NEVER), ..windows }
        }
    }
    HolderAsked "a record that holds a point, whatever the count" {
        fn holder(&self, rooms: &Rooms, point: usize) -> u32 {
            let all = self.entries(&rooms.out, point as u64);
            let shuts = |&&entry: &&usize| self.shuts(&self.row(&rooms.rows, entry), rooms.done());
            all.iter().find(shuts).map_or(0, |&entry| entry as u32)
        }
    }
    HolderLast "the last record that holds a point" {
        fn holder(&self, rooms: &Rooms, point: usize) -> u32 {
            if rooms.kept[COUNTS + point] == 0 {
                return 0;
            }
            let all = self.entries(&rooms.out, point as u64);
            let shuts = |&&entry: &&usize| self.shuts(&self.row(&rooms.rows, entry), rooms.done());
            all.iter().rev().find(shuts).map_or(0, |&entry| entry as u32)
        }
    }
    HolderInto "a holder from the other list" {
        fn holder(&self, rooms: &Rooms, point: usize) -> u32 {
            let mut rooms = rooms.clone();
            rooms.out.clone_from(&rooms.into);
            AsStated.holder(&rooms, point)
        }
    }
    ShutsStill "a record holds after the point that it leads to" {
        fn shuts(&self, row: &Row, _: u32) -> bool { self.holding(row) }
    }
    LinkModulo "a link's start past 31 is taken modulo 32" {
        fn end(&self, links: &[u32], point: usize) -> End {
            let end = AsStated.end(links, point);
            End { from: end.from % 32, ..end }
        }
    }
    LinkUncut "a link's start past a byte is none" {
        fn end(&self, links: &[u32], point: usize) -> End {
            let end = AsStated.end(links, point);
            End { from: links[2 + 3 * point], ..end }
        }
    }
    RunsEnded "a link runs on after its end" {
        fn runs_to(&self, rooms: &Rooms, point: usize) -> bool {
            member(rooms.done(), self.end(&rooms.links, point).from as usize)
        }
    }
    Unwatched "a point that is not watched ends a link" {
        fn ends_running(&self, rooms: &Rooms, point: usize) -> bool { self.runs_to(rooms, point) }
    }
    TimelyWraps "26 in 32 bits" {
        fn timely(&self, rooms: &Rooms, minute: u32, point: usize) -> bool {
            let end = self.end(&rooms.links, point);
            let start = self.start_of(rooms, point) as u32;
            start.wrapping_add(end.shortest) <= minute && minute <= start.wrapping_add(end.longest)
        }
    }
    LateWraps "27 in 32 bits" {
        fn not_late(&self, rooms: &Rooms, minute: u32, set: u32, point: usize) -> bool {
            let longest = self.end(&rooms.links, point).longest;
            let start = self.start_of(rooms, point) as u32;
            !self.runs_to(rooms, point)
                || member(set, point)
                || minute <= start.wrapping_add(longest)
        }
    }
    LateOfAll "27 for points that are not watched" {
        fn number(&self, rooms: &Rooms, windows: &Windows, event: &[u8]) -> u32 {
            let number = AsStated.number(rooms, windows, event);
            let (minute, set) = (event_minute(event), event_set(event));
            let late = (0..POINTS).any(|point| !self.not_late(rooms, minute, set, point));
            if (28..31).contains(&number) && late { 27 } else { number }
        }
    }
    FinishedMore "finished where more than the plan's points are done" {
        fn finished(&self, rooms: &Rooms) -> bool {
            rooms.done() & below(rooms.points()) == below(rooms.points())
        }
    }
    FinishedShift "of more than 31 points a shift wraps" {
        fn finished(&self, rooms: &Rooms) -> bool {
            rooms.done() == 1u32.wrapping_shl(rooms.points()).wrapping_sub(1)
        }
    }
    StuckWraps "stuck in 32 bits" {
        fn stuck(&self, rooms: &Rooms, windows: &Windows) -> bool {
            if windows.opens.is_empty() {
                return AsStated.stuck(rooms, windows);
            }
            let mut opens = windows.opens.iter();
            opens.all(|&point| windows.high < windows.lows[point].wrapping_add(100_000))
        }
    }
    StuckOne "stuck where one open Low is above H" {
        fn stuck(&self, rooms: &Rooms, windows: &Windows) -> bool {
            if windows.opens.is_empty() {
                return AsStated.stuck(rooms, windows);
            }
            let up = |point: usize| u64::from(windows.lows[point]) + 100_000;
            windows.opens.iter().any(|&point| u64::from(windows.high) < up(point))
        }
    }
    StuckLatest "stuck by the latest" {
        fn stuck(&self, rooms: &Rooms, windows: &Windows) -> bool {
            if windows.opens.is_empty() {
                return AsStated.stuck(rooms, windows);
            }
            let latest = self.latest(rooms, windows);
            windows.opens.iter().all(|&point| latest < windows.lows[point])
        }
    }
    LatestWraps "the latest in 32 bits" {
        fn latest(&self, rooms: &Rooms, windows: &Windows) -> u32 {
            let furthest = rooms.clock().wrapping_add(200_000);
            windows.high.min(furthest).saturating_sub(100_000)
        }
    }
    FormedPoints "no event names a point past 31" {
        fn well_formed(&self, points: u32, event: &[u8]) -> bool {
            AsStated.well_formed(points.min(32), event)
        }
    }
    FormedLonger "more than sixteen bytes are an event" {
        fn well_formed(&self, points: u32, event: &[u8]) -> bool {
            AsStated.well_formed(points, &event[..event.len().min(16)])
        }
    }
    FormedReserved "the last four bytes are not looked at" {
        fn well_formed(&self, points: u32, event: &[u8]) -> bool {
            let mut event = event.to_vec();
            if event.len() == 16 {
                event[12..].fill(0);
            }
            AsStated.well_formed(points, &event)
        }
    }
    FormedNone "an event of no point" {
        fn well_formed(&self, points: u32, event: &[u8]) -> bool {
            let mut event = event.to_vec();
            if event.len() == 16 && event_point(&event) == NO_POINT && event_set(&event) == 0 {
                event[4] = 0;
            }
            AsStated.well_formed(points, &event)
        }
    }
    OrderTurned "22 before 21" {
        fn number(&self, rooms: &Rooms, windows: &Windows, event: &[u8]) -> u32 {
            if self.stuck(rooms, windows) {
                return 22;
            }
            AsStated.number(rooms, windows, event)
        }
    }
    ThirtyAlways "30 also where nothing is open" {
        fn point_number(&self, rooms: &Rooms, windows: &Windows, minute: u32, q: usize) -> u32 {
            let number = AsStated.point_number(rooms, windows, minute, q);
            let late = self.latest(rooms, windows) < minute;
            if number == 0 && late { 30 } else { number }
        }
    }
    ThirtyFirst "30 before 29" {
        fn point_number(&self, rooms: &Rooms, windows: &Windows, minute: u32, q: usize) -> u32 {
            let number = AsStated.point_number(rooms, windows, minute, q);
            let late = self.latest(rooms, windows) < minute;
            if number == 29 && late { 30 } else { number }
        }
    }
    LowNotYet "29 at its Low" {
        fn point_number(&self, rooms: &Rooms, windows: &Windows, minute: u32, q: usize) -> u32 {
            let number = AsStated.point_number(rooms, windows, minute, q);
            if number == 0 && q < POINTS && windows.lows[q] == minute { 29 } else { number }
        }
    }
    PointModulo "a point past 31 is taken modulo 32" {
        fn point_number(&self, rooms: &Rooms, windows: &Windows, minute: u32, q: usize) -> u32 {
            let q = if q == NO_POINT { q } else { q % 32 };
            AsStated.point_number(rooms, windows, minute, q)
        }
    }
    BesideAll "a record beside every 28" {
        fn beside(&self, rooms: &Rooms, number: u32, point: usize) -> u32 {
            if number == 28 && point < POINTS { self.holder(rooms, point) } else { 0 }
        }
    }
    BesideNone "28 without its record" {
        fn beside(&self, _: &Rooms, _: u32, _: usize) -> u32 { 0 }
    }
    RefusedMoves "a refused event moves the clock" {
        fn take(&self, rooms: &mut Rooms, event: &[u8]) -> (u32, u32) {
            let found = AsStated.take(rooms, event);
            if found.0 > 24 {
                rooms.kept[CLOCK] = rooms.clock().max(event_minute(event));
            }
            found
        }
    }
    RefusedCounts "a refused event is numbered" {
        fn take(&self, rooms: &mut Rooms, event: &[u8]) -> (u32, u32) {
            let found = AsStated.take(rooms, event);
            if found.0 != 0 {
                rooms.kept[LAST] = self.next_call(&rooms.kept);
            }
            found
        }
    }
    PlaceWatched "watched before done" {
        fn place(&self, rooms: &Rooms, windows: &Windows, latest: Option<u32>, q: usize) -> [u32; 2] {
            if member(rooms.watched(), q) {
                return [1, 0];
            }
            AsStated.place(rooms, windows, latest, q)
        }
    }
    PlaceStuck "a stuck board's open points offered" {
        fn place(&self, rooms: &Rooms, windows: &Windows, latest: Option<u32>, q: usize) -> [u32; 2] {
            let latest = latest.or(Some(self.latest(rooms, windows)));
            AsStated.place(rooms, windows, latest, q)
        }
    }
    PlaceLatest "no point is offered at the latest alone" {
        fn place(&self, rooms: &Rooms, windows: &Windows, latest: Option<u32>, q: usize) -> [u32; 2] {
            let place = AsStated.place(rooms, windows, latest, q);
            if place[0] == 4 && latest == Some(place[1]) { [3, 0] } else { place }
        }
    }
    FinishedList "a finished board's list" {
        fn reply(&self, rooms: &Rooms) -> Vec<u32> {
            let mut reply = AsStated.reply(rooms);
            if reply[0] == 0 {
                for place in reply[2..].chunks_mut(2) {
                    place[0] = 0;
                }
            }
            reply
        }
    }
    BoardTurned "minutes for numbers" {
        fn board(&self, rooms: &Rooms) -> Vec<u32> {
            let mut board = AsStated.board(rooms);
            board[2..].rotate_left(POINTS);
            board
        }
    }
    BegunCleared "a refused file clears the room" {
        fn begin(&self, rooms: &mut Rooms, file: &[u8]) -> (u32, u32) {
            let found = AsStated.begin(rooms, file);
            if found.0 != 0 {
                rooms.kept.fill(0);
            }
            found
        }
    }
    BegunOnly "behind the rows stays what was there" {
        fn begin(&self, rooms: &mut Rooms, file: &[u8]) -> (u32, u32) {
            let old = rooms.rows.clone();
            let found = AsStated.begin(rooms, file);
            let used = WIDTH * (file.len() / RECORD).min(RECORDS);
            if found.0 == 0 {
                rooms.rows[used..].copy_from_slice(&old[used..]);
            }
            found
        }
    }
    BegunWaits "waits are not counted" {
        fn filled(&self, plan: &Plan) -> Rooms {
            let mut rooms = AsStated.filled(plan);
            for wait in &plan.waits {
                rooms.kept[COUNTS + wait.v] -= 1;
            }
            rooms
        }
    }
    BegunLists "lists of each other order" {
        fn filled(&self, plan: &Plan) -> Rooms {
            let mut rooms = AsStated.filled(plan);
            std::mem::swap(&mut rooms.into, &mut rooms.out);
            rooms
        }
    }
    BegunLongest "a link's longest for its shortest" {
        fn filled(&self, plan: &Plan) -> Rooms {
            let mut rooms = AsStated.filled(plan);
            for end in rooms.links[2..].chunks_mut(3) {
                end.swap(1, 2);
            }
            rooms
        }
    }
}
