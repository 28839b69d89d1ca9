//! Plays a plan as demand 3 lets the two sides play: the foreman takes any offered point at any minute from its Low to the
//! latest, and haulage ends each running link anywhere in its bounds. The player knows the plan, what it has played
//! itself, and the replies that it is given; it knows nothing of boards.

use crate::draw::Draw;
use crate::events::{record, Record};
use crate::links::{self, STARTS};
use crate::printed::{Board, Holder, Place, Reply};
use oracle::plan::{Link, Plan};

/// How the foreman chooses minutes, and how haulage chooses its ends, in one game.
#[derive(Clone, Copy)]
enum Habit {
    Soonest,
    Latest,
    Any,
}

const HABITS: [Habit; 4] = [Habit::Soonest, Habit::Latest, Habit::Any, Habit::Any];

pub struct Player<'a> {
    plan: &'a Plan,
    foreman: Habit,
    haulage: Habit,
    clock: i64,
    /// The minute of each point that has been played, and its event.
    minutes: Vec<Option<i64>>,
    played_in: Vec<usize>,
    pub events: Vec<Record>,
    /// What has come up in this game.
    pub met: Vec<&'static str>,
}

impl Player<'_> {
    pub fn new<'a>(draw: &mut Draw, plan: &'a Plan) -> Player<'a> {
        Player {
            plan,
            foreman: draw.pick(&HABITS),
            haulage: draw.pick(&HABITS),
            clock: 0,
            minutes: vec![None; plan.points()],
            played_in: vec![usize::MAX; plan.points()],
            events: Vec::new(),
            met: Vec::new(),
        }
    }

    /// The links that run, each with its A's minute.
    fn running(&self) -> Vec<(Link, i64)> {
        let ours = |link: &Link| Some((*link, self.minutes[link.a]?));
        let links = self.plan.links.iter();
        let links = links.filter(|link| self.minutes[link.c].is_none());
        links.filter_map(ours).collect()
    }

    /// A minute between two, both included, by a habit.
    fn minute(draw: &mut Draw, habit: Habit, first: i64, last: i64) -> i64 {
        match habit {
            _ if draw.one_in(8) => draw.edgy(first, last),
            Habit::Soonest => first,
            Habit::Latest => last,
            Habit::Any if draw.one_in(3) => draw.edgy(first, last.min(first + 10)),
            Habit::Any => draw.edgy(first, last),
        }
    }

    /// The foreman's choice among what is offered: a point and a minute.
    fn choice(&mut self, draw: &mut Draw, reply: &Reply) -> Option<(usize, i64)> {
        let Reply::Offers { latest, places } = reply else {
            return None;
        };
        if places.contains(&Place::Held) {
            self.met.push("an open point is held");
        }
        let low = |(point, place): (usize, &Place)| match *place {
            Place::Offered(low) => Some((point, low)),
            _ => None,
        };
        let offered: Vec<_> = places.iter().enumerate().filter_map(low).collect();
        if offered.is_empty() {
            return None;
        }
        let (point, low) = draw.pick(&offered);
        Some((point, Self::minute(draw, self.foreman, low, *latest)))
    }

    /// Notes what the list says of shut points.
    fn look(&mut self, reply: &Reply) {
        let waiting = matches!(reply, Reply::Waiting { .. });
        if waiting {
            self.met.push("nothing is open, a link runs");
        }
        for place in reply.places().unwrap_or_default() {
            let Place::Shut(Holder { listed, .. }) = place else {
                continue;
            };
            self.met.push(match listed.split(' ').next() {
                Some("wait") => "a wait keeps a point shut",
                _ => "an ordinary record keeps a point shut",
            });
            if waiting {
                self.met.push("nothing is open, and it is told why");
            }
        }
    }

    /// The next event, none where neither side has a move.
    pub fn next(&mut self, draw: &mut Draw, reply: &Reply) -> Option<Record> {
        self.look(reply);
        let chosen = self.choice(draw, reply);
        let running = self.running();
        let must_end = running.iter().map(|(link, a)| a + link.y).min();
        let could = |(link, a): &(Link, i64)| self.clock.max(a + link.x);
        let mut firsts: Vec<i64> = running.iter().map(could).collect();
        firsts.retain(|&first| Some(first) <= must_end);
        let arrival = must_end.filter(|_| !firsts.is_empty()).map(|last| {
            let first = draw.pick(&firsts);
            Self::minute(draw, self.haulage, first, last)
        });
        let (minute, point) = match (chosen, arrival) {
            (None, None) => return None,
            (Some((point, minute)), None) => (minute, Some(point)),
            (None, Some(arrival)) => (arrival, None),
            // Whatever comes first; at the same minute the foreman may still be behind.
            (Some((point, minute)), Some(arrival)) => {
                if minute < arrival || minute == arrival && !draw.one_in(3) {
                    (minute, Some(point))
                } else {
                    (arrival, None)
                }
            }
        };
        let mut set = Vec::new();
        for (link, a) in &running {
            let could = a + link.x <= minute && minute <= a + link.y;
            // Without the foreman's point one must end.
            if could && (draw.one_in(2) || point.is_none() && set.is_empty()) {
                set.push(link.c);
            }
        }
        self.play(minute, point, &set, reply);
        self.events.last().copied()
    }

    fn play(&mut self, minute: i64, point: Option<usize>, set: &[usize], reply: &Reply) {
        if let (Some(point), Reply::Offers { latest, places }) = (point, reply) {
            let low = places[point] == Place::Offered(minute);
            self.met.push(match (low, minute == *latest) {
                (true, _) => "the foreman takes a Low",
                (_, true) => "the foreman takes the latest",
                _ => "the foreman takes a minute between",
            });
        }
        if minute == self.clock && !self.events.is_empty() {
            self.met.push("an event at the clock's minute");
        }
        match (point, set.len()) {
            (Some(_), 1..) => self.met.push("links end with the foreman's point"),
            (None, 1) => self.met.push("one link ends"),
            (_, 2..) => self.met.push("links end together"),
            _ => {}
        }
        for link in self.plan.links.iter().filter(|link| set.contains(&link.c)) {
            let p = self.minutes[link.a].map(|a| minute - a);
            self.met.push(match p {
                _ if p == Some(link.x) => "the shortest duration",
                _ if p == Some(link.y) => "the longest duration",
                _ => "a duration between",
            });
            if links::hangs(self.plan, link) {
                self.met.push("a link that hangs on another ends");
            }
            let others = self.plan.links.iter().filter(|other| other.a == link.c);
            match (others.count(), point) {
                (0, _) => {}
                (1, None) => self.met.push(STARTS),
                (1, _) => self.met.push("so with the foreman's point"),
                _ => self.met.push("an end starts two links"),
            }
        }
        let bits = set.iter().map(|&c| 1u32 << c).sum();
        let foreman = point.map_or(255, |point| point as u8);
        self.events.push(record(minute as u32, foreman, bits));
        self.clock = minute;
        for &done in set.iter().chain(&point) {
            self.minutes[done] = Some(minute);
            self.played_in[done] = self.events.len() - 1;
        }
    }

    /// Is the board after the first so many events as it was played?
    pub fn fits(&self, events: usize, board: &Board) -> bool {
        let done = |point: &usize| self.played_in[*point] < events;
        let all: Vec<usize> = (0..self.plan.points()).collect();
        let minutes = all
            .iter()
            .filter(|point| done(point))
            .map(|&point| self.minutes[point]);
        let clock = minutes.clone().flatten().max().unwrap_or(0);
        let places_fit = match board.reply.places() {
            Some(places) => {
                let fits = |(point, place)| self.place_fits(events, point, place);
                places.len() == all.len() && places.iter().enumerate().all(fits)
            }
            None => true,
        };
        board.clock == clock && board.count == minutes.count() && places_fit
    }

    /// Does the list say of a point what was played in the first so many events?
    fn place_fits(&self, events: usize, point: usize, place: &Place) -> bool {
        let done = self.played_in[point] < events;
        let watched = self.plan.links.iter().any(|link| link.c == point);
        match place {
            Place::Done(minute) => done && self.minutes[point] == Some(*minute),
            Place::Watched => !done && watched,
            Place::Shut(holder) => {
                !done && !watched && self.holder(events, point).as_ref() == Some(holder)
            }
            Place::Held | Place::Offered(_) => {
                !done && !watched && self.holder(events, point).is_none()
            }
        }
    }

    /// The first record of the file that asks for something before this point that had not been played by then.
    fn holder(&self, events: usize, point: usize) -> Option<Holder> {
        let missing = |other: usize| self.played_in[other] >= events;
        let mut number = self.plan.points() + self.plan.links.len();
        for record in &self.plan.ordinary {
            if record.x == point && record.d < 0 && missing(record.y) {
                let listed = format!("ordinary {point} {} {}", record.d, record.y);
                return Some(Holder { number, listed });
            }
            number += 1;
        }
        for wait in &self.plan.waits {
            let link = self.plan.links.iter().find(|link| link.c == wait.c);
            if wait.v == point && link.is_some_and(|link| missing(link.a)) {
                let listed = format!("wait {point} {} {}", wait.c, wait.w);
                return Some(Holder { number, listed });
            }
            number += 1;
        }
        None
    }

    /// The minutes of all points, once all have been played.
    pub fn minutes(&self) -> Option<Vec<i64>> {
        self.minutes.iter().copied().collect()
    }

    /// The first constraint that what was played breaks: a duration, an ordinary record or a wait.
    pub fn broken(&self) -> Option<String> {
        let at = |point: usize| self.minutes[point];
        for link in &self.plan.links {
            let p = at(link.c).zip(at(link.a)).map(|(c, a)| c - a);
            if !p.is_some_and(|p| link.x <= p && p <= link.y) {
                return Some(format!("{link:?}"));
            }
        }
        for record in &self.plan.ordinary {
            let step = at(record.y).zip(at(record.x)).map(|(y, x)| y - x);
            if step.is_none_or(|step| step > record.d) {
                return Some(format!("{record:?}"));
            }
        }
        for wait in &self.plan.waits {
            let link = self.plan.links.iter().find(|link| link.c == wait.c);
            let a = link.and_then(|link| at(link.a));
            let (Some(v), Some(c), Some(a)) = (at(wait.v), at(wait.c), a) else {
                return Some(format!("{wait:?}"));
            };
            // C had happened by then, or w minutes had gone by.
            if v < c && v < a + wait.w {
                return Some(format!("{wait:?}"));
            }
        }
        None
    }
}
