//! Draws what `desk` is asked: a verb with its words, and a standard input. Plans here, texts in `texts.rs`, listings in
//! `listings.rs`.

use crate::calendars;
use crate::damage;
use crate::draw::Draw;
use crate::events::MARK;
use crate::explains;
use crate::inputs;
use crate::lighters;
use crate::links;
use crate::listings;
use crate::lists;
use crate::plans::{self, Sizes, FULL};
use crate::texts;
use crate::wraps::{self, WRAPS};
use oracle::board::{self, Board, Outcome, Place};
use oracle::close;
use oracle::event;
use oracle::plan::{self, Link, Ordinary, Plan, Wait, BOUND, RECORD, ROOM};
use oracle::plan_test::{self, Answer};
use oracle::worst;

/// The verbs that can be compared.
pub const VERBS: [&str; 10] = [
    "test", "worst", "day", "import", "close", "calendar", "lighter", "pack", "list", "explain",
];

/// Numbers that reading a plan file gives.
pub const READING: [u32; 12] = [1, 2, 3, 4, 5, 6, 7, 8, 9, 10, 11, 15];

pub struct Ask {
    /// How it was made.
    pub what: String,
    /// The verb and its words.
    pub words: Vec<String>,
    pub input: Vec<u8>,
    /// What comes up with it, besides what is said.
    pub cases: Vec<String>,
}

pub fn ask(verb: &str, what: &str, input: Vec<u8>, cases: Vec<String>) -> Ask {
    Ask {
        what: what.to_string(),
        words: vec![verb.to_string()],
        input,
        cases,
    }
}

/// How many kinds of batches a verb has.
fn kinds(verb: &str) -> usize {
    match verb {
        "import" => 1 + texts::KINDS,
        "close" => CLOSE,
        "calendar" => 1 + calendars::KINDS,
        "lighter" => 1 + lighters::KINDS,
        "pack" => 1 + listings::KINDS,
        "list" => 1 + lists::KINDS,
        "explain" => 1 + explains::KINDS,
        _ => PLANS,
    }
}

/// Batches after which each kind of each verb has come.
pub fn tour(verbs: &[&str]) -> u64 {
    verbs.iter().map(|verb| kinds(verb) as u64).sum()
}

/// The batch of this number: each tour has each kind of each verb.
pub fn batch(draw: &mut Draw, number: u64, verbs: &[&str]) -> Vec<Ask> {
    let mut place = (number % tour(verbs)) as usize;
    // All verbs by turns, as long as they have more kinds.
    for kind in 0.. {
        for verb in verbs.iter().filter(|verb| kind < kinds(verb)) {
            if place == 0 {
                return of_kind(draw, verb, kind, number / tour(verbs));
            }
            place -= 1;
        }
    }
    unreachable!("a tour has as many batches as its verbs have kinds")
}

fn of_kind(draw: &mut Draw, verb: &str, kind: usize, tour: u64) -> Vec<Ask> {
    match (verb, kind) {
        (_, 0) => wrong_usage(draw, verb),
        ("import", kind) => texts::batch(draw, kind - 1),
        ("close", kind) => closing(draw, kind),
        ("calendar", kind) => calendars::batch(draw, kind - 1),
        ("lighter", kind) => lighters::batch(draw, kind - 1),
        ("pack", kind) => listings::batch(draw, kind - 1),
        ("list", kind) => lists::batch(draw, kind - 1),
        ("explain", kind) => explains::batch(draw, kind - 1),
        (_, kind) => about_plans(draw, verb, kind, tour),
    }
}

/// Words that are no verb, none of this verb's words, or too many.
fn wrong_usage(draw: &mut Draw, verb: &str) -> Vec<Ask> {
    let mut all: Vec<Vec<&str>> = Vec::new();
    let (capital, longer) = (verb.to_uppercase(), format!("{verb}s"));
    let (spaced, shorter) = (format!("{verb} "), &verb[1..]);
    let none = [&capital, &longer, &spaced, shorter, "", "0", "help", "--"];
    all.push(vec![draw.pick(&none)]);
    all.push(vec![draw.pick(&none), verb]);
    // What is no number of 32 bits.
    let number = [
        "-1",
        "-0",
        "+1",
        "",
        " 1",
        "1 ",
        "1x",
        "0x1",
        "1.0",
        "one",
        "4294967296",
        "4294967297",
        "18446744073709551616",
        "99999999999999999999999999",
        "00004294967296",
        "\u{0661}",
        "1\n",
        "\n1",
    ];
    if verb == "day" {
        all.push(vec![verb]);
        all.push(vec![verb, "4294967296"]);
        for _ in 0..3 {
            all.push(vec![verb, draw.pick(&number)]);
        }
        all.push(vec![verb, "0", draw.pick(&["0", "", "x"])]);
    } else if verb == "calendar" {
        all.extend(calendars::wrong_words(draw, &number));
    } else {
        all.push(vec![verb, draw.pick(&["0", "", "1", "x", "-", verb])]);
    }
    if draw.one_in(2) {
        all.push(Vec::new());
    }
    let input = inputs::small_good(draw).to_bytes();
    let asked = all.into_iter().map(|words| Ask {
        what: "wrong usage".to_string(),
        words: words.into_iter().map(str::to_string).collect(),
        input: input.clone(),
        cases: Vec::new(),
    });
    asked.collect()
}

/// A plan file that reading refuses with this number.
pub fn refused(draw: &mut Draw, number: u32) -> Vec<u8> {
    loop {
        let good = if draw.one_in(8) {
            let sizes = Sizes::any(draw);
            plans::roomy(draw, sizes)
        } else {
            inputs::small_good(draw)
        };
        let mut file = good.to_bytes();
        match number {
            1 => return Vec::new(),
            2 => {
                let length = [
                    1 + draw.below(file.len()),
                    file.len() - 1,
                    file.len() + 1 + draw.below(RECORD - 1),
                    ROOM * RECORD + 1,
                    ROOM * RECORD + RECORD + 15,
                    500_001,
                ];
                file.resize(draw.pick(&length), 0);
            }
            3 => {
                let count = draw.pick(&[ROOM + 1, ROOM + 2, 2 * ROOM, 4_096, 30_000]);
                let fill = draw.pick(&[0, 1, 255]);
                file.resize(count * RECORD, fill);
            }
            4 if draw.one_in(3) => file.extend([255; RECORD]),
            6 => file = one_too_many(draw),
            10 if draw.one_in(2) => damage::second_end(draw, &mut file),
            _ => {
                for _ in 0..1 + draw.below(2) {
                    damage::aim(draw, &mut file);
                }
                if draw.one_in(4) {
                    damage::move_records(draw, &mut file);
                }
            }
        }
        if plan::read(&file).is_err_and(|refusal| refusal.0 == number) {
            return file;
        }
    }
}

/// A plan with one point, link or wait too many: ordinary ones are twins first.
fn one_too_many(draw: &mut Draw) -> Vec<u8> {
    let mut plan = Plan {
        ponds: vec![0; 18 + draw.below(15)],
        ..Plan::default()
    };
    let way = draw.below(3);
    match way {
        0 => plan.ponds.resize(33, 0),
        1 => {
            for c in 9..18 {
                let (a, x, y) = (draw.below(9), 1, 2);
                plan.links.push(Link { a, x, y, c });
            }
        }
        _ => {
            let (a, x, y, c) = (0, 1, 2, 1);
            plan.links.push(Link { a, x, y, c });
            plan.waits.resize(65, Wait { v: 2, c: 1, w: 1 });
        }
    }
    if way > 0 && draw.one_in(2) {
        let (x, d, y) = (3, 0, 4);
        plan.ordinary.push(Ordinary { x, d, y });
    }
    plan.to_bytes()
}

/// A file for each number that reading gives.
pub fn refusals(draw: &mut Draw, verb: &str) -> Vec<Ask> {
    let mut asks = Vec::new();
    for number in READING {
        let file = refused(draw, number);
        let what = format!("a plan refused with {number}");
        asks.push(worded(draw, ask(verb, &what, file, Vec::new()), None));
    }
    // What `sheet` reads is no plan file: the mark is a bad record.
    let plan = inputs::small_good(draw);
    let file = [plan.to_bytes(), MARK.to_vec(), MARK.to_vec()].concat();
    let cases = vec![format!("{verb}: a mark")];
    asks.push(worded(draw, ask(verb, "a mark", file, cases), None));
    asks
}

/// Kinds of batches for `test`, `worst` and `day`.
const PLANS: usize = 9;

fn about_plans(draw: &mut Draw, verb: &str, kind: usize, tour: u64) -> Vec<Ask> {
    let mut plans: Vec<(&str, Plan)> = Vec::new();
    match kind {
        1 => return refusals(draw, verb),
        2 => {
            let mut small = Sizes::small(draw);
            small.points += 3;
            // Its worst minute is 60, which is no refusal.
            plans.push(("the haul", plans::haul_as_it_stands()));
            plans.push(("close to the haul", plans::haul(draw)));
            plans.push(("a long drive", plans::far_haul(draw)));
            plans.push(("a plan that passes", plans::passing(draw)));
            plans.push(("a larger one that passes", plans::passing_larger(draw)));
            for (drives, fork) in [(2, false), (3, true), (8, false)] {
                plans.push(("trucks in a chain", plans::trucks(draw, drives, fork)));
            }
            plans.push(("a small star", plans::star(draw, small, false)));
            plans.push(("a small layered plan", plans::layered(draw, small, false)));
        }
        3 => {
            for larger in [false, true] {
                let mut plan = if larger {
                    plans::passing_larger(draw)
                } else {
                    plans::passing(draw)
                };
                for _ in 0..2 {
                    plans::near_miss(draw, &mut plan);
                    plans.push(("a plan that nearly passes", plan.clone()));
                }
            }
            plans.push(("a plan that gets stuck", plans::stuck(draw)));
            plans.push(("a cycle in some projections", plans::late_cycle(draw)));
            for length in [2, 3] {
                plans.push(("a ring of links", plans::ringed(draw, length)));
            }
            let mut plan = plans::any_trucks(draw);
            plans::near_miss(draw, &mut plan);
            plans.push(("trucks in a chain, nearly", plan));
            // A shorter wait is missed where the drive is long enough for it.
            let mut plan = plans::haul_as_it_stands();
            plan.waits[0].w = draw.between(5, 34);
            plans.push(("the haul with a shorter wait", plan));
        }
        4 => {
            for wanted in [4_096, 4_097] {
                plans.push(("about 4,096 projections", many(draw, Some(wanted))));
            }
            let mut plan = many(draw, None);
            plans::near_miss(draw, &mut plan);
            plans.push(("about 4,096 projections, nearly", plan));
            for wrap in WRAPS {
                plans.push(("far too many projections", wraps::plan(draw, wrap)));
            }
        }
        5 => {
            let mut sizes = Sizes::any(draw);
            sizes.links = 0;
            plans.push(("no links", plans::star(draw, sizes, false)));
            sizes.ordinary = sizes.ordinary.min(60);
            plans.push(("no links", plans::layered(draw, sizes, false)));
            plans.push(("a chain of long steps", plans::chain(draw)));
            // A minute that is a number of a refusal elsewhere.
            let (x, d, y) = (1, draw.pick(&[-13, -60]), 0);
            plans.push((
                "one step",
                Plan {
                    ponds: vec![0; 2],
                    ordinary: vec![Ordinary { x, d, y }],
                    ..Plan::default()
                },
            ));
        }
        6 => {
            let mut sizes = Sizes::any(draw);
            plans.push((
                "a layered plan of any size",
                plans::layered(draw, sizes, false),
            ));
            sizes.points = sizes.points.max(20);
            sizes.ordinary = sizes.ordinary.max(260);
            plans.push(("a star with many records", plans::star(draw, sizes, false)));
            plans.push(("a plan with many records", plans::roomy(draw, sizes)));
        }
        7 => {
            let mut star = plans::star(draw, FULL, false);
            plans.push(("a full star", star.clone()));
            plans::near_miss(draw, &mut star);
            plans.push(("a full star, nearly", star));
            plans.push(("a full plan", plans::full(draw)));
        }
        // It takes its time, so of one verb in each tour.
        _ if ["worst", "day", "test"][tour as usize % 3] == verb => {
            let mut sizes = FULL;
            if draw.one_in(2) {
                (sizes.points, sizes.ordinary) = (20, 300);
            }
            let star = loop {
                let star = plans::star(draw, sizes, true);
                if projections(&star) == plan_test::MOST {
                    break star;
                }
            };
            plans.push(("a large star of 4,096 projections", star));
        }
        _ => {
            let sizes = Sizes::small(draw);
            plans.push(("a plan of any kind", plans::any(draw, sizes, 9, true)));
        }
    }
    let mut asks = Vec::new();
    for (what, plan) in plans {
        let cases = cases_of(verb, &plan);
        let ask = ask(verb, what, plan.to_bytes(), cases);
        asks.push(worded(draw, ask, Some(&plan)));
    }
    if kind == 2 {
        match verb {
            "worst" => asks.push(met(draw, verb, EQUAL)),
            "day" => asks.extend(RUNS.map(|wanted| met(draw, verb, wanted))),
            _ => {}
        }
    }
    asks
}

/// An ask that meets a case.
fn met(draw: &mut Draw, verb: &str, wanted: &str) -> Ask {
    let case = format!("{verb}: {wanted}");
    loop {
        let plan = match draw.below(5) {
            0 => plans::haul(draw),
            1 => {
                let mut sizes = Sizes::small(draw);
                sizes.points += 4;
                plans::star(draw, sizes, false)
            }
            2 => plans::passing(draw),
            3 => plans::any_trucks(draw),
            _ => plans::passing_larger(draw),
        };
        let cases = cases_of(verb, &plan);
        let ask = ask(verb, wanted, plan.to_bytes(), cases);
        let ask = worded(draw, ask, Some(&plan));
        if ask.cases.contains(&case) {
            return ask;
        }
    }
}

/// A small plan that passes, of about 4,096 projections or of so many.
fn many(draw: &mut Draw, wanted: Option<i64>) -> Plan {
    loop {
        let mut sizes = Sizes::small(draw);
        sizes.points += 8;
        let plan = if draw.one_in(2) {
            plans::layered(draw, sizes, true)
        } else {
            plans::star(draw, sizes, true)
        };
        if wanted.is_none_or(|wanted| projections(&plan) == wanted) {
            return plan;
        }
    }
}

/// How many projections, also where they are too many.
fn projections(plan: &Plan) -> i64 {
    let spans = plan.links.iter().map(|link| link.y - link.x + 1);
    spans.fold(1, i64::saturating_mul)
}

/// What a plan has that must come up for a verb.
fn cases_of(verb: &str, plan: &Plan) -> Vec<String> {
    let case = |what: &str| format!("{verb}: {what}");
    let mut cases = Vec::new();
    if plan.links.is_empty() {
        cases.push(case("no links"));
    }
    cases.extend(links::shapes(plan).into_iter().map(case));
    cases.extend(wraps::of_plan(plan).into_iter().map(case));
    if plan.ordinary.len() > plan::OLD_ORDINARIES {
        cases.push(case("more than 256 ordinary records"));
    }
    if plan.ordinary.len() == FULL.ordinary {
        cases.push(case("992 ordinary records"));
    }
    match projections(plan) {
        4_096 => cases.push(case("4,096 projections")),
        4_097 => cases.push(case("4,097 projections")),
        _ => {}
    }
    // Of equal minutes the first counts: looked for where it is soon found.
    if verb == "worst" && passes(plan) {
        if let Ok(found) = worst::worst(plan) {
            let all = plan_test::Odometer::new(plan).map(|durations| worst::run(plan, &durations));
            let minutes = all.flatten().map(|run| run.last.clock);
            let equal = minutes.filter(|minute| *minute == found.minute).count();
            if equal > 1 && found.projection > 0 {
                cases.push(case(EQUAL));
            }
        }
    }
    cases
}

/// Does it pass, where that is soon found?
fn passes(plan: &Plan) -> bool {
    let steps = plan.points().pow(2) * plan.records();
    let cheap = |count: i64| count as usize * steps < 5_000_000;
    plan_test::projections(plan).is_some_and(cheap)
        && matches!(plan_test::plan_test(plan), Ok(Answer::Yes(_)))
}

/// With the words that the verb wants: for `day` a projection.
fn worded(draw: &mut Draw, mut ask: Ask, plan: Option<&Plan>) -> Ask {
    if ask.words != ["day"] {
        return ask;
    }
    let count = plan.and_then(plan_test::projections).unwrap_or(1) as u32;
    let any = draw.below(count as usize) as u32;
    let worst = plan.filter(|plan| passes(plan)).map(worst::worst);
    let worst = worst
        .and_then(Result::ok)
        .map_or(0, |worst| worst.projection);
    let number = draw.pick(&[
        0,
        count - 1,
        count - 1,
        count,
        any,
        any,
        any,
        worst,
        u32::MAX,
    ]);
    let zeros = draw.pick(&[0, 0, 0, 1, 9, 40]);
    ask.words.push(format!("{}{number}", "0".repeat(zeros)));
    let case = |what: &str| format!("day: {what}");
    if let Some(plan) = plan.filter(|plan| passes(plan)) {
        if zeros > 0 {
            ask.cases.push(case("zeros in front"));
        }
        if number >= count {
            ask.cases.push(case("a number past the last projection"));
        } else {
            ask.cases
                .extend(cases_of_run(plan, number).into_iter().map(case));
        }
        if number == count - 1 && number > 0 {
            ask.cases.push(case("the last projection"));
        }
    }
    ask
}

/// What a worst finishing minute may meet.
const EQUAL: &str = "equal minutes, not the first projection";

/// What a run may meet.
const RUNS: [&str; 8] = [
    "two points at the lowest minute",
    "watched points on the aim",
    "watched points before the aim",
    "a board that waits",
    "two watched points at one minute",
    links::STARTS,
    "an end on the aim starts a link",
    "an end starts two links",
];

/// What the run of a projection meets.
fn cases_of_run(plan: &Plan, projection: u32) -> Vec<&'static str> {
    let mut cases = Vec::new();
    let mut at = Board::fresh();
    for record in worst::day(plan, projection).unwrap_or_default() {
        let Ok(reply) = board::reply(plan, &at) else {
            break;
        };
        let lows = reply.places.iter().filter_map(|place| match place {
            Place::Offered(low) => Some(*low),
            _ => None,
        });
        let lows: Vec<i64> = lows.collect();
        let least = lows.iter().min();
        let tied = lows.iter().filter(|low| Some(*low) == least).count() > 1;
        let set = u32::from_le_bytes([record[8], record[9], record[10], record[11]]);
        let foreman = record[4] != 255;
        if foreman && tied {
            cases.push(RUNS[0]);
        }
        if foreman && set != 0 {
            cases.push(RUNS[1]);
        }
        if !foreman && reply.outcome == Outcome::Offers {
            cases.push(RUNS[2]);
        }
        if reply.outcome == Outcome::Waiting {
            cases.push(RUNS[3]);
        }
        if set.count_ones() > 1 {
            cases.push(RUNS[4]);
        }
        let started = plan.links.iter().filter(|link| set >> link.a & 1 == 1);
        let started: Vec<usize> = started.map(|link| link.a).collect();
        if !started.is_empty() {
            cases.push(if foreman { RUNS[6] } else { RUNS[5] });
        }
        if (1..started.len()).any(|k| started[..k].contains(&started[k])) {
            cases.push(RUNS[7]);
        }
        at = event::take(plan, &at, &record).1;
    }
    cases
}

/// Kinds of batches for `close`.
const CLOSE: usize = 7;

fn closing(draw: &mut Draw, kind: usize) -> Vec<Ask> {
    let mut plans: Vec<(&str, Plan)> = Vec::new();
    match kind {
        1 => return refusals(draw, "close"),
        2 => {
            for hidden in [true, true, true, true, false] {
                let sizes = Sizes {
                    points: 1 + draw.below(9),
                    links: 0,
                    ordinary: draw.below(24),
                    waits: 0,
                };
                let scale = plans::scale(draw);
                plans.push(("a small plan", plans::any(draw, sizes, scale, hidden)));
            }
        }
        3 => {
            for sum in [BOUND, BOUND + 1, -BOUND, -BOUND - 1] {
                plans.push(("a distance at the bound or past it", summed(draw, sum)));
            }
            // A shorter way within the bound.
            let mut plan = summed(draw, BOUND + 1);
            if let Some((x, y)) = far_pair(&plan) {
                let d = BOUND;
                plan.ordinary.push(Ordinary { x, d, y });
            }
            plans.push(("a way past the bound and one within it", plan));
        }
        4 => {
            let points = 2 + draw.below(4);
            let mut cycle = ring(draw, points);
            round(&mut cycle, -1);
            plans.push(("a link and a cycle", linked(cycle)));
            let far = summed(draw, BOUND + 1);
            plans.push(("a link and a distance past the bound", linked(far)));
            plans.push(("the haul or close to it", plans::haul(draw)));
        }
        5 => {
            let sizes = Sizes { links: 0, ..FULL };
            plans.push(("a star of all pairs", plans::star(draw, sizes, false)));
            plans.push(("a ring of 32 points", ring(draw, 32)));
            plans.push(("a chain of long steps", plans::chain(draw)));
            let sizes = Sizes {
                points: 32,
                links: 0,
                ordinary: draw.below(60),
                waits: 0,
            };
            plans.push(("32 points, few joined", plans::any(draw, sizes, 20, true)));
        }
        _ => {
            // A cycle of zero and one of just below.
            for sum in [0, -1] {
                let points = 2 + draw.below(6);
                let mut plan = ring(draw, points);
                round(&mut plan, sum);
                plans.push(("a ring of zero or just below", plan));
            }
            let mut plan = summed(draw, BOUND + 1);
            let (x, y) = (plan.points(), plan.points() + 1);
            plan.ponds.extend([0, 0]);
            plan.ordinary.push(Ordinary { x, d: 4, y });
            let d = draw.pick(&[-5, -BOUND]);
            plan.ordinary.push(Ordinary { x: y, d, y: x });
            plans.push(("a cycle and a distance past the bound", plan));
        }
    }
    let asked = plans.into_iter().map(|(what, mut plan)| {
        for pond in &mut plan.ponds {
            *pond = draw.pick(&[0, 1, 6_760_000, u32::MAX]);
        }
        let cases = cases_of_closing(&plan);
        ask("close", what, plan.to_bytes(), cases)
    });
    asked.collect()
}

/// A path whose steps have this sum, with points and records about it that change nothing of it.
fn summed(draw: &mut Draw, sum: i64) -> Plan {
    let steps = 2 + draw.below(5);
    let points = steps + 1 + draw.below(3);
    let mut order: Vec<usize> = (0..points).collect();
    draw.shuffle(&mut order);
    let mut plan = Plan {
        ponds: vec![0; points],
        ..Plan::default()
    };
    // Each step is less than the bound and not 0.
    let mut rest = sum.abs();
    for k in 0..steps {
        let left = (steps - k - 1) as i64;
        let size = match left {
            0 => rest,
            _ => draw.edgy(
                (rest - left * (BOUND - 1)).max(1),
                (rest - left).min(BOUND - 1),
            ),
        };
        let (x, d, y) = (order[k], size * sum.signum(), order[k + 1]);
        plan.ordinary.push(Ordinary { x, d, y });
        rest -= size;
    }
    draw.shuffle(&mut plan.ordinary);
    plan
}

/// The pair that the path of such a plan joins, first to last.
fn far_pair(plan: &Plan) -> Option<(usize, usize)> {
    let starts = |point: &usize| plan.ordinary.iter().any(|one| one.x == *point);
    let ends = |point: &usize| plan.ordinary.iter().any(|one| one.y == *point);
    let from = (0..plan.points()).find(|point| starts(point) && !ends(point))?;
    let to = (0..plan.points()).find(|point| ends(point) && !starts(point))?;
    Some((from, to))
}

/// So many points, each with a record to the next, in any order.
fn ring(draw: &mut Draw, points: usize) -> Plan {
    let mut order: Vec<usize> = (0..points).collect();
    draw.shuffle(&mut order);
    let mut plan = Plan {
        ponds: vec![0; points],
        ..Plan::default()
    };
    for k in 0..points {
        let (x, y) = (order[k], order[(k + 1) % points]);
        let d = draw.edgy(0, 100);
        plan.ordinary.push(Ordinary { x, d, y });
    }
    draw.shuffle(&mut plan.ordinary);
    plan
}

/// Changes a bound so that the ring has this sum.
fn round(ring: &mut Plan, sum: i64) {
    let now: i64 = ring.ordinary.iter().map(|one| one.d).sum();
    ring.ordinary[0].d += sum - now;
}

/// With two more points and a link between them.
fn linked(mut plan: Plan) -> Plan {
    let (a, c) = (plan.points(), plan.points() + 1);
    plan.ponds.extend([0, 0]);
    plan.links.push(Link { a, x: 1, y: 2, c });
    plan
}

fn cases_of_closing(plan: &Plan) -> Vec<String> {
    let case = |what: &str| format!("close: {what}");
    let mut cases = Vec::new();
    let unwatched = Plan {
        links: Vec::new(),
        waits: Vec::new(),
        ..plan.clone()
    };
    let alone = close::close(&unwatched);
    if close::close(plan) == Err(61) {
        match alone {
            Err(62) => cases.push(case("a link and a cycle")),
            Err(63) => cases.push(case("a link and a distance past the bound")),
            _ => {}
        }
        return cases;
    }
    let points = plan.points();
    if let Ok(made) = alone {
        let bounds = |d: i64| made.ordinary.iter().any(|one| one.d == d);
        if bounds(BOUND) && plan.ordinary.iter().all(|one| one.d < BOUND) {
            cases.push(case("a distance of 100,000"));
        }
        if bounds(-BOUND) && plan.ordinary.iter().all(|one| one.d > -BOUND) {
            cases.push(case("a distance of -100,000"));
        }
        if made.ordinary.len() == FULL.ordinary {
            cases.push(case("992 made records"));
        }
        if made.ordinary.len() < points * (points - 1) {
            cases.push(case("a pair that no path joins"));
        }
        let made_of = |one: &Ordinary| {
            let same = |made: &&Ordinary| (made.x, made.y) == (one.x, one.y);
            made.ordinary.iter().find(same).map(|made| made.d)
        };
        if plan.ordinary.iter().any(|one| made_of(one) < Some(one.d)) {
            cases.push(case("a distance shorter than its record"));
        }
        let back = |one: &Ordinary| {
            let (x, d, y) = (one.y, -one.d, one.x);
            made.ordinary.contains(&Ordinary { x, d, y })
        };
        if made.ordinary.iter().any(back) {
            cases.push(case("a cycle of zero"));
        }
        if plan.ponds.iter().any(|pond| *pond != 0) {
            cases.push(case("pond codes"));
        }
    } else if alone == Err(62) {
        // Without the records of the cycle a distance is past the bound.
        let far = |x: usize, y: usize| {
            let without = |one: &&Ordinary| ![x, y].contains(&one.x) && ![x, y].contains(&one.y);
            let ordinary = plan.ordinary.iter().filter(without).copied().collect();
            let plan = Plan {
                ordinary,
                ..plan.clone()
            };
            close::close(&plan) == Err(63)
        };
        if points > 3 && far(points - 2, points - 1) {
            cases.push(case("a cycle and a distance past the bound"));
        }
    }
    cases
}

/// The cases that must come up for a verb, besides what is said.
pub fn cases(verb: &str) -> Vec<String> {
    let mut cases = own_cases(verb);
    if ["test", "worst", "day", "import"].contains(&verb) {
        let shapes = links::SHAPES.iter();
        cases.extend(shapes.map(|shape| format!("{verb}: {shape}")));
    }
    if ["test", "worst", "day"].contains(&verb) {
        cases.extend(WRAPS.map(|wrap| format!("{verb}: {wrap}")));
    }
    cases
}

fn own_cases(verb: &str) -> Vec<String> {
    let all: &[&str] = match verb {
        "test" => &[
            "no links",
            "more than 256 ordinary records",
            "992 ordinary records",
            "4,096 projections",
            "4,097 projections",
            "a mark",
        ],
        "worst" => &[
            "no links",
            "more than 256 ordinary records",
            "992 ordinary records",
            "4,096 projections",
            "4,097 projections",
            "a mark",
            EQUAL,
        ],
        "day" => &[
            "no links",
            "more than 256 ordinary records",
            "992 ordinary records",
            "4,096 projections",
            "4,097 projections",
            "a mark",
            RUNS[0],
            RUNS[1],
            RUNS[2],
            RUNS[3],
            RUNS[4],
            RUNS[5],
            RUNS[6],
            RUNS[7],
            "the last projection",
            "a number past the last projection",
            "zeros in front",
        ],
        "close" => &[
            "a link and a cycle",
            "a link and a distance past the bound",
            "a distance of 100,000",
            "a distance of -100,000",
            "992 made records",
            "a pair that no path joins",
            "a distance shorter than its record",
            "a cycle of zero",
            "pond codes",
            "a cycle and a distance past the bound",
            "a mark",
        ],
        "calendar" => return calendars::cases(),
        "lighter" => return lighters::cases(),
        "pack" => return listings::cases(),
        "list" => return lists::cases(),
        "explain" => return explains::cases(),
        _ => return texts::cases(),
    };
    all.iter().map(|what| format!("{verb}: {what}")).collect()
}
