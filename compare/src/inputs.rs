//! Draws whole inputs in batches: a plan part, the mark, events, and an unfinished last record now and then.

use crate::corners;
use crate::damage;
use crate::draw::Draw;
use crate::events::{self, Style, MARK, STYLES};
use crate::plans::{self, Sizes, FULL};
use crate::rare;
use oracle::plan::{self, Plan, RawRecord, RECORD, ROOM};

pub struct Input {
    /// How it was made.
    pub what: String,
    pub bytes: Vec<u8>,
}

fn input(what: &str, bytes: Vec<u8>) -> Input {
    Input {
        what: what.to_string(),
        bytes,
    }
}

/// Plan part, mark and events.
fn joined(plan_part: &[u8], events: &[u8]) -> Vec<u8> {
    [plan_part, &MARK, events].concat()
}

/// A last record that is not finished.
fn tail(draw: &mut Draw, length: usize) -> Vec<u8> {
    let byte = draw.pick(&[0, 1, 255]);
    let mut bytes = vec![byte; length];
    if draw.one_in(3) {
        bytes.fill_with(|| draw.byte());
    }
    bytes
}

/// Events for a plan part that may be refused: those of its plan, else of the plan it was made from.
fn events_for(draw: &mut Draw, plan_part: &[u8], made_from: &Plan) -> Vec<u8> {
    let style = draw.pick(&STYLES);
    match plan::read(plan_part) {
        Ok(plan) => events::stream(draw, &plan, style),
        Err(_) => events::stream(draw, made_from, style),
    }
}

/// The batch of this number: every eighty batches hold each kind of input, and some what is rare in them.
pub fn batch(draw: &mut Draw, number: u64) -> Vec<Input> {
    let mut inputs = of_kind(draw, number);
    if rare::is_due(number) {
        inputs.extend(rare::inputs(draw));
    }
    // It takes its time: some megabytes are printed of it.
    if number % 400 == 2 {
        inputs.push(input("more than 65,536 events", corners::long_stream(draw)));
    }
    inputs
}

fn of_kind(draw: &mut Draw, number: u64) -> Vec<Input> {
    match number * 7 % 40 {
        0..=6 => passing_runs(draw),
        7..=8 => layered_runs(draw),
        9 => many_projections(draw),
        10..=11 => haul_runs(draw),
        12 => second_trucks(draw),
        13..=15 => small_plans(draw),
        16 => barred_plans(draw),
        17..=18 => sized_plans(draw),
        19 => limits(draw),
        20..=21 => chains(draw),
        22..=24 => stuck_plans(draw),
        25 => each_byte(draw),
        26 if number % 80 < 40 => each_cut(draw),
        26 => limits(draw),
        27..=29 => moved(draw),
        30..=33 => aimed(draw),
        34 => twins(draw),
        35..=36 => marks(draw),
        37 => each_tail(draw),
        38 => long_parts(draw),
        _ => many_events(draw),
    }
}

/// All streams for one plan, some with an unfinished last record.
fn streams(draw: &mut Draw, what: &str, plan: &Plan, count: usize) -> Vec<Input> {
    let mut inputs = Vec::new();
    for k in 0..count {
        let style = STYLES[k % STYLES.len()];
        let name = match style {
            Style::Good => "good events",
            Style::OneSpoiled => "one event spoiled",
            Style::Mixed => "good and spoiled events",
            Style::Noise => "noise for events",
        };
        let mut bytes = joined(&plan.to_bytes(), &events::stream(draw, plan, style));
        if draw.one_in(10) {
            let length = 1 + draw.below(RECORD - 1);
            bytes.extend(tail(draw, length));
        }
        inputs.push(input(&format!("{what}, {name}"), bytes));
    }
    inputs
}

fn passing_runs(draw: &mut Draw) -> Vec<Input> {
    let mut plan = plans::passing(draw);
    let mut inputs = streams(draw, "plan that passes the test", &plan, 8);
    plans::near_miss(draw, &mut plan);
    inputs.extend(streams(draw, "plan that nearly passes", &plan, 4));
    inputs
}

/// Plans of any size that pass the test, and near-misses of them.
fn layered_runs(draw: &mut Draw) -> Vec<Input> {
    let sizes = Sizes::any(draw);
    let mut plan = plans::layered(draw, sizes, false);
    let mut inputs = streams(draw, "layered plan", &plan, 3);
    plans::near_miss(draw, &mut plan);
    inputs.extend(streams(draw, "layered plan, nearly", &plan, 1));
    inputs
}

/// Plans of about 4,096 projections, most of them small.
fn many_projections(draw: &mut Draw) -> Vec<Input> {
    let mut sizes = Sizes::small(draw);
    sizes.points += 8;
    if draw.one_in(40) {
        sizes = FULL;
    }
    let mut plan = plans::layered(draw, sizes, true);
    if draw.one_in(3) {
        plans::near_miss(draw, &mut plan);
    }
    streams(draw, "about 4,096 projections", &plan, 1)
}

fn haul_runs(draw: &mut Draw) -> Vec<Input> {
    let plan = plans::haul(draw);
    streams(draw, "the haul or close to it", &plan, 8)
}

/// Trucks that start when others arrive, near-misses of them, two that end at one point, and a ring of links.
fn second_trucks(draw: &mut Draw) -> Vec<Input> {
    let mut plan = plans::any_trucks(draw);
    let mut inputs = streams(draw, "trucks that start when others arrive", &plan, 4);
    for _ in 0..2 {
        let mut part = plan.to_bytes();
        damage::second_end(draw, &mut part);
        let events = events_for(draw, &part, &plan);
        inputs.push(input("a second end", joined(&part, &events)));
        let events = events::hanging(draw, &plan);
        let what = "each link that hangs on another, at its edges";
        inputs.push(input(what, joined(&plan.to_bytes(), &events)));
    }
    plans::near_miss(draw, &mut plan);
    inputs.extend(streams(draw, "such trucks, nearly", &plan, 2));
    for length in [2, 3] {
        let plan = plans::ringed(draw, length);
        inputs.extend(streams(draw, "a ring of links", &plan, 1));
    }
    inputs
}

fn small_plans(draw: &mut Draw) -> Vec<Input> {
    let sizes = Sizes::small(draw);
    let scale = plans::scale(draw);
    let hidden = !draw.one_in(4);
    let plan = plans::any(draw, sizes, scale, hidden);
    streams(draw, "small plan", &plan, 4)
}

/// Plans with much that keeps points shut, and runs in which every point that is not open is asked for.
fn barred_plans(draw: &mut Draw) -> Vec<Input> {
    let mut inputs = Vec::new();
    for _ in 0..2 {
        let plan = plans::barred(draw);
        inputs.extend(streams(draw, "plan with much that shuts", &plan, 3));
        let events = events::told_why(draw, &plan);
        let what = "all that is not open is asked for";
        inputs.push(input(what, joined(&plan.to_bytes(), &events)));
    }
    let plan = small_good(draw);
    let events = events::told_why(draw, &plan);
    let what = "all that is not open is asked for, of any plan";
    inputs.push(input(what, joined(&plan.to_bytes(), &events)));
    inputs
}

fn sized_plans(draw: &mut Draw) -> Vec<Input> {
    let sizes = Sizes::any(draw);
    if draw.one_in(2) {
        let plan = plans::roomy(draw, sizes);
        return streams(draw, "plan of any size with long runs", &plan, 4);
    }
    let scale = plans::scale(draw);
    let plan = plans::any(draw, sizes, scale, true);
    streams(draw, "plan of any size", &plan, 4)
}

/// Plans with a kind at its limit, one below and one past it.
fn limits(draw: &mut Draw) -> Vec<Input> {
    let full = plans::full(draw);
    let sizes = [FULL.points, FULL.links, FULL.ordinary, FULL.waits];
    let kind = draw.below(4);
    let mut inputs = streams(draw, "full plan", &full, 3);
    for by in [-1, 0, 1, 1] {
        for others_full in [false, true] {
            let mut records: Vec<RawRecord> = full.to_records();
            if !others_full {
                // Only a few of the kinds after points and links, other than the one at its limit.
                let mut seen = [0; 5];
                records.retain(|record| {
                    let k = usize::from(record.kind);
                    seen[k] += 1;
                    k <= 2 || k == kind + 1 || seen[k] <= 3
                });
            }
            let last = records
                .iter()
                .rposition(|record| usize::from(record.kind) == kind + 1);
            let last = last.expect("a full plan has every kind");
            if by < 0 {
                records.remove(last);
            } else if by > 0 {
                let mut more = records[last];
                if kind == 0 {
                    more.a += 1;
                }
                records.insert(last + 1, more);
            }
            let mut part: Vec<u8> = records.iter().flat_map(RawRecord::bytes).collect();
            if draw.one_in(3) {
                damage::aim(draw, &mut part);
            }
            let events = events_for(draw, &part, &full);
            let what = format!(
                "kind {} at {} and {by}, {} records",
                kind + 1,
                sizes[kind],
                records.len()
            );
            inputs.push(input(&what, joined(&part, &events)));
        }
    }
    inputs
}

fn chains(draw: &mut Draw) -> Vec<Input> {
    let plan = plans::chain(draw);
    streams(draw, "chain of long steps", &plan, 2)
}

fn stuck_plans(draw: &mut Draw) -> Vec<Input> {
    let plan = plans::stuck(draw);
    streams(draw, "plan that gets stuck", &plan, 4)
}

/// A small plan with something of every kind, most of the time.
pub fn small_good(draw: &mut Draw) -> Plan {
    match draw.below(4) {
        0 => plans::haul(draw),
        1 => plans::passing(draw),
        2 => plans::any_trucks(draw),
        _ => {
            let mut sizes = Sizes::small(draw);
            sizes.points += 2;
            let scale = plans::scale(draw);
            plans::any(draw, sizes, scale, true)
        }
    }
}

/// Each byte of a file changed in turn, and some bytes of events.
fn each_byte(draw: &mut Draw) -> Vec<Input> {
    let plan = small_good(draw);
    let part = plan.to_bytes();
    let style = draw.pick(&STYLES);
    let whole = joined(&part, &events::stream(draw, &plan, style));
    let mut inputs = Vec::new();
    for place in 0..whole.len() {
        // The mark and the events less often.
        if place < part.len() || draw.one_in(4) {
            let mut bytes = whole.clone();
            bytes[place] = damage::other_byte(draw, bytes[place]);
            inputs.push(input(&format!("byte {place} changed"), bytes));
        }
    }
    inputs
}

/// A file cut at each length, with and without a mark after it; a whole input cut at some lengths.
fn each_cut(draw: &mut Draw) -> Vec<Input> {
    let plan = small_good(draw);
    let part = plan.to_bytes();
    let stream = events::stream(draw, &plan, Style::Good);
    let mut inputs = Vec::new();
    for length in 0..=part.len() {
        let cut = part[..length].to_vec();
        inputs.push(input(&format!("plan cut at {length}, no mark"), cut));
        if length % RECORD == 0 || draw.one_in(8) {
            let bytes = joined(&part[..length], &stream);
            let what = format!("plan cut at {length}, then the mark and events");
            inputs.push(input(&what, bytes));
        }
    }
    let whole = joined(&part, &stream);
    for length in part.len()..whole.len() {
        if draw.one_in(4) {
            let cut = whole[..length].to_vec();
            inputs.push(input(&format!("input cut at {length}"), cut));
        }
    }
    inputs
}

fn moved(draw: &mut Draw) -> Vec<Input> {
    let plan = small_good(draw);
    let mut inputs = Vec::new();
    for _ in 0..8 {
        let mut part = plan.to_bytes();
        for _ in 0..1 + draw.below(2) {
            damage::move_records(draw, &mut part);
        }
        let events = events_for(draw, &part, &plan);
        inputs.push(input("records moved", joined(&part, &events)));
    }
    inputs
}

fn aimed(draw: &mut Draw) -> Vec<Input> {
    let plan = if draw.one_in(20) {
        plans::full(draw)
    } else {
        small_good(draw)
    };
    let mut inputs = Vec::new();
    for _ in 0..8 {
        let mut part = plan.to_bytes();
        for _ in 0..1 + draw.below(3) {
            damage::aim(draw, &mut part);
        }
        let events = events_for(draw, &part, &plan);
        inputs.push(input("records spoiled", joined(&part, &events)));
    }
    inputs
}

/// A twin at each place of the ordinary records (at some of them where they are many), and what is none: the pair the other
/// way round, and the pair of a link and of a wait. The bounds of a twin may be any, also such as no record may have.
fn twins(draw: &mut Draw) -> Vec<Input> {
    let plan = loop {
        let plan = if draw.one_in(6) {
            let sizes = Sizes::any(draw);
            plans::roomy(draw, sizes)
        } else {
            small_good(draw)
        };
        if plan.ordinary.len() > 1 {
            break plan;
        }
    };
    let often = plan.ordinary.len() / 12 + 1;
    let first = plan.points() + plan.links.len();
    let mut inputs = Vec::new();
    let mut add = |draw: &mut Draw, what: &str, records: &[RawRecord]| {
        let part: Vec<u8> = records.iter().flat_map(RawRecord::bytes).collect();
        let events = events_for(draw, &part, &plan);
        inputs.push(input(what, joined(&part, &events)));
    };
    let records = plan.to_records();
    // Before each but the first, and after the last.
    for place in 1..=plan.ordinary.len() {
        if !draw.one_in(often) {
            continue;
        }
        let old = records[first + draw.below(place)];
        let far = draw.pick(&[100_001, -100_001, i32::MIN, i32::MAX]);
        let near = draw.pick(&[old.first, old.first + 1, -old.first, 0]);
        let mut twin = old;
        twin.first = if draw.one_in(3) { far } else { near };
        let mut new = records.clone();
        new.insert(first + place, twin);
        add(draw, &format!("a twin in ordinary record {place}"), &new);
        // Two of them, or one and a bound that no record may have: the first bad record is named. A field that is not 0 or a
        // point that is missing comes before 15.
        let other = first + draw.below(plan.ordinary.len() + 1);
        match draw.below(6) {
            0 => {
                new.insert(first + place + 1, twin);
                add(draw, "two twins", &new);
            }
            1 => {
                new[other].first = far;
                add(draw, "a twin and a bad bound", &new);
            }
            2 => {
                let spoiled = &mut new[first + place];
                match draw.below(3) {
                    0 => spoiled.second = 1,
                    1 => spoiled.code = 1,
                    _ => spoiled.b = plan.points() as u8,
                }
                add(draw, "a twin with another fault", &new);
            }
            _ => {}
        }
    }
    let pairs = plan.links.iter().map(|link| (link.a, link.c));
    let pairs = pairs.chain(plan.waits.iter().map(|wait| (wait.v, wait.c)));
    let reversed = plan.ordinary.iter().map(|one| (one.y, one.x));
    for (x, y) in pairs.chain(reversed) {
        if !draw.one_in(often) {
            continue;
        }
        let mut new = records.clone();
        let record = RawRecord {
            kind: 3,
            a: x as u8,
            b: y as u8,
            first: draw.edgy(-9, 9) as i32,
            ..RawRecord::default()
        };
        let place = first + draw.below(plan.ordinary.len() + 1);
        new.insert(place, record);
        add(
            draw,
            "a pair the other way round, or of a link or a wait",
            &new,
        );
    }
    if let Some(&wait) = records.last().filter(|record| record.kind == 4) {
        add(
            draw,
            "the same wait twice",
            &[&records[..], &[wait]].concat(),
        );
    }
    inputs
}

/// No mark, a second mark, a mark first, a mark at no multiple of 16, nearly a mark, no input.
fn marks(draw: &mut Draw) -> Vec<Input> {
    let plan = small_good(draw);
    let part = plan.to_bytes();
    let stream = events::stream(draw, &plan, Style::Good);
    let mut nearly = MARK;
    nearly[draw.below(RECORD)] = draw.pick(&[254, 0]);
    let cut = draw.below(stream.len() / RECORD + 1) * RECORD;
    let length = 1 + draw.below(RECORD - 1);
    let shift = tail(draw, length);
    let more_marks = MARK.repeat(1 + draw.below(3));
    vec![
        input("no input", Vec::new()),
        input("no mark, plan only", part.clone()),
        input("no mark, events at once", [&part[..], &stream].concat()),
        input("mark first", [&MARK[..], &part, &MARK, &stream].concat()),
        input("mark only", MARK.to_vec()),
        input(
            "a second mark among the events",
            [&part[..], &MARK, &stream[..cut], &MARK, &stream[cut..]].concat(),
        ),
        input(
            "marks after the mark",
            [&part[..], &MARK, &more_marks, &stream].concat(),
        ),
        input(
            "nearly a mark",
            [&part[..], &nearly, &MARK, &stream].concat(),
        ),
        input(
            "nearly a mark and no other",
            [&part[..], &nearly, &stream].concat(),
        ),
        input(
            "mark at no multiple of 16",
            [&part[..], &shift, &MARK, &stream].concat(),
        ),
        input(
            "marks at no multiple of 16",
            [&part[..], &shift, &MARK, &MARK, &stream].concat(),
        ),
    ]
}

/// An unfinished last record of each length, after the mark and without one.
fn each_tail(draw: &mut Draw) -> Vec<Input> {
    let plan = small_good(draw);
    let part = plan.to_bytes();
    let mut inputs = Vec::new();
    for length in 1..RECORD {
        let style = draw.pick(&STYLES);
        let stream = events::stream(draw, &plan, style);
        let rest = tail(draw, length);
        let what = format!("unfinished last record of {length} bytes");
        let bytes = [&part[..], &MARK, &stream, &rest].concat();
        inputs.push(input(&what, bytes));
        let what = format!("{length} bytes of a plan record, no mark");
        inputs.push(input(&what, [&part[..], &rest].concat()));
    }
    inputs
}

/// Plan parts longer than there is room for, by one and by far, and longer than there was room for in document 01.
fn long_parts(draw: &mut Draw) -> Vec<Input> {
    let plan = small_good(draw);
    let part = if draw.one_in(2) {
        plans::full(draw).to_bytes()
    } else {
        plan.to_bytes()
    };
    let stream = events::stream(draw, &plan, Style::Good);
    let mut inputs = Vec::new();
    let old = plan::room(plan::OLD_ORDINARIES) + draw.below(2);
    let far = draw.pick(&[1_200, 2 * ROOM, 4_095, 4_096, 4_097, 20_000]);
    for count in [old, ROOM - 1, ROOM, ROOM + 1, ROOM + 2, far] {
        let any = draw.byte();
        let filler = draw.pick(&[0, 1, 3, 254, any]);
        let mut long = part.clone();
        long.resize(count * RECORD, filler);
        let what = format!("plan part of {count} records");
        inputs.push(input(&what, joined(&long, &stream)));
        if draw.one_in(2) {
            inputs.push(input(&format!("{what}, no mark"), long.clone()));
        }
        let length = 1 + draw.below(RECORD - 1);
        long.extend(tail(draw, length));
        let what = format!("{what} and {length} bytes, no mark");
        inputs.push(input(&what, long));
    }
    inputs
}

/// Streams much longer than a run: event numbers of many digits.
fn many_events(draw: &mut Draw) -> Vec<Input> {
    let plan = small_good(draw);
    // Noise to a board that stays open, or to one at the end of its run.
    let style = draw.pick(&[Style::Mixed, Style::Noise]);
    let mut stream = events::stream(draw, &plan, style);
    let count = draw.pick(&[101, 120, 300, 1_001, 1_001, 10_002]);
    let fresh = oracle::board::Board::fresh();
    while stream.len() < count * RECORD {
        stream.extend(events::noise(draw, &plan, &fresh));
    }
    let what = format!("{count} events");
    vec![input(&what, joined(&plan.to_bytes(), &stream))]
}
