//! Plays plans that pass the test through `offers` and holds what it prints to demand 3: games SEED GAMES WORDS...
//! Started by compare/games from the folder above. WORDS start the program.

use compare::count::Count;
use compare::draw::Draw;
use compare::events::MARK;
use compare::links;
use compare::plans;
use compare::player::Player;
use compare::printed::{self, Holder, Place, Printed, Reply};
use compare::programs;
use compare::sheets;
use oracle::board::{self, Board};
use oracle::event;
use oracle::plan::{Plan, BOUND};
use oracle::text;
use std::io;
use std::process::ExitCode;
use std::time::Instant;

/// Where a game is kept that does not go as promised.
const KEPT: &str = "compare/kept";
/// One game in so many is played from the printed replies alone.
const STEPWISE: u64 = 8;

/// What must come up in a run of many games.
const EXPECTED: [&str; 26] = [
    "games from predicted replies",
    "games from printed replies",
    "with links",
    "with waits",
    links::SHAPES[0],
    links::SHAPES[1],
    links::SHAPES[2],
    links::STARTS,
    "so with the foreman's point",
    "an end starts two links",
    "a link that hangs on another ends",
    "the foreman takes a Low",
    "the foreman takes a minute between",
    "the foreman takes the latest",
    "an open point is held",
    "nothing is open, a link runs",
    "nothing is open, and it is told why",
    "an ordinary record keeps a point shut",
    "a wait keeps a point shut",
    "one link ends",
    "links end together",
    "links end with the foreman's point",
    "an event at the clock's minute",
    "the shortest duration",
    "a duration between",
    "the longest duration",
];

fn main() -> ExitCode {
    let words: Vec<String> = std::env::args().collect();
    let numbers = match &words[..] {
        [_, seed, games, _, ..] => seed.parse().ok().zip(games.parse().ok()),
        _ => None,
    };
    let Some((seed, games)) = numbers else {
        eprintln!("usage: games SEED GAMES WORDS...");
        return ExitCode::from(2);
    };
    programs::watch();
    match play(seed, games, &words[3..]) {
        Ok(true) => ExitCode::SUCCESS,
        Ok(false) => ExitCode::FAILURE,
        Err(error) => {
            eprintln!("games: {error}");
            ExitCode::from(2)
        }
    }
}

/// Plays all games; did all go as promised, and did everything come up?
fn play(seed: u64, games: u64, words: &[String]) -> io::Result<bool> {
    println!("seed {seed}");
    let start = Instant::now();
    let mut count = Count::default();
    let (mut points, mut events) = (0, 0);
    for game in 0..games {
        let draw = &mut Draw::new(seed, game);
        let plan = plans::of_number(draw, game);
        let mut player = Player::new(draw, &plan);
        let wrong = if game % STEPWISE == 0 {
            count.one("games from printed replies".to_string());
            stepwise(draw, &plan, &mut player, words)?
        } else {
            count.one("games from predicted replies".to_string());
            predicted(draw, &plan, &mut player, words)?
        };
        if let Some(wrong) = wrong {
            std::fs::create_dir_all(KEPT)?;
            let file = format!("{KEPT}/game-{seed}-{game}");
            std::fs::write(&file, input(&plan, &player))?;
            println!("game {game}: {wrong}");
            println!("to see it: {} < {file}", words.join(" "));
            return Ok(false);
        }
        points += plan.points();
        events += player.events.len();
        let kinds = [
            ("with links", plan.links.len()),
            ("with waits", plan.waits.len()),
        ];
        let kinds = kinds.iter().filter(|(_, records)| *records > 0);
        let kinds = kinds.map(|(key, _)| *key).chain(links::shapes(&plan));
        for key in kinds.chain(player.met) {
            count.one(key.to_string());
        }
    }
    let seconds = start.elapsed().as_secs_f64();
    println!("{games} games as promised, {points} points in {events} events, {seconds:.0} seconds");
    for key in EXPECTED {
        println!("{key:<40}{:>10}", count.of(key));
    }
    let missing: Vec<_> = EXPECTED.iter().filter(|key| count.of(key) == 0).collect();
    for key in &missing {
        println!("never came up: {key}");
    }
    Ok(missing.is_empty())
}

fn input(plan: &Plan, player: &Player) -> Vec<u8> {
    [plan.to_bytes(), MARK.to_vec(), player.events.concat()].concat()
}

/// What the program prints of the game so far.
fn printed(plan: &Plan, player: &Player, words: &[String]) -> io::Result<Result<Printed, String>> {
    let shown = programs::run(words, &input(plan, player))?;
    if shown.ended != programs::ENDED_WELL {
        return Ok(Err(format!("the program ended with {}", shown.ended)));
    }
    Ok(printed::read(&shown.bytes))
}

/// Plays by the replies that the library of the independent program gives, and then looks at what is printed of the whole.
fn predicted(
    draw: &mut Draw,
    plan: &Plan,
    player: &mut Player,
    words: &[String],
) -> io::Result<Option<String>> {
    let mut at = Board::fresh();
    // One event too many shows in the number of events.
    for _ in 0..=plan.points() {
        let reply = reply(plan, &at);
        let Some(event) = player.next(draw, &reply) else {
            break;
        };
        at = event::take(plan, &at, &event).1;
    }
    Ok(match printed(plan, player, words)? {
        Ok(printed) => wrong(plan, player, &printed),
        Err(wrong) => Some(wrong),
    })
}

/// The reply as it would be printed.
fn reply(plan: &Plan, at: &Board) -> Reply {
    let reply = board::reply(plan, at).expect("a board that is played is sound");
    let place = |place: &board::Place| match *place {
        board::Place::Done(minute) => Place::Done(minute),
        board::Place::Watched => Place::Watched,
        board::Place::Shut(record) => {
            let record = record.expect("something keeps it shut");
            Place::Shut(Holder {
                number: record as usize,
                listed: text::listed(plan, record),
            })
        }
        board::Place::Held => Place::Held,
        board::Place::Offered(low) => Place::Offered(low),
    };
    let latest = reply.latest;
    let places = || reply.places[..plan.points()].iter().map(place).collect();
    match reply.outcome {
        board::Outcome::Finished => Reply::Finished,
        board::Outcome::Stuck => Reply::Stuck { places: places() },
        board::Outcome::Waiting => Reply::Waiting { places: places() },
        board::Outcome::Offers => {
            let places = places();
            Reply::Offers { latest, places }
        }
    }
}

/// Plays by what is printed alone: the program is run again on the events so far before each event.
fn stepwise(
    draw: &mut Draw,
    plan: &Plan,
    player: &mut Player,
    words: &[String],
) -> io::Result<Option<String>> {
    loop {
        let shown = match printed(plan, player, words)? {
            Ok(printed) => printed,
            Err(wrong) => return Ok(Some(wrong)),
        };
        let now = shown.boards.last().map(|board| board.reply.clone());
        let next = match now {
            Some(reply) if player.events.len() <= plan.points() => player.next(draw, &reply),
            _ => None,
        };
        if next.is_none() {
            return Ok(wrong(plan, player, &shown));
        }
    }
}

/// What is printed of a whole game, held to demand 3: the first thing that is not as promised.
fn wrong(plan: &Plan, player: &Player, printed: &Printed) -> Option<String> {
    if !printed.test.starts_with("yes ") {
        return Some(format!("the test says {}", printed.test));
    }
    if printed.boards.len() != player.events.len() + 1 {
        return Some(format!("{} boards are printed", printed.boards.len()));
    }
    if player.events.len() > plan.points() {
        return Some("more events than points".to_string());
    }
    let mut before = None;
    for (k, board) in printed.boards.iter().enumerate() {
        if board.number != 0 {
            return Some(format!("event {} gets number {}", k - 1, board.number));
        }
        if matches!(board.reply, Reply::Stuck { .. }) {
            return Some(format!("stuck after {k} events"));
        }
        if board.clock > BOUND * plan.points() as i64 {
            return Some(format!("minute {} after {k} events", board.clock));
        }
        if !player.fits(k, board) {
            return Some(format!("after {k} events the board is not as played"));
        }
        if before.is_some_and(|before| board.count <= before) {
            return Some(format!("event {} finishes no point", k - 1));
        }
        before = Some(board.count);
    }
    let last = printed.boards.last()?;
    if last.reply != Reply::Finished || last.count != plan.points() {
        return Some(format!("at the end {:?}", last.reply));
    }
    if printed.end != "kept" {
        return Some(format!("end {}", printed.end));
    }
    // The same by what was played, so that `kept` is not taken on the program's word.
    if let Some(what) = player.broken() {
        return Some(format!("not kept: {what}"));
    }
    // What events finish is a good sheet: the first minute and all gaps too.
    let faults = sheets::faults(plan, &player.minutes()?);
    (!faults.is_empty()).then(|| format!("no good sheet: {faults:?}"))
}
