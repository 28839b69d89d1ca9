//! The runs of `crates/lent_runs`, done again here: its stored output is what this program answers.

use oracle::board::Board;
use oracle::plan;
use oracle::verdict::{judge, Listed, Verdict};

const ROOM: usize = 4096;

fn board(done: u32, last: u32) -> Board {
    let mut board = Board::fresh();
    board.clock = 47;
    board.done = done;
    board.minutes[1] = 12;
    board.minutes[2] = 47;
    board.minutes[3] = last;
    // Points 2 and 3 at one minute are one event, or would be.
    for (point, number) in [1, 2, 3, 3].into_iter().enumerate() {
        board.numbers[point] = if board.is_done(point) { number } else { 0 };
    }
    board
}

fn bound(x: u32, y: u32, bound: i32) -> Listed {
    Listed { x, y, bound }
}

/// The first `count` of a list that holds the same bound in each place but one.
fn run(
    plan: &[u8],
    board: Board,
    each: Listed,
    place: usize,
    other: Listed,
    count: usize,
) -> String {
    let mut list = vec![each; ROOM];
    list[place] = other;
    let answer = plan::read(plan).and_then(|plan| judge(&plan, &board, &list[..count.min(ROOM)]));
    match answer {
        Err((number, place)) => format!("R {number:02} {place:04}\n"),
        Ok(Verdict::Kept) => "K 00 0000\n".to_string(),
        Ok(Verdict::Broken(place)) => format!("B 00 {place:04}\n"),
    }
}

#[test]
fn stored_output_is_ours() {
    let haul = include_bytes!("../../crates/lent_runs/stdin");
    let stored = include_str!("../../crates/lent_runs/stdout");
    let done = || board(15, 47);
    let (kept, broken, unnamed) = (bound(0, 1, 12), bound(0, 1, 11), bound(0, 4, 0));
    let ones = [
        (0, 1, 12),
        (0, 1, 11),
        (1, 0, -12),
        (1, 0, -13),
        (0, 1, i32::MAX),
        (3, 0, i32::MIN),
        (3, 3, 0),
        (4, 3, 0),
        (3, 4, 0),
        (255, 0, 0),
        (0, 255, 0),
    ];
    let mut ours = String::new();
    for (x, y, most) in ones {
        let one = bound(x, y, most);
        ours += &run(haul, done(), one, 0, one, 1);
    }
    ours += &run(haul, done(), broken, 0, broken, 0);
    ours += &run(haul, done(), kept, 0, kept, ROOM);
    ours += &run(haul, done(), kept, ROOM - 1, broken, ROOM);
    ours += &run(haul, done(), kept, ROOM - 1, broken, ROOM - 1);
    ours += &run(haul, done(), kept, ROOM - 1, broken, 5000);
    ours += &run(haul, done(), broken, 4000, unnamed, 4000);
    ours += &run(haul, done(), broken, 4000, unnamed, ROOM);
    ours += &run(haul, board(7, 0), broken, 0, unnamed, ROOM);
    ours += &run(haul, board(7, 47), broken, 0, unnamed, ROOM);
    ours += &run(&[], board(7, 47), broken, 0, unnamed, ROOM);
    assert_eq!(ours, stored);
}
