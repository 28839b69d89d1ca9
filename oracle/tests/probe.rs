//! The requests of compare/PROBE.md.

mod common;
use common::*;
use oracle::probe::probe;

fn request(asked: u8, bytes: [u8; 3], numbers: [u32; 3]) -> Vec<u8> {
    let numbers = numbers.iter().flat_map(|number| number.to_le_bytes());
    [asked].into_iter().chain(bytes).chain(numbers).collect()
}

fn call(asked: u8) -> Vec<u8> {
    request(asked, [0; 3], [0; 3])
}

fn haul_on_the_desk() -> Vec<u8> {
    let records = haul().to_records();
    let mut bytes = request(1, [0; 3], [records.len() as u32, 0, 0]);
    for r in records {
        let numbers = [r.first as u32, r.second as u32, r.code];
        bytes.extend(request(2, [r.kind, r.a, r.b], numbers));
    }
    bytes
}

fn answers(requests: &[Vec<u8>]) -> Vec<String> {
    let mut output = Vec::new();
    probe(&mut &requests.concat()[..], &mut output).unwrap();
    let text = String::from_utf8(output).unwrap();
    text.lines().map(str::to_string).collect()
}

#[test]
fn the_haul() {
    let lines = answers(&[haul_on_the_desk(), call(19), call(21), call(16)]);
    assert_eq!(lines[..3], ["19 0 0 0", "21 101 31 0", "16 104 100000 0"]);
    assert_eq!(
        lines[3..8],
        ["0 5 0 0", "1 3 5 0", "2 2 0 0", "3 3 8 0", "4 3 0 0"]
    );
    assert_eq!(lines.len(), 3 + 32);
}

#[test]
fn boards_of_any_content() {
    let board = |clock, done, minute| {
        let set = request(3, [0; 3], [clock, done, 0]);
        let number = request(8, [32, 0, 0], [done, 0, 0]);
        [set, request(4, [0; 3], [minute, 0, 0]), number].concat()
    };
    // Point 0 done at minute 7; the same with another clock; point 0 not done, but with a minute.
    for (clock, done, minute, number) in [(7, 1, 7, 31), (8, 1, 7, 20), (7, 0, 7, 20)] {
        let lines = answers(&[haul_on_the_desk(), board(clock, done, minute), call(18)]);
        assert_eq!(lines, [format!("18 {number} 0 0")]);
    }
    // Another event number is not sound; the board handed back has it all the same.
    let numbered = request(8, [0; 3], [2, 0, 0]);
    let lines = answers(&[haul_on_the_desk(), board(7, 1, 7), numbered, call(17)]);
    assert_eq!(
        lines[..3],
        [
            "17 20 0 0".to_string(),
            "17 7 1 0".to_string(),
            "7 0 0 0".to_string()
        ]
    );
    assert_eq!((&lines[10][..], lines.len()), ("2 0 0 0", 2 + 8 + 8));
}

#[test]
fn plans_by_value_and_buffers() {
    let count = |count| request(1, [0; 3], [count, 0, 0]);
    let lines = answers(&[call(19), haul_on_the_desk(), count(1_129), call(19)]);
    assert_eq!(lines, ["19 1 0 0", "19 3 0 0"]);
    let buffer = |length| request(5, [0; 3], [length, 0, 0]);
    let lines = answers(&[
        haul_on_the_desk(),
        buffer(143),
        call(20),
        buffer(144),
        call(20),
    ]);
    assert!(lines[0].starts_with("20 12 0 "), "{}", lines[0]);
    assert!(lines[1].starts_with("20 0 0 "), "{}", lines[1]);
    // What was written reads back.
    let lines = answers(&[haul_on_the_desk(), buffer(144), call(20), call(22)]);
    assert_eq!(lines[1], "22 0 0 0");
    assert!(lines[2].starts_with("22 9 "), "{}", lines[2]);
}

fn finished_haul() -> Vec<u8> {
    let mut bytes = haul_on_the_desk();
    bytes.extend(request(3, [0; 3], [43, 15, 0]));
    for (point, minute) in [(0, 0), (1, 12), (2, 40), (3, 43)] {
        bytes.extend(request(4, [point, 0, 0], [minute, 0, 0]));
        bytes.extend(request(8, [point, 0, 0], [u32::from(point) + 1, 0, 0]));
    }
    bytes
}

#[test]
fn a_lent_list() {
    let bound = |place: u32, from: u32, to: u32, bound: i32| {
        request(6, [0; 3], [8 * place, from + 256 * to, bound as u32])
    };
    let judged = |bytes: u32, bounds: &[Vec<u8>]| {
        let buffer = request(5, [0; 3], [bytes, 0, 0]);
        answers(&[finished_haul(), buffer, bounds.concat(), call(23)])
    };
    assert_eq!(judged(0, &[bound(0, 9, 9, 0)]), ["23 0 0 0"]);
    // Seven bytes are no bound.
    assert_eq!(judged(7, &[bound(0, 9, 9, 0)]), ["23 0 0 0"]);
    assert_eq!(judged(8, &[bound(0, 0, 1, 12)]), ["23 0 0 0"]);
    assert_eq!(judged(8, &[bound(0, 0, 1, 11)]), ["23 100 0 0"]);
    let broken_first = [bound(0, 0, 1, i32::MIN), bound(1, 3, 4, i32::MAX)];
    assert_eq!(judged(16, &broken_first), ["23 8 1 0"]);
    // There is room for 4,096 of them.
    let far = |place| judged(65_536, &[bound(place, 0, 1, 11)]);
    assert_eq!(far(4_095), ["23 100 4095 0"]);
    assert_eq!(far(4_096), ["23 0 0 0"]);
    let open = answers(&[haul_on_the_desk(), call(23)]);
    assert_eq!(open, ["23 31 0 0"]);
}

#[test]
fn a_stream() {
    let event = |place: u32, minute: u32, point: u32, set: u32| {
        let first = request(6, [0; 3], [16 * place, minute, point]);
        [first, request(6, [0; 3], [16 * place + 8, set, 0])].concat()
    };
    let streamed = |bytes: u32, room: u32| {
        let mut all = haul_on_the_desk();
        all.extend(request(5, [0; 3], [bytes, 0, 0]));
        all.extend(event(0, 0, 0, 0));
        all.extend(event(1, 9, 3, 0));
        all.extend(event(2, 12, 1, 0));
        all.extend(request(24, [0; 3], [room, 7, 0]));
        answers(&[all])
    };
    let sum = |numbers: &[u64]| {
        let mixed = |sum: u64, x: &u64| (sum * 251 + x + 1) % 16_777_213;
        numbers.iter().fold(0, mixed)
    };
    // Of each event its number, the record beside it, the clock and the set: the wait, record 8, keeps 3 shut.
    let lines = streamed(48, 13);
    let whole = sum(&[0, 0, 0, 1, 28, 8, 0, 1, 0, 0, 12, 3, 7]);
    assert_eq!(
        lines[..3],
        [
            format!("24 0 0 {whole}"),
            "24 12 3 0".into(),
            "0 12 0 0".into()
        ]
    );
    assert_eq!((&lines[10][..], lines.len()), ("1 2 0 0", 2 + 8 + 8));
    // Two events, since there is no room for a third, or no third one.
    let lines = streamed(48, 11);
    let short = sum(&[0, 0, 0, 1, 28, 8, 0, 1, 7, 7, 7]);
    assert_eq!(
        lines[..2],
        [format!("24 0 0 {short}"), "24 0 1 0".to_string()]
    );
    assert_eq!(streamed(47, 11), lines);
    // 12,288 numbers at most, which is 3,072 events.
    let most = 4 * 3_072;
    assert_eq!(streamed(48, u32::MAX), streamed(48, most));
    assert_ne!(streamed(48, most - 1), streamed(48, most));
}

#[test]
fn an_unfinished_request_and_a_request_0_end_it() {
    let mut cut = call(99);
    cut.truncate(15);
    assert_eq!(answers(&[call(99), cut]), ["99 0 0 0"]);
    assert_eq!(answers(&[call(99), call(0), call(99)]), ["99 0 0 0"]);
}
