//! The two printing programs.

mod common;
use common::*;
use oracle::plan::Plan;
use oracle::text::{offers, sheet};
use std::io::{self, Read};

const MARK: [u8; 16] = [255; 16];

fn sheet_of(input: &[u8]) -> String {
    let mut output = Vec::new();
    sheet(&mut &input[..], &mut output).unwrap();
    String::from_utf8(output).unwrap()
}

fn offers_of(input: &[u8]) -> String {
    let mut output = Vec::new();
    offers(&mut &input[..], &mut output).unwrap();
    String::from_utf8(output).unwrap()
}

fn input(plan: &Plan, events: &[[u8; 16]]) -> Vec<u8> {
    let mut input = plan.to_bytes();
    input.extend(MARK);
    input.extend(events.concat());
    input
}

#[test]
fn a_refused_plan_prints_one_line() {
    let bad = bytes(&records(2, &[ordinary(0, 1, 1), ordinary(0, 1, 2)]));
    for print in [sheet_of, offers_of] {
        assert_eq!(print(&[]), "plan 1 0\n");
        assert_eq!(print(&MARK), "plan 1 0\n");
        assert_eq!(print(&[1; 15]), "plan 2 0\n");
        assert_eq!(print(&[255; 15]), "plan 2 0\n");
        assert_eq!(print(&[0; 1_128 * 16]), "plan 4 0\n");
        assert_eq!(print(&[0; 1_129 * 16]), "plan 3 0\n");
        assert_eq!(print(&[0; 5000 * 16]), "plan 3 0\n");
        assert_eq!(print(&[0; 5000 * 16 + 7]), "plan 2 0\n");
        assert_eq!(print(&bad), "plan 8 3\n");
        // With the 255 record an unfinished record is no part of the plan.
        let mut long = vec![0; 5000 * 16];
        long.extend(MARK);
        long.extend([0; 5]);
        assert_eq!(print(&long), "plan 3 0\n");
        let mut more = bad.clone();
        more.extend(MARK);
        more.extend(event(0, 0, &[]));
        more.push(1);
        assert_eq!(print(&more), "plan 8 3\n");
    }
}

#[test]
fn without_the_255_record_there_are_no_events() {
    let file = haul().to_bytes();
    assert_eq!(sheet_of(&file), "end open\n");
    assert_eq!(sheet_of(&input(&haul(), &[])), "end open\n");
    let mut odd = file.clone();
    odd.push(255);
    assert_eq!(sheet_of(&odd), "plan 2 0\n");
    // An event in its place is a record of the plan.
    let mut more = file.clone();
    more.extend(event(0, 0, &[]));
    assert_eq!(sheet_of(&more), "plan 4 9\n");
}

#[test]
fn the_255_record_is_looked_for_at_multiples_of_16() {
    // Two pond codes and what stands between them hold 16 bytes 255, but in no one place.
    let mut file = bytes(&records(3, &[]));
    file[28..44].fill(255);
    assert_eq!(sheet_of(&file), "plan 4 2\n");
    let mut file = bytes(&records(1, &[]));
    file[12..16].fill(255);
    file.extend([255; 12]);
    assert_eq!(sheet_of(&file), "plan 2 0\n");
    file.extend([255; 4]);
    assert_eq!(sheet_of(&file), "end open\n");
}

#[test]
fn a_later_255_record_is_an_event() {
    let plan = plan(2, &[]);
    let events = [event(0, 0, &[]), MARK, event(5, 1, &[]), MARK];
    let expected = "0 0 0 1\n1 23 0 1\n2 0 5 2\n3 21 5 2\nend kept\n";
    assert_eq!(sheet_of(&input(&plan, &events)), expected);
}

#[test]
fn an_unfinished_record_prints_tail() {
    let plan = plan(1, &[]);
    for length in 0..16 {
        let mut bytes = input(&plan, &[event(3, 0, &[])]);
        bytes.extend(vec![255; length]);
        let tail = if length == 0 { "" } else { "tail\n" };
        let expected = format!("0 0 3 1\n{tail}end kept\n");
        assert_eq!(sheet_of(&bytes), expected);
        let expected = format!(
            "test yes 1\nboard 0 0 offers 100000\npoint 0 0 offered 0\n\
             event 0 0\nboard 3 1 finished\n{tail}end kept\n"
        );
        assert_eq!(offers_of(&bytes), expected);
    }
}

#[test]
fn the_four_ends() {
    let chained = plan(2, &[link(0, 1, 5, 1), ordinary(1, 0, 0), ordinary(0, 2, 1)]);
    let run = |minute| input(&chained, &[event(0, 0, &[]), event(minute, NONE, &[1])]);
    assert_eq!(sheet_of(&run(2)), "0 0 0 1\n1 0 2 2\nend kept\n");
    assert_eq!(sheet_of(&run(4)), "0 0 0 1\n1 0 4 2\nend broken 4\n");
    assert_eq!(sheet_of(&run(6)), "0 0 0 1\n1 26 0 1\nend open\n");
    let stuck = plan(2, &[ordinary(0, -5, 1), ordinary(1, -5, 0)]);
    let one = input(&stuck, &[event(0, 0, &[])]);
    assert_eq!(sheet_of(&one), "0 22 0 0\nend stuck\n");
    let list = "point 0 0 shut 2 ordinary 0 -5 1\npoint 1 0 shut 3 ordinary 1 -5 0\n";
    assert_eq!(
        offers_of(&one),
        format!(
            "test cycle 0\nboard 0 0 stuck\n{list}event 0 22\nboard 0 0 stuck\n{list}end stuck\n"
        )
    );
}

#[test]
fn offers_of_the_haul() {
    let mut records = haul().to_records();
    records[2].code = 4_294_967_295;
    records[3].code = 20_240_131;
    let plan = oracle::plan::read(&bytes(&records)).unwrap();
    let events = [
        event(0, 0, &[]),
        event(12, 1, &[]),
        event(31, NONE, &[2]),
        event(40, NONE, &[2]),
        event(43, 3, &[]),
    ];
    let expected = "\
test yes 31
board 0 0 offers 100000
point 0 0 offered 0
point 1 0 shut 5 ordinary 1 -10 0
point 2 4294967295 watched
point 3 20240131 shut 8 wait 3 2 35
event 0 0
board 0 1 offers 100000
point 0 0 done 0
point 1 0 offered 10
point 2 4294967295 watched
point 3 20240131 shut 8 wait 3 2 35
event 1 0
board 12 2 offers 100012
point 0 0 done 0
point 1 0 done 12
point 2 4294967295 watched
point 3 20240131 offered 47
event 2 26
board 12 2 offers 100012
point 0 0 done 0
point 1 0 done 12
point 2 4294967295 watched
point 3 20240131 offered 47
event 3 0
board 40 3 offers 45
point 0 0 done 0
point 1 0 done 12
point 2 4294967295 done 40
point 3 20240131 offered 40
event 4 0
board 43 4 finished
end kept
";
    assert_eq!(offers_of(&input(&plan, &events)), expected);
}

#[test]
fn the_first_line_of_offers() {
    let first = |plan: &Plan| {
        offers_of(&plan.to_bytes())
            .lines()
            .next()
            .unwrap()
            .to_string()
    };
    assert_eq!(first(&haul()), "test yes 31");
    assert_eq!(first(&haul_with(&[])), "test pair 0 3 0");
    assert_eq!(first(&haul_with(&[wait(3, 2, 34)])), "test pair 30 3 0");
    assert_eq!(first(&plan(2, &[link(0, 1, 5000, 1)])), "test 13");
    let late = plan(2, &[link(0, 1, 5, 1), ordinary(0, 3, 1)]);
    assert_eq!(first(&late), "test cycle 3");
}

#[test]
fn held_and_waiting_are_printed() {
    let held = plan(3, &[ordinary(0, 10, 1), ordinary(2, -11, 0)]);
    let text = offers_of(&input(&held, &[event(0, 0, &[])]));
    let expected = "board 0 1 offers 10\npoint 0 0 done 0\npoint 1 0 offered 0\npoint 2 0 held\n";
    assert!(text.contains(expected));
    let waiting = plan(2, &[link(0, 1, 5, 1)]);
    let text = offers_of(&input(&waiting, &[event(0, 0, &[])]));
    let list = "point 0 0 done 0\npoint 1 0 watched\n";
    assert!(text.ends_with(&format!("event 0 0\nboard 0 1 waiting\n{list}end open\n")));
}

/// A reader that hands out one byte at a time, and is interrupted before each.
struct Slow<'a>(&'a [u8], bool);

impl Read for Slow<'_> {
    fn read(&mut self, buffer: &mut [u8]) -> io::Result<usize> {
        self.1 = !self.1;
        if self.1 {
            return Err(io::ErrorKind::Interrupted.into());
        }
        match self.0.split_first() {
            Some((byte, rest)) if !buffer.is_empty() => {
                buffer[0] = *byte;
                self.0 = rest;
                Ok(1)
            }
            _ => Ok(0),
        }
    }
}

/// On random inputs: both programs agree line by line, and how the bytes arrive is nothing to
/// them.
#[test]
fn both_programs_agree() {
    let mut random = Random::new(7);
    for _ in 0..2_000 {
        let plan = random_plan(&mut random, 9);
        let mut bytes = input(&plan, &[]);
        let mut minute = 0;
        for _ in 0..random.below(10) {
            minute += random.below(4) as u32;
            let foreman = [NONE, random.below(5) as u8][random.below(2)];
            let set = [random.below(5) as u8];
            bytes.extend(event(minute, foreman, &set[..random.below(2)]));
        }
        if random.below(3) == 0 {
            let at = random.below(bytes.len());
            bytes[at] = random.below(256) as u8;
        }
        bytes.truncate(bytes.len() - random.below(2) * random.below(16));
        let short = sheet_of(&bytes);
        let long = offers_of(&bytes);
        let mut slow = Vec::new();
        sheet(&mut Slow(&bytes, false), &mut slow).unwrap();
        assert_eq!(String::from_utf8(slow).unwrap(), short);

        let mut rebuilt = String::new();
        let mut event = None;
        for line in long.lines() {
            let words: Vec<&str> = line.split(' ').collect();
            match words[0] {
                "event" => event = Some(format!("{} {}", words[1], words[2])),
                "board" => {
                    if let Some(event) = event.take() {
                        rebuilt += &format!("{event} {} {}\n", words[1], words[2]);
                    }
                }
                "plan" | "tail" | "end" => rebuilt += &format!("{line}\n"),
                "test" | "point" => {}
                _ => panic!("{line}"),
            }
        }
        assert_eq!(rebuilt, short);
    }
}

#[test]
fn any_bytes_are_answered() {
    let mut random = Random::new(8);
    for _ in 0..3_000 {
        let length = random.below(200);
        let bytes: Vec<u8> = (0..length)
            .map(|_| [0, 1, 2, 3, 4, 255, random.below(256) as u8][random.below(7)])
            .collect();
        let text = sheet_of(&bytes);
        let last = text.lines().last().unwrap();
        assert!(last.starts_with("plan ") || last.starts_with("end "));
        assert!(text.ends_with('\n'));
    }
}
