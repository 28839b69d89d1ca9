//! The crate on the stored examples: each verb of the desk, refusals that leave their rooms alone, days on two threads.

use ponds::{import, Event, Outcome, Plan, Rooms, Start, State, Test, Verdict, Worst};
use std::path::Path;

fn stored(name: &str) -> Vec<u8> {
    let folder = Path::new(env!("CARGO_MANIFEST_DIR")).join("../../examples");
    std::fs::read(folder.join(name)).expect(name)
}

const MARK: [u8; ponds::RECORD_BYTES] = [255; ponds::RECORD_BYTES];

/// The plan file and the events of a stored day.
fn day_of(name: &str) -> (Vec<u8>, Vec<u8>) {
    let bytes = stored(name);
    let mut records = bytes.chunks(ponds::RECORD_BYTES);
    let at = records.position(|record| record == MARK).expect("a mark") * ponds::RECORD_BYTES;
    (bytes[..at].to_vec(), bytes[at + MARK.len()..].to_vec())
}

#[test]
fn plans() {
    let file = stored("ponds/plan.run");
    let plan = Plan::new(&file).unwrap();
    assert_eq!(plan.records() * ponds::RECORD_BYTES, file.len());
    assert_eq!(
        plan.worst(),
        Ok(Worst {
            minute: 145,
            projection: 2895
        })
    );
    let file = stored("haul/plan.run");
    let plan = Plan::new(&file).unwrap();
    assert_eq!((plan.points(), plan.records()), (4, 9));
    assert_eq!((plan.pond(2), plan.pond(4)), (Some(41705), None));
    let file = stored("drain-no-wait/plan.run");
    let pair = Test::Pair {
        projection: 11,
        x: 4,
        y: 2,
    };
    assert_eq!(Plan::new(&file).unwrap().test(), Ok(pair));
    let file = stored("cycle/plan.run");
    assert_eq!(Plan::new(&file).unwrap().test(), Ok(Test::Cycle(0)));
    let file = stored("wide/plan.run");
    assert_eq!(Plan::new(&file).unwrap().test().unwrap_err().number(), 13);
    let refusal = Plan::new(&stored("bad-wait/plan.run")).unwrap_err();
    assert_eq!((refusal.number(), refusal.place()), (11, 8));
    assert_eq!(Plan::new(&[]).unwrap_err().number(), 1);
}

#[test]
fn what_the_desk_makes() {
    let mut out = [7; ponds::MOST_FILE];
    let (file, events) = day_of("haul/worst.run");
    let day = Plan::new(&file).unwrap().day(30, &mut out).unwrap();
    assert_eq!(day, events);
    let made = Plan::new(&stored("feeding/plan.run"))
        .unwrap()
        .close(&mut out)
        .unwrap()
        .file();
    assert_eq!(made, stored("feeding-made/plan.run"));
    let mut dropped = [7; ponds::MOST_RECORDS];
    let file = stored("typed-twice/plan.run");
    let light = Plan::new(&file)
        .unwrap()
        .lighter(&mut out, &mut dropped)
        .unwrap();
    assert_eq!(light.plan.file(), stored("typed-once/plan.run"));
    let lines: String = light
        .dropped
        .iter()
        .map(|n| format!("dropped {n}\n"))
        .collect();
    assert_eq!(lines.into_bytes(), stored("typed-twice/dropped"));
    let plan = import(&stored("ponds/plan.csv"), &mut out).unwrap();
    assert_eq!(plan.file(), stored("ponds/plan.run"));
    let refusal = import(&stored("haul/dates.csv"), &mut out).unwrap_err();
    assert_eq!((refusal.number(), refusal.place()), (43, 2));
}

#[test]
fn a_refusal_leaves_all_as_it_was() {
    let (file, _) = day_of("haul/worst.run");
    let plan = Plan::new(&file).unwrap();
    let mut short = [7; ponds::RECORD_BYTES];
    assert_eq!(plan.day(30, &mut short).unwrap_err().number(), 12);
    assert_eq!(plan.close(&mut short).unwrap_err().number(), 61);
    let mut dropped = [7; ponds::MOST_RECORDS];
    assert_eq!(
        plan.lighter(&mut short, &mut dropped).unwrap_err().number(),
        12
    );
    assert_eq!(
        (short, dropped),
        ([7; ponds::RECORD_BYTES], [7; ponds::MOST_RECORDS])
    );
    let mut rooms = Box::new(Rooms::new());
    let mut day = plan.begin(&mut rooms);
    assert_eq!(day.verdict().unwrap_err().number(), 31);
    let before = (day.board(), day.reply());
    let refusal = day.take(Event::done(5, 3)).unwrap_err();
    assert_eq!((refusal.number(), refusal.place()), (28, 8));
    assert_eq!(day.take_bytes(&[0; 15]).unwrap_err().number(), 23);
    assert_eq!(before, (day.board(), day.reply()));
}

/// The calendar of a stored day that is kept, and its last board's clock. Events that are refused are left aside.
fn played(name: &str, start: Start) -> (String, u32) {
    let (file, events) = day_of(name);
    let mut rooms = Box::new(Rooms::new());
    let mut day = Plan::new(&file).unwrap().begin(&mut rooms);
    for event in events.chunks(ponds::RECORD_BYTES) {
        assert_ne!(day.reply().outcome(), Outcome::Finished);
        assert!(day
            .reply()
            .states()
            .any(|state| !matches!(state, State::Done(_))));
        let before = day.board();
        let taken = day.take_bytes(event);
        assert_eq!(taken.is_ok(), day.board() != before);
    }
    assert_eq!(day.reply().outcome(), Outcome::Finished);
    assert_eq!(day.verdict(), Ok(Verdict::Kept));
    let mut text = [0; ponds::MOST_CALENDAR];
    let no_day = Start {
        month: 2,
        day: 30,
        ..start
    };
    assert_eq!(day.calendar(no_day, &mut text).unwrap_err().number(), 51);
    assert_eq!(
        day.calendar(start, &mut text[..99]).unwrap_err().number(),
        52
    );
    let text = day.calendar(start, &mut text).unwrap().to_string();
    (text, day.board().clock)
}

#[test]
fn days_on_two_threads() {
    let haul = Start {
        year: 2026,
        month: 11,
        day: 16,
        hour: 6,
        minute: 0,
    };
    let two = Start {
        year: 2099,
        month: 12,
        day: 31,
        hour: 23,
        minute: 30,
    };
    let other = std::thread::spawn(move || {
        for _ in 0..100 {
            let (text, _) = played("ponds/kept.run", two);
            assert_eq!(text.into_bytes(), stored("ponds/kept.ics"));
        }
    });
    for _ in 0..100 {
        let (text, clock) = played("haul/kept.run", haul);
        assert_eq!(text.into_bytes(), stored("haul/kept.ics"));
        assert_eq!(clock, 43);
    }
    other.join().unwrap();
}
