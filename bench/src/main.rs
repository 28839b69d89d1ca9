//! The benchmark: bench PLAIN PROBE SHEET DESK CALLS [GROUP..], each of the first five the words that start a program, joined by spaces.
//! CALLS may be empty; then what goes through the C interface is left out. With groups only their lines are measured.
//! Started by bench/run from the folder above. README.md says what the lines are.

mod inputs;
mod lines;
mod measure;

use inputs::{Size, FULL, LARGEST};
use lines::{Bench, READ, REPLY, TAKE, VERDICT};
use measure::Words;
use std::io;
use std::process::ExitCode;

/// A typical plan, of 122 records.
const TYPICAL: Size = Size {
    points: 20,
    ordinary: 85,
    waits: 12,
    projections: 512,
};

/// 100 records each: eight points have no room for more ordinary ones of this form.
const BY_POINTS: [Size; 3] = [
    of_points(8, 30, 60),
    of_points(16, 55, 25),
    of_points(32, 45, 15),
];

const fn of_points(points: usize, ordinary: usize, waits: usize) -> Size {
    let projections = 4_096;
    Size {
        points,
        ordinary,
        waits,
        projections,
    }
}

/// Plans of 32 points, the largest first.
const BY_RECORDS: [Size; 6] = [
    LARGEST,
    FULL,
    of_points(32, 256, 64),
    of_points(32, 112, 28),
    of_points(32, 40, 10),
    of_points(32, 4, 1),
];

/// A group of lines, and what measures them.
type Group = (&'static str, fn(&Bench) -> io::Result<()>);

const GROUPS: [Group; 9] = [
    ("calls", calls),
    ("test", test),
    ("sheet", sheet),
    ("worst", worst),
    ("lighter", lighter),
    ("engine", engine),
    ("calendar", calendar),
    ("import", import),
    ("through", through),
];

fn main() -> ExitCode {
    let words: Vec<String> = std::env::args().skip(1).collect();
    let split = |text: &String| -> Words { text.split_whitespace().map(str::to_string).collect() };
    let [plain, probe, sheet, desk, calls, wanted @ ..] = &words[..] else {
        eprintln!("usage: bench PLAIN PROBE SHEET DESK CALLS [GROUP..]");
        return ExitCode::from(2);
    };
    let known = |name: &String| GROUPS.iter().any(|(group, _)| group == name);
    if let Some(name) = wanted.iter().find(|name| !known(name)) {
        eprintln!("bench: no group is called {name}");
        return ExitCode::from(2);
    }
    let [plain, probe, sheet, desk, calls] = [plain, probe, sheet, desk, calls].map(split);
    let bench = Bench {
        plain,
        probe,
        sheet,
        desk,
        calls,
    };
    match table(&bench, wanted) {
        Ok(()) => ExitCode::SUCCESS,
        Err(error) => {
            eprintln!("bench: {error}");
            ExitCode::from(2)
        }
    }
}

fn table(bench: &Bench, wanted: &[String]) -> io::Result<()> {
    println!(
        "| what | points | records | projections | ours | plain C | ratio | least | largest |"
    );
    println!("|---|---:|---:|---:|---:|---:|---:|---:|---:|");
    for (name, group) in GROUPS {
        if wanted.is_empty() || wanted.iter().any(|one| one == name) {
            group(bench)?;
        }
    }
    Ok(())
}

fn calls(bench: &Bench) -> io::Result<()> {
    for size in BY_RECORDS {
        bench.call("reading", size, READ)?;
    }
    for (what, asked) in [
        ("a reply", REPLY),
        ("an event", TAKE),
        ("a verdict", VERDICT),
    ] {
        for size in BY_RECORDS.iter().chain(&BY_POINTS[..2]) {
            bench.call(what, *size, asked)?;
        }
    }
    Ok(())
}

fn test(bench: &Bench) -> io::Result<()> {
    let by_projections = [1_024, 256].map(|projections| Size {
        projections,
        ..FULL
    });
    let sizes = [LARGEST, FULL].into_iter().chain(by_projections);
    for size in sizes.chain(BY_POINTS).chain([TYPICAL]) {
        bench.test("the plan test, against two tables", size, "test")?;
        bench.test("the plan test, against three tables", size, "test-three")?;
    }
    Ok(())
}

fn sheet(bench: &Bench) -> io::Result<()> {
    for size in [LARGEST, FULL, BY_RECORDS[4]] {
        let what = "a million events through sheet, against kept counts";
        bench.million(what, size, "sheet-counts", 7)?;
    }
    bench.million(
        "a million events through sheet, against all records read again",
        LARGEST,
        "sheet",
        3,
    )
}

fn worst(bench: &Bench) -> io::Result<()> {
    for size in [LARGEST, FULL, TYPICAL] {
        bench.worst("the worst minute", size)?;
    }
    Ok(())
}

fn lighter(bench: &Bench) -> io::Result<()> {
    let half = Size {
        ordinary: 42,
        ..TYPICAL
    };
    for size in [TYPICAL, half] {
        bench.lighter(size, 7)?;
    }
    for projections in [256] {
        let size = Size {
            projections,
            ..LARGEST
        };
        bench.lighter(size, 1)?;
    }
    Ok(())
}

fn engine(bench: &Bench) -> io::Result<()> {
    for (what, kind) in [
        ("an event by the engine", "event"),
        ("a reply by the engine", "reply"),
    ] {
        for size in BY_RECORDS {
            bench.through(&format!("{what}, against kept counts"), size, kind)?;
        }
        let what = format!("{what}, against all records read again");
        bench.through(&what, LARGEST, &format!("{kind}-plain"))?;
    }
    for others in [0, 100, 300, 930] {
        bench.around(others)?;
    }
    bench.through("the engine begun", LARGEST, "begin")
}

fn calendar(bench: &Bench) -> io::Result<()> {
    for size in BY_RECORDS {
        bench.through("a calendar", size, "calendar")?;
    }
    Ok(())
}

fn import(bench: &Bench) -> io::Result<()> {
    let text = inputs::text(&inputs::plan(LARGEST));
    bench.import("desk import of the largest plan", &text)?;
    bench.text("importing the largest plan", &text)?;
    let many: Vec<u8> = text.iter().copied().cycle().take(text.len() * 17).collect();
    bench.text("importing 18,632 lines", &many)?;
    let line: Vec<u8> = b"ordinary,1,2,-5,0,AB1234,"
        .iter()
        .copied()
        .cycle()
        .take(50_000_000)
        .collect();
    bench.text("importing one line of 50 MB", &line)
}

fn through(bench: &Bench) -> io::Result<()> {
    for (what, kind) in [
        ("reading through C", "check"),
        ("a verdict through C", "verdict"),
    ] {
        for size in [LARGEST, FULL, of_points(32, 4, 1)] {
            bench.through(what, size, kind)?;
        }
    }
    bench.through("a board through C", LARGEST, "board")
}
