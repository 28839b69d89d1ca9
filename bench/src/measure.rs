//! Runs a program on an input and says what it printed and how much processor time it took.

use std::fs::File;
use std::io::{self, Write};
use std::path::{Path, PathBuf};
use std::process::{Command, Stdio};

/// The words that start a program.
pub type Words = Vec<String>;

#[repr(C)]
#[derive(Default)]
struct Usage {
    user: [i64; 2],
    system: [i64; 2],
    rest: [i64; 14],
}

extern "C" {
    fn getrusage(who: i32, usage: *mut Usage) -> i32;
}

/// The processor time of all programs that were started and have ended, in seconds.
fn children() -> f64 {
    let mut usage = Usage::default();
    // RUSAGE_CHILDREN; `usage` has the layout of a Linux `struct rusage` of 64 bits.
    unsafe { getrusage(-1, &mut usage) };
    let seconds = |time: [i64; 2]| time[0] as f64 + time[1] as f64 / 1e6;
    seconds(usage.user) + seconds(usage.system)
}

/// The place of the input, and that of the same input without what is timed.
pub struct Machine {
    scratch: PathBuf,
    without: PathBuf,
}

impl Machine {
    pub fn new() -> Machine {
        let name = |what: &str| format!("bench-{}.{what}", std::process::id());
        Machine {
            scratch: std::env::temp_dir().join(name("input")),
            without: std::env::temp_dir().join(name("without")),
        }
    }

    /// Puts the input where programs read it from.
    pub fn input(&self, bytes: &[u8]) -> io::Result<()> {
        File::create(&self.scratch)?.write_all(bytes)
    }

    /// The same input without what is timed.
    pub fn input_without(&self, bytes: &[u8]) -> io::Result<()> {
        File::create(&self.without)?.write_all(bytes)
    }

    /// Runs a program: what it printed, if that is wanted, on standard error last, and its seconds.
    pub fn run(&self, words: &Words, wanted: bool) -> io::Result<(Vec<u8>, f64)> {
        Machine::run_on(&self.scratch, words, wanted)
    }

    /// The seconds of a program without what is timed.
    pub fn run_without(&self, words: &Words) -> io::Result<f64> {
        Ok(Machine::run_on(&self.without, words, false)?.1)
    }

    fn run_on(input: &Path, words: &Words, wanted: bool) -> io::Result<(Vec<u8>, f64)> {
        let before = children();
        let mut command = Command::new(&words[0]);
        command.args(&words[1..]).stdin(File::open(input)?);
        let end = || {
            if wanted {
                Stdio::piped()
            } else {
                Stdio::null()
            }
        };
        command.stdout(end()).stderr(end());
        let output = command.spawn()?.wait_with_output()?;
        if !output.status.success() {
            let what = format!("{} ended with {}", words.join(" "), output.status);
            return Err(io::Error::other(what));
        }
        Ok(([output.stdout, output.stderr].concat(), children() - before))
    }
}

impl Drop for Machine {
    fn drop(&mut self) {
        // It is there only if something was run.
        let _ = std::fs::remove_file(&self.scratch);
        let _ = std::fs::remove_file(&self.without);
    }
}

/// The middle one, the least and the largest.
pub fn spread(mut numbers: Vec<f64>) -> [f64; 3] {
    numbers.sort_by(f64::total_cmp);
    let last = numbers.len() - 1;
    [numbers[last / 2], numbers[0], numbers[last]]
}
