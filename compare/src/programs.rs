//! Runs the two programs on one input and says what each printed and how it ended.

use std::fs::File;
use std::io::{self, Read, Write};
use std::os::unix::process::CommandExt;
use std::path::{Path, PathBuf};
use std::process::{Child, ChildStdout, Command, Stdio};
use std::sync::{Arc, Mutex};
use std::thread::{self, JoinHandle};
use std::time::{Duration, Instant};

/// A program that has not ended after this long is stopped, which shows in how it ended.
const PATIENCE: Duration = Duration::from_secs(60);
/// Any pipe has room for as much.
const PIPE: usize = 4_096;

/// How an input reaches a program.
#[derive(Clone, Copy, PartialEq, Eq, Debug)]
pub enum Way {
    Pipe,
    /// A pipe filled in pieces of so many bytes, so that reads come short.
    Pieces(usize),
    File,
}

/// What a program printed and how it ended.
#[derive(Clone, PartialEq, Eq, Debug)]
pub struct Shown {
    pub bytes: Vec<u8>,
    /// Standard error, where it is looked at.
    pub errors: Vec<u8>,
    pub ended: String,
}

/// Two programs of one name.
#[derive(Clone)]
pub struct Both {
    pub name: String,
    /// The words that start our program.
    pub ours: Vec<String>,
    /// The independent program.
    pub theirs: String,
    /// A file for inputs that are read from one.
    pub scratch: PathBuf,
}

/// A program that runs, and since when.
struct Running {
    since: Instant,
    child: Arc<Mutex<Child>>,
    /// Its process group, which has what it started in turn, where it has one of its own.
    group: Option<u32>,
}

static RUNNING: Mutex<Vec<Running>> = Mutex::new(Vec::new());

/// Starts the thread that stops programs which do not end.
pub fn watch() {
    thread::spawn(|| loop {
        thread::sleep(Duration::from_secs(1));
        for one in RUNNING.lock().expect("no thread fails with it").iter() {
            if one.since.elapsed() > PATIENCE {
                // It may have ended by now; one whose end is waited for is let be.
                let Ok(mut child) = one.child.try_lock() else {
                    continue;
                };
                if let Some(group) = one.group {
                    let group = format!("-{group}");
                    let _ = Command::new("kill").args(["-KILL", "--", &group]).status();
                }
                let _ = child.kill();
            }
        }
    });
}

struct Started {
    child: Arc<Mutex<Child>>,
    output: ChildStdout,
    errors: Option<JoinHandle<io::Result<Vec<u8>>>>,
    writer: Option<JoinHandle<()>>,
}

/// Is standard error looked at?
#[derive(Clone, Copy, PartialEq, Eq)]
enum Errors {
    Dropped,
    Kept,
}

impl Both {
    /// Runs both on the input: ours, then the independent one.
    pub fn run(&self, input: &[u8], way: Way) -> io::Result<(Shown, Shown)> {
        let theirs = std::slice::from_ref(&self.theirs);
        run_both(
            &self.ours,
            theirs,
            input,
            way,
            &self.scratch,
            Errors::Dropped,
        )
    }

    /// Do they differ, or does one not end well?
    pub fn differ(&self, input: &[u8], way: Way) -> io::Result<bool> {
        let (ours, theirs) = self.run(input, way)?;
        Ok(differ(&ours, &theirs))
    }
}

/// Runs two programs, each started by these words, on the input: ours, then the independent one, with what they say on
/// standard error.
pub fn run_with_errors(
    ours: &[String],
    theirs: &[String],
    input: &[u8],
    way: Way,
    scratch: &Path,
) -> io::Result<(Shown, Shown)> {
    run_both(ours, theirs, input, way, scratch, Errors::Kept)
}

fn run_both(
    ours: &[String],
    theirs: &[String],
    input: &[u8],
    way: Way,
    scratch: &Path,
    errors: Errors,
) -> io::Result<(Shown, Shown)> {
    if way == Way::File {
        std::fs::write(scratch, input)?;
    }
    let started = [
        start(ours, input, way, scratch, errors)?,
        start(theirs, input, way, scratch, errors)?,
    ];
    let [ours, theirs] = started.map(finish);
    Ok((ours?, theirs?))
}

pub fn differ(ours: &Shown, theirs: &Shown) -> bool {
    ours != theirs || ours.ended != ENDED_WELL
}

/// How a program ends that ends well.
pub const ENDED_WELL: &str = "exit status: 0";

/// Runs one program on an input by a pipe.
pub fn run(words: &[String], input: &[u8]) -> io::Result<Shown> {
    let nowhere = Path::new("");
    finish(start(words, input, Way::Pipe, nowhere, Errors::Dropped)?)
}

/// Starts one program; where the input is read from a file, it stands there.
fn start(
    words: &[String],
    input: &[u8],
    way: Way,
    file: &Path,
    errors: Errors,
) -> io::Result<Started> {
    let mut command = Command::new(&words[0]);
    command.args(&words[1..]);
    command.stdout(Stdio::piped()).stderr(match errors {
        Errors::Dropped => Stdio::null(),
        Errors::Kept => Stdio::piped(),
    });
    if way == Way::File {
        command.stdin(File::open(file)?);
    } else {
        command.stdin(Stdio::piped());
    }
    // A script's own programs hold its outputs open, and have to be stopped with it.
    if errors == Errors::Kept {
        command.process_group(0);
    }
    let mut child = command.spawn()?;
    let group = (errors == Errors::Kept).then_some(child.id());
    let output = child.stdout.take().expect("it is piped");
    let errors = child.stderr.take().map(|mut errors| {
        thread::spawn(move || {
            let mut bytes = Vec::new();
            errors.read_to_end(&mut bytes).map(|_| bytes)
        })
    });
    let mut writer = None;
    if let Some(mut pipe) = child.stdin.take() {
        // A program may end before it has read everything: what it printed is what counts.
        if way == Way::Pipe && input.len() <= PIPE {
            let _ = pipe.write_all(input);
        } else {
            let size = match way {
                Way::Pieces(size) => size,
                _ => PIPE,
            };
            let input = input.to_vec();
            writer = Some(thread::spawn(move || {
                for piece in input.chunks(size) {
                    if pipe.write_all(piece).is_err() {
                        return;
                    }
                    thread::yield_now();
                }
            }));
        }
    }
    let child = Arc::new(Mutex::new(child));
    let mut running = RUNNING.lock().expect("no thread fails with it");
    running.push(Running {
        since: Instant::now(),
        child: child.clone(),
        group,
    });
    Ok(Started {
        child,
        output,
        errors,
        writer,
    })
}

fn finish(mut started: Started) -> io::Result<Shown> {
    let mut bytes = Vec::new();
    started.output.read_to_end(&mut bytes)?;
    let status = started
        .child
        .lock()
        .expect("no thread fails with it")
        .wait()?;
    let mut running = RUNNING.lock().expect("no thread fails with it");
    running.retain(|one| !Arc::ptr_eq(&one.child, &started.child));
    drop(running);
    if let Some(writer) = started.writer {
        writer.join().expect("the writer does not fail");
    }
    let errors = started
        .errors
        .map(|reader| reader.join().expect("the reader does not fail"));
    Ok(Shown {
        bytes,
        errors: errors.transpose()?.unwrap_or_default(),
        ended: status.to_string(),
    })
}
