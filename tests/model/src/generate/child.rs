//! Runs the program under test with a text on its standard input.

use std::io::{Read, Result, Write};
use std::process::{Child, Command, Stdio};
use std::sync::mpsc::{channel, RecvTimeoutError};
use std::sync::Mutex;
use std::thread;
use std::time::{Duration, Instant};

pub struct Outcome {
    pub output: Vec<u8>,
    pub ended_well: bool,
    pub status: String,
    pub time: Duration,
}

/// A program that takes longer hangs, and is ended.
const LONGEST_RUN: Duration = Duration::from_secs(120);

fn spawn(program: &str) -> Result<Child> {
    Command::new(program)
        .stdin(Stdio::piped())
        .stdout(Stdio::piped())
        .spawn()
}

/// Runs the program on a text. A thread of its own writes the text, since the program may answer
/// before it has read all of it, and both pipes would be full.
pub fn run(program: &str, text: &[u8]) -> Result<Outcome> {
    let begun = Instant::now();
    let mut child = spawn(program)?;
    let mut stdin = child.stdin.take().expect("piped");
    let mut stdout = child.stdout.take().expect("piped");
    let child = Mutex::new(child);
    let mut output = Vec::new();
    let (done, wait_for_done) = channel::<()>();
    let watched = &child;
    thread::scope(|scope| {
        scope.spawn(move || {
            // A program that ends early closes the pipe; its status tells.
            let _ = stdin.write_all(text);
        });
        scope.spawn(move || {
            if wait_for_done.recv_timeout(LONGEST_RUN) == Err(RecvTimeoutError::Timeout) {
                let _ = watched.lock().expect("not poisoned").kill();
            }
        });
        let read = stdout.read_to_end(&mut output);
        drop(done);
        read
    })?;
    let status = child.into_inner().expect("not poisoned").wait()?;
    let time = begun.elapsed();
    Ok(Outcome {
        output,
        ended_well: status.code() == Some(0),
        status: status.to_string(),
        time,
    })
}

/// What a run of the program took: its greatest resident memory, and its time on a processor,
/// which does not depend on what else the machine is doing.
#[derive(Default)]
pub struct Needed {
    pub peak_kib: u64,
    pub processor: Option<Duration>,
}

const BETWEEN_LOOKS: Duration = Duration::from_millis(2);
/// So many times in a row asleep: the program waits for its input.
const SURELY_ASLEEP: u32 = 4;

/// Runs the program on a text and looks at its records while it runs, since they are gone once it
/// has ended. The last byte is held back until the program sleeps, waiting for it: by then it has
/// met everything else. What it does after the end of its input is looked at as well.
pub fn needed(program: &str, text: &[u8]) -> Result<Needed> {
    let mut child = spawn(program)?;
    let mut stdin = child.stdin.take().expect("piped");
    let mut stdout = child.stdout.take().expect("piped");
    let process = child.id();
    let (most, last) = text.split_at(text.len().saturating_sub(1));
    let mut needed = Needed::default();
    thread::scope(|scope| {
        scope.spawn(move || {
            let mut block = vec![0; 65_536];
            while stdout.read(&mut block).is_ok_and(|count| count > 0) {}
        });
        let _ = stdin.write_all(most);
        watch(process, &mut needed, SURELY_ASLEEP);
        let _ = stdin.write_all(last);
        drop(stdin);
        if watch(process, &mut needed, u32::MAX) {
            let _ = child.kill();
        }
    });
    child.wait()?;
    Ok(needed)
}

/// Looks again and again until the process was asleep so many times in a row or has ended.
/// Answers whether it is still there.
fn watch(process: u32, needed: &mut Needed, enough: u32) -> bool {
    let begun = Instant::now();
    let mut asleep = 0;
    while begun.elapsed() < LONGEST_RUN {
        let Some(sleeps) = look(process, needed) else {
            return false;
        };
        asleep = if sleeps { asleep + 1 } else { 0 };
        if asleep >= enough {
            return true;
        }
        thread::sleep(BETWEEN_LOOKS);
    }
    true
}

/// Takes note of memory and time; answers whether the process sleeps, or nothing once it ended.
fn look(process: u32, needed: &mut Needed) -> Option<bool> {
    let status = std::fs::read_to_string(format!("/proc/{process}/status")).ok()?;
    let peak = field(&status, "VmHWM:")?.parse().ok()?;
    needed.peak_kib = needed.peak_kib.max(peak);
    let nanoseconds = std::fs::read_to_string(format!("/proc/{process}/schedstat"))
        .ok()
        .and_then(|numbers| numbers.split_whitespace().next()?.parse().ok());
    if let Some(time) = nanoseconds.map(Duration::from_nanos) {
        needed.processor = needed.processor.max(Some(time));
    }
    Some(field(&status, "State:") == Some("S"))
}

fn field<'a>(status: &'a str, name: &str) -> Option<&'a str> {
    let line = status.lines().find(|line| line.starts_with(name))?;
    line.split_whitespace().nth(1)
}
