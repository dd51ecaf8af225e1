//! `fuzz REPLAY N [FIRST_SEED]`: compares the program REPLAY with the model on N random texts.
//!
//! With `-` for REPLAY nothing is compared, and only the table of the model's answers is printed.
#![forbid(unsafe_code)]

use model::generate::cells::{CALLS, NEVER};
use model::generate::tally::{answers, grouped, lines, Tally};
use model::generate::{child, text};
use std::process::ExitCode;
use std::sync::atomic::{AtomicBool, AtomicU64, Ordering};
use std::sync::Mutex;
use std::time::{Duration, Instant};

const WORKERS: usize = 2;
/// From so many texts on, every cell that can arise must have been reached.
const ENOUGH_TEXTS: u64 = 300;

struct Job {
    program: String,
    texts: u64,
    first_seed: u64,
}

/// What the workers share.
struct Shared {
    taken: AtomicU64,
    failed: AtomicBool,
    tally: Mutex<Tally>,
    last_notice: Mutex<Instant>,
}

fn main() -> ExitCode {
    let Some(job) = job() else {
        eprintln!("usage: fuzz REPLAY N [FIRST_SEED]   (REPLAY may be -)");
        return ExitCode::from(2);
    };
    let shared = Shared {
        taken: AtomicU64::new(0),
        failed: AtomicBool::new(false),
        tally: Mutex::new(Tally::default()),
        last_notice: Mutex::new(Instant::now()),
    };
    std::thread::scope(|scope| {
        for _ in 0..WORKERS {
            scope.spawn(|| work(&job, &shared));
        }
    });
    let failed = shared.failed.load(Ordering::SeqCst);
    let tally = shared.tally.into_inner().expect("no worker panicked");
    match report(&tally, failed, job.program == "-") {
        true => ExitCode::SUCCESS,
        false => ExitCode::FAILURE,
    }
}

fn job() -> Option<Job> {
    let mut words = std::env::args().skip(1);
    let program = words.next()?;
    let texts = words.next()?.parse().ok()?;
    let first_seed = match words.next() {
        Some(word) => word.parse().ok()?,
        None => 0,
    };
    Some(Job {
        program,
        texts,
        first_seed,
    })
}

/// Takes seed after seed until all are done or a difference was found.
fn work(job: &Job, shared: &Shared) {
    while !shared.failed.load(Ordering::SeqCst) {
        let number = shared.taken.fetch_add(1, Ordering::SeqCst);
        if number >= job.texts {
            return;
        }
        let seed = job.first_seed.wrapping_add(number);
        if let Err(difference) = one_text(job, shared, seed) {
            shared.failed.store(true, Ordering::SeqCst);
            println!("{difference}");
        }
        notice(job, shared, number + 1);
    }
}

fn notice(job: &Job, shared: &Shared, done: u64) {
    let mut last = shared.last_notice.lock().expect("no worker panicked");
    if done % 1_000 == 0 || last.elapsed() > Duration::from_secs(5) {
        eprintln!("fuzz: {} of {} texts", grouped(done), grouped(job.texts));
        *last = Instant::now();
    }
}

fn one_text(job: &Job, shared: &Shared, seed: u64) -> Result<(), String> {
    let text = text(seed);
    let mut expected = Vec::new();
    model::replay::run(&mut &text[..], &mut expected).map_err(|error| format!("model: {error}"))?;
    let mut tally = Tally::default();
    tally.add_text(&text, &expected);
    shared
        .tally
        .lock()
        .expect("no worker panicked")
        .merge(tally);
    if job.program == "-" {
        return Ok(());
    }
    let outcome = child::run(&job.program, &text)
        .map_err(|error| format!("cannot run {}: {error}", job.program))?;
    if outcome.output == expected && outcome.ended_well {
        return Ok(());
    }
    let file = format!("difference-{seed}.replay");
    let kept = std::fs::write(&file, &text).map_or("not written".to_string(), |()| file);
    let place = first_difference(&text, &expected, &outcome.output);
    Err(format!("seed {seed} ({kept}), {}\n{place}", outcome.status))
}

/// The first output line that differs and the input line it answers.
fn first_difference(text: &[u8], expected: &[u8], got: &[u8]) -> String {
    let (model_lines, program_lines) = (lines(expected), lines(got));
    let longest = model_lines.len().max(program_lines.len());
    let differs = |&place: &usize| model_lines.get(place) != program_lines.get(place);
    let Some(place) = (0..longest).find(differs) else {
        return "the outputs agree line by line".to_string();
    };
    let ranges = answers(text, expected);
    let input = ranges.iter().position(|range| range.end > place);
    let where_from = match input {
        Some(index) => format!("line {}: {}", index + 1, shown(lines(text).get(index), 0)),
        None => "behind the last answer".to_string(),
    };
    let (model_line, program_line) = (model_lines.get(place), program_lines.get(place));
    let same = same_bytes(model_line, program_line);
    format!(
        "{where_from}\nmodel:   {}\nprogram: {}",
        shown(model_line, same),
        shown(program_line, same)
    )
}

/// How many bytes the two lines begin with in common.
fn same_bytes(one: Option<&&[u8]>, other: Option<&&[u8]>) -> usize {
    match (one, other) {
        (Some(one), Some(other)) => one.iter().zip(*other).take_while(|(a, b)| a == b).count(),
        _ => 0,
    }
}

/// A line, or of a long one the part around the byte of interest.
fn shown(line: Option<&&[u8]>, interest: usize) -> String {
    let Some(bytes) = line else {
        return "(nothing)".to_string();
    };
    let begin = if interest > 200 { interest - 100 } else { 0 };
    let end = bytes.len().min(begin + 400);
    let part = String::from_utf8_lossy(&bytes[begin.min(end)..end]);
    let before = if begin > 0 {
        format!("(from byte {begin}) ")
    } else {
        String::new()
    };
    let behind = if end < bytes.len() { " ..." } else { "" };
    format!("{before}{part}{behind}")
}

/// Prints the table and says whether everything is as it must be.
fn report(tally: &Tally, failed: bool, alone: bool) -> bool {
    println!("{}", tally.table());
    print_never();
    let (missing, wrong) = tally.faults();
    for cell in &wrong {
        println!("reached, though it cannot arise: {cell}");
    }
    let enough = tally.texts >= ENOUGH_TEXTS;
    for cell in missing.iter().filter(|_| enough) {
        println!("not reached: {cell}");
    }
    let (texts, calls) = (grouped(tally.texts), grouped(tally.calls));
    let (lines, bad_lines) = (grouped(tally.lines), grouped(tally.bad_lines));
    println!("{texts} texts, {lines} lines, {calls} calls, {bad_lines} bad lines");
    let well = !failed && wrong.is_empty() && (missing.is_empty() || !enough);
    let verdict = match (failed, well, alone) {
        (true, _, _) => "a difference",
        (false, false, _) => "the table is not as it must be",
        (false, true, true) => "nothing compared",
        (false, true, false) => "no difference",
    };
    println!("fuzz: {texts} texts, {calls} calls, {verdict}");
    well
}

fn print_never() {
    println!("Cells that cannot arise:");
    for (calls, numbers, reason) in NEVER {
        let names = match calls.len() == CALLS.len() - 1 {
            true => "every call".to_string(),
            false => calls.join(", "),
        };
        let numbers: Vec<String> = numbers.iter().map(u16::to_string).collect();
        println!("  {names}: {}: {reason}", numbers.join(" "));
    }
}
