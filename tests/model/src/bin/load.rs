//! `load REPLAY small|large`: bad input and load. Runs the program REPLAY on long texts and on
//! noise, compares it with the model, and checks that its memory does not grow with the text and
//! its time no more than the text does.
#![forbid(unsafe_code)]

use model::generate::tally::grouped;
use model::generate::{child, load_texts};
use std::process::ExitCode;
use std::time::Duration;

/// Peaks further apart than this many KiB count as growth.
const SAME_MEMORY: u64 = 1_024;
/// A shorter time than this says more about the machine than about the program.
const MEASURABLE: Duration = Duration::from_millis(20);
const GREATEST_RATIO: u32 = 15;

#[derive(Default)]
struct Count {
    passed: u32,
    failed: u32,
}

impl Count {
    fn check(&mut self, well: bool, what: &str) {
        println!("{} {what}", if well { "ok    " } else { "FAILED" });
        match well {
            true => self.passed += 1,
            false => self.failed += 1,
        }
    }
}

/// What was measured on one text; the time is that on a processor, so that other work on the
/// machine does not count as growth.
struct Measured {
    time: Duration,
    peak: u64,
}

fn main() -> ExitCode {
    let words: Vec<String> = std::env::args().skip(1).collect();
    let unit = match words.get(1).map(String::as_str) {
        Some("small") => load_texts::SMALL,
        Some("large") => load_texts::LARGE,
        _ => {
            eprintln!("usage: load REPLAY small|large");
            return ExitCode::from(2);
        }
    };
    let program = &words[0];
    let mut count = Count::default();
    for kind in load_texts::kinds(unit) {
        let once = measure(&mut count, program, &kind.name, &kind.text);
        let tenfold = kind.text.repeat(10);
        let name = format!("{}, ten times", kind.name);
        let ten_times = measure(&mut count, program, &name, &tenfold);
        if let (Some(once), Some(ten_times)) = (once, ten_times) {
            compare(&mut count, &kind.name, &once, &ten_times);
        }
    }
    for kind in load_texts::single() {
        measure(&mut count, program, &kind.name, &kind.text);
    }
    println!("load: {} passed, {} failed", count.passed, count.failed);
    match count.failed {
        0 => ExitCode::SUCCESS,
        _ => ExitCode::FAILURE,
    }
}

/// Runs the program on a text, compares its output with the model's, and measures it.
fn measure(count: &mut Count, program: &str, name: &str, text: &[u8]) -> Option<Measured> {
    let mut expected = Vec::new();
    if let Err(error) = model::replay::run(&mut &text[..], &mut expected) {
        count.check(false, &format!("{name}: model: {error}"));
        return None;
    }
    let mut time = Duration::MAX;
    // The better of two runs: the first may have waited for something else on the machine.
    for run in 0..2 {
        let outcome = match child::run(program, text) {
            Ok(outcome) => outcome,
            Err(error) => {
                count.check(false, &format!("{name}: cannot run {program}: {error}"));
                return None;
            }
        };
        let well = outcome.ended_well && outcome.output == expected;
        if run == 0 || !well {
            let bytes = grouped(text.len() as u64);
            count.check(
                well,
                &format!("{name}: {bytes} bytes, as the model, {}", outcome.status),
            );
        }
        time = time.min(outcome.time);
    }
    let needed = child::needed(program, text).unwrap_or_default();
    // Where the machine keeps no record of processor time, the clock has to do.
    let processor = needed.processor.unwrap_or(time);
    let (clock, peak) = (time.as_millis(), grouped(needed.peak_kib));
    println!(
        "       {name}: {clock} ms, on a processor {} ms, peak {peak} KiB",
        processor.as_millis()
    );
    Some(Measured {
        time: processor,
        peak: needed.peak_kib,
    })
}

/// The ten times longer text beside the single one.
fn compare(count: &mut Count, name: &str, once: &Measured, ten_times: &Measured) {
    let apart = ten_times.peak.abs_diff(once.peak);
    let known = once.peak > 0 && ten_times.peak > 0;
    let what = format!(
        "{name}: peak memory {} and {} KiB",
        grouped(once.peak),
        grouped(ten_times.peak)
    );
    count.check(known && apart <= SAME_MEMORY, &what);
    if once.time < MEASURABLE {
        return;
    }
    let what = format!(
        "{name}: on a processor {} ms, ten times {} ms",
        once.time.as_millis(),
        ten_times.time.as_millis()
    );
    count.check(ten_times.time <= once.time * GREATEST_RATIO, &what);
}
