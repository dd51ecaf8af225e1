//! What the copying of the terminal takes. The linker hands every memcpy of this build to the one below (`--wrap=memcpy`), which makes each copy of 256 bytes or more
//! once or twice: the difference is what these copies take where they stand. They are copies of the terminal, of a part of it or of the permission table, since what
//! a call moves for its caller goes through memmove and loops.
//!
//! Prints a line for each row: its name, the bytes that one turn copies so, and the nanoseconds.

use crate::calls_rows::Row;
use crate::calls_scene::Lent;
use crate::calls_turns::{Ours, FEW, ROUNDS};
use std::sync::atomic::{AtomicBool, AtomicU64, Ordering::Relaxed};

const LEAST: usize = 256;
static TWICE: AtomicBool = AtomicBool::new(false);
static BYTES: AtomicU64 = AtomicU64::new(0);

extern "C" {
    fn __real_memcpy(to: *mut u8, from: *const u8, length: usize) -> *mut u8;
}

#[no_mangle]
unsafe extern "C" fn __wrap_memcpy(to: *mut u8, from: *const u8, length: usize) -> *mut u8 {
    if length >= LEAST {
        BYTES.store(BYTES.load(Relaxed) + length as u64, Relaxed);
        if TWICE.load(Relaxed) {
            __real_memcpy(to, from, length);
        }
    }
    __real_memcpy(to, from, length)
}

/// The bytes that ours copies in so many turns.
fn copied(row: &Row, turns: u32) -> u64 {
    let mut lent = Lent::new(row.given);
    let before = BYTES.load(Relaxed);
    (row.ours)(&mut lent, turns);
    BYTES.load(Relaxed) - before
}

pub fn run(rows: &[Row]) -> i32 {
    let mut once: Vec<Ours> = rows.iter().map(Ours::new).collect();
    let mut twice: Vec<Ours> = rows.iter().map(Ours::new).collect();
    for _ in 0..ROUNDS {
        for (once, twice) in once.iter_mut().zip(&mut twice) {
            once.round();
            TWICE.store(true, Relaxed);
            twice.round();
            TWICE.store(false, Relaxed);
        }
    }
    for (row, (once, twice)) in rows.iter().zip(once.iter().zip(&twice)) {
        let bytes = copied(row, FEW + 1) - copied(row, FEW);
        println!("{}\t{bytes}\t{:.1}", row.name, twice.turn() - once.turn());
    }
    0
}
