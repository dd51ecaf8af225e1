//! Times start, each of the fourteen calls and the key event: the proved terminal beside the Rust model, on a terminal of eight active partitions with 64 accounts
//! each, 16 dsegs and 16 msegs. Both have to give the same numbers and leave the same bytes first.
//!
//! The one argument is the file that this same program writes when it is built with `--cfg counted`. With `run ROW TURNS` it makes so many turns of ours and no
//! more, for a profiler.
//! Status 1: something differs, a login takes more than 1.3 of the model's time, or a call that takes the model 1 us or more takes more than 3 times as long.

#[cfg(counted)]
mod calls_counted;
mod calls_ours;
mod calls_rows;
mod calls_scene;
#[cfg(not(counted))]
mod calls_timed;
mod calls_turns;

#[cfg(counted)]
use calls_counted::run;
use calls_rows::{Row, KEY};
use calls_scene::{Lent, Model};
#[cfg(not(counted))]
use calls_timed::run;

/// Whether both give the same number and leave the same bytes, for some numbers of turns.
fn agree(row: &Row) -> bool {
    [1, 2, 7, 60].into_iter().all(|turns| {
        let (mut lent, mut model) = (Lent::new(row.given), Model::new(row.given));
        let ours = (row.ours)(&mut lent, turns);
        let (mut theirs, _) = calls_turns::run_model(row, &mut model, turns);
        if row.name == KEY {
            theirs = model.terminal.read_next(0, 1, 0, 1, &mut model.lent.buffer).0;
        }
        let bytes = if lent == model.lent { "the same" } else { "NOT the same" };
        let same = ours == row.number && theirs == row.number && lent == model.lent;
        if !same {
            println!(
                "bench: {}, {turns} turns: {} was awaited, ours is {ours}, the model's {theirs}; the bytes are {bytes}",
                row.name, row.number
            );
        }
        same
    })
}

/// One row's turns and nothing else, for a profiler.
fn one(rows: &[Row], name: &str, turns: &str) {
    let row = rows.iter().find(|row| row.name == name).expect("the name of a row");
    let turns = turns.parse().expect("a number of turns");
    (row.ours)(&mut Lent::new(row.given), turns);
}

fn main() {
    let rows = calls_rows::all();
    let words: Vec<String> = std::env::args().collect();
    if words.len() == 4 && words[1] == "run" {
        one(&rows, &words[2], &words[3]);
        return;
    }
    if !rows.iter().all(agree) {
        std::process::exit(1);
    }
    std::process::exit(run(&rows));
}
