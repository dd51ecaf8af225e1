//! What a turn takes: ours by the difference between a few turns and many, the model's straight. Each time is the least of all rounds, and a round starts from the same
//! areas as the first.

use crate::calls_rows::Row;
use crate::calls_scene::{Lent, Model};
use std::hint::black_box;
use std::time::Instant;

/// The turns of a short run; a long one has the row's own number more.
pub const FEW: u32 = 4;
pub const ROUNDS: usize = 301;

fn nanoseconds(began: Instant) -> f64 {
    began.elapsed().as_secs_f64() * 1e9
}

/// Ours, with the least times so far.
pub struct Ours<'a> {
    row: &'a Row,
    fresh: Lent,
    lent: Lent,
    few: f64,
    many: f64,
}

impl<'a> Ours<'a> {
    pub fn new(row: &'a Row) -> Self {
        let fresh = Lent::new(row.given);
        let lent = fresh.clone();
        Ours {
            row,
            fresh,
            lent,
            few: f64::MAX,
            many: f64::MAX,
        }
    }

    fn run(&mut self, turns: u32) -> f64 {
        self.lent.become_as(&self.fresh);
        let began = Instant::now();
        let number = (self.row.ours)(&mut self.lent, turns);
        let time = nanoseconds(began);
        assert_eq!(number, self.row.number, "{}", self.row.name);
        time
    }

    pub fn round(&mut self) {
        self.few = self.few.min(self.run(FEW));
        self.many = self.many.min(self.run(FEW + self.row.turns));
    }

    pub fn turn(&self) -> f64 {
        (self.many - self.few) / f64::from(self.row.turns)
    }
}

/// So many turns of a started model: the last number, and how long they took.
pub fn run_model(row: &Row, model: &mut Model, turns: u32) -> (u32, f64) {
    (row.before)(model);
    model.spare(turns);
    let (mut number, turn) = (0, black_box(row.turn));
    let began = Instant::now();
    for _ in 0..turns {
        number = turn(black_box(&mut *model));
    }
    (number, nanoseconds(began))
}
