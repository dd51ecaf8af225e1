//! The times, the table, and the musts.

use crate::calls_rows::{Row, LOGOUT};
use crate::calls_scene::{Lent, Model};
use crate::calls_turns::{run_model, Ours, ROUNDS};

const LOGIN: &str = "logout and login";
/// A call that takes the model so many nanoseconds has a limit.
const LONG: f64 = 1000.0;
const LIMIT: f64 = 3.0;
const LOGIN_LIMIT: f64 = 1.3;

/// Nanoseconds of one turn; the bytes of terminal that ours copies in it, and the nanoseconds of that.
#[derive(Clone, Copy)]
struct Times {
    ours: f64,
    model: f64,
    bytes: f64,
    copying: f64,
}

/// The model, with its least time so far.
struct Theirs<'a> {
    row: &'a Row,
    fresh: Lent,
    model: Model,
    least: f64,
}

impl<'a> Theirs<'a> {
    fn new(row: &'a Row) -> Self {
        let (fresh, model) = (Lent::new(row.given), Model::new(row.given));
        Theirs {
            row,
            fresh,
            model,
            least: f64::MAX,
        }
    }

    fn round(&mut self) {
        self.model.lent.become_as(&self.fresh);
        self.model.start();
        let (number, time) = run_model(self.row, &mut self.model, self.row.model_turns);
        assert_eq!(number, self.row.number, "{}", self.row.name);
        self.least = self.least.min(time);
    }

    fn turn(&self) -> f64 {
        self.least / f64::from(self.row.model_turns)
    }
}

/// The bytes and the nanoseconds of a row in what the counting build printed.
fn copied(name: &str, counted: &str) -> (f64, f64) {
    let mut lines = counted.lines().map(|line| line.split('\t').collect::<Vec<_>>());
    let words = lines.find(|words| words[0] == name).expect("every row is counted");
    (words[1].parse().expect("bytes"), words[2].parse().expect("nanoseconds"))
}

/// Every round goes through all rows, so that a slow spell of the machine does not meet one row alone.
fn measure(rows: &[Row], counted: &str) -> Vec<Times> {
    let mut measured: Vec<(Ours, Theirs)> = rows.iter().map(|row| (Ours::new(row), Theirs::new(row))).collect();
    for _ in 0..ROUNDS {
        for (ours, theirs) in &mut measured {
            ours.round();
            theirs.round();
        }
    }
    let times = |(row, (ours, theirs)): (&Row, &(Ours, Theirs))| {
        let (bytes, copying) = copied(row.name, counted);
        Times {
            ours: ours.turn(),
            model: theirs.turn(),
            bytes,
            copying,
        }
    };
    rows.iter().zip(&measured).map(times).collect()
}

/// Prints a line with its must, if it has one, and answers whether that holds. Copying that is lost among the noise shows as a dash.
fn judged(name: &str, t: Times, limit: Option<f64>) -> bool {
    let holds = limit.is_none_or(|limit| t.ours <= limit * t.model);
    let verdict = if holds { "holds" } else { "DOES NOT HOLD" };
    let must = limit.map_or(String::new(), |limit| format!("  at most {limit}: {verdict}"));
    let copying = if t.copying > 0.0 {
        format!("{:9.0}{:7.0} %", t.copying, 100.0 * t.copying / t.ours)
    } else {
        format!("{:>9}{:>9}", "-", "-")
    };
    println!(
        "{name:38}{:9.0}{:9.0}{:9.2}{:10.0}{copying}{must}",
        t.ours,
        t.model,
        t.ours / t.model,
        t.bytes
    );
    holds
}

/// A login by itself is the pair less a logout.
fn login_alone(name: &str, pair: Times, logout: Times) -> bool {
    let login = Times {
        ours: pair.ours - logout.ours,
        model: pair.model - logout.model,
        bytes: pair.bytes - logout.bytes,
        copying: pair.copying - logout.copying,
    };
    judged(&format!("  login alone{}", &name[LOGIN.len()..]), login, Some(LOGIN_LIMIT))
}

pub fn run(rows: &[Row]) -> i32 {
    let path = std::env::args().nth(1).expect("the file that the counting build wrote");
    let counted = std::fs::read_to_string(path).expect("the file that the counting build wrote");
    let times = measure(rows, &counted);
    let logout = rows.iter().position(|row| row.name == LOGOUT).expect("a row of logouts");
    println!(
        "\nnanoseconds of one turn, the least of {ROUNDS} rounds; of ours, the bytes of terminal copied, what that takes, and its share\n"
    );
    println!(
        "{:38}{:>9}{:>9}{:>9}{:>10}{:>9}{:>9}",
        "", "ours", "model", "ratio", "copied", "copying", "share"
    );
    let mut all = true;
    for (row, t) in rows.iter().zip(&times) {
        all &= judged(row.name, *t, (t.model >= LONG).then_some(LIMIT));
        if row.name.starts_with(LOGIN) {
            all &= login_alone(row.name, *t, times[logout]);
        }
    }
    let verdict = if all { "hold" } else { "DO NOT HOLD" };
    println!("\nbench: musts, a login at most {LOGIN_LIMIT} of the model's time and a call of 1 us or more at most {LIMIT}: {verdict}");
    i32::from(!all)
}
