//! Reads a replay text and writes its answers: one run of a terminal, line by line.

mod lines;
mod look;
mod room;
mod words;

use lines::{Line, Lines};
use room::Room;
use std::io::{BufRead, BufWriter, Result, Write};

/// Runs one replay text from `input` and writes the answers to `output`.
pub fn run(input: &mut dyn BufRead, output: &mut dyn Write) -> Result<()> {
    let mut output = BufWriter::new(output);
    let mut lines = Lines::new(input);
    let mut room = Room::new();
    while let Some(line) = lines.next_line()? {
        let answer = match line {
            Line::PassedOver => continue,
            Line::TooLong => None,
            Line::Words(bytes) => room.obey(bytes),
        };
        match answer {
            Some(answer) => output.write_all(&answer)?,
            None => writeln!(output, "bad line {}", lines.count())?,
        }
    }
    output.flush()
}

#[cfg(test)]
mod tests;
