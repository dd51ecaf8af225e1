//! Counts of answers: reads a replay text beside its output and fills the answer table.

use super::cells::{self, CALLS, NUMBERS};
use std::ops::Range;

pub struct Tally {
    pub counts: [[u64; NUMBERS.len()]; CALLS.len()],
    pub texts: u64,
    pub lines: u64,
    pub calls: u64,
    pub bad_lines: u64,
    /// Answers with a number that 01 does not have.
    pub strange: Vec<String>,
}

impl Default for Tally {
    fn default() -> Tally {
        Tally {
            counts: [[0; NUMBERS.len()]; CALLS.len()],
            texts: 0,
            lines: 0,
            calls: 0,
            bad_lines: 0,
            strange: Vec::new(),
        }
    }
}

/// The lines of a text or an output; bytes behind the last line feed are a line too.
pub fn lines(bytes: &[u8]) -> Vec<&[u8]> {
    let mut lines: Vec<&[u8]> = bytes.split(|&byte| byte == b'\n').collect();
    if lines.last().is_some_and(|last| last.is_empty()) {
        lines.pop();
    }
    lines
}

fn word(line: &[u8]) -> &[u8] {
    line.split(|&byte| byte == b' ').next().unwrap_or(b"")
}

/// How many output lines belong to an input line, given the output from there on.
fn answer_length(line: &[u8], number: usize, output: &[&[u8]]) -> usize {
    if line.is_empty() || line[0] == b'#' {
        return 0;
    }
    if output.first() == Some(&format!("bad line {number}").as_bytes()) {
        return 1;
    }
    match word(line) {
        b"show" => {
            let last = output.iter().position(|line| word(line) == b"permissions");
            last.map_or(output.len(), |place| place + 1)
        }
        b"screen" if output.first() == Some(&&b"screen -"[..]) => 1,
        b"screen" => 25.min(output.len()),
        name if CALLS.iter().any(|call| call.as_bytes() == name) => 1.min(output.len()),
        _ => 0,
    }
}

/// For each input line the range of output lines that answer it.
pub fn answers(text: &[u8], output: &[u8]) -> Vec<Range<usize>> {
    let output = lines(output);
    let mut ranges = Vec::new();
    let mut place = 0;
    for (index, line) in lines(text).iter().enumerate() {
        let end = place + answer_length(line, index + 1, &output[place..]);
        ranges.push(place..end);
        place = end;
    }
    ranges
}

impl Tally {
    pub fn add_text(&mut self, text: &[u8], output: &[u8]) {
        let output_lines = lines(output);
        let input_lines = lines(text);
        self.texts += 1;
        self.lines += input_lines.len() as u64;
        for (line, range) in input_lines.iter().zip(answers(text, output)) {
            if range.len() == 1 {
                self.add_answer(line, output_lines[range.start]);
            }
        }
    }

    fn add_answer(&mut self, line: &[u8], answer: &[u8]) {
        if answer.starts_with(b"bad line ") {
            self.bad_lines += 1;
            return;
        }
        let Some(call) = CALLS.iter().position(|call| call.as_bytes() == word(line)) else {
            return;
        };
        self.calls += 1;
        let number = std::str::from_utf8(answer).unwrap_or("").split(' ').nth(1);
        let number = number.and_then(|digits| digits.parse::<u16>().ok());
        match number.and_then(|number| NUMBERS.iter().position(|&known| known == number)) {
            Some(column) => self.counts[call][column] += 1,
            None => self
                .strange
                .push(String::from_utf8_lossy(answer).into_owned()),
        }
    }

    pub fn merge(&mut self, other: Tally) {
        for (row, other_row) in self.counts.iter_mut().zip(other.counts) {
            for (count, more) in row.iter_mut().zip(other_row) {
                *count += more;
            }
        }
        self.texts += other.texts;
        self.lines += other.lines;
        self.calls += other.calls;
        self.bad_lines += other.bad_lines;
        self.strange.extend(other.strange);
    }

    /// Cells that can arise and were not reached, and cells that cannot and were.
    pub fn faults(&self) -> (Vec<String>, Vec<String>) {
        let (mut missing, mut wrong) = (Vec::new(), self.strange.clone());
        for (row, call) in CALLS.iter().enumerate() {
            for (column, &number) in NUMBERS.iter().enumerate() {
                match (cells::can_arise(call, number), self.counts[row][column]) {
                    (true, 0) => missing.push(format!("{call} {number}")),
                    (false, 1..) => {
                        let reason = cells::why_never(call, number).unwrap_or("no reason given");
                        wrong.push(format!("{call} {number} ({reason})"));
                    }
                    _ => {}
                }
            }
        }
        (missing, wrong)
    }

    /// The table, in two bands so that a line stays readable; a dot is a cell that cannot arise.
    pub fn table(&self) -> String {
        let split = NUMBERS
            .iter()
            .position(|&number| number >= 401)
            .unwrap_or(NUMBERS.len());
        [self.band(0..split), self.band(split..NUMBERS.len())].join("\n")
    }

    fn band(&self, columns: Range<usize>) -> String {
        let mut text = format!("{:<14}", "");
        for column in columns.clone() {
            text += &format!("{:>8}", NUMBERS[column]);
        }
        text.push('\n');
        for (row, call) in CALLS.iter().enumerate() {
            text += &format!("{call:<14}");
            for column in columns.clone() {
                let count = self.counts[row][column];
                if count == 0 && !cells::can_arise(call, NUMBERS[column]) {
                    text += &format!("{:>8}", ".");
                } else {
                    text += &format!("{count:>8}");
                }
            }
            text.push('\n');
        }
        text
    }
}

/// A number with commas between its groups of three digits.
pub fn grouped(number: u64) -> String {
    let digits = number.to_string();
    let mut text = String::new();
    for (place, digit) in digits.chars().enumerate() {
        if place > 0 && (digits.len() - place) % 3 == 0 {
            text.push(',');
        }
        text.push(digit);
    }
    text
}

#[cfg(test)]
mod tests {
    use super::*;

    #[test]
    fn answers_are_laid_beside_their_lines() {
        let text = b"# note\nlogout 0\n\nkey 4\nkey 41\nscreen 9\nstart";
        let output = b"logout 216\nbad line 4\nscreen -\nstart 414 line 0\n";
        let ranges = answers(text, output);
        assert_eq!(ranges, [0..0, 0..1, 1..1, 1..2, 2..2, 2..3, 3..4]);
        let mut tally = Tally::default();
        tally.add_text(text, output);
        assert_eq!((tally.lines, tally.calls, tally.bad_lines), (7, 2, 1));
    }

    #[test]
    fn answers_that_cannot_be_are_named() {
        let mut tally = Tally::default();
        tally.add_text(b"logout 0\nlogout 0\n", b"logout 214\nlogout 999\n");
        let (missing, wrong) = tally.faults();
        assert!(missing.contains(&"logout 0".to_string()));
        assert_eq!(wrong.len(), 2);
    }

    #[test]
    fn numbers_are_grouped() {
        assert_eq!(grouped(0), "0");
        assert_eq!(grouped(999), "999");
        assert_eq!(grouped(1_234_567), "1,234,567");
    }
}
