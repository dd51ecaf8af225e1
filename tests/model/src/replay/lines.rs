//! Takes an input apart into lines, keeping no more of a line than can matter.

use std::io::{BufRead, ErrorKind, Result};

/// A longer line is bad, whatever it says, unless it is a comment.
const LIMIT: usize = 131_200;

/// One line, without its line feed.
#[derive(Debug, PartialEq, Eq)]
pub enum Line<'a> {
    /// An empty line or a comment.
    PassedOver,
    TooLong,
    Words(&'a [u8]),
}

pub struct Lines<'a> {
    input: &'a mut dyn BufRead,
    kept: Vec<u8>,
    count: u64,
}

impl<'a> Lines<'a> {
    pub fn new(input: &'a mut dyn BufRead) -> Self {
        Lines {
            input,
            kept: Vec::new(),
            count: 0,
        }
    }

    /// How many lines have been read, passed over ones too.
    pub fn count(&self) -> u64 {
        self.count
    }

    /// The next line; the bytes behind the last line feed are one, if there are any.
    pub fn next_line(&mut self) -> Result<Option<Line<'_>>> {
        if !self.read_line()? {
            return Ok(None);
        }
        self.count = self.count.saturating_add(1);
        Ok(Some(match self.kept.first() {
            None | Some(b'#') => Line::PassedOver,
            Some(_) if self.kept.len() > LIMIT => Line::TooLong,
            Some(_) => Line::Words(&self.kept),
        }))
    }

    /// Fills `kept` from the next line; false at the input's end.
    fn read_line(&mut self) -> Result<bool> {
        self.kept.clear();
        let mut any = false;
        loop {
            let chunk = match self.input.fill_buf() {
                Ok(chunk) => chunk,
                Err(error) if error.kind() == ErrorKind::Interrupted => continue,
                Err(error) => return Err(error),
            };
            if chunk.is_empty() {
                return Ok(any);
            }
            any = true;
            let feed = chunk.iter().position(|byte| *byte == b'\n');
            let used = feed.map_or(chunk.len(), |place| place + 1);
            keep(&mut self.kept, &chunk[..feed.unwrap_or(used)]);
            self.input.consume(used);
            if feed.is_some() {
                return Ok(true);
            }
        }
    }
}

/// Keeps one byte beyond the limit, which is enough to see that the line is too long.
fn keep(kept: &mut Vec<u8>, more: &[u8]) {
    let room = (LIMIT + 1).saturating_sub(kept.len());
    kept.extend_from_slice(&more[..more.len().min(room)]);
}

#[cfg(test)]
mod tests {
    use super::*;

    #[test]
    fn lines_and_their_count() {
        let mut input: &[u8] = b"one\n\n# two\nthree \r\nfour";
        let mut lines = Lines::new(&mut input);
        assert_eq!(lines.next_line().unwrap(), Some(Line::Words(b"one")));
        assert_eq!(lines.next_line().unwrap(), Some(Line::PassedOver));
        assert_eq!(lines.next_line().unwrap(), Some(Line::PassedOver));
        assert_eq!(lines.next_line().unwrap(), Some(Line::Words(b"three \r")));
        assert_eq!(lines.next_line().unwrap(), Some(Line::Words(b"four")));
        assert_eq!(lines.count(), 5);
        assert_eq!(lines.next_line().unwrap(), None);
    }

    #[test]
    fn a_long_line_is_not_kept() {
        let mut text = vec![b'x'; 1_000_000];
        text.push(b'\n');
        text.extend_from_slice(&[b'y'; LIMIT]);
        text.push(b'\n');
        text.push(b'#');
        text.extend_from_slice(&[b'z'; LIMIT + 1]);
        let mut input: &[u8] = &text;
        let mut lines = Lines::new(&mut input);
        assert_eq!(lines.next_line().unwrap(), Some(Line::TooLong));
        assert_eq!(lines.kept.len(), LIMIT + 1);
        assert_eq!(
            lines.next_line().unwrap(),
            Some(Line::Words(&[b'y'; LIMIT]))
        );
        assert_eq!(lines.next_line().unwrap(), Some(Line::PassedOver));
        assert_eq!(lines.next_line().unwrap(), None);
    }
}
