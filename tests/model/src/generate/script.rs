//! The replay text while it is being written, line by line.

use super::cells::CALLS;

pub struct Script {
    bytes: Vec<u8>,
    lines: usize,
    calls: usize,
}

impl Script {
    pub fn new() -> Script {
        Script {
            bytes: Vec::new(),
            lines: 0,
            calls: 0,
        }
    }

    pub fn line(&mut self, line: &[u8]) {
        self.bytes.extend_from_slice(line);
        self.bytes.push(b'\n');
        self.lines += 1;
        let word = line.split(|&byte| byte == b' ').next().unwrap_or(b"");
        if CALLS.iter().any(|call| call.as_bytes() == word) {
            self.calls += 1;
        }
    }

    pub fn words(&mut self, line: String) {
        self.line(line.as_bytes());
    }

    pub fn lines(&self) -> usize {
        self.lines
    }

    /// The lines that begin with the word of a call, bad ones among them.
    pub fn calls(&self) -> usize {
        self.calls
    }

    pub fn bytes(&self) -> usize {
        self.bytes.len()
    }

    /// The text, with or without the last line feed: bytes behind the last one are a line too.
    pub fn finish(mut self, last_line_feed: bool) -> Vec<u8> {
        if !last_line_feed {
            self.bytes.pop();
        }
        self.bytes
    }
}

/// Bytes as a replay line writes them: lower-case hex, or a dash for none.
pub fn hex(bytes: &[u8]) -> String {
    if bytes.is_empty() {
        return "-".to_string();
    }
    const DIGITS: &[u8; 16] = b"0123456789abcdef";
    let mut text = String::with_capacity(2 * bytes.len());
    for &byte in bytes {
        text.push(DIGITS[usize::from(byte >> 4)] as char);
        text.push(DIGITS[usize::from(byte & 15)] as char);
    }
    text
}
