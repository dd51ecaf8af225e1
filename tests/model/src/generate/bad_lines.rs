//! Lines that are answered as bad, lines that nearly are, and lines that are passed over.

use super::composer::Composer;
use super::random::Random;

/// Good lines, as a stock to spoil.
const GOOD: [&str; 20] = [
    "start",
    "show",
    "clear",
    "attention",
    "screen 0",
    "soft yes",
    "partitions AAP",
    "arena 4096",
    "text 2f61",
    "image -",
    "key 4a",
    "fault 0 1 set",
    "read_next 0 1 0 5 5",
    "read_random 0 2 0 0 5 5",
    "write_next 0 2 0 2 4a6b",
    "load 0 256 0 4",
    "login 0 616200 706100",
    "who 0 33",
    "set_password 0 6100 100",
    "configuration 0 2584",
];

/// Lines that are wrong in a way of their own.
const WRONG: &[&[u8]] = &[
    b"key 4",
    b"key 414",
    b"key 4142",
    b"key -",
    b"key 4g",
    b"key 4A",
    b"partitions",
    b"partitions ",
    b"partitions AX",
    b"partitions a",
    b"partitions AAAAAAAAAAX",
    b"partitions A A",
    b"soft maybe",
    b"soft",
    b"arena",
    b"arena -",
    b"arena 65537",
    b"tables 65537",
    b"screens 4294967295",
    b"screens 18446744073709551616",
    b"text abc",
    b"text AB",
    b"text 0x41",
    b"text",
    b"image --",
    b"image zz",
    b"fault 0 1",
    b"fault 0 1 on",
    b"fault 0 1 set clear",
    b"fault 0 keyboard set",
    b"screen",
    b"screen -",
    b"screen 0 0",
    b"who 0 033a",
    b"who 0 +33",
    b"logout",
    b"logout 0 0",
    b"powerdown",
    b"shutdown 0",
    b"shutdown 0 4",
    b"login 0 6100",
    b"login 0 6100 ",
    b"login 0  6100",
    b"flush 0 256",
    b"read_next 0 1 0 1",
    b"readnext 0 1 0 1 1",
    b"write_next 0 2 0 1 4",
    b"write_next 0 2 0 1",
    b" ",
    b"\r",
    b"\t",
    b"\x00",
    b"\xff\xfe\x00",
    b" # not a comment",
    b"start start",
    b"-",
    b"0",
];

/// The longest line that is read at all; beyond it only comments are passed over.
const LONGEST_LINE: usize = 131_200;

impl Composer {
    pub fn bad_line(&mut self) {
        let line = match self.random.below(6) {
            0 => self.random.pick(WRONG).to_vec(),
            1 => over_a_limit(&mut self.random),
            _ => spoiled(&mut self.random),
        };
        self.script.line(&line);
    }

    /// Lines that look odd and are good: leading zeros, nothing to append, numbers for nobody.
    pub fn odd_good_line(&mut self) {
        let partition = self.active_partition();
        let line = match self.random.below(9) {
            0 => format!("who 00{partition} 0000000000000000000033"),
            1 => format!("load 0{partition} 000256 00 01"),
            2 => format!("screen 00000000000{partition}"),
            3 => format!("read_random {partition} 02 0{partition} 01999 0000000000005 005"),
            4 => format!("flush 0{partition} 0256 04294967295"),
            5 => "text -".to_string(),
            6 => "image -".to_string(),
            7 => "screen 4294967295".to_string(),
            _ => "fault 4294967295 4294967295 set".to_string(),
        };
        self.script.words(line);
    }

    /// A comment or an empty line: nothing is answered, and the lines are still counted.
    pub fn passed_over(&mut self) {
        let lines: &[&[u8]] = &[b"", b"# a comment", b"#", b"#start", b"# \x00\xff\r", b"##"];
        let line = self.random.pick(lines);
        self.script.line(line);
    }

    /// Lines so long that a reader must not keep them, and the longest that it must.
    pub fn very_long_line(&mut self) {
        let length = self
            .random
            .pick(&[LONGEST_LINE, LONGEST_LINE + 1, LONGEST_LINE + 2, 200_000]);
        let first: &[u8] =
            self.random
                .pick(&[b"#", b"partitions A", b"x", b"key 4a ", b"image 00"]);
        let rest: u8 = if first.starts_with(b"image") {
            b'0'
        } else {
            b'P'
        };
        // `partitions` counts its first nine letters only, so the longest line of all is good.
        let mut line = first.to_vec();
        line.resize(length, rest);
        if line.starts_with(b"partitions") && length <= LONGEST_LINE {
            self.letters = line[11..20].to_vec();
        }
        self.script.line(&line);
    }
}

/// One of the good lines, spoiled in one way.
fn spoiled(random: &mut Random) -> Vec<u8> {
    let line = random.pick(&GOOD).as_bytes().to_vec();
    match random.below(16) {
        0 => [&line[..], b" "].concat(),
        1 => [b" ", &line[..]].concat(),
        2 => [&line[..], b"\r"].concat(),
        3 => [&line[..], b" 0"].concat(),
        4 => [&line[..], b"\0"].concat(),
        5 => [&line[..], b"\xff"].concat(),
        6 => without_last_word(&line),
        7 => line.to_ascii_uppercase(),
        8 => with_other_space(&line, b"  "),
        9 => with_other_space(&line, b"\t"),
        10 => [&line[..], b"#"].concat(),
        11 => with_last_word(&line, b"4294967296"),
        12 => with_last_word(&line, b"-1"),
        13 => with_last_word(&line, b"4A"),
        14 => with_last_word(&line, b"abc"),
        _ => [&line[1..], &line[..1]].concat(),
    }
}

fn with_other_space(line: &[u8], space: &[u8]) -> Vec<u8> {
    match line.iter().position(|&byte| byte == b' ') {
        Some(place) => [&line[..place], space, &line[place + 1..]].concat(),
        None => [line, space].concat(),
    }
}

fn without_last_word(line: &[u8]) -> Vec<u8> {
    match line.iter().rposition(|&byte| byte == b' ') {
        Some(place) => line[..place].to_vec(),
        None => line[..line.len() - 1].to_vec(),
    }
}

fn with_last_word(line: &[u8], word: &[u8]) -> Vec<u8> {
    [&without_last_word(line)[..], b" ", word].concat()
}

/// Calls and set-up lines one step over a limit of the replay text.
fn over_a_limit(random: &mut Random) -> Vec<u8> {
    let bytes = "00".repeat(4_097);
    let line = match random.below(9) {
        0 => "who 0 4097".to_string(),
        1 => "configuration 0 4097".to_string(),
        2 => "read_next 0 1 0 1 4097".to_string(),
        3 => "load 0 256 0 4294967295".to_string(),
        4 => format!("store 0 512 0 {bytes}"),
        5 => format!("write_next 0 2 0 1 {bytes}"),
        6 => format!("login 0 {bytes} 6100"),
        7 => format!("text {}", "20".repeat(20_001)),
        _ => format!("shutdown 0 {bytes}"),
    };
    line.into_bytes()
}
