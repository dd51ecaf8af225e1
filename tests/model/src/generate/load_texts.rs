//! Texts for load: long runs of calls, very long lines, and noise.

use super::composer::Composer;
use super::random::Random;
use super::script::hex;

/// How long the single texts are; each is also run ten times over.
#[derive(Clone, Copy)]
pub struct Unit {
    pub bytes: usize,
    pub calls: usize,
}

pub const SMALL: Unit = Unit {
    bytes: 100_000,
    calls: 1_000,
};
pub const LARGE: Unit = Unit {
    bytes: 1_000_000,
    calls: 10_000,
};

const MEGABYTE: usize = 1_000_000;

pub struct Kind {
    pub name: String,
    pub text: Vec<u8>,
}

fn kind(name: &str, text: Vec<u8>) -> Kind {
    Kind {
        name: name.to_string(),
        text,
    }
}

/// The kinds that are run once and ten times over.
pub fn kinds(unit: Unit) -> Vec<Kind> {
    let mut random = Random::new(unit.bytes as u64);
    vec![
        kind("a long run", run_of_bytes(unit.bytes)),
        kind("many calls", run_of_calls(unit.calls)),
        kind("long hex lines", hex_line(MEGABYTE)),
        kind("long comments", filled_line(b"# ", b'c', MEGABYTE)),
        kind(
            "long noise lines",
            [&noise(&mut random, MEGABYTE)[..], b"\n"].concat(),
        ),
        kind(
            "long lines of letters",
            filled_line(b"partitions ", b'A', MEGABYTE),
        ),
        kind("bytes of every kind", random.bytes(unit.bytes)),
        kind(
            "lines of random length",
            random_lines(&mut random, unit.bytes),
        ),
        kind("no line feed", noise(&mut random, unit.bytes)),
        kind("a comment without line feed", vec![b'#'; unit.bytes]),
        kind("only line feeds", vec![b'\n'; unit.bytes]),
    ]
}

/// Texts that ten times over would be something else or nothing else.
pub fn single() -> Vec<Kind> {
    vec![
        kind("an empty text", Vec::new()),
        kind("one line feed", b"\n".to_vec()),
        kind("one byte", b"x".to_vec()),
        kind("one number sign", b"#".to_vec()),
        kind("the longest good line", exact_line(131_200)),
        kind("one byte more", exact_line(131_201)),
        kind(
            "the longest good line, no line feed",
            exact_line(131_200)[..131_200].to_vec(),
        ),
    ]
}

/// Lines that bring the terminal room back to its first state, so that a run can be repeated.
const FROM_THE_BEGINNING: &[u8] =
    b"clear\npartitions A\nsoft no\narena 4096\ntables 4096\nscreens 16000\n";

fn run_of_bytes(bytes: usize) -> Vec<u8> {
    let mut composer = begun(1);
    while composer.script.bytes() < bytes {
        composer.episode();
    }
    composer.script.finish(true)
}

fn run_of_calls(calls: usize) -> Vec<u8> {
    let mut composer = begun(2);
    while composer.script.calls() < calls {
        composer.episode();
    }
    composer.script.finish(true)
}

fn begun(seed: u64) -> Composer {
    let mut composer = Composer::new(seed);
    for line in FROM_THE_BEGINNING
        .split(|&byte| byte == b'\n')
        .filter(|line| !line.is_empty())
    {
        composer.script.line(line);
    }
    composer.accepted_start();
    composer
}

fn hex_line(length: usize) -> Vec<u8> {
    [b"image ", hex(&vec![0x5a; length / 2]).as_bytes(), b"\n"].concat()
}

fn filled_line(first: &[u8], rest: u8, length: usize) -> Vec<u8> {
    let mut line = first.to_vec();
    line.resize(length, rest);
    line.push(b'\n');
    line
}

/// A line of exactly this many bytes before its line feed; it is good if it may be that long.
fn exact_line(length: usize) -> Vec<u8> {
    filled_line(b"partitions ", b'A', length)
}

/// Random bytes with no line feed among them, and no number sign in front.
fn noise(random: &mut Random, length: usize) -> Vec<u8> {
    let mut bytes = random.bytes(length);
    for byte in &mut bytes {
        if *byte == b'\n' {
            *byte = b' ';
        }
    }
    bytes[0] = b'n';
    bytes
}

/// Printable noise in lines of very different lengths, some of them empty.
fn random_lines(random: &mut Random, length: usize) -> Vec<u8> {
    let mut text = Vec::new();
    while text.len() < length {
        let longest = random.pick(&[1, 3, 20, 100, 5_000]);
        let count = random.below(longest);
        text.extend_from_slice(&random.printable(count));
        text.push(b'\n');
    }
    text
}
