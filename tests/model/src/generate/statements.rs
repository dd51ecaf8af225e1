//! The set-up text: statements as rows of tokens, and the spacing and comments between them.

use super::plan::{Permission, Plan, Segment};
use super::random::Random;

/// One statement, token by token, so that a break can change a single one.
#[derive(Clone)]
pub struct Statement {
    pub tokens: Vec<Vec<u8>>,
}

/// Places of tokens: the index in every statement, the path in CODE; in DSEG and MSEG the path
/// or size, the host and the first permission.
pub const INDEX: usize = 2;
pub const CODE_PATH: usize = 5;
pub const SUBJECT: usize = 6;
pub const HOST: usize = 8;
pub const FIRST_PERMISSION: usize = 10;

impl Statement {
    fn new(tokens: &[&[u8]]) -> Statement {
        Statement {
            tokens: tokens.iter().map(|token| token.to_vec()).collect(),
        }
    }

    pub fn code(random: &mut Random, partition: usize, path: &[u8]) -> Statement {
        let index = number(random, partition);
        let path = path_token(random, path);
        Statement::new(&[b"CODE", b"[", &index, b"]", b"=", &path, b";"])
    }

    pub fn dseg(random: &mut Random, index: usize, segment: &Segment) -> Statement {
        let path = path_token(random, &segment.path);
        Statement::segment(random, b"DSEG", index, &path, segment)
    }

    pub fn mseg(random: &mut Random, index: usize, segment: &Segment) -> Statement {
        let size = size_token(random, segment.size);
        Statement::segment(random, b"MSEG", index, &size, segment)
    }

    fn segment(
        random: &mut Random,
        word: &[u8],
        index: usize,
        subject: &[u8],
        segment: &Segment,
    ) -> Statement {
        let index = number(random, index);
        let host = number(random, segment.host);
        let mut tokens: Vec<&[u8]> =
            vec![word, b"[", &index, b"]", b"=", b"{", subject, b",", &host];
        for &permission in &segment.permissions {
            tokens.extend_from_slice(&[b",", permission.word()]);
        }
        tokens.extend_from_slice(&[b"}", b";"]);
        Statement::new(&tokens)
    }

    pub fn is_code(&self) -> bool {
        self.tokens[0] == b"CODE"
    }

    pub fn is_dseg(&self) -> bool {
        self.tokens[0] == b"DSEG"
    }

    pub fn is_mseg(&self) -> bool {
        self.tokens[0] == b"MSEG"
    }

    /// Puts other permissions in the place of those that stand there.
    pub fn set_permissions(&mut self, permissions: &[Permission]) {
        self.tokens.truncate(HOST + 1);
        for permission in permissions {
            self.tokens.push(b",".to_vec());
            self.tokens.push(permission.word().to_vec());
        }
        self.tokens.push(b"}".to_vec());
        self.tokens.push(b";".to_vec());
    }
}

pub fn of(random: &mut Random, plan: &Plan) -> Vec<Statement> {
    let mut statements = Vec::new();
    for (partition, path) in &plan.codes {
        statements.push(Statement::code(random, *partition, path));
    }
    for (index, segment) in plan.dsegs.iter().enumerate() {
        statements.push(Statement::dseg(random, index, segment));
    }
    for (index, segment) in plan.msegs.iter().enumerate() {
        statements.push(Statement::mseg(random, index, segment));
    }
    statements
}

/// A number as written, now and then behind leading zeros, also more than a number has digits.
pub fn number(random: &mut Random, value: usize) -> Vec<u8> {
    let zeros = match random.below(24) {
        0 => random.pick(&[1, 2, 9, 10, 11, 30]),
        _ => 0,
    };
    format!("{}{value}", "0".repeat(zeros)).into_bytes()
}

/// A size, with a unit where it comes out even.
fn size_token(random: &mut Random, size: usize) -> Vec<u8> {
    if size % 1024 == 0 && random.chance(1, 2) {
        return [&number(random, size / 1024)[..], b"KB"].concat();
    }
    number(random, size)
}

/// A path, in quotes where its bytes need them and now and then where they do not.
pub fn path_token(random: &mut Random, path: &[u8]) -> Vec<u8> {
    let needs = path.iter().any(|byte| b" ,;{}".contains(byte));
    if needs || random.chance(1, 3) {
        return [b"\"", path, b"\""].concat();
    }
    path.to_vec()
}

/// How the tokens stand apart: not at all, as people write, or wildly.
#[derive(Clone, Copy)]
enum Spacing {
    Dense,
    Usual,
    Wild,
}

pub fn render(random: &mut Random, statements: &[Statement]) -> Vec<u8> {
    let spacing = match random.weighted(&[1, 4, 2]) {
        0 => Spacing::Dense,
        1 => Spacing::Usual,
        _ => Spacing::Wild,
    };
    let mut text = Vec::new();
    for statement in statements {
        for token in &statement.tokens {
            let before = space_before(random, spacing, token);
            text.extend_from_slice(&before);
            text.extend_from_slice(token);
        }
        if matches!(spacing, Spacing::Usual) {
            text.push(b'\n');
        }
    }
    if random.chance(1, 6) {
        // A comment at the text's end needs no line feed.
        text.extend_from_slice(b"# end");
    }
    text
}

fn space_before(random: &mut Random, spacing: Spacing, token: &[u8]) -> Vec<u8> {
    match spacing {
        Spacing::Dense => Vec::new(),
        Spacing::Usual if token.len() > 2 && random.chance(1, 12) => comment(random),
        Spacing::Usual if matches!(token, b"=" | b"{" | b"}") => b" ".to_vec(),
        Spacing::Usual => Vec::new(),
        Spacing::Wild => match random.below(12) {
            0 => b"\t".to_vec(),
            1 => b"\n".to_vec(),
            2 => b" \n\n \t ".to_vec(),
            3 => comment(random),
            4 | 5 => b" ".to_vec(),
            _ => Vec::new(),
        },
    }
}

/// A comment may hold any byte but the line feed that ends it.
fn comment(random: &mut Random) -> Vec<u8> {
    let inside: &[u8] = match random.below(6) {
        0 => b"",
        1 => b" \"unclosed",
        2 => b" \r",
        3 => b"\x00\xff\x7f\t",
        4 => b" # CODE[0] = /x;",
        _ => b" \"/a\" ; } plain words",
    };
    [b"#", inside, b"\n"].concat()
}

/// Brings a text to a length, with spaces in front or a comment behind.
pub fn pad(random: &mut Random, mut text: Vec<u8>, length: usize) -> Vec<u8> {
    if text.len() >= length {
        return text;
    }
    let missing = length - text.len();
    if random.chance(1, 2) {
        let mut padded = vec![b' '; missing];
        padded.append(&mut text);
        return padded;
    }
    text.extend_from_slice(&vec![b'#'; missing]);
    text
}
