//! Set-up statements that are malformed or out of order (404), each in one way.

use super::random::Random;
use super::statements::{Statement, CODE_PATH, HOST, INDEX, SUBJECT};

pub fn break_syntax(random: &mut Random, statements: &mut Vec<Statement>) {
    if statements.is_empty() {
        statements.push(Statement::code(random, 0, b"/a"));
    }
    let place = random.below(statements.len());
    match random.below(8) {
        0 => out_of_order(random, statements),
        1 => stray_token(random, statements),
        2 => drop_token(random, &mut statements[place]),
        3 => bad_byte(random, &mut statements[place]),
        4 => bad_number(random, &mut statements[place]),
        5 => bad_path(random, statements),
        6 => bad_word(random, &mut statements[place]),
        _ => bad_list(random, &mut statements[place]),
    }
}

/// CODE behind a segment, or DSEG behind MSEG; where there is no segment, a statement cut short.
fn out_of_order(random: &mut Random, statements: &mut Vec<Statement>) {
    let first_segment = statements.iter().position(|statement| !statement.is_code());
    match first_segment {
        Some(place) if place > 0 => {
            let code = statements.remove(random.below(place));
            let behind = random.between(place, statements.len());
            statements.insert(behind, code);
        }
        _ => {
            let last = statements.last_mut().expect("never empty here");
            let kept = random.between(1, last.tokens.len() - 1);
            last.tokens.truncate(kept);
        }
    }
}

/// A token that begins no statement, between two of them or behind the last.
fn stray_token(random: &mut Random, statements: &mut Vec<Statement>) {
    let stray: &[&[u8]] = &[
        b";", b"x", b"}", b"\"", b"0", b"\r", b"\x00", b"CODE", b"/a;", b"\xff", b"\x7f", b"\x0b",
    ];
    let token = random.pick(stray).to_vec();
    let place = random.below(statements.len() + 1);
    statements.insert(
        place,
        Statement {
            tokens: vec![token],
        },
    );
}

fn drop_token(random: &mut Random, statement: &mut Statement) {
    let place = random.below(statement.tokens.len());
    statement.tokens.remove(place);
}

/// A byte that may stand in comments only, between two tokens.
fn bad_byte(random: &mut Random, statement: &mut Statement) {
    let byte = random.pick(&[0, 1, 11, 12, 13, 31, 127, 128, 255]);
    let place = random.between(1, statement.tokens.len() - 1);
    statement.tokens.insert(place, vec![byte]);
}

fn bad_number(random: &mut Random, statement: &mut Statement) {
    let bad: &[&[u8]] = &[
        b"4294967296",
        b"00000000000004294967296",
        b"99999999999999999999999",
        b"18446744073709551616",
        b"0KB",
        b"-0",
        b"+0",
        b"0x0",
        b"",
        b"a",
        b"0 0",
        b"0.0",
    ];
    let place = if statement.is_code() {
        INDEX
    } else {
        random.pick(&[INDEX, HOST])
    };
    if statement.is_mseg() && random.chance(1, 2) {
        let sizes: &[&[u8]] = &[
            b"2 KB",
            b"2kb",
            b"2TB",
            b"2K",
            b"KB",
            b"2KBKB",
            b"4294967296",
            b"4294967296KB",
            b"2B",
            b"2#\nKB",
        ];
        statement.tokens[SUBJECT] = random.pick(sizes).to_vec();
    } else if place < statement.tokens.len() {
        statement.tokens[place] = random.pick(bad).to_vec();
    }
}

/// A path that is none; where only msegs stand there, the first of them gets one as its size.
fn bad_path(random: &mut Random, statements: &mut [Statement]) {
    let bad: &[&[u8]] = &[
        b"\"\"",
        b"\"/\"",
        b"/",
        b"a",
        b"\"a\"",
        b"\"/a\"b",
        b"\"/a",
        b"/a\"",
        b"\"/a#b\"",
        b"\"/a\tb\"",
        b"\"/a\nb\"",
        b"\"/a\rb\"",
        b"/a b",
        b"/a\x80",
        b"\"/a\x7f\"",
        b"{/a}",
        b"' /a'",
        b"\" /a\"",
    ];
    let place = random.below(statements.len());
    let token = match random.below(6) {
        0 => [b'/'; 64].to_vec(),
        1 => [&b"\"/"[..], &[b'x'; 63], b"\""].concat(),
        _ => random.pick(bad).to_vec(),
    };
    let subject = if statements[place].is_code() {
        CODE_PATH
    } else {
        SUBJECT
    };
    statements[place].tokens[subject] = token;
}

fn bad_word(random: &mut Random, statement: &mut Statement) {
    let words: &[&[u8]] = &[
        b"code",
        b"CODES",
        b"COD",
        b"Dseg",
        b"MSE",
        b"DSEG DSEG",
        b"mseg",
        b"GSEG",
        b"\"CODE\"",
    ];
    let last = statement.tokens.len() - 1;
    match random.below(4) {
        0 => statement.tokens[0] = random.pick(words).to_vec(),
        1 => statement.tokens[4] = b"==".to_vec(),
        2 => statement.tokens[last] = random.pick(&[&b":"[..], b",", b";;", b"; ;"]).to_vec(),
        _ => statement.tokens[1] = random.pick(&[&b"("[..], b"[[", b"{"]).to_vec(),
    }
}

/// The list in the braces: no permission at all, a comma too many or too few, a wrong word.
fn bad_list(random: &mut Random, statement: &mut Statement) {
    if statement.is_code() {
        let place = random.pick(&[3, 4, 6]);
        statement.tokens.insert(place, b",".to_vec());
        return;
    }
    let end = statement.tokens.len() - 2;
    match random.below(6) {
        0 => statement.set_permissions(&[]),
        1 => statement.tokens.insert(end, b",".to_vec()),
        2 => {
            statement.tokens[end - 1] = random
                .pick(&[&b"rw"[..], b"RX", b"R", b"WR", b"RWO", b"0", b""])
                .to_vec()
        }
        3 => drop(statement.tokens.remove(end - 2)),
        4 => statement.tokens[7] = b";".to_vec(),
        _ => statement.tokens.insert(end, b"NA".to_vec()),
    }
}
