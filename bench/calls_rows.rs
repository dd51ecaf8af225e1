//! The rows of the table: how ours and the model make a call so many times.

use crate::calls_ours as ours;
use crate::calls_scene::{Given, Lent, Model, DATABASE, SEGMENT};

pub struct Row {
    pub name: &'static str,
    pub given: Given,
    /// What both have to answer.
    pub number: u32,
    pub ours: fn(&mut Lent, u32) -> u32,
    /// What the model does before the first turn.
    pub before: fn(&mut Model),
    /// One turn of the model; its number.
    pub turn: fn(&mut Model) -> u32,
    /// How many turns are timed at once: ours, and the model's.
    pub turns: u32,
    #[cfg_attr(counted, allow(dead_code))]
    pub model_turns: u32,
}

const NOTHING: Given = Given {
    buffer: 0,
    bytes: 0,
    ended: false,
    user: 0,
    by: 0,
};

const fn buffer(length: usize) -> Given {
    Given { buffer: length, ..NOTHING }
}

const fn bytes(length: usize) -> Given {
    Given { bytes: length, ..NOTHING }
}

const fn user(user: usize, by: usize) -> Given {
    Given {
        user,
        by,
        buffer: 33,
        bytes: 17,
        ended: true,
    }
}

const MESSAGE: Given = Given {
    bytes: 41,
    ended: true,
    ..NOTHING
};

fn row(name: &'static str, given: Given, ours: fn(&mut Lent, u32) -> u32, turn: fn(&mut Model) -> u32, turns: u32) -> Row {
    Row {
        name,
        given,
        number: 0,
        ours,
        before: |_| (),
        turn,
        turns,
        model_turns: turns,
    }
}

fn log_in(m: &mut Model) {
    m.terminal.login(0, &m.lent.name, &m.lent.password, &m.lent.tables);
}

fn login_turn(m: &mut Model) -> u32 {
    m.terminal.logout(0);
    m.terminal.login(0, &m.lent.name, &m.lent.password, &m.lent.tables).0
}

/// Keys that were typed show only when one is read.
fn key_turn(m: &mut Model) -> u32 {
    m.terminal.key(b'k');
    0
}

fn read_turn(m: &mut Model) -> u32 {
    m.terminal.key(b'k');
    m.terminal.read_next(0, 1, 0, 1, &mut m.lent.buffer).0
}

fn shutdown_turn(m: &mut Model) -> u32 {
    m.next += 1;
    m.spares[m.next - 1].shutdown(0, &m.lent.bytes, &mut m.lent.screens)
}

fn powerdown_turn(m: &mut Model) -> u32 {
    m.next += 1;
    m.spares[m.next - 1].powerdown(0, &mut m.lent.screens)
}

/// A full queue drops a key, and it is full after 64: both sides drop most of what is typed here.
pub const KEY: &str = "key";
pub const LOGOUT: &str = "logout";

pub fn all() -> Vec<Row> {
    let mut rows = vec![row("start", NOTHING, ours::start, Model::start, 20)];
    rows.extend(devices());
    rows.extend(memory());
    rows.extend(accounts());
    rows.extend(stops());
    rows
}

fn devices() -> Vec<Row> {
    vec![
        row(KEY, buffer(1), ours::key, key_turn, 1000),
        row("key and read_next", buffer(1), ours::key_read_next, read_turn, 1000),
        row(
            "read_random, 80 cells",
            buffer(80),
            ours::read_random,
            |m| m.terminal.read_random(0, 2, 0, 40, 80, &m.lent.screens, &mut m.lent.buffer).0,
            1000,
        ),
        row(
            "write_next, 1 byte",
            bytes(1),
            ours::write_next,
            |m| m.terminal.write_next(0, 2, 0, 1, &m.lent.bytes, &mut m.lent.screens).0,
            1000,
        ),
        row(
            "write_next, 80 bytes",
            bytes(80),
            ours::write_next,
            |m| m.terminal.write_next(0, 2, 0, 80, &m.lent.bytes, &mut m.lent.screens).0,
            1000,
        ),
        row(
            "write_random, 80 bytes",
            bytes(80),
            ours::write_random,
            |m| m.terminal.write_random(0, 2, 0, 40, 80, &m.lent.bytes, &mut m.lent.screens).0,
            1000,
        ),
    ]
}

/// Segment 14 is one that partition 0 may write.
fn memory() -> Vec<Row> {
    vec![
        row(
            "load, 4,096 bytes",
            buffer(SEGMENT),
            ours::load,
            |m| m.terminal.load(&m.permissions, 0, 256 + 14, 0, &m.lent.arena, &mut m.lent.buffer),
            500,
        ),
        row(
            "store, 4,096 bytes",
            bytes(SEGMENT),
            ours::store,
            |m| m.terminal.store(&m.permissions, 0, 512 + 14, 0, &mut m.lent.arena, &m.lent.bytes),
            500,
        ),
        row(
            "flush, 4,096 bytes",
            NOTHING,
            ours::flush,
            |m| {
                m.terminal
                    .flush(&m.permissions, 0, 256 + 14, u32::MAX, &m.lent.arena, &mut m.lent.store)
            },
            500,
        ),
        row(
            "configuration",
            buffer(DATABASE),
            ours::configuration,
            |m| m.terminal.configuration(&m.permissions, 0, &m.lent.store, &mut m.lent.buffer),
            300,
        ),
    ]
}

fn accounts() -> Vec<Row> {
    let who = row(
        "who, record 31",
        user(31, 31),
        ours::who,
        |m| m.terminal.who(0, &m.lent.tables, &mut m.lent.buffer),
        500,
    );
    let set = row("set_password, record 31", user(31, 31), ours::set_password, set_turn, 300);
    vec![
        row(LOGOUT, NOTHING, ours::logout, |m| m.terminal.logout(0), 1000),
        row("logout and login, record 0", user(0, 0), ours::logout_login, login_turn, 300),
        row("logout and login, record 31", user(31, 31), ours::logout_login, login_turn, 300),
        row("logout and login, record 63", user(63, 63), ours::logout_login, login_turn, 300),
        Row {
            number: 300,
            ..row(
                "logout and login, wrong password",
                user(31, 32),
                ours::logout_login,
                login_turn,
                300,
            )
        },
        Row { before: log_in, ..who },
        Row { before: log_in, ..set },
    ]
}

fn set_turn(m: &mut Model) -> u32 {
    let Lent { bytes, store, tables, .. } = &mut m.lent;
    m.terminal.set_password(0, bytes, u32::MAX, store, tables)
}

/// Every turn needs a running terminal. The model's are made beforehand, few enough to stay near the processor.
fn stops() -> Vec<Row> {
    let shutdown = row("shutdown, message of 40", MESSAGE, ours::shutdown, shutdown_turn, 1000);
    let powerdown = row("powerdown", NOTHING, ours::powerdown, powerdown_turn, 1000);
    vec![
        Row {
            model_turns: 64,
            ..shutdown
        },
        Row {
            model_turns: 64,
            ..powerdown
        },
    ]
}
