//! The terminal that is measured: its set-up text, its store image, the lent areas, and the model on them.

use model::numbers::Permissions;
use model::sha256::digest;
use model::terminal::Terminal;

const PARTITIONS: usize = 8;
const ACCOUNTS: usize = 64;
const SEGMENTS: usize = 16;
pub const SEGMENT: usize = 4096;
/// Bytes of one record of a password file: header, digest, name.
const ACCOUNT: usize = 6 + 32 + 8;
pub const PASSWORDS: usize = ACCOUNTS * ACCOUNT;
pub const DATABASE: usize = 2_584;

/// Everything that a call may be lent.
#[derive(Clone, PartialEq)]
pub struct Lent {
    pub text: Vec<u8>,
    pub store: Vec<u8>,
    pub arena: Vec<u8>,
    pub tables: Vec<u8>,
    pub screens: Vec<u8>,
    pub buffer: Vec<u8>,
    /// What is written, and who logs in by what.
    pub bytes: Vec<u8>,
    pub name: Vec<u8>,
    pub password: Vec<u8>,
}

/// What differs from row to row: the lengths of buffer and bytes, whether a zero ends the bytes, whose name is given and whose password.
#[derive(Clone, Copy)]
pub struct Given {
    pub buffer: usize,
    pub bytes: usize,
    pub ended: bool,
    pub user: usize,
    pub by: usize,
}

/// A user's name, eight bytes and a zero.
fn name(partition: usize, user: usize) -> Vec<u8> {
    format!("user{partition:02}{user:02}\0").into_bytes()
}

/// A user's password and a zero.
fn password(partition: usize, user: usize) -> Vec<u8> {
    format!("password of {partition:02}{user:02}\0").into_bytes()
}

fn letters(length: usize, ended: bool) -> Vec<u8> {
    let letter = |at| if ended && at + 1 == length { 0 } else { b'a' + (at % 26) as u8 };
    (0..length).map(letter).collect()
}

fn permissions(segment: usize) -> String {
    let one = |p| if (segment + p) % 2 == 0 { "RW" } else { "RO" };
    (0..PARTITIONS).map(one).collect::<Vec<_>>().join(", ")
}

fn text() -> String {
    let code = (0..PARTITIONS).map(|p| format!("CODE[{p}] = /bin/program{p}.out;\n"));
    let dsegs = (0..SEGMENTS).map(|i| {
        let host = i % PARTITIONS;
        format!("DSEG[{i}] = {{ \"/data/sheet {i:02}.txt\", {host}, {} }};\n", permissions(i))
    });
    let msegs = (0..SEGMENTS).map(|i| format!("MSEG[{i}] = {{ 4KB, {}, {} }};\n", i % PARTITIONS, permissions(i)));
    code.chain(dsegs).chain(msegs).collect()
}

fn record(into: &mut Vec<u8>, kind: u16, payload: &[&[u8]]) {
    let length: usize = payload.iter().map(|part| part.len()).sum();
    into.extend((length as u32).to_le_bytes());
    into.extend(kind.to_le_bytes());
    payload.iter().for_each(|part| into.extend(*part));
}

fn file(image: &mut Vec<u8>, path: &str, contents: &[u8]) {
    record(image, 1, &[&[path.len() as u8], path.as_bytes(), contents]);
}

fn password_file(partition: usize) -> Vec<u8> {
    let mut file = Vec::new();
    for user in 0..ACCOUNTS {
        let (name, password) = (name(partition, user), password(partition, user));
        record(&mut file, 2, &[&digest(&password[..password.len() - 1]), &name[..8]]);
    }
    file
}

fn store() -> Vec<u8> {
    let mut image = Vec::new();
    for p in 0..PARTITIONS {
        file(&mut image, &format!("/bin/program{p}.out"), &[p as u8; 64]);
    }
    for i in 0..SEGMENTS {
        let contents: Vec<u8> = (0..SEGMENT).map(|at| (at * 7 + i) as u8).collect();
        file(&mut image, &format!("/data/sheet {i:02}.txt"), &contents);
    }
    for p in 0..PARTITIONS {
        file(&mut image, &format!("/scos/pw{p}"), &password_file(p));
    }
    image
}

impl Lent {
    /// The areas before start, exactly as long as needed.
    pub fn new(given: Given) -> Self {
        Lent {
            text: text().into_bytes(),
            store: store(),
            arena: vec![1; 2 * SEGMENTS * SEGMENT],
            tables: vec![2; PARTITIONS * PASSWORDS],
            screens: vec![3; PARTITIONS * 2000],
            buffer: vec![4; given.buffer],
            bytes: letters(given.bytes, given.ended),
            name: name(0, given.user),
            password: password(0, given.by),
        }
    }
}

impl Lent {
    /// The same bytes again, without new memory.
    pub fn become_as(&mut self, other: &Lent) {
        let areas = [
            (&mut self.store, &other.store),
            (&mut self.arena, &other.arena),
            (&mut self.tables, &other.tables),
            (&mut self.screens, &other.screens),
            (&mut self.buffer, &other.buffer),
        ];
        areas.into_iter().for_each(|(to, from)| to.copy_from_slice(from));
    }
}

/// The model, with the areas that it is lent.
pub struct Model {
    pub terminal: Terminal,
    pub permissions: Permissions,
    pub lent: Lent,
    /// Started terminals for calls that stop one, and the next to be used.
    pub spares: Vec<Terminal>,
    pub next: usize,
}

impl Model {
    pub fn new(given: Given) -> Self {
        let mut model = Model {
            terminal: Terminal::new(),
            permissions: [[0; 8]; 32],
            lent: Lent::new(given),
            spares: Vec::new(),
            next: 0,
        };
        model.start();
        model
    }

    pub fn start(&mut self) -> u32 {
        let Lent {
            text,
            store,
            arena,
            tables,
            screens,
            ..
        } = &mut self.lent;
        self.terminal
            .start(8, [true; 8], false, text, store, arena, tables, screens, &mut self.permissions)
            .0
    }

    /// As many started terminals as there will be turns.
    pub fn spare(&mut self, turns: u32) {
        self.spares = vec![self.terminal.clone(); turns as usize];
        self.next = 0;
    }
}
