//! What a replay text acts on: one terminal, the areas it is lent, and the next start's settings.

use super::look::{self, Areas};
use super::words::{buffer, byte, bytes, hex, length, lent_bytes, number, FRESH};
use crate::numbers::Permissions;
use crate::terminal::Terminal;

const MAX_AREA: usize = 65_536;
const MAX_STORE: usize = 65_536;
const MAX_TEXT: usize = 20_000;
/// One more than a terminal can have, so that a start can be refused for it.
const MAX_COUNT: usize = 9;

pub struct Room {
    terminal: Terminal,
    permissions: Permissions,
    count: u32,
    active: [bool; 8],
    soft: bool,
    text: Vec<u8>,
    store: Vec<u8>,
    arena: Vec<u8>,
    tables: Vec<u8>,
    screens: Vec<u8>,
}

/// A line's answer; nothing where the line is bad, and then it has changed nothing.
type Answer = Option<String>;

/// The answer of a line that prints nothing.
fn silent() -> Answer {
    Some(String::new())
}

impl Room {
    pub fn new() -> Self {
        Room {
            terminal: Terminal::new(),
            permissions: [[0; 8]; 32],
            count: 1,
            active: [true, false, false, false, false, false, false, false],
            soft: false,
            text: Vec::new(),
            store: Vec::new(),
            arena: vec![FRESH; 4_096],
            tables: vec![FRESH; 4_096],
            screens: vec![FRESH; 16_000],
        }
    }

    /// Does what a line says. Words are parted by exactly one space, so two spaces in a row make
    /// an empty word, which nothing accepts.
    pub fn obey(&mut self, line: &[u8]) -> Option<Vec<u8>> {
        let words: Vec<&[u8]> = line.split(|byte| *byte == b' ').collect();
        let (name, rest) = words.split_first()?;
        let answer = match *name {
            b"partitions" | b"soft" | b"arena" | b"tables" | b"screens" | b"text" | b"image"
            | b"clear" => self.prepare(name, rest),
            b"read_next" | b"read_random" | b"write_next" | b"write_random" => {
                self.use_device(name, rest)
            }
            b"load" | b"store" | b"flush" | b"configuration" => self.use_memory(name, rest),
            b"login" | b"who" | b"logout" | b"set_password" => self.use_users(name, rest),
            b"start" | b"shutdown" | b"powerdown" => self.start_or_stop(name, rest),
            b"key" | b"attention" | b"fault" => self.event(name, rest),
            b"show" | b"screen" => self.look(name, rest),
            _ => None,
        };
        answer.map(String::into_bytes)
    }

    fn prepare(&mut self, name: &[u8], words: &[&[u8]]) -> Answer {
        match (name, words) {
            (b"partitions", [letters]) => self.set_partitions(letters)?,
            (b"soft", [b"yes"]) => self.soft = true,
            (b"soft", [b"no"]) => self.soft = false,
            (b"arena", [n]) => self.arena = vec![FRESH; length(n, MAX_AREA)?],
            (b"tables", [n]) => self.tables = vec![FRESH; length(n, MAX_AREA)?],
            (b"screens", [n]) => self.screens = vec![FRESH; length(n, MAX_AREA)?],
            (b"text", [more]) => append(&mut self.text, bytes(more)?, MAX_TEXT)?,
            (b"image", [more]) => append(&mut self.store, bytes(more)?, MAX_STORE)?,
            (b"clear", []) => {
                self.text.clear();
                self.store.clear();
            }
            _ => return None,
        }
        silent()
    }

    /// Every letter has to be one of the two, those behind the ninth too, which then are dropped.
    fn set_partitions(&mut self, letters: &[u8]) -> Option<()> {
        if letters.is_empty() || !letters.iter().all(|letter| matches!(letter, b'A' | b'P')) {
            return None;
        }
        self.count = letters.len().min(MAX_COUNT) as u32;
        self.active = [false; 8];
        for (active, letter) in self.active.iter_mut().zip(letters) {
            *active = *letter == b'A';
        }
        Some(())
    }

    fn start_or_stop(&mut self, name: &[u8], words: &[&[u8]]) -> Answer {
        match (name, words) {
            (b"start", []) => Some(self.start()),
            (b"shutdown", [p, message]) => {
                let (p, message) = (number(p)?, lent_bytes(message)?);
                let answer = self.terminal.shutdown(p, &message, &mut self.screens);
                Some(format!("shutdown {answer}\n"))
            }
            (b"powerdown", [p]) => {
                let answer = self.terminal.powerdown(number(p)?, &mut self.screens);
                Some(format!("powerdown {answer}\n"))
            }
            _ => None,
        }
    }

    fn start(&mut self) -> String {
        let (answer, line) = self.terminal.start(
            self.count,
            self.active,
            self.soft,
            &self.text,
            &self.store,
            &mut self.arena,
            &mut self.tables,
            &mut self.screens,
            &mut self.permissions,
        );
        format!("start {answer} line {line}\n")
    }

    fn use_device(&mut self, name: &[u8], words: &[&[u8]]) -> Answer {
        let [p, major, minor, rest @ ..] = words else {
            return None;
        };
        let device = (number(p)?, number(major)?, number(minor)?);
        match (name, rest) {
            (b"read_next", [request, length]) => {
                self.read_next(device, number(request)?, buffer(length)?)
            }
            (b"read_random", [offset, request, length]) => {
                self.read_random(device, number(offset)?, number(request)?, buffer(length)?)
            }
            (b"write_next", [request, bytes]) => {
                self.write_next(device, number(request)?, lent_bytes(bytes)?)
            }
            (b"write_random", [offset, request, bytes]) => self.write_random(
                device,
                number(offset)?,
                number(request)?,
                lent_bytes(bytes)?,
            ),
            _ => None,
        }
    }

    fn read_next(
        &mut self,
        (p, major, minor): Device,
        request: u32,
        mut buffer: Vec<u8>,
    ) -> Answer {
        let (answer, count) = self
            .terminal
            .read_next(p, major, minor, request, &mut buffer);
        Some(format!("read_next {answer} {count} {}\n", hex(&buffer)))
    }

    fn read_random(
        &mut self,
        (p, major, minor): Device,
        offset: u32,
        request: u32,
        mut buffer: Vec<u8>,
    ) -> Answer {
        let screens = &self.screens;
        let (answer, count) =
            self.terminal
                .read_random(p, major, minor, offset, request, screens, &mut buffer);
        Some(format!("read_random {answer} {count} {}\n", hex(&buffer)))
    }

    fn write_next(&mut self, (p, major, minor): Device, request: u32, bytes: Vec<u8>) -> Answer {
        let screens = &mut self.screens;
        let (answer, count) = self
            .terminal
            .write_next(p, major, minor, request, &bytes, screens);
        Some(format!("write_next {answer} {count}\n"))
    }

    fn write_random(
        &mut self,
        (p, major, minor): Device,
        offset: u32,
        request: u32,
        bytes: Vec<u8>,
    ) -> Answer {
        let screens = &mut self.screens;
        let (answer, count) = self
            .terminal
            .write_random(p, major, minor, offset, request, &bytes, screens);
        Some(format!("write_random {answer} {count}\n"))
    }

    fn use_memory(&mut self, name: &[u8], words: &[&[u8]]) -> Answer {
        match (name, words) {
            (b"load", [p, selector, offset, length]) => self.load(
                number(p)?,
                number(selector)?,
                number(offset)?,
                buffer(length)?,
            ),
            (b"store", [p, selector, offset, bytes]) => self.store(
                number(p)?,
                number(selector)?,
                number(offset)?,
                lent_bytes(bytes)?,
            ),
            (b"flush", [p, selector, taken]) => {
                self.flush(number(p)?, number(selector)?, number(taken)?)
            }
            (b"configuration", [p, length]) => self.configuration(number(p)?, buffer(length)?),
            _ => None,
        }
    }

    fn load(&mut self, p: u32, selector: u32, offset: u32, mut buffer: Vec<u8>) -> Answer {
        let (permissions, arena) = (&self.permissions, &self.arena);
        let answer = self
            .terminal
            .load(permissions, p, selector, offset, arena, &mut buffer);
        Some(format!("load {answer} {}\n", hex(&buffer)))
    }

    fn store(&mut self, p: u32, selector: u32, offset: u32, bytes: Vec<u8>) -> Answer {
        let (permissions, arena) = (&self.permissions, &mut self.arena);
        let answer = self
            .terminal
            .store(permissions, p, selector, offset, arena, &bytes);
        Some(format!("store {answer}\n"))
    }

    fn flush(&mut self, p: u32, selector: u32, taken: u32) -> Answer {
        let (permissions, arena, store) = (&self.permissions, &self.arena, &mut self.store);
        let answer = self
            .terminal
            .flush(permissions, p, selector, taken, arena, store);
        Some(format!("flush {answer}\n"))
    }

    fn configuration(&mut self, p: u32, mut buffer: Vec<u8>) -> Answer {
        let answer = self
            .terminal
            .configuration(&self.permissions, p, &self.store, &mut buffer);
        Some(format!("configuration {answer} {}\n", hex(&buffer)))
    }

    fn use_users(&mut self, name: &[u8], words: &[&[u8]]) -> Answer {
        match (name, words) {
            (b"login", [p, user, password]) => {
                let (p, user, password) = (number(p)?, lent_bytes(user)?, lent_bytes(password)?);
                let (answer, work) = self.terminal.login(p, &user, &password, &self.tables);
                Some(format!("login {answer} {work}\n"))
            }
            (b"who", [p, length]) => {
                let (p, mut buffer) = (number(p)?, buffer(length)?);
                let answer = self.terminal.who(p, &self.tables, &mut buffer);
                Some(format!("who {answer} {}\n", hex(&buffer)))
            }
            (b"logout", [p]) => Some(format!("logout {}\n", self.terminal.logout(number(p)?))),
            (b"set_password", [p, password, taken]) => {
                let (p, password, taken) = (number(p)?, lent_bytes(password)?, number(taken)?);
                let (store, tables) = (&mut self.store, &mut self.tables);
                let answer = self
                    .terminal
                    .set_password(p, &password, taken, store, tables);
                Some(format!("set_password {answer}\n"))
            }
            _ => None,
        }
    }

    fn event(&mut self, name: &[u8], words: &[&[u8]]) -> Answer {
        match (name, words) {
            (b"key", [key]) => self.terminal.key(byte(key)?),
            (b"attention", []) => self.terminal.attention(),
            (b"fault", [p, device, b"set"]) => {
                self.terminal.fault(number(p)?, number(device)?, true)
            }
            (b"fault", [p, device, b"clear"]) => {
                self.terminal.fault(number(p)?, number(device)?, false)
            }
            _ => return None,
        }
        silent()
    }

    fn look(&self, name: &[u8], words: &[&[u8]]) -> Answer {
        let running = self.terminal.running.as_ref();
        match (name, words) {
            (b"show", []) => Some(look::show(running, &self.areas())),
            (b"screen", [p]) => Some(look::screen(running, number(p)?, &self.screens)),
            _ => None,
        }
    }

    fn areas(&self) -> Areas<'_> {
        Areas {
            store: &self.store,
            arena: &self.arena,
            tables: &self.tables,
            screens: &self.screens,
            permissions: &self.permissions,
        }
    }
}

/// A partition with a device's major and minor number.
type Device = (u32, u32, u32);

/// Appends all or, where the limit would be passed, nothing.
fn append(to: &mut Vec<u8>, more: Vec<u8>, limit: usize) -> Option<()> {
    if to.len() + more.len() > limit {
        return None;
    }
    to.extend_from_slice(&more);
    Some(())
}
