//! The terminal's state, and the checks that every call makes first (01, Parts of a terminal;
//! Calls). The calls themselves stand in the files beside this one.

use crate::numbers::*;
use crate::passwords;
use crate::store::Part;
use std::collections::VecDeque;

/// A terminal: never started, or running since some accepted start.
#[derive(Clone, Debug, Default)]
pub struct Terminal {
    pub(crate) running: Option<Running>,
}

/// What an accepted start sets up and the calls carry on.
#[derive(Clone, Debug)]
pub(crate) struct Running {
    /// One entry for each partition; a passive one has no state.
    pub partitions: Vec<Option<Partition>>,
    pub dsegs: Vec<Dseg>,
    /// Where each mseg stands in the arena.
    pub msegs: Vec<Part>,
    pub soft: bool,
    pub focus: usize,
    pub stopped: bool,
    pub off: bool,
    pub lengths: Lengths,
}

/// How long the lent areas were at start.
#[derive(Clone, Copy, Debug)]
pub(crate) struct Lengths {
    pub store: usize,
    pub arena: usize,
    pub tables: usize,
    pub screens: usize,
}

/// A dseg: where its bytes stand in the arena, and its contents and path in the store.
#[derive(Clone, Copy, Debug)]
pub(crate) struct Dseg {
    pub memory: Part,
    pub contents: Part,
    pub path: Part,
}

/// An active partition.
#[derive(Clone, Debug)]
pub(crate) struct Partition {
    pub queue: VecDeque<u8>,
    pub cursor: usize,
    pub keyboard_fault: bool,
    pub screen_fault: bool,
    /// The logged-in user's record in the table, counted from 0.
    pub login: Option<usize>,
    /// Where the password table stands in the table area.
    pub table: Part,
    /// Where the password file stands in the store.
    pub password_file: Part,
}

/// The areas that a call may be lent.
#[derive(Clone, Copy)]
pub(crate) enum Lent<'a> {
    Store(&'a [u8]),
    Arena(&'a [u8]),
    Tables(&'a [u8]),
    Screens(&'a [u8]),
}

impl Terminal {
    /// A terminal that was never started.
    pub fn new() -> Self {
        Terminal::default()
    }

    /// The checks in front of every call, in their order: BAD_STATE, STOPPED, BAD_PARTITION. On
    /// success, the running terminal and the caller's index among its partitions.
    pub(crate) fn admit(
        &mut self,
        caller: u32,
        lent: &[Lent],
    ) -> Result<(&mut Running, usize), u32> {
        let running = self.running.as_mut().ok_or(BAD_STATE)?;
        if !lent.iter().all(|area| running.is_sound(caller, *area)) {
            return Err(BAD_STATE);
        }
        if running.stopped {
            return Err(STOPPED);
        }
        if running.partition(caller).is_none() {
            return Err(BAD_PARTITION);
        }
        Ok((running, caller as usize))
    }
}

impl Running {
    /// An active partition's state, by whatever number a caller gives.
    pub fn partition(&self, number: u32) -> Option<&Partition> {
        self.partitions.get(number as usize)?.as_ref()
    }

    pub fn partition_mut(&mut self, number: u32) -> Option<&mut Partition> {
        self.partitions.get_mut(number as usize)?.as_mut()
    }

    /// Whether a lent area can be used at all. The places kept here were made by start inside
    /// the areas it was lent and never change, so an area as long as then holds them all. Only a
    /// password table is followed by what it says itself, so it is also walked.
    fn is_sound(&self, caller: u32, area: Lent) -> bool {
        match area {
            Lent::Store(bytes) => bytes.len() == self.lengths.store,
            Lent::Arena(bytes) => bytes.len() == self.lengths.arena,
            Lent::Screens(bytes) => bytes.len() == self.lengths.screens,
            Lent::Tables(bytes) => {
                bytes.len() == self.lengths.tables && self.table_is_sound(caller, bytes)
            }
        }
    }

    /// Only the caller's own table counts, and only where the caller is active.
    fn table_is_sound(&self, caller: u32, tables: &[u8]) -> bool {
        let Some(partition) = self.partition(caller) else {
            return true;
        };
        let Some(users) = passwords::users(partition.table.of(tables)) else {
            return false;
        };
        partition.login.is_none_or(|place| place < users.len())
    }
}

/// A call's answer where nothing is counted.
pub(crate) fn number(result: Result<(), u32>) -> u32 {
    result.err().unwrap_or(NO_ERROR)
}

/// A call's answer with its count, which is 0 where the call is refused.
pub(crate) fn number_and_count(result: Result<usize, u32>) -> (u32, usize) {
    match result {
        Ok(count) => (NO_ERROR, count),
        Err(number) => (number, 0),
    }
}
