//! Start: all refusals first, then every lent area at once (01, Set-up text; Refusals at start).

use crate::numbers::refusal::*;
use crate::numbers::{Permissions, MAX_PARTITIONS, MAX_SEGMENTS, MAX_TEXT, NO_ERROR};
use crate::passwords;
use crate::screen;
use crate::setup::{self, Refusal, Setup};
use crate::store::{Files, Part};
use crate::terminal::{Dseg, Lengths, Partition, Running, Terminal};
use std::collections::VecDeque;

impl Terminal {
    /// Starts, or starts again whatever went before. Answers a number and a line of the text.
    /// A refusal leaves the terminal and every lent byte as they were.
    #[allow(clippy::too_many_arguments)]
    pub fn start(
        &mut self,
        count: u32,
        active: [bool; 8],
        soft: bool,
        text: &[u8],
        store: &[u8],
        arena: &mut [u8],
        tables: &mut [u8],
        screens: &mut [u8],
        permissions: &mut Permissions,
    ) -> (u32, usize) {
        let lengths = Lengths {
            store: store.len(),
            arena: arena.len(),
            tables: tables.len(),
            screens: screens.len(),
        };
        match plan(count, &active, soft, text, store, lengths) {
            Err(refusal) => (refusal.number, refusal.line),
            Ok((setup, running)) => {
                fill_arena(&running, store, arena);
                fill_tables(&running, store, tables);
                blank_screens(&running, screens);
                *permissions = permission_table(&setup);
                self.running = Some(running);
                (NO_ERROR, 0)
            }
        }
    }
}

/// Goes through the refusals in their order and lays out what an accepted start will hold.
fn plan(
    count: u32,
    flags: &[bool; 8],
    soft: bool,
    text: &[u8],
    store: &[u8],
    lengths: Lengths,
) -> Result<(Setup, Running), Refusal> {
    let active = flags.get(..count as usize).unwrap_or(&[]);
    let focus = active.iter().position(|active| *active);
    let focus = focus.ok_or(Refusal::without_line(SETUP))?;
    if text.len() > MAX_TEXT {
        return Err(Refusal::without_line(TEXT_LONG));
    }
    let files = Files::walk(store).ok_or(Refusal::without_line(BAD_STORE))?;
    let setup = setup::read(text, active, &files)?;
    let password_files = find_password_files(active, &files);
    if !fits(&setup, &password_files, lengths) {
        return Err(Refusal::without_line(NO_MEMORY));
    }
    let partitions = partitions(&password_files, store)?;
    let (dsegs, msegs) = segments(&setup);
    let running = Running {
        partitions,
        dsegs,
        msegs,
        soft,
        focus,
        stopped: false,
        off: false,
        lengths,
    };
    Ok((setup, running))
}

/// One entry for each partition.
enum PasswordFile {
    /// A passive partition's file is never looked at.
    NotNeeded,
    Missing,
    Found(Part),
}

fn find_password_files(active: &[bool], files: &Files) -> Vec<PasswordFile> {
    let find = |(partition, active): (usize, &bool)| {
        if !active {
            return PasswordFile::NotNeeded;
        }
        match files.find(&passwords::path(partition)) {
            Some(file) => PasswordFile::Found(file.contents),
            None => PasswordFile::Missing,
        }
    };
    active.iter().enumerate().map(find).collect()
}

/// Refusal 415. A password file counts with its size even where 416 is going to refuse it, and a
/// missing one with 0. Every partition has a screen, a passive one too.
fn fits(setup: &Setup, password_files: &[PasswordFile], lengths: Lengths) -> bool {
    let dsegs: u64 = setup
        .dsegs
        .iter()
        .map(|dseg| dseg.file.contents.length as u64)
        .sum();
    let msegs: u64 = setup.msegs.iter().map(|mseg| mseg.size as u64).sum();
    let tables: u64 = password_files
        .iter()
        .map(|file| match file {
            PasswordFile::Found(contents) => contents.length as u64,
            PasswordFile::NotNeeded | PasswordFile::Missing => 0,
        })
        .sum();
    dsegs + msegs <= lengths.arena as u64
        && tables <= lengths.tables as u64
        && password_files.len() * screen::CELLS <= lengths.screens
}

/// Refusal 416, and each active partition's first state. The tables stand one behind the other.
fn partitions(files: &[PasswordFile], store: &[u8]) -> Result<Vec<Option<Partition>>, Refusal> {
    let mut free = 0;
    let mut partitions = Vec::new();
    for file in files {
        let contents = match file {
            PasswordFile::NotNeeded => {
                partitions.push(None);
                continue;
            }
            PasswordFile::Found(contents) if passwords::well_formed(contents.of(store)) => {
                *contents
            }
            _ => return Err(Refusal::without_line(BAD_PASSWORDS)),
        };
        let table = next_part(&mut free, contents.length);
        partitions.push(Some(first_state(table, contents)));
    }
    Ok(partitions)
}

fn first_state(table: Part, password_file: Part) -> Partition {
    Partition {
        queue: VecDeque::new(),
        cursor: 0,
        keyboard_fault: false,
        screen_fault: false,
        login: None,
        table,
        password_file,
    }
}

/// Dsegs in order, then msegs, without gaps.
fn segments(setup: &Setup) -> (Vec<Dseg>, Vec<Part>) {
    let mut free = 0;
    let mut dsegs = Vec::new();
    for declared in &setup.dsegs {
        let contents = declared.file.contents;
        let memory = next_part(&mut free, contents.length);
        dsegs.push(Dseg {
            memory,
            contents,
            path: declared.file.path,
        });
    }
    let msegs = setup
        .msegs
        .iter()
        .map(|mseg| next_part(&mut free, mseg.size))
        .collect();
    (dsegs, msegs)
}

/// The next part of an area that is filled without gaps.
fn next_part(free: &mut usize, length: usize) -> Part {
    let part = Part {
        place: *free,
        length,
    };
    *free = part.end();
    part
}

fn fill_arena(running: &Running, store: &[u8], arena: &mut [u8]) {
    for dseg in &running.dsegs {
        dseg.memory
            .of_mut(arena)
            .copy_from_slice(dseg.contents.of(store));
    }
    for mseg in &running.msegs {
        mseg.of_mut(arena).fill(0);
    }
}

fn fill_tables(running: &Running, store: &[u8], tables: &mut [u8]) {
    for partition in running.partitions.iter().flatten() {
        partition
            .table
            .of_mut(tables)
            .copy_from_slice(partition.password_file.of(store));
    }
}

fn blank_screens(running: &Running, screens: &mut [u8]) {
    for (number, partition) in running.partitions.iter().enumerate() {
        if partition.is_some() {
            screen::part(number).of_mut(screens).fill(screen::BLANK);
        }
    }
}

/// The permissions as the text gives them, passive partitions' too; all else is zero.
fn permission_table(setup: &Setup) -> Permissions {
    let mut table = [[0; MAX_PARTITIONS]; 2 * MAX_SEGMENTS];
    for (row, dseg) in table.iter_mut().zip(&setup.dsegs) {
        row[..dseg.permissions.len()].copy_from_slice(&dseg.permissions);
    }
    for (row, mseg) in table.iter_mut().skip(MAX_SEGMENTS).zip(&setup.msegs) {
        row[..mseg.permissions.len()].copy_from_slice(&mseg.permissions);
    }
    table
}
