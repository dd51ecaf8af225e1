//! Segments: load, store, flush, and the configuration database that lists them
//! (01, Memory; Flush; Configuration database).

use crate::numbers::*;
use crate::store::Part;
use crate::terminal::{number, Dseg, Lent, Running, Terminal};

const DSEG_SELECTOR: u32 = 256;
const MSEG_SELECTOR: u32 = 512;
const DATABASE: usize = 2_584;

/// A segment in one partition's list.
struct Listed {
    selector: u32,
    writable: bool,
    memory: Part,
    /// Nothing for an mseg.
    dseg: Option<Dseg>,
}

impl Running {
    /// The segments that a partition may use: dsegs in order, then msegs. Selectors carry a
    /// segment's own index, so one without permission leaves a gap among them.
    fn list(&self, permissions: &Permissions, partition: usize) -> Vec<Listed> {
        let dsegs = self.dsegs.iter().zip(DSEG_SELECTOR..).zip(permissions);
        let dsegs = dsegs.map(|((dseg, selector), row)| (selector, row, dseg.memory, Some(*dseg)));
        let msegs = self
            .msegs
            .iter()
            .zip(MSEG_SELECTOR..)
            .zip(&permissions[MAX_SEGMENTS..]);
        let msegs = msegs.map(|((memory, selector), row)| (selector, row, *memory, None));
        dsegs
            .chain(msegs)
            .filter(|(_, row, _, _)| matches!(row[partition], RO | RW))
            .map(|(selector, row, memory, dseg)| Listed {
                selector,
                writable: row[partition] == RW,
                memory,
                dseg,
            })
            .collect()
    }

    fn find(
        &self,
        permissions: &Permissions,
        partition: usize,
        selector: u32,
    ) -> Result<Listed, u32> {
        let list = self.list(permissions, partition);
        list.into_iter()
            .find(|listed| listed.selector == selector)
            .ok_or(BAD_SELECTOR)
    }
}

impl Listed {
    /// A range of the arena inside the segment. An empty one may stand at the segment's end.
    fn range(&self, offset: u32, length: usize) -> Result<Part, u32> {
        let offset = offset as usize;
        let end = offset.checked_add(length).ok_or(BAD_OFFSET)?;
        if end > self.memory.length {
            return Err(BAD_OFFSET);
        }
        Ok(Part {
            place: self.memory.place + offset,
            length,
        })
    }
}

impl Terminal {
    /// Reads from a segment as the processor would: all of the buffer or nothing.
    pub fn load(
        &mut self,
        permissions: &Permissions,
        partition: u32,
        selector: u32,
        offset: u32,
        arena: &[u8],
        buffer: &mut [u8],
    ) -> u32 {
        let range = self
            .admit(partition, &[Lent::Arena(arena)])
            .and_then(|(running, index)| {
                running
                    .find(permissions, index, selector)?
                    .range(offset, buffer.len())
            });
        number(range.map(|range| buffer.copy_from_slice(range.of(arena))))
    }

    /// Writes to a segment as the processor would: all of the bytes or nothing.
    pub fn store(
        &mut self,
        permissions: &Permissions,
        partition: u32,
        selector: u32,
        offset: u32,
        arena: &mut [u8],
        bytes: &[u8],
    ) -> u32 {
        let range = self
            .admit(partition, &[Lent::Arena(arena)])
            .and_then(|(running, index)| {
                let listed = running.find(permissions, index, selector)?;
                if !listed.writable {
                    return Err(NO_WRITE);
                }
                listed.range(offset, bytes.len())
            });
        number(range.map(|range| range.of_mut(arena).copy_from_slice(bytes)))
    }

    /// Writes a dseg back to its file, as far as the store takes it.
    pub fn flush(
        &mut self,
        permissions: &Permissions,
        partition: u32,
        selector: u32,
        taken: u32,
        arena: &[u8],
        store: &mut [u8],
    ) -> u32 {
        let lent = [Lent::Store(store), Lent::Arena(arena)];
        let dseg = self.admit(partition, &lent).and_then(|(running, index)| {
            let listed = running.find(permissions, index, selector)?;
            let dseg = listed.dseg.ok_or(NOT_MAPPED)?;
            if listed.writable {
                Ok(dseg)
            } else {
                Err(NO_WRITE)
            }
        });
        number(dseg.and_then(|dseg| write_file(store, dseg.contents, dseg.memory.of(arena), taken)))
    }

    /// Writes the configuration database of a partition to the front of the buffer.
    pub fn configuration(
        &mut self,
        permissions: &Permissions,
        partition: u32,
        store: &[u8],
        buffer: &mut [u8],
    ) -> u32 {
        let list = self
            .admit(partition, &[Lent::Store(store)])
            .and_then(|(running, index)| {
                if buffer.len() < DATABASE {
                    return Err(BAD_BUFFER);
                }
                Ok(running.list(permissions, index))
            });
        number(list.map(|list| {
            let database = database(partition, &list, store);
            buffer[..DATABASE].copy_from_slice(&database);
        }))
    }
}

/// Writes a file from its first byte. The store says beforehand how many bytes it will take; if
/// they are too few, those are written all the same.
pub(crate) fn write_file(
    store: &mut [u8],
    file: Part,
    bytes: &[u8],
    taken: u32,
) -> Result<(), u32> {
    let written = file.length.min(taken as usize);
    file.of_mut(store)[..written].copy_from_slice(&bytes[..written]);
    if written < file.length {
        return Err(WRITE_FAILURE);
    }
    Ok(())
}

fn database(partition: u32, list: &[Listed], store: &[u8]) -> Vec<u8> {
    let mut bytes = Vec::with_capacity(DATABASE);
    let head = [1, KEYBOARD, partition, SCREEN, partition, list.len() as u32];
    push_numbers(&mut bytes, &head);
    for listed in list {
        push_entry(&mut bytes, listed, store);
    }
    bytes.resize(DATABASE, 0);
    bytes
}

fn push_entry(bytes: &mut Vec<u8>, listed: &Listed, store: &[u8]) {
    let kind = if listed.dseg.is_some() { 1 } else { 2 };
    let permission = if listed.writable { RW } else { RO };
    let size = listed.memory.length as u32;
    push_numbers(bytes, &[kind, listed.selector, size, u32::from(permission)]);
    let mut path = [0; 64];
    if let Some(dseg) = listed.dseg {
        path[..dseg.path.length].copy_from_slice(dseg.path.of(store));
    }
    bytes.extend_from_slice(&path);
}

fn push_numbers(bytes: &mut Vec<u8>, numbers: &[u32]) {
    for number in numbers {
        bytes.extend_from_slice(&number.to_le_bytes());
    }
}
