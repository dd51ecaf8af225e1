//! The two lines that look at a terminal: `show` and `screen`.

use super::words::hex;
use crate::numbers::Permissions;
use crate::screen;
use crate::sha256::digest;
use crate::terminal::{Partition, Running};

/// The areas whose digests `show` gives.
pub struct Areas<'a> {
    pub store: &'a [u8],
    pub arena: &'a [u8],
    pub tables: &'a [u8],
    pub screens: &'a [u8],
    pub permissions: &'a Permissions,
}

pub fn show(running: Option<&Running>, areas: &Areas) -> String {
    let mut answer = match running {
        Some(running) => show_running(running),
        None => "focus - stopped 0 off 0\n".to_string(),
    };
    let digests = [
        ("store", digest(areas.store)),
        ("arena", digest(areas.arena)),
        ("tables", digest(areas.tables)),
        ("screens", digest(areas.screens)),
        ("permissions", digest(&areas.permissions.concat())),
    ];
    for (name, digest) in digests {
        answer += &format!("{name} {}\n", hex(&digest));
    }
    answer
}

fn show_running(running: &Running) -> String {
    let (stopped, off) = (u8::from(running.stopped), u8::from(running.off));
    let mut answer = format!("focus {} stopped {stopped} off {off}\n", running.focus);
    for (number, partition) in running.partitions.iter().enumerate() {
        if let Some(partition) = partition {
            answer += &show_partition(number, partition);
        }
    }
    answer
}

fn show_partition(number: usize, partition: &Partition) -> String {
    let queue: Vec<u8> = partition.queue.iter().copied().collect();
    format!(
        "partition {number} cursor {} faults {}{} login {} queue {}\n",
        partition.cursor,
        u8::from(partition.keyboard_fault),
        u8::from(partition.screen_fault),
        partition
            .login
            .map_or("-".to_string(), |place| place.to_string()),
        hex(&queue),
    )
}

/// The rows of a partition's screen, as far as there is one to look at.
pub fn screen(running: Option<&Running>, number: u32, screens: &[u8]) -> String {
    let active = running.is_some_and(|running| running.partition(number).is_some());
    let part = screen::part(number as usize);
    if !active || screens.len() < part.end() {
        return "screen -\n".to_string();
    }
    part.of(screens)
        .chunks_exact(screen::COLUMNS)
        .map(row)
        .collect()
}

fn row(cells: &[u8]) -> String {
    let shown = |cell: &u8| {
        if (32..=126).contains(cell) {
            char::from(*cell)
        } else {
            '.'
        }
    };
    cells.iter().map(shown).chain(['\n']).collect()
}
