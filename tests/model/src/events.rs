//! What happens to a terminal from outside: keys, the attention key, faults (01, Events).

use crate::numbers::{KEYBOARD, QUEUE_LENGTH, SCREEN};
use crate::terminal::{Running, Terminal};

impl Terminal {
    /// A key goes to the focused partition, whoever reads next. A full queue drops it.
    pub fn key(&mut self, key: u8) {
        if let Some(running) = self.not_stopped() {
            let focus = running.focus as u32;
            if let Some(partition) = running.partition_mut(focus) {
                if partition.queue.len() < QUEUE_LENGTH {
                    partition.queue.push_back(key);
                }
            }
        }
    }

    /// Moves the focus to the next active partition, from the last to the first.
    pub fn attention(&mut self) {
        if let Some(running) = self.not_stopped() {
            let count = running.partitions.len();
            let behind = (1..=count).map(|step| (running.focus + step) % count);
            let next = behind
                .into_iter()
                .find(|number| running.partitions[*number].is_some());
            running.focus = next.unwrap_or(running.focus);
        }
    }

    /// Sets or clears the fault flag of one of an active partition's two devices.
    pub fn fault(&mut self, partition: u32, device: u32, set: bool) {
        let running = self.not_stopped();
        if let Some(partition) = running.and_then(|running| running.partition_mut(partition)) {
            match device {
                KEYBOARD => partition.keyboard_fault = set,
                SCREEN => partition.screen_fault = set,
                _ => {}
            }
        }
    }

    /// Events find only a running terminal that nobody has stopped.
    fn not_stopped(&mut self) -> Option<&mut Running> {
        self.running.as_mut().filter(|running| !running.stopped)
    }
}
