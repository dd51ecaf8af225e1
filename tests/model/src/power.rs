//! Shutdown and powerdown (01, Calls; 003, 4.6 and 4.7).

use crate::numbers::BAD_PARTITION;
use crate::screen;
use crate::terminal::{number, Lent, Terminal};

const NOTICE: &[u8] = b"\nSYSTEM HALTED";

impl Terminal {
    /// Shows the caller's message, if it is one, and the notice; then stops.
    pub fn shutdown(&mut self, partition: u32, message: &[u8], screens: &mut [u8]) -> u32 {
        number(self.halt(partition, message, screens))
    }

    /// Switches off where the power can be; elsewhere it is a shutdown without a message.
    pub fn powerdown(&mut self, partition: u32, screens: &mut [u8]) -> u32 {
        let soft = self
            .admit(partition, &[Lent::Screens(screens)])
            .map(|(running, _)| {
                if running.soft {
                    running.stopped = true;
                    running.off = true;
                }
                running.soft
            });
        match soft {
            Ok(true) => number(Ok(())),
            Ok(false) => number(self.halt(partition, &[], screens)),
            Err(refused) => refused,
        }
    }

    /// A faulty screen shows nothing, but the terminal stops all the same.
    fn halt(&mut self, caller: u32, message: &[u8], screens: &mut [u8]) -> Result<(), u32> {
        let (running, index) = self.admit(caller, &[Lent::Screens(screens)])?;
        let partition = running.partition_mut(caller).ok_or(BAD_PARTITION)?;
        if !partition.screen_fault {
            let cells = screen::part(index).of_mut(screens);
            let cursor = screen::put_all(cells, partition.cursor, shown(message));
            partition.cursor = screen::put_all(cells, cursor, NOTICE);
        }
        running.stopped = true;
        Ok(())
    }
}

/// The part of a message that is shown: up to its first zero, if that stands at place 1 to 80.
/// An empty, an unended or an overlong message is passed over.
fn shown(message: &[u8]) -> &[u8] {
    match message.iter().take(81).position(|byte| *byte == 0) {
        Some(zero) => &message[..zero],
        None => &[],
    }
}

#[cfg(test)]
mod tests {
    use super::shown;

    #[test]
    fn messages() {
        assert_eq!(shown(b""), b"");
        assert_eq!(shown(b"\0bye"), b"");
        assert_eq!(shown(b"bye"), b"");
        assert_eq!(shown(b"bye\0now\0"), b"bye");
        let mut long = [b'x'; 90];
        long[80] = 0;
        assert_eq!(shown(&long).len(), 80);
        long[80] = b'x';
        long[81] = 0;
        assert_eq!(shown(&long).len(), 0);
    }
}
