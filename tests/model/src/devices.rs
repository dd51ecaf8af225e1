//! The keyboard and the screen: next-read, random read, next-write, random write (01, Devices).

use crate::numbers::*;
use crate::screen::{self, CELLS};
use crate::terminal::{number_and_count, Lent, Partition, Terminal};

#[derive(Clone, Copy, PartialEq, Eq)]
enum Device {
    Keyboard,
    Screen,
}

#[derive(Clone, Copy, PartialEq, Eq)]
enum Access {
    Next,
    /// A random call, with its offset.
    Random(u32),
}

#[derive(Clone, Copy, PartialEq, Eq)]
enum Direction {
    Read,
    Write,
}

/// A request to a device, as far as its checks go.
#[derive(Clone, Copy)]
struct Request {
    major: u32,
    minor: u32,
    access: Access,
    direction: Direction,
    requested: u32,
    /// Length of the part that bytes are to be read into or written from.
    lent: usize,
}

impl Request {
    /// The checks that all four calls share, in one order. Which of them can come up at all
    /// follows from the access and the direction.
    fn check(&self, caller: usize, partition: &Partition) -> Result<Device, u32> {
        let device = match self.major {
            KEYBOARD => Device::Keyboard,
            SCREEN => Device::Screen,
            _ => return Err(BAD_MAJOR),
        };
        let on_keyboard = device == Device::Keyboard;
        if on_keyboard && self.access != Access::Next {
            return Err(NOT_RANDOM);
        }
        if self.minor as usize != caller {
            return Err(BAD_MINOR);
        }
        if on_keyboard && self.direction == Direction::Write {
            return Err(NO_WRITE);
        }
        self.check_offset()?;
        if (self.requested as usize) > self.lent {
            return Err(BAD_BUFFER);
        }
        self.check_fault(device, partition)?;
        Ok(device)
    }

    fn check_offset(&self) -> Result<(), u32> {
        match self.access {
            Access::Random(offset) if offset as usize > CELLS => Err(BAD_OFFSET),
            Access::Random(offset) if offset as usize == CELLS => Err(DEVICE_END),
            _ => Ok(()),
        }
    }

    fn check_fault(&self, device: Device, partition: &Partition) -> Result<(), u32> {
        let faulty = match device {
            Device::Keyboard => partition.keyboard_fault,
            Device::Screen => partition.screen_fault,
        };
        match self.direction {
            Direction::Read if faulty => Err(READ_FAILURE),
            Direction::Write if faulty => Err(WRITE_FAILURE),
            _ => Ok(()),
        }
    }
}

impl Terminal {
    /// Takes the oldest keys from the caller's keyboard queue.
    pub fn read_next(
        &mut self,
        partition: u32,
        major: u32,
        minor: u32,
        request: u32,
        buffer: &mut [u8],
    ) -> (u32, usize) {
        let request = Request {
            major,
            minor,
            access: Access::Next,
            direction: Direction::Read,
            requested: request,
            lent: buffer.len(),
        };
        number_and_count(self.take_keys(partition, request, buffer))
    }

    fn take_keys(
        &mut self,
        caller: u32,
        request: Request,
        buffer: &mut [u8],
    ) -> Result<usize, u32> {
        let (running, index) = self.admit(caller, &[])?;
        let partition = running.partition_mut(caller).ok_or(BAD_PARTITION)?;
        let device = request.check(index, partition)?;
        // A screen has nothing to be read in sequence.
        if device == Device::Screen || partition.queue.is_empty() {
            return Err(NO_DATA);
        }
        let count = partition.queue.len().min(request.requested as usize);
        for (cell, key) in buffer.iter_mut().zip(partition.queue.drain(..count)) {
            *cell = key;
        }
        Ok(count)
    }

    /// Copies cells of the caller's screen to the buffer.
    #[allow(clippy::too_many_arguments)]
    pub fn read_random(
        &mut self,
        partition: u32,
        major: u32,
        minor: u32,
        offset: u32,
        request: u32,
        screens: &[u8],
        buffer: &mut [u8],
    ) -> (u32, usize) {
        let request = Request {
            major,
            minor,
            access: Access::Random(offset),
            direction: Direction::Read,
            requested: request,
            lent: buffer.len(),
        };
        let moved = self
            .random_range(partition, request, offset, screens)
            .map(|range| {
                buffer[..range.len()].copy_from_slice(&screens[range.clone()]);
                range.len()
            });
        number_and_count(moved)
    }

    /// Copies bytes to cells of the caller's screen as they are: no byte is a control byte here.
    #[allow(clippy::too_many_arguments)]
    pub fn write_random(
        &mut self,
        partition: u32,
        major: u32,
        minor: u32,
        offset: u32,
        request: u32,
        bytes: &[u8],
        screens: &mut [u8],
    ) -> (u32, usize) {
        let request = Request {
            major,
            minor,
            access: Access::Random(offset),
            direction: Direction::Write,
            requested: request,
            lent: bytes.len(),
        };
        let moved = self
            .random_range(partition, request, offset, screens)
            .map(|range| {
                let count = range.len();
                screens[range].copy_from_slice(&bytes[..count]);
                count
            });
        number_and_count(moved)
    }

    /// The bytes of the screen area that a random call moves: as many as requested, but no
    /// further than the screen's last cell.
    fn random_range(
        &mut self,
        caller: u32,
        request: Request,
        offset: u32,
        screens: &[u8],
    ) -> Result<std::ops::Range<usize>, u32> {
        let (running, index) = self.admit(caller, &[Lent::Screens(screens)])?;
        let partition = running.partition(caller).ok_or(BAD_PARTITION)?;
        request.check(index, partition)?;
        let offset = offset as usize;
        let count = (request.requested as usize).min(CELLS - offset);
        let first = screen::part(index).place + offset;
        Ok(first..first + count)
    }

    /// Writes the requested bytes at the caller's cursor. All of them count as moved, control
    /// bytes too.
    pub fn write_next(
        &mut self,
        partition: u32,
        major: u32,
        minor: u32,
        request: u32,
        bytes: &[u8],
        screens: &mut [u8],
    ) -> (u32, usize) {
        let request = Request {
            major,
            minor,
            access: Access::Next,
            direction: Direction::Write,
            requested: request,
            lent: bytes.len(),
        };
        number_and_count(self.put_bytes(partition, request, bytes, screens))
    }

    fn put_bytes(
        &mut self,
        caller: u32,
        request: Request,
        bytes: &[u8],
        screens: &mut [u8],
    ) -> Result<usize, u32> {
        let (running, index) = self.admit(caller, &[Lent::Screens(screens)])?;
        let partition = running.partition_mut(caller).ok_or(BAD_PARTITION)?;
        request.check(index, partition)?;
        let count = request.requested as usize;
        let cells = screen::part(index).of_mut(screens);
        partition.cursor = screen::put_all(cells, partition.cursor, &bytes[..count]);
        Ok(count)
    }
}
