//! Calls on the two devices: next and random, reading and writing.

use super::composer::Composer;
use super::random::Random;
use super::script::hex;

const KEYBOARD: usize = 1;
const SCREEN: usize = 2;

impl Composer {
    pub fn device_call(&mut self) {
        match self.random.weighted(&[3, 4, 6, 4]) {
            0 => self.read_next(),
            1 => self.read_random(),
            2 => self.write_next(),
            _ => self.write_random(),
        }
    }

    /// Mostly the device meant and the caller's own; now and then another, or none.
    fn device(&mut self, meant: usize, partition: usize) -> (usize, usize) {
        match self.random.weighted(&[85, 5, 4, 4, 2]) {
            0 => (meant, partition),
            1 => (3 - meant, partition),
            2 => (
                meant,
                self.random
                    .pick(&[0, 1, 2, 7, 8, partition + 256, 4_294_967_295]),
            ),
            3 => (
                self.random
                    .pick(&[0, 3, 255, 257, 258, 65_537, 4_294_967_295]),
                partition,
            ),
            _ => (3 - meant, self.random.below(9)),
        }
    }

    pub fn read_next(&mut self) {
        let partition = self.any_partition();
        self.read_next_of(partition);
    }

    pub fn read_next_of(&mut self, partition: usize) {
        let (major, minor) = self.device(KEYBOARD, partition);
        let length = buffer_length(&mut self.random);
        let request = request(&mut self.random, length);
        self.script.words(format!(
            "read_next {partition} {major} {minor} {request} {length}"
        ));
    }

    pub fn read_random(&mut self) {
        let partition = self.any_partition();
        let (major, minor) = self.device(SCREEN, partition);
        let offset = offset(&mut self.random);
        let length = buffer_length(&mut self.random);
        let request = request(&mut self.random, length);
        self.script.words(format!(
            "read_random {partition} {major} {minor} {offset} {request} {length}"
        ));
    }

    pub fn write_next(&mut self) {
        let partition = self.any_partition();
        let bytes = screen_bytes(&mut self.random);
        self.write_next_bytes(partition, &bytes);
    }

    pub fn write_next_bytes(&mut self, partition: usize, bytes: &[u8]) {
        let (major, minor) = self.device(SCREEN, partition);
        let request = request(&mut self.random, bytes.len());
        let bytes = hex(bytes);
        self.script.words(format!(
            "write_next {partition} {major} {minor} {request} {bytes}"
        ));
    }

    pub fn write_random(&mut self) {
        let partition = self.any_partition();
        let (major, minor) = self.device(SCREEN, partition);
        let offset = offset(&mut self.random);
        let bytes = screen_bytes(&mut self.random);
        let request = request(&mut self.random, bytes.len());
        let bytes = hex(&bytes);
        self.script.words(format!(
            "write_random {partition} {major} {minor} {offset} {request} {bytes}"
        ));
    }

    /// Brings the cursor next to an edge and writes over it: column 79, row 24, both, column 0.
    pub fn screen_edges(&mut self) {
        let partition = self.active_partition();
        let rows = self.random.pick(&[0, 1, 23, 24, 25]);
        let columns = self.random.pick(&[0, 1, 78, 79, 80, 81]);
        let mut bytes = vec![10; rows];
        bytes.extend_from_slice(&self.random.printable(columns));
        self.write_next_bytes(partition, &bytes);
        for _ in 0..self.random.between(1, 3) {
            let next: &[u8] = self.random.pick(&[
                b"x",
                &[8],
                &[8, 8, b'y'],
                &[10],
                &[13],
                &[13, 10],
                &[0],
                &[255],
                b"ab",
            ]);
            self.write_next_bytes(partition, next);
        }
        self.script.words(format!("screen {partition}"));
    }
}

/// The length of a lent buffer or part: mostly short, and now and then at a limit.
fn buffer_length(random: &mut Random) -> usize {
    match random.weighted(&[70, 22, 4]) {
        0 => random.between(1, 16),
        1 => random.pick(&[0, 5, 63, 64, 65, 79, 80, 81]),
        _ => random.pick(&[1_999, 2_000, 2_001, 4_095, 4_096]),
    }
}

/// A request for a lent part of this length: mostly all of it, now and then more than there is.
fn request(random: &mut Random, length: usize) -> usize {
    match random.weighted(&[66, 18, 6, 6, 4]) {
        0 => length,
        1 => random.below(length + 1),
        2 => length + 1,
        3 => 0,
        _ => random.pick(&[
            length + 2,
            length + 256,
            length + 65_536,
            2_000,
            4_294_967_295,
        ]),
    }
}

fn offset(random: &mut Random) -> usize {
    match random.weighted(&[45, 30, 6, 6, 6]) {
        0 => random.below(2_000),
        1 => random.pick(&[0, 1, 79, 80, 1_919, 1_920, 1_990, 1_995, 1_998, 1_999]),
        2 => 2_000,
        3 => 2_001,
        _ => random.pick(&[
            2_002,
            2_080,
            4_000,
            65_536,
            67_535,
            2_147_483_648,
            4_294_967_295,
        ]),
    }
}

/// Bytes for a screen: words, whole rows, control bytes, many rows, noise; now and then very long.
pub fn screen_bytes(random: &mut Random) -> Vec<u8> {
    match random.weighted(&[30, 10, 20, 8, 12, 6, 1, 4]) {
        0 => {
            let length = random.between(1, 30);
            random.printable(length)
        }
        1 => {
            let length = random.pick(&[78, 79, 80, 81, 159, 160, 161]);
            random.printable(length)
        }
        2 => (0..random.between(1, 40))
            .map(|_| control_or_letter(random))
            .collect(),
        3 => vec![random.pick(&[10, 10, 8, 13]); random.between(1, 26)],
        4 => {
            let length = random.between(1, 40);
            random.bytes(length)
        }
        5 => (0..random.between(100, 500))
            .map(|_| control_or_letter(random))
            .collect(),
        6 => {
            let length = random.pick(&[1_999, 2_000, 2_001, 4_095, 4_096]);
            random.bytes(length)
        }
        _ => Vec::new(),
    }
}

fn control_or_letter(random: &mut Random) -> u8 {
    match random.below(8) {
        0 => 10,
        1 => 13,
        2 => 8,
        _ => random.between(33, 126) as u8,
    }
}
