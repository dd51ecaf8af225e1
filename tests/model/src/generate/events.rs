//! Keys, the attention key and fault flags.

use super::composer::Composer;

impl Composer {
    pub fn event(&mut self) {
        match self.random.weighted(&[6, 2, 3]) {
            0 => self.key(),
            1 => self.attention(),
            _ => self.fault(),
        }
    }

    fn key(&mut self) {
        let byte = match self.random.below(4) {
            0 => self.random.pick(&[0, 8, 10, 13, 27, 127, 255]),
            _ => self.random.between(32, 126),
        };
        self.script.words(format!("key {byte:02x}"));
    }

    fn attention(&mut self) {
        self.script.line(b"attention");
        let Some(plan) = &self.known.plan else { return };
        if self.known.stopped {
            return;
        }
        let active = plan.active_partitions();
        let behind = active
            .iter()
            .find(|&&partition| partition > self.known.focus);
        self.known.focus = behind.copied().unwrap_or(active[0]);
    }

    /// A fault flag, mostly of a true device; unknown ones must change nothing.
    fn fault(&mut self) {
        let partition = self.any_partition();
        let device: usize = match self.random.weighted(&[4, 4, 1]) {
            0 => 1,
            1 => 2,
            _ => self.random.pick(&[0, 3, 257, 258, 4_294_967_295]),
        };
        let word = self.random.pick(&["set", "clear"]);
        self.script
            .words(format!("fault {partition} {device} {word}"));
    }

    /// Keys for one partition, which first gets the focus, and reads of them.
    pub fn key_story(&mut self) {
        let partition = self.active_partition();
        self.focus_on(partition);
        for _ in 0..self.random.pick(&[1, 1, 2, 3, 5]) {
            self.key();
        }
        for _ in 0..self.random.between(1, 4) {
            self.read_next_of(partition);
        }
    }

    /// A queue around its 64 places: the keys beyond are dropped.
    pub fn crowded_queue(&mut self) {
        let partition = self.active_partition();
        self.focus_on(partition);
        for _ in 0..self.random.pick(&[63, 64, 65, 66]) {
            self.key();
        }
        self.show();
        for _ in 0..self.random.between(1, 3) {
            self.read_next_of(partition);
        }
        self.key();
        self.script
            .words(format!("read_next {partition} 1 {partition} 65 65"));
    }

    fn focus_on(&mut self, partition: usize) {
        for _ in 0..8 {
            if self.known.focus != partition && !self.known.stopped {
                self.attention();
            }
        }
    }

    /// A faulty device: its calls fail, and work again once the flag is cleared.
    pub fn fault_story(&mut self) {
        let partition = self.active_partition();
        let device = self.random.pick(&[1, 2, 2]);
        self.script.words(format!("fault {partition} {device} set"));
        if self.random.chance(1, 4) {
            self.script
                .words(format!("fault {partition} {} set", 3 - device));
        }
        for _ in 0..self.random.between(2, 5) {
            match device {
                1 => self.read_next_of(partition),
                _ => self.write_to_faulty(partition),
            }
        }
        if self.random.chance(1, 3) {
            self.show();
        }
        if self.random.chance(4, 5) {
            self.script
                .words(format!("fault {partition} {device} clear"));
        }
    }

    /// A call on a screen whose flag is set, with nothing else wrong, so that the fault shows.
    fn write_to_faulty(&mut self, partition: usize) {
        let offset = self.random.pick(&[0, 80, 1_999, 2_000]);
        let line = match self.random.below(5) {
            0 => format!("write_next {partition} 2 {partition} 2 4142"),
            1 => format!("write_next {partition} 2 {partition} 0 -"),
            2 => format!("write_random {partition} 2 {partition} {offset} 1 43"),
            3 => format!("read_random {partition} 2 {partition} {offset} 2 2"),
            _ => format!("read_next {partition} 2 {partition} 3 3"),
        };
        self.script.words(line);
    }
}
