//! Calls that concern the terminal as a whole: shutdown, powerdown and configuration.

use super::composer::Composer;
use super::random::Random;
use super::script::hex;

impl Composer {
    pub fn configuration(&mut self) {
        let partition = match self.random.chance(1, 12) {
            true => self.inactive_partition(),
            false => self.any_partition(),
        };
        let length = self
            .random
            .pick(&[2_584, 2_584, 2_584, 2_583, 2_583, 2_585, 4_096, 0, 100]);
        self.script
            .words(format!("configuration {partition} {length}"));
    }

    pub fn shutdown(&mut self) {
        let partition = self.any_partition();
        self.shutdown_of(partition);
    }

    fn shutdown_of(&mut self, partition: usize) {
        let message = hex(&message(&mut self.random));
        self.script.words(format!("shutdown {partition} {message}"));
        self.learn_stop(partition);
    }

    pub fn powerdown(&mut self) {
        let partition = self.any_partition();
        self.powerdown_of(partition);
    }

    fn powerdown_of(&mut self, partition: usize) {
        self.script.words(format!("powerdown {partition}"));
        self.learn_stop(partition);
    }

    fn learn_stop(&mut self, partition: usize) {
        let active = self
            .known
            .plan
            .as_ref()
            .is_some_and(|plan| plan.active.get(partition).copied().unwrap_or(false));
        if active {
            self.known.stopped = true;
        }
    }

    /// The terminal is stopped, everything is tried on it, and it is started again.
    pub fn stop_story(&mut self) {
        if self.random.chance(1, 2) {
            self.stop_from_outside();
        }
        let partition = self.active_partition();
        self.before_stop(partition);
        match self.random.below(3) {
            0 => self.powerdown_of(partition),
            _ => self.shutdown_of(partition),
        }
        self.script.words(format!("screen {partition}"));
        self.show();
        if self.random.chance(1, 4) {
            // A bad state goes before a stop.
            self.spoil_any();
        }
        for _ in 0..self.random.between(2, 9) {
            self.any_call();
            if self.random.chance(1, 5) {
                self.event();
            }
        }
        self.show();
        self.restart();
    }

    /// What makes the notice look different: the cursor's place, a fault, a later soft line.
    fn before_stop(&mut self, partition: usize) {
        match self.random.below(7) {
            0 => self.write_next_bytes(partition, b"\r"),
            1 => self.write_next_bytes(partition, &[10; 24]),
            2 => self.script.words(format!("fault {partition} 2 set")),
            3 => self.idle_setup_line(),
            4 => self.write_next(),
            _ => {}
        }
    }

    /// A set-up line that counts for the next start only.
    pub fn idle_setup_line(&mut self) {
        if self.random.chance(1, 2) {
            self.soft = !self.soft;
            self.script
                .line(if self.soft { b"soft yes" } else { b"soft no" });
        } else {
            let letters: &[&[u8]] = &[b"A", b"PA", b"AAAAAAAA", b"APAP", b"P"];
            self.letters = self.random.pick(letters).to_vec();
            self.script
                .line(&[b"partitions ", &self.letters[..]].concat());
        }
    }

    /// A stop that is refused, since no active partition asks for it.
    fn stop_from_outside(&mut self) {
        let partition = self.inactive_partition();
        let line = match self.random.below(2) {
            0 => format!("shutdown {partition} 62796500"),
            _ => format!("powerdown {partition}"),
        };
        self.script.words(line);
    }

    /// One of the fourteen calls, each as likely as another.
    pub fn any_call(&mut self) {
        match self.random.below(14) {
            0 => self.read_next(),
            1 => self.read_random(),
            2 => self.write_next(),
            3 => self.write_random(),
            4 => self.load(),
            5 => self.store(),
            6 => self.flush(),
            7 => self.login(),
            8 => self.who(),
            9 => self.logout(),
            10 => self.set_password(),
            11 => self.shutdown(),
            12 => self.powerdown(),
            _ => self.configuration(),
        }
    }

    /// One of the calls that do not stop the terminal.
    pub fn any_lasting_call(&mut self) {
        match self.random.weighted(&[4, 4, 4, 1]) {
            0 => self.device_call(),
            1 => self.memory_call(),
            2 => self.user_call(),
            _ => self.configuration(),
        }
    }
}

/// A message whose first zero stands at a limit or between them, or nowhere.
fn message(random: &mut Random) -> Vec<u8> {
    let length = random.pick(&[0, 1, 2, 20, 79, 80, 81, 82, 200]);
    let mut message = match random.below(3) {
        0 => random.string(length),
        _ => random.printable(length),
    };
    if random.chance(1, 4) && length > 2 {
        message[length / 2] = random.pick(&[8, 10, 13]);
    }
    if random.chance(4, 5) {
        message.push(0);
        if random.chance(1, 3) {
            message.extend_from_slice(b"behind\0");
        }
    }
    message
}
