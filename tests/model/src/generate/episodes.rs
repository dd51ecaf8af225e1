//! Episodes: a few lines that belong together, out of which a text is put together.

use super::composer::{Composer, ARENA, SCREENS, STORE, TABLES};

impl Composer {
    /// Calls on a terminal that was never started; all of them answer alike.
    pub fn before_any_start(&mut self) {
        for _ in 0..self.random.between(1, 14) {
            self.any_call();
        }
        self.event();
        if self.random.chance(1, 2) {
            self.show();
        }
        if self.random.chance(1, 3) {
            self.screen();
        }
    }

    pub fn episode(&mut self) {
        match self
            .random
            .weighted(&[24, 20, 17, 4, 9, 5, 6, 6, 5, 4, 4, 2, 2, 7, 5, 1])
        {
            0 => self.several(Composer::device_call),
            1 => self.several(Composer::memory_call),
            2 => self.several(Composer::user_call),
            3 => self.configuration(),
            4 => self.key_story(),
            5 => self.fault_story(),
            6 => self.screen_edges(),
            7 => self.password_story(),
            8 => self.flush_story(),
            9 => self.stop_story(),
            10 => self.area_story(),
            11 => self.refused_story(),
            12 => self.restart(),
            13 => self.odd_lines(),
            14 => self.event(),
            _ => self.rare_lines(),
        }
        if self.random.chance(1, 4) {
            self.show();
        }
        if self.random.chance(1, 14) {
            self.screen();
        }
        if self.known.stopped {
            // An episode may have stopped the terminal by the way; little can be reached then.
            self.restart();
        }
    }

    fn several(&mut self, call: fn(&mut Composer)) {
        for _ in 0..self.random.between(4, 9) {
            call(self);
        }
    }

    fn odd_lines(&mut self) {
        match self.random.below(6) {
            0 | 1 => return self.passed_over(),
            2 => return self.odd_good_line(),
            _ => {}
        }
        for _ in 0..self.random.between(1, 3) {
            self.bad_line();
        }
    }

    fn rare_lines(&mut self) {
        match self.random.below(8) {
            0 => self.very_long_line(),
            1..=3 => self.crowded_queue(),
            _ => self.replace_store(true),
        }
    }

    /// A restart that is refused: the running terminal goes on as if nothing had been said.
    fn refused_story(&mut self) {
        self.refused_restart();
        self.show();
        for _ in 0..self.random.between(1, 5) {
            self.any_lasting_call();
        }
        self.restart();
    }

    /// An area of another length, or tables overwritten, and the calls that are lent it.
    fn area_story(&mut self) {
        let area = self
            .random
            .pick(&[ARENA, TABLES, TABLES, SCREENS, SCREENS, STORE, STORE]);
        let logins = self.known.logins;
        let accounts = self.known.accounts.clone();
        let stopped = self.known.stopped;
        self.spoil(area);
        for _ in 0..self.random.between(2, 7) {
            match self.random.chance(4, 5) {
                true => self.call_lent(area),
                false => self.any_lasting_call(),
            }
        }
        if self.random.chance(1, 2) {
            self.show();
        }
        // The calls were refused, so what they would have taught is forgotten.
        self.known.logins = logins;
        self.known.accounts = accounts;
        self.known.stopped = stopped;
        self.mend(area);
    }

    pub fn spoil_any(&mut self) {
        let area = self.random.pick(&[ARENA, TABLES, SCREENS, STORE]);
        self.spoil(area);
    }

    fn spoil(&mut self, area: usize) {
        if area == STORE {
            return self.spoil_store();
        }
        let length = self.lengths[area];
        let other = match self.random.below(4) {
            0 if area == TABLES => length,
            0 => 0,
            1 => length + 1,
            _ => length.saturating_sub(1),
        };
        let other = if other == length && area != TABLES {
            length + 1
        } else {
            other
        };
        self.set_length(area, other.min(65_535));
    }

    fn spoil_store(&mut self) {
        match self.random.below(3) {
            0 => self.clear(),
            // One more file, which makes a good image of another length.
            1 => self.append(b"image ", b"\x04\x00\x00\x00\x01\x00\x02zz!"),
            _ => self.append(b"image ", b"\x00"),
        }
        self.store_spoiled = true;
    }

    /// Half of the time the length comes back, so that the calls work again (or, for overwritten
    /// tables, still do not); else a restart puts everything right.
    fn mend(&mut self, area: usize) {
        if self.random.chance(1, 2) {
            match area {
                STORE => self.replace_store(false),
                _ => self.set_length(area, self.known.lengths_at_start[area]),
            }
            for _ in 0..self.random.between(1, 3) {
                self.call_lent_and_lasting(area);
            }
        }
        if area == TABLES || self.random.chance(1, 2) {
            self.restart();
        }
    }

    fn call_lent(&mut self, area: usize) {
        if area == SCREENS && self.random.chance(1, 3) {
            return match self.random.chance(1, 2) {
                true => self.shutdown(),
                false => self.powerdown(),
            };
        }
        self.call_lent_and_lasting(area);
    }

    fn call_lent_and_lasting(&mut self, area: usize) {
        let choice = self.random.below(3);
        match (area, choice) {
            (ARENA, 0) => self.load(),
            (ARENA, 1) => self.store(),
            (ARENA, _) | (STORE, 0) => self.flush(),
            (TABLES, 0) => self.login(),
            (TABLES, 1) => self.who(),
            (TABLES, _) | (STORE, 1) => self.set_password(),
            (STORE, _) => self.configuration(),
            (_, 0) => self.read_random(),
            (_, 1) => self.write_next(),
            _ => self.write_random(),
        }
    }
}
