//! Set-up lines and starts: first ones, restarts, accepted and refused.

use super::composer::{Composer, ARENA, SCREENS, STORE, TABLES};
use super::script::hex;
use super::setup::{needs, Setup, LONGEST_AREA};

/// The longest set-up text that a replay text can give.
const LONGEST_TEXT: usize = 20_000;

impl Composer {
    pub fn accepted_start(&mut self) {
        let setup = Setup::good(&mut self.random);
        self.announce(setup);
        self.start();
    }

    pub fn refused_start(&mut self) {
        let setup = Setup::broken(&mut self.random);
        self.announce(setup);
        self.start();
    }

    /// A start on what stands there already, or on a new set-up where that would not do.
    pub fn restart(&mut self) {
        if !self.ready_as_is() || self.random.chance(1, 5) {
            return self.accepted_start();
        }
        self.restore_lengths();
        if let Some(letters) = self.next.as_ref().map(|setup| setup.letters.clone()) {
            self.announce_partitions(&letters);
        }
        self.start();
    }

    fn ready_as_is(&self) -> bool {
        let refused = self.next.as_ref().is_none_or(|setup| setup.refused);
        !refused && !self.store_spoiled
    }

    fn start(&mut self) {
        self.script.line(b"start");
        let Some(setup) = &self.next else { return };
        if setup.refused || self.store_spoiled {
            return;
        }
        let plan = setup.plan.clone();
        // A start on the old store finds the passwords that were set meanwhile.
        if self.store_fresh {
            self.known.accounts = plan.accounts.clone();
            self.store_fresh = false;
        }
        self.known.started = true;
        self.known.stopped = false;
        self.known.logins = [None; 8];
        self.known.focus = plan.active_partitions()[0];
        self.known.plan = Some(plan);
        self.known.lengths_at_start = self.lengths;
    }

    /// Writes the lines of a set-up; what stood before in text and store is cleared.
    fn announce(&mut self, setup: Setup) {
        if self.text_length > 0 || self.lengths[STORE] > 0 || self.random.chance(1, 10) {
            self.clear();
        }
        let mut parts = [0, 1, 2, 3, 4, 5, 6];
        self.random.shuffle(&mut parts);
        for part in parts {
            match part {
                0 => self.announce_partitions(&setup.letters),
                1 => self.announce_soft(setup.plan.soft),
                2 => self.announce_length(ARENA, setup.arena),
                3 => self.announce_length(TABLES, setup.tables),
                4 => self.announce_length(SCREENS, setup.screens),
                5 => self.append(b"text ", &setup.text),
                _ => self.append(b"image ", &setup.image),
            }
        }
        self.overfill(&setup);
        self.text_length = setup.text.len();
        self.lengths[STORE] = setup.image.len();
        self.store_spoiled = false;
        self.store_fresh = true;
        self.next = Some(setup);
    }

    /// Where text or store are full, a line that would go beyond: it is bad and appends nothing.
    fn overfill(&mut self, setup: &Setup) {
        if setup.text.len() + 2 > LONGEST_TEXT {
            self.script.line(b"text 2020");
        }
        if setup.image.len() == LONGEST_AREA {
            self.script.line(b"image 00");
        }
    }

    pub fn clear(&mut self) {
        self.script.line(b"clear");
        self.text_length = 0;
        self.lengths[STORE] = 0;
        self.store_spoiled = true;
    }

    pub fn announce_partitions(&mut self, letters: &[u8]) {
        if self.letters != letters || self.random.chance(1, 3) {
            self.script.line(&[b"partitions ", letters].concat());
            self.letters = letters.to_vec();
        }
    }

    fn announce_soft(&mut self, soft: bool) {
        if self.soft != soft || self.random.chance(1, 3) {
            self.script
                .line(if soft { b"soft yes" } else { b"soft no" });
            self.soft = soft;
        }
    }

    fn announce_length(&mut self, area: usize, length: usize) {
        if self.lengths[area] != length || self.random.chance(1, 3) {
            self.set_length(area, length);
        }
    }

    pub fn set_length(&mut self, area: usize, length: usize) {
        let word = ["arena", "tables", "screens"][area];
        self.script.words(format!("{word} {length}"));
        self.lengths[area] = length;
    }

    /// Gives the areas the lengths of the last accepted start again.
    pub fn restore_lengths(&mut self) {
        for area in [ARENA, TABLES, SCREENS] {
            if self.lengths[area] != self.known.lengths_at_start[area] {
                self.set_length(area, self.known.lengths_at_start[area]);
            }
        }
    }

    /// Bytes in one line or several: they are appended, so the cuts do not matter.
    pub fn append(&mut self, word: &[u8], bytes: &[u8]) {
        let mut rest = bytes;
        while !rest.is_empty() && self.random.chance(1, 4) {
            let (first, behind) = rest.split_at(self.random.between(0, rest.len()));
            self.script.line(&[word, hex(first).as_bytes()].concat());
            rest = behind;
        }
        if !rest.is_empty() || self.random.chance(1, 2) {
            self.script.line(&[word, hex(rest).as_bytes()].concat());
        }
    }

    /// Clears text and store and appends the same again: the terminal does not notice, though
    /// what was written to the store meanwhile is gone.
    pub fn replace_store(&mut self, altered: bool) {
        let Some(setup) = self.next.clone() else {
            return;
        };
        if setup.refused {
            return;
        }
        let mut image = setup.image.clone();
        if altered && !image.is_empty() {
            // Files may come to hold anything: calls go by the places kept since the start.
            let place = self.random.below(image.len());
            image[place] ^= 1 << self.random.below(8);
        }
        self.clear();
        self.append(b"text ", &setup.text);
        self.append(b"image ", &image);
        self.text_length = setup.text.len();
        self.lengths[STORE] = image.len();
        self.store_spoiled = altered;
        self.store_fresh = true;
    }

    /// A start that is refused for a small thing, while a terminal runs.
    pub fn refused_restart(&mut self) {
        match self.random.below(5) {
            0 => self.restart_without_partitions(),
            3 => self.restart_with_one_letter_changed(),
            1 => self.restart_on_short_area(),
            2 => self.restart_on_longer_text(),
            _ => self.refused_start(),
        }
    }

    fn restart_without_partitions(&mut self) {
        let letters = self.letters.clone();
        let bad: &[&[u8]] = &[b"P", b"PP", b"AAAAAAAAAAAA", b"PPPPPPPPA"];
        self.letters = self.random.pick(bad).to_vec();
        self.script
            .line(&[b"partitions ", &self.letters[..]].concat());
        self.script.line(b"start");
        self.announce_partitions(&letters);
    }

    /// A partition that turns active has no CODE, one that turns passive has one too many.
    fn restart_with_one_letter_changed(&mut self) {
        let letters = self.letters.clone();
        let place = self.random.below(letters.len());
        let mut changed = letters.clone();
        changed[place] = if letters[place] == b'A' { b'P' } else { b'A' };
        self.script.line(&[b"partitions ", &changed[..]].concat());
        self.script.line(b"start");
        self.letters = changed;
        self.announce_partitions(&letters);
    }

    fn restart_on_short_area(&mut self) {
        let Some(plan) = &self.known.plan else { return };
        let (arena, tables, screens) = needs(plan);
        let needed = [arena, tables, screens];
        let area = self.random.pick(&[TABLES, SCREENS, ARENA]);
        let area = if needed[area] == 0 { SCREENS } else { area };
        self.set_length(area, needed[area] - 1);
        self.script.line(b"start");
        if self.random.chance(1, 2) {
            self.set_length(area, self.known.lengths_at_start[area]);
        }
    }

    /// One more statement, or noise, at the end of the text.
    fn restart_on_longer_text(&mut self) {
        let more: &[&[u8]] = &[
            b"\nCODE[0]=/a;",
            b"\nMSEG[99]={1,0,RW};",
            b"\nDSEG[0]={/a,0,RW};",
            b"\n;",
            b"\n\r",
            b"\nMSEG[0]={0,0,RW}",
            b"\n\"",
        ];
        let bytes = self.random.pick(more);
        self.append(b"text ", bytes);
        self.text_length += bytes.len();
        if let Some(setup) = &mut self.next {
            setup.refused = true;
        }
        self.script.line(b"start");
    }
}
