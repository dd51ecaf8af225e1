//! Load, store and flush: selectors, ranges and the store's number around their limits.

use super::composer::Composer;
use super::plan::{Permission, Plan};
use super::script::hex;

const FIRST_DSEG: usize = 256;
const FIRST_MSEG: usize = 512;
const LONGEST_BUFFER: usize = 4_096;

/// A selector and the size of its segment, as far as there is one.
#[derive(Clone, Copy)]
pub struct Chosen {
    selector: usize,
    size: usize,
}

impl Composer {
    pub fn memory_call(&mut self) {
        match self.random.weighted(&[4, 5, 3]) {
            0 => self.load(),
            1 => self.store(),
            _ => self.flush(),
        }
    }

    pub fn load(&mut self) {
        let partition = self.any_partition();
        let chosen = self.selector(partition, false);
        self.load_from(partition, chosen);
    }

    fn load_from(&mut self, partition: usize, chosen: Chosen) {
        let (offset, length) = self.range(chosen.size);
        self.script.words(format!(
            "load {partition} {} {offset} {length}",
            chosen.selector
        ));
    }

    pub fn store(&mut self) {
        let partition = self.any_partition();
        let chosen = self.selector(partition, false);
        self.store_to(partition, chosen);
    }

    fn store_to(&mut self, partition: usize, chosen: Chosen) {
        let (offset, length) = self.range(chosen.size);
        let bytes = hex(&self.random.bytes(length));
        self.script.words(format!(
            "store {partition} {} {offset} {bytes}",
            chosen.selector
        ));
    }

    pub fn flush(&mut self) {
        let partition = self.any_partition();
        let dseg = self.random.chance(3, 4);
        let chosen = self.selector(partition, dseg);
        self.flush_of(partition, chosen);
    }

    fn flush_of(&mut self, partition: usize, chosen: Chosen) {
        let taken = match self.random.weighted(&[4, 4, 1, 1]) {
            0 => self.random.around(chosen.size),
            1 => self.random.below(chosen.size + 1),
            2 => self.random.pick(&[0, 1, 4_294_967_295, 65_536]),
            _ => chosen.size,
        };
        self.script
            .words(format!("flush {partition} {} {taken}", chosen.selector));
    }

    /// A dseg is written, flushed and looked at again, also from another partition and, now and
    /// then, after a restart: what the store holds must come back.
    pub fn flush_story(&mut self) {
        let partition = self.active_partition();
        let chosen = self.selector(partition, true);
        for _ in 0..self.random.between(1, 3) {
            self.store_to(partition, chosen);
        }
        self.flush_of(partition, chosen);
        if self.random.chance(1, 3) {
            self.restart();
        }
        self.load_from(partition, chosen);
        let other = self.active_partition();
        self.load_from(other, chosen);
        self.show();
    }

    /// Mostly a segment in the partition's list; else one of another, or a number at a limit.
    fn selector(&mut self, partition: usize, dseg: bool) -> Chosen {
        let Some(plan) = &self.known.plan else {
            return Chosen {
                selector: FIRST_DSEG,
                size: 4,
            };
        };
        let listed = segments(plan, Some(partition), dseg);
        let declared = segments(plan, None, dseg);
        match self.random.weighted(&[82, 8, 10]) {
            0 if !listed.is_empty() => self.random.pick(&listed),
            0 | 1 if !declared.is_empty() => self.random.pick(&declared),
            _ => {
                let selectors = [
                    0,
                    1,
                    255,
                    256,
                    271,
                    272,
                    511,
                    512,
                    527,
                    528,
                    65_792,
                    4_294_967_295,
                    FIRST_DSEG + plan.dsegs.len(),
                    FIRST_MSEG + plan.msegs.len(),
                ];
                Chosen {
                    selector: self.random.pick(&selectors),
                    size: self.random.below(20),
                }
            }
        }
    }

    /// An offset and a length: mostly inside a segment of this size, else at or over its end.
    fn range(&mut self, size: usize) -> (usize, usize) {
        let random = &mut self.random;
        let longest = size.min(LONGEST_BUFFER);
        match random.weighted(&[50, 12, 10, 6, 6, 4, 3]) {
            0 => {
                let offset = random.below(size + 1);
                (offset, random.below(size.min(offset + 40) - offset + 1))
            }
            1 => {
                let length = random.below(longest.min(60) + 1);
                (size - length, length)
            }
            2 => {
                let length = random.below(longest.min(60) + 1);
                (size - length + 1, length)
            }
            3 => (0, random.around(longest).min(LONGEST_BUFFER)),
            4 => (random.around(size), 0),
            5 => (
                random.pick(&[65_536, 2_147_483_648, 4_294_967_295]),
                random.below(9),
            ),
            _ => (random.pick(&[4_294_967_295, 4_294_963_200]), LONGEST_BUFFER),
        }
    }
}

/// The segments that a partition has in its list, or all that are declared.
fn segments(plan: &Plan, partition: Option<usize>, dsegs_only: bool) -> Vec<Chosen> {
    let dsegs = plan
        .dsegs
        .iter()
        .enumerate()
        .map(|(index, segment)| (FIRST_DSEG + index, segment));
    let msegs = plan
        .msegs
        .iter()
        .enumerate()
        .map(|(index, segment)| (FIRST_MSEG + index, segment));
    dsegs
        .chain(msegs)
        .filter(|(selector, _)| !dsegs_only || *selector < FIRST_MSEG)
        .filter(|(_, segment)| match partition {
            None => true,
            Some(number) => segment
                .permissions
                .get(number)
                .is_some_and(|&held| held != Permission::NoAccess),
        })
        .map(|(selector, segment)| Chosen {
            selector,
            size: segment.size,
        })
        .collect()
}
