//! The writer of one text, with its own small knowledge of the terminal it writes for.

use super::plan::{Account, Plan};
use super::random::Random;
use super::script::Script;
use super::setup::Setup;

/// The four areas a call can be lent.
pub const ARENA: usize = 0;
pub const TABLES: usize = 1;
pub const SCREENS: usize = 2;
pub const STORE: usize = 3;

/// What the text believes of the running terminal. It only steers the choices: where it is
/// wrong, a call is answered differently and nothing else happens.
pub struct Known {
    pub started: bool,
    pub stopped: bool,
    pub plan: Option<Plan>,
    pub logins: [Option<usize>; 8],
    pub accounts: Vec<Vec<Account>>,
    pub focus: usize,
    pub lengths_at_start: [usize; 4],
}

pub struct Composer {
    pub random: Random,
    pub script: Script,
    pub known: Known,
    /// What the next start will read.
    pub next: Option<Setup>,
    pub letters: Vec<u8>,
    pub soft: bool,
    pub lengths: [usize; 4],
    pub text_length: usize,
    /// The store or its length was tampered with, so that starting again as it is would fail.
    pub store_spoiled: bool,
    /// The store was written anew since the last accepted start.
    pub store_fresh: bool,
}

impl Composer {
    pub fn new(seed: u64) -> Composer {
        Composer {
            random: Random::new(seed),
            script: Script::new(),
            known: Known {
                started: false,
                stopped: false,
                plan: None,
                logins: [None; 8],
                accounts: Vec::new(),
                focus: 0,
                lengths_at_start: [0; 4],
            },
            next: None,
            letters: b"A".to_vec(),
            soft: false,
            lengths: [4_096, 4_096, 16_000, 0],
            text_length: 0,
            store_spoiled: false,
            store_fresh: true,
        }
    }

    pub fn active_partition(&mut self) -> usize {
        match &self.known.plan {
            Some(plan) => self.random.pick(&plan.active_partitions()),
            None => 0,
        }
    }

    /// A passive partition or one that is not there.
    pub fn inactive_partition(&mut self) -> usize {
        let active = match &self.known.plan {
            Some(plan) => plan.active.clone(),
            None => Vec::new(),
        };
        let passive: Vec<usize> = (0..active.len()).filter(|&place| !active[place]).collect();
        if !passive.is_empty() && self.random.chance(1, 2) {
            return self.random.pick(&passive);
        }
        self.random
            .pick(&[active.len(), 8, 9, 255, 256, 65_536, 4_294_967_295])
    }

    /// Mostly an active partition; now and then a passive, unknown or huge one.
    pub fn any_partition(&mut self) -> usize {
        match self.random.weighted(&[92, 5, 3]) {
            0 => self.active_partition(),
            1 => self.random.below(10),
            _ => self
                .random
                .pick(&[8, 9, 16, 255, 256, 65_536, 2_147_483_648, 4_294_967_295]),
        }
    }

    /// The accounts of a partition as the text knows them.
    pub fn accounts(&self, partition: usize) -> &[Account] {
        self.known
            .accounts
            .get(partition)
            .map_or(&[], Vec::as_slice)
    }

    pub fn login_of(&self, partition: usize) -> Option<usize> {
        self.known.logins.get(partition).copied().flatten()
    }

    pub fn show(&mut self) {
        self.script.line(b"show");
    }

    pub fn screen(&mut self) {
        let partition = self.any_partition();
        self.script.words(format!("screen {partition}"));
    }
}
