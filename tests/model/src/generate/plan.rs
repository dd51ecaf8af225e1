//! What a set-up means: partitions, segments, accounts and files, before any of it is written down.

use super::passwords;
use super::random::Random;
use super::setup::LONGEST_AREA;

#[derive(Clone, Copy, PartialEq, Eq, Debug)]
pub enum Permission {
    NoAccess,
    ReadOnly,
    ReadWrite,
}

impl Permission {
    pub fn word(self) -> &'static [u8] {
        match self {
            Permission::NoAccess => b"NA",
            Permission::ReadOnly => b"RO",
            Permission::ReadWrite => b"RW",
        }
    }
}

/// A segment; the path of an mseg is empty.
#[derive(Clone)]
pub struct Segment {
    pub path: Vec<u8>,
    pub size: usize,
    pub host: usize,
    pub permissions: Vec<Permission>,
}

/// A user; the password is unknown after a write that was cut inside the digest.
#[derive(Clone)]
pub struct Account {
    pub name: Vec<u8>,
    pub password: Option<Vec<u8>>,
}

#[derive(Clone)]
pub struct File {
    pub path: Vec<u8>,
    pub contents: Vec<u8>,
}

#[derive(Clone)]
pub struct Plan {
    pub active: Vec<bool>,
    pub soft: bool,
    pub codes: Vec<(usize, Vec<u8>)>,
    pub dsegs: Vec<Segment>,
    pub msegs: Vec<Segment>,
    pub accounts: Vec<Vec<Account>>,
    pub files: Vec<File>,
}

/// How much a set-up holds.
#[derive(Clone, Copy, PartialEq, Eq)]
pub enum Style {
    Tiny,
    Usual,
    /// Eight active partitions, sixteen segments of each kind, somewhere 64 accounts.
    Full,
}

impl Plan {
    pub fn random(random: &mut Random, style: Style) -> Plan {
        let mut plan = Plan::empty(random, style);
        let mut paths = Paths { serial: 0 };
        plan.add_codes(random, &mut paths);
        let (dsegs, msegs) = segment_counts(random, style);
        for _ in 0..dsegs {
            plan.add_dseg(random, &mut paths);
        }
        for _ in 0..msegs {
            plan.add_mseg(random);
        }
        if style == Style::Full && random.chance(1, 2) {
            plan.open_all_segments(random);
        }
        plan.add_accounts(random, style);
        plan.add_other_files(random, &mut paths);
        random.shuffle(&mut plan.files);
        plan
    }

    fn empty(random: &mut Random, style: Style) -> Plan {
        let count = match style {
            Style::Tiny => 1,
            Style::Usual => random.pick(&[1, 2, 2, 3, 3, 3, 4, 5, 8]),
            Style::Full => 8,
        };
        let mut active: Vec<bool> = (0..count)
            .map(|_| style == Style::Full || random.chance(3, 4))
            .collect();
        let sure = random.below(count);
        active[sure] = true;
        Plan {
            active,
            soft: random.chance(1, 2),
            codes: Vec::new(),
            dsegs: Vec::new(),
            msegs: Vec::new(),
            accounts: vec![Vec::new(); count],
            files: Vec::new(),
        }
    }

    pub fn active_partitions(&self) -> Vec<usize> {
        (0..self.active.len())
            .filter(|&partition| self.active[partition])
            .collect()
    }

    fn add_codes(&mut self, random: &mut Random, paths: &mut Paths) {
        for partition in self.active_partitions() {
            // Two partitions may run the same code file.
            let shared = !self.codes.is_empty() && random.chance(1, 5);
            let path = if shared {
                self.codes[random.below(self.codes.len())].1.clone()
            } else {
                self.add_file(random, paths)
            };
            self.codes.push((partition, path));
        }
        random.shuffle(&mut self.codes);
    }

    fn add_file(&mut self, random: &mut Random, paths: &mut Paths) -> Vec<u8> {
        let path = paths.next(random);
        let size = random.pick(&[0, 1, 2, 7, 20, 33, 60, 80, 100, 150]);
        self.files.push(File {
            path: path.clone(),
            contents: random.bytes(size),
        });
        path
    }

    pub fn add_dseg(&mut self, random: &mut Random, paths: &mut Paths) {
        let path = self.add_file(random, paths);
        if random.chance(1, 40) {
            let size = random.pick(&[4095, 4096, 4097]);
            self.files.last_mut().expect("just added").contents = random.bytes(size);
        }
        let size = self.files.last().expect("just added").contents.len();
        let host = random.below(self.active.len());
        let mut permissions = self.permissions(random);
        if self.active[host] && permissions[host] == Permission::NoAccess {
            permissions[host] = random.pick(&[Permission::ReadOnly, Permission::ReadWrite]);
        }
        self.dsegs.push(Segment {
            path,
            size,
            host,
            permissions,
        });
    }

    pub fn add_mseg(&mut self, random: &mut Random) {
        let size = match random.below(30) {
            0 => 4096,
            1 => 5000,
            _ => random.pick(&[1, 2, 16, 50, 64, 100, 256, 300, 1024]),
        };
        let host = random.below(self.active.len());
        let mut permissions = self.permissions(random);
        let writer = random.pick(&self.active_partitions());
        permissions[writer] = Permission::ReadWrite;
        self.msegs.push(Segment {
            path: Vec::new(),
            size,
            host,
            permissions,
        });
    }

    /// One partition gets every segment into its list, so that a list of 32 comes up.
    fn open_all_segments(&mut self, random: &mut Random) {
        let partition = random.pick(&self.active_partitions());
        for segment in self.dsegs.iter_mut().chain(&mut self.msegs) {
            if segment.permissions[partition] == Permission::NoAccess {
                segment.permissions[partition] = Permission::ReadOnly;
            }
        }
    }

    fn permissions(&self, random: &mut Random) -> Vec<Permission> {
        const ALL: [Permission; 4] = [
            Permission::NoAccess,
            Permission::ReadOnly,
            Permission::ReadWrite,
            Permission::ReadWrite,
        ];
        (0..self.active.len()).map(|_| random.pick(&ALL)).collect()
    }

    fn add_accounts(&mut self, random: &mut Random, style: Style) {
        let crowded = random.pick(&self.active_partitions());
        let all_crowded = random.chance(1, 8);
        for partition in 0..self.active.len() {
            let count = match style {
                Style::Tiny => random.below(2),
                Style::Full if partition == crowded || all_crowded => random.pick(&[63, 64, 64]),
                _ => random.pick(&[0, 1, 2, 2, 3, 4, 6]),
            };
            if self.active[partition] {
                self.accounts[partition] = passwords::accounts(random, count);
                let contents = passwords::file(&self.accounts[partition]);
                self.files.push(File {
                    path: passwords::path(partition),
                    contents,
                });
            } else if random.chance(1, 2) {
                // Nobody reads a passive partition's password file: it may hold anything.
                let contents = random.bytes(11);
                self.files.push(File {
                    path: passwords::path(partition),
                    contents,
                });
            }
        }
    }

    fn add_other_files(&mut self, random: &mut Random, paths: &mut Paths) {
        for _ in 0..random.below(3) {
            self.add_file(random, paths);
        }
        if random.chance(1, 4) {
            let path = random.pick(&[
                &b"/scos/pw9"[..],
                b"/scos/",
                b"xy",
                b"\x00\xff",
                b"/scos/pw00",
            ]);
            self.files.push(File {
                path: path.to_vec(),
                contents: random.bytes(3),
            });
        }
        if random.chance(1, 80) {
            self.fill_store(random);
        }
    }

    /// One more file that brings the store to the greatest length a replay text can give it.
    fn fill_store(&mut self, random: &mut Random) {
        const FILE_HEADER: usize = 7;
        let path = b"/the rest";
        let taken: usize = self
            .files
            .iter()
            .map(|file| FILE_HEADER + file.path.len() + file.contents.len())
            .sum();
        let rest = LONGEST_AREA.saturating_sub(taken + FILE_HEADER + path.len());
        self.files.push(File {
            path: path.to_vec(),
            contents: random.bytes(rest),
        });
    }
}

fn segment_counts(random: &mut Random, style: Style) -> (usize, usize) {
    match style {
        Style::Tiny => (0, 0),
        Style::Usual => (random.between(1, 5), random.between(1, 4)),
        Style::Full => (16, 16),
    }
}

/// Paths that differ from each other, since each has its own second byte.
pub struct Paths {
    pub serial: usize,
}

impl Paths {
    pub fn next(&mut self, random: &mut Random) -> Vec<u8> {
        const FIRST: &[u8; 36] = b"0123456789ABCDEFGHIJKLMNOPQRSTUVWXYZ";
        const PLAIN: &[u8] = b"abcxyz019./-_=[]'~!:RWNAOCODE";
        const QUOTED: &[u8] = b"ab ,;{} /.=c";
        self.serial += 1;
        // Near misses of the reserved beginning; each belongs to one serial, so none comes twice.
        match self.serial {
            3 if random.chance(1, 6) => return b"/scos".to_vec(),
            4 if random.chance(1, 6) => return b"/scosx/pw0".to_vec(),
            5 if random.chance(1, 6) => return b"/SCOS/pw0".to_vec(),
            _ => {}
        }
        let mut path = vec![b'/', FIRST[self.serial % 36]];
        let length = random.pick(&[2, 3, 5, 8, 8, 9, 12, 20, 62, 63]);
        let letters = if random.chance(1, 3) { QUOTED } else { PLAIN };
        while path.len() < length {
            path.push(random.pick(letters));
        }
        path
    }
}
