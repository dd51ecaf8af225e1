//! Login, who, logout and set-password, with names and passwords the text knows.

use super::composer::Composer;
use super::passwords::{self, DIGEST};
use super::script::hex;

const LONGEST_STRING: usize = 32;
/// The most bytes that a line can lend to a call.
const LONGEST_PART: usize = 4_096;

impl Composer {
    pub fn user_call(&mut self) {
        match self.random.weighted(&[8, 4, 3, 5]) {
            0 => self.login(),
            1 => self.who(),
            2 => self.logout(),
            _ => self.set_password(),
        }
    }

    pub fn login(&mut self) {
        let partition = self.any_partition();
        match self.random.weighted(&[50, 15, 15, 20]) {
            0 => self.login_right(partition),
            1 => self.login_wrong_password(partition),
            2 => self.login_unknown(partition),
            _ => self.login_bad_string(partition),
        }
    }

    fn login_line(&mut self, partition: usize, name: &[u8], password: &[u8]) {
        let (name, password) = (hex(name), hex(password));
        self.script
            .words(format!("login {partition} {name} {password}"));
    }

    /// The name and password of one of the accounts, each behind its zero.
    pub fn login_right(&mut self, partition: usize) {
        let count = self.accounts(partition).len();
        if count == 0 {
            return self.login_unknown(partition);
        }
        // The last record of a crowd is worth reaching: the work count is greatest there.
        let user = if self.random.chance(1, 3) {
            count - 1
        } else {
            self.random.below(count)
        };
        let account = self.accounts(partition)[user].clone();
        let name = self.lent_string(&account.name);
        let password = self.lent_string(account.password.as_deref().unwrap_or(b"?"));
        self.login_line(partition, &name, &password);
        let free = self.login_of(partition).is_none() && !self.known.stopped;
        if free && account.password.is_some() && partition < 8 {
            self.known.logins[partition] = Some(user);
        }
    }

    fn login_wrong_password(&mut self, partition: usize) {
        let count = self.accounts(partition).len();
        let user = self.random.below(count);
        let name = match self.accounts(partition).get(user) {
            None => b"nobody".to_vec(),
            Some(account) => account.name.clone(),
        };
        let password = match self.random.below(3) {
            0 => b"\0".to_vec(),
            1 => b"wrong\0".to_vec(),
            _ => [&[b'w'; LONGEST_STRING][..], b"\0"].concat(),
        };
        let name = self.lent_string(&name);
        self.login_line(partition, &name, &password);
    }

    /// A name that no account has, also one byte more or less than a true one.
    fn login_unknown(&mut self, partition: usize) {
        let count = self.accounts(partition).len();
        let name = match self.random.below(4) {
            0 => Vec::new(),
            1 => b"NOBODY".to_vec(),
            2 => vec![b'z'; LONGEST_STRING],
            _ if count == 0 => b"a".to_vec(),
            _ => {
                let user = self.random.below(count);
                let mut name = self.accounts(partition)[user].name.clone();
                name[0] ^= 32;
                name.truncate(LONGEST_STRING - 1);
                name
            }
        };
        let (name, password) = (self.lent_string(&name), self.lent_string(b"pass"));
        self.login_line(partition, &name, &password);
    }

    /// A name or a password without a zero in its place; the other part may be right or wrong.
    fn login_bad_string(&mut self, partition: usize) {
        let known = self
            .accounts(partition)
            .first()
            .map(|account| account.name.clone());
        let name = match known {
            Some(name) if self.random.chance(2, 3) => self.lent_string(&name),
            _ => self.any_string(),
        };
        let password = self.any_string();
        self.login_line(partition, &name, &password);
    }

    /// A string behind whose zero more bytes may stand.
    fn lent_string(&mut self, string: &[u8]) -> Vec<u8> {
        let mut lent = [string, b"\0"].concat();
        if self.random.chance(1, 5) {
            let more = self.random.pick(&[1, 2, 40]);
            lent.extend_from_slice(&self.random.bytes(more));
        }
        if self.random.chance(1, 100) {
            lent.resize(LONGEST_PART, b'x');
        }
        lent
    }

    /// A string on either side of its limits: 32 or 33 bytes, no zero at all, nothing lent.
    fn any_string(&mut self) -> Vec<u8> {
        match self.random.below(8) {
            0 => Vec::new(),
            1 => self.random.string(1),
            2 => self.random.string(32),
            3 => self.random.string(33),
            4 => [&self.random.string(33)[..], b"\0"].concat(),
            5 => [&self.random.string(32)[..], b"\0"].concat(),
            6 => [&self.random.string(31)[..], b"\0"].concat(),
            _ => [&self.random.string(34)[..], b"\0\0\0"].concat(),
        }
    }

    pub fn who(&mut self) {
        let partition = self.any_partition();
        let length = match self.random.weighted(&[6, 2, 2, 1]) {
            0 => self.random.pick(&[33, 33, 34, 40]),
            1 => 32,
            2 => self.random.pick(&[0, 1, 31]),
            _ => self.random.pick(&[64, 100, 4_096]),
        };
        self.script.words(format!("who {partition} {length}"));
    }

    pub fn logout(&mut self) {
        let partition = self.any_partition();
        self.logout_of(partition);
    }

    pub fn logout_of(&mut self, partition: usize) {
        self.script.words(format!("logout {partition}"));
        if !self.known.stopped && partition < 8 {
            self.known.logins[partition] = None;
        }
    }

    pub fn set_password(&mut self) {
        let mut partition = self.any_partition();
        // Mostly a partition where somebody is logged in, so that the call gets further.
        let logged_in: Vec<usize> = (0..8).filter(|&p| self.login_of(p).is_some()).collect();
        if !logged_in.is_empty() && self.random.chance(4, 5) {
            partition = self.random.pick(&logged_in);
        }
        self.set_password_of(partition);
    }

    pub fn set_password_of(&mut self, partition: usize) {
        let bad = self.random.chance(1, 6);
        let password = passwords::new_password(&mut self.random);
        let lent = if bad {
            self.any_string()
        } else {
            self.lent_string(&password)
        };
        let taken = self.taken(partition);
        self.script
            .words(format!("set_password {partition} {} {taken}", hex(&lent)));
        if !bad {
            self.learn_password(partition, password, taken);
        }
    }

    /// The store's number: enough, one byte less, or around the place of the digest.
    fn taken(&mut self, partition: usize) -> usize {
        let accounts = self.accounts(partition);
        let size = passwords::file_length(accounts);
        let digest = match self.login_of(partition) {
            Some(user) if user < accounts.len() => passwords::digest_place(accounts, user),
            _ => 0,
        };
        match self.random.weighted(&[40, 20, 15, 15, 10, 5]) {
            0 => size,
            1 => self.random.around(size),
            2 => self.random.around(digest),
            3 => self.random.around(digest + DIGEST),
            4 => digest + self.random.below(DIGEST),
            _ => self
                .random
                .pick(&[0, 1, size / 2, size + 1_000, 4_294_967_295]),
        }
    }

    /// What a user's password is after the call: new, old, or a mix of digests nobody can meet.
    fn learn_password(&mut self, partition: usize, password: Vec<u8>, taken: usize) {
        let Some(user) = self.login_of(partition) else {
            return;
        };
        if self.known.stopped || user >= self.accounts(partition).len() {
            return;
        }
        let digest = passwords::digest_place(self.accounts(partition), user);
        let account = &mut self.known.accounts[partition][user];
        if taken >= digest + DIGEST {
            account.password = Some(password);
        } else if taken > digest {
            account.password = None;
        }
    }

    /// A whole story: in, a new password, out, and in again with the new or with the old one.
    pub fn password_story(&mut self) {
        let partition = self.active_partition();
        if self.accounts(partition).is_empty() {
            return self.user_call();
        }
        self.logout_of(partition);
        self.login_right(partition);
        let Some(user) = self.login_of(partition) else {
            return;
        };
        let old = self.accounts(partition)[user].clone();
        self.set_password_of(partition);
        self.script.words(format!("who {partition} 33"));
        if self.random.chance(1, 2) {
            self.show();
        }
        if self.random.chance(1, 6) {
            self.restart();
        }
        self.logout_of(partition);
        let name = self.lent_string(&old.name);
        let password = self.lent_string(old.password.as_deref().unwrap_or(b"?"));
        self.login_line(partition, &name, &password);
        self.logout_of(partition);
        self.login_right(partition);
    }
}
