//! Login, who, logout and set-password (01, Calls; 003, 4.8 to 4.11).

use crate::memory::write_file;
use crate::numbers::*;
use crate::passwords::{string, users, User};
use crate::sha256::digest;
use crate::terminal::{number, Lent, Partition, Terminal};

/// A password of at most 32 bytes and its padding always fit one block.
const DIGEST_BLOCKS: usize = 1;

impl Terminal {
    /// Answers a number and the work done: records read and digest blocks. Both strings are
    /// judged before a name is looked for, so a bad string never shows whether a name is known.
    pub fn login(
        &mut self,
        partition: u32,
        name: &[u8],
        password: &[u8],
        tables: &[u8],
    ) -> (u32, usize) {
        let (partition, name, password) = match self.may_log_in(partition, name, password, tables) {
            Ok(found) => found,
            Err(number) => return (number, 0),
        };
        let table = partition.table.of(tables);
        let users = users(table).unwrap_or_default();
        let Some(place) = users.iter().position(|user| user.name.of(table) == name) else {
            return (AUTH_FAILURE, users.len());
        };
        let work = place + 1 + DIGEST_BLOCKS;
        if users[place].digest.of(table) != digest(password) {
            return (AUTH_FAILURE, work);
        }
        partition.login = Some(place);
        (NO_ERROR, work)
    }

    /// The refusals in front of the table, which all count no work.
    fn may_log_in<'a>(
        &mut self,
        caller: u32,
        name: &'a [u8],
        password: &'a [u8],
        tables: &[u8],
    ) -> Result<(&mut Partition, &'a [u8], &'a [u8]), u32> {
        let (running, _) = self.admit(caller, &[Lent::Tables(tables)])?;
        let partition = running.partition_mut(caller).ok_or(BAD_PARTITION)?;
        if partition.login.is_some() {
            return Err(LOGIN_BUSY);
        }
        let name = string(name).ok_or(INVALID_STRING)?;
        let password = string(password).ok_or(INVALID_STRING)?;
        Ok((partition, name, password))
    }

    /// Writes the logged-in user's name and a zero, or only a zero.
    pub fn who(&mut self, partition: u32, tables: &[u8], buffer: &mut [u8]) -> u32 {
        let name = self
            .admit(partition, &[Lent::Tables(tables)])
            .and_then(|(running, _)| {
                if buffer.len() < 33 {
                    return Err(BAD_BUFFER);
                }
                let partition = running.partition(partition).ok_or(BAD_PARTITION)?;
                let table = partition.table.of(tables);
                Ok(partition
                    .user(tables)
                    .map_or(&[][..], |user| user.name.of(table)))
            });
        number(name.map(|name| {
            buffer[..name.len()].copy_from_slice(name);
            buffer[name.len()] = 0;
        }))
    }

    /// Logs out whoever is logged in.
    pub fn logout(&mut self, partition: u32) -> u32 {
        number(self.admit(partition, &[]).and_then(|(running, _)| {
            running.partition_mut(partition).ok_or(BAD_PARTITION)?.login = None;
            Ok(())
        }))
    }

    /// Gives the logged-in user a new password. The file is written from the table in memory
    /// with the new digest in it; then the table becomes what the store really holds, so that a
    /// write cut short never leaves the two apart.
    pub fn set_password(
        &mut self,
        partition: u32,
        password: &[u8],
        taken: u32,
        store: &mut [u8],
        tables: &mut [u8],
    ) -> u32 {
        number(self.change_password(partition, password, taken, store, tables))
    }

    fn change_password(
        &mut self,
        caller: u32,
        password: &[u8],
        taken: u32,
        store: &mut [u8],
        tables: &mut [u8],
    ) -> Result<(), u32> {
        let (running, _) = self.admit(caller, &[Lent::Store(store), Lent::Tables(tables)])?;
        let partition = running.partition(caller).ok_or(BAD_PARTITION)?;
        let user = partition.user(tables).ok_or(NO_LOGIN)?;
        let password = string(password).ok_or(INVALID_STRING)?;
        let mut new_file = partition.table.of(tables).to_vec();
        user.digest
            .of_mut(&mut new_file)
            .copy_from_slice(&digest(password));
        let written = write_file(store, partition.password_file, &new_file, taken);
        let held = partition.password_file.of(store);
        partition.table.of_mut(tables).copy_from_slice(held);
        written
    }
}

impl Partition {
    /// The logged-in user's record. The check of the table has shown that it is there.
    fn user(&self, tables: &[u8]) -> Option<User> {
        let place = self.login?;
        users(self.table.of(tables))?.get(place).copied()
    }
}
