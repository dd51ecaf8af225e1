//! Password files and the tables made of them (01, Store image and password file; Login).

use crate::store::{records, Part, Record};
use std::collections::HashSet;

const DIGEST: usize = 32;
const MAX_RECORDS: usize = 64;

/// A name or a password as lent: up to its first zero, which has to stand at place 0 to 32.
pub fn string(lent: &[u8]) -> Option<&[u8]> {
    let zero = lent.iter().take(33).position(|byte| *byte == 0)?;
    Some(&lent[..zero])
}

/// The path of a partition's password file.
pub fn path(partition: usize) -> Vec<u8> {
    format!("/scos/pw{partition}").into_bytes()
}

/// Whether start may take the file: everything that 01 says of kind, name, zeros and repetition.
pub fn well_formed(file: &[u8]) -> bool {
    let Some(users) = users(file) else {
        return false;
    };
    let mut names = HashSet::new();
    users.iter().all(|user| {
        let name = user.name.of(file);
        user.kind == 2 && !name.contains(&0) && names.insert(name)
    })
}

/// One record of a table: where the digest and the name of its user stand.
#[derive(Clone, Copy, Debug, PartialEq, Eq)]
pub struct User {
    kind: u16,
    pub digest: Part,
    pub name: Part,
}

/// The users of a table, as far as their shape can be followed: whole records up to the table's
/// end, payloads that hold a digest and a name, no more of them than allowed. A table in memory is
/// asked for no more than this, since only a place that leads outside it would be a bad state.
pub fn users(table: &[u8]) -> Option<Vec<User>> {
    let records = records(table)?;
    if records.len() > MAX_RECORDS {
        return None;
    }
    records.into_iter().map(user_of).collect()
}

fn user_of(record: Record) -> Option<User> {
    let Part { place, length } = record.payload;
    if !(33..=64).contains(&length) {
        return None;
    }
    let digest = Part {
        place,
        length: DIGEST,
    };
    let name = Part {
        place: digest.end(),
        length: length - DIGEST,
    };
    Some(User {
        kind: record.kind,
        digest,
        name,
    })
}

#[cfg(test)]
mod tests {
    use super::*;

    fn user(name: &[u8]) -> Vec<u8> {
        let length = (32 + name.len()) as u32;
        let mut record = length.to_le_bytes().to_vec();
        record.extend_from_slice(&[2, 0]);
        record.extend_from_slice(&[7; 32]);
        record.extend_from_slice(name);
        record
    }

    #[test]
    fn strings_end_at_place_32_at_the_latest() {
        assert_eq!(string(&[0]), Some(&[][..]));
        assert_eq!(string(b"ann\0bob\0"), Some(&b"ann"[..]));
        assert_eq!(string(&[]), None);
        assert_eq!(string(b"ann"), None);
        let mut lent = [b'x'; 40];
        lent[32] = 0;
        assert_eq!(string(&lent), Some(&[b'x'; 32][..]));
        lent[32] = b'x';
        lent[33] = 0;
        assert_eq!(string(&lent), None);
    }

    #[test]
    fn files_and_their_faults() {
        assert!(well_formed(b""));
        assert!(well_formed(&[user(b"a"), user(b"ab")].concat()));
        assert!(well_formed(&user(&[b'x'; 32])));
        assert!(!well_formed(&user(&[b'x'; 33])));
        assert!(!well_formed(&user(b"")));
        assert!(!well_formed(&user(b"a\0b")));
        assert!(!well_formed(&[user(b"a"), user(b"a")].concat()));
        let mut other_kind = user(b"a");
        other_kind[4] = 1;
        assert!(!well_formed(&other_kind));
        assert!(users(&other_kind).is_some());
        let many: Vec<u8> = (1..=64).flat_map(|n| user(&[n])).collect();
        assert!(well_formed(&many));
        assert!(!well_formed(&[many, user(b"zz")].concat()));
    }
}
