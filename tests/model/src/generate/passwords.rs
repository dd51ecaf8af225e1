//! Accounts and password files: good ones, and ones broken in one way.

use super::image::record;
use super::plan::Account;
use super::random::Random;
use crate::sha256;

pub const RECORD_HEADER: usize = 6;
pub const DIGEST: usize = 32;

pub fn path(partition: usize) -> Vec<u8> {
    format!("/scos/pw{partition}").into_bytes()
}

/// Accounts with distinct names, some of them the beginning of another.
pub fn accounts(random: &mut Random, count: usize) -> Vec<Account> {
    let mut accounts: Vec<Account> = Vec::new();
    while accounts.len() < count {
        let name = match accounts.last() {
            Some(last) if last.name.len() < 32 && random.chance(1, 4) => {
                [&last.name[..], b"a"].concat()
            }
            _ => new_name(random),
        };
        if accounts.iter().all(|account| account.name != name) {
            accounts.push(Account {
                name,
                password: Some(new_password(random)),
            });
        }
    }
    accounts
}

fn new_name(random: &mut Random) -> Vec<u8> {
    let length = random.pick(&[1, 2, 3, 4, 5, 8, 31, 32]);
    if random.chance(1, 6) {
        return random.string(length);
    }
    (0..length).map(|_| random.between(97, 122) as u8).collect()
}

/// A password of 0 to 32 bytes, no zero among them.
pub fn new_password(random: &mut Random) -> Vec<u8> {
    let length = random.pick(&[0, 1, 2, 3, 6, 8, 10, 31, 32]);
    random.string(length)
}

pub fn file(accounts: &[Account]) -> Vec<u8> {
    accounts.iter().flat_map(account_record).collect()
}

fn account_record(account: &Account) -> Vec<u8> {
    let password = account.password.as_deref().unwrap_or(b"");
    let mut payload = sha256::digest(password).to_vec();
    payload.extend_from_slice(&account.name);
    record(2, &payload)
}

/// Where the digest of record `wanted` begins in its file.
pub fn digest_place(accounts: &[Account], wanted: usize) -> usize {
    let before: usize = accounts[..wanted].iter().map(record_length).sum();
    before + RECORD_HEADER
}

fn record_length(account: &Account) -> usize {
    RECORD_HEADER + DIGEST + account.name.len()
}

pub fn file_length(accounts: &[Account]) -> usize {
    accounts.iter().map(record_length).sum()
}

/// A password file with one fault: a bad record somewhere, a cut, or one record too many.
pub fn malformed(random: &mut Random, accounts: &[Account]) -> Vec<u8> {
    let mut records: Vec<Vec<u8>> = accounts.iter().map(account_record).collect();
    match random.below(5) {
        0 => return self::file(&self::accounts(random, 65)),
        1 => return cut_short(random, records),
        _ => {}
    }
    let bad = bad_record(random, accounts);
    records.insert(random.below(records.len() + 1), bad);
    records.concat()
}

fn cut_short(random: &mut Random, mut records: Vec<Vec<u8>>) -> Vec<u8> {
    if records.is_empty() {
        records.push(record(2, &[b'd'; 40]));
    }
    let last = records.last().map_or(1, Vec::len);
    let mut bytes = records.concat();
    bytes.truncate(bytes.len() - random.between(1, last - 1));
    bytes
}

fn bad_record(random: &mut Random, accounts: &[Account]) -> Vec<u8> {
    let payload = |name: &[u8]| [&[7; DIGEST][..], name].concat();
    match random.below(8) {
        0 => record(2, &payload(b"")),
        1 => record(2, &payload(&[b'n'; 33])),
        2 => record(2, &payload(b"ze\0ro")),
        3 => record(2, &payload(b"ends\0")),
        4 => record(random.pick(&[0, 1, 3, 258, 512]), &payload(b"kind")),
        5 => record(2, &[7; 31]),
        6 => record(2, b""),
        _ if accounts.is_empty() => [record(2, &payload(b"a")), record(2, &payload(b"a"))].concat(),
        _ => record(2, &payload(&accounts[random.below(accounts.len())].name)),
    }
}
