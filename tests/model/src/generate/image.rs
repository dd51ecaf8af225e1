//! Store images: good ones, and ones broken in one way.

use super::plan::File;
use super::random::Random;

/// One record as the store and the password files write it.
pub fn record(kind: u16, payload: &[u8]) -> Vec<u8> {
    let mut bytes = (payload.len() as u32).to_le_bytes().to_vec();
    bytes.extend_from_slice(&kind.to_le_bytes());
    bytes.extend_from_slice(payload);
    bytes
}

fn file_record(path: &[u8], contents: &[u8]) -> Vec<u8> {
    let mut payload = vec![path.len() as u8];
    payload.extend_from_slice(path);
    payload.extend_from_slice(contents);
    record(1, &payload)
}

pub fn good(files: &[File]) -> Vec<u8> {
    files
        .iter()
        .flat_map(|file| file_record(&file.path, &file.contents))
        .collect()
}

/// The records of the files with a bad record before, between or behind them.
pub fn broken(random: &mut Random, files: &[File]) -> Vec<u8> {
    let mut records: Vec<Vec<u8>> = files
        .iter()
        .map(|file| file_record(&file.path, &file.contents))
        .collect();
    if random.chance(1, 4) {
        return cut_short(random, &records);
    }
    let place = random.below(records.len() + 1);
    let bad = bad_record(random, files);
    records.insert(place, bad);
    records.concat()
}

/// A cut in the last record: in its header, its path or its contents.
fn cut_short(random: &mut Random, records: &[Vec<u8>]) -> Vec<u8> {
    let mut bytes = records.concat();
    let last = records.last().map_or(0, Vec::len);
    if last < 2 {
        return vec![0; 3];
    }
    let kept = bytes.len() - random.between(1, last - 1);
    bytes.truncate(kept);
    bytes
}

fn bad_record(random: &mut Random, files: &[File]) -> Vec<u8> {
    match random.below(9) {
        0 => record(random.pick(&[0, 2, 3, 256, 257, 65535]), b"\x02/zcontents"),
        1 => record(1, &[]),
        2 => record(1, &[0]),
        3 => record(1, b"\x01/contents"),
        4 => file_record(&[b'/'; 64], b"contents"),
        // The path is longer than what stands in the record.
        5 => record(1, b"\x09/abcdefg"),
        6 => record(1, &[&[255, b'/'][..], &[b'a'; 254]].concat()),
        // A length that leads far outside, also where sums of four bytes would wrap.
        7 => {
            let mut bytes = file_record(b"/z", b"");
            let length = random.pick(&[u32::MAX, u32::MAX - 5, 65_536, 0x8000_0000]);
            bytes[..4].copy_from_slice(&length.to_le_bytes());
            bytes
        }
        _ => repeated(random, files),
    }
}

/// A path that is there already, with other contents; or twice a new one where there is none yet.
fn repeated(random: &mut Random, files: &[File]) -> Vec<u8> {
    if files.is_empty() {
        return [file_record(b"/zz", b"1"), file_record(b"/zz", b"")].concat();
    }
    let path = &files[random.below(files.len())].path;
    let size = random.below(4);
    file_record(path, &random.bytes(size))
}
