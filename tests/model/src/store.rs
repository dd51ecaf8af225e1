//! Records, and the store image made of them (01, Store image and password file).

use std::collections::HashMap;

/// A stretch of some area: where it starts and how long it is.
#[derive(Clone, Copy, Debug, Default, PartialEq, Eq)]
pub struct Part {
    pub place: usize,
    pub length: usize,
}

impl Part {
    /// The first byte behind the part.
    pub fn end(self) -> usize {
        self.place.saturating_add(self.length)
    }

    /// The part's bytes in its area.
    pub fn of(self, area: &[u8]) -> &[u8] {
        &area[self.place..self.end()]
    }

    /// The part's bytes in its area, to be changed.
    pub fn of_mut(self, area: &mut [u8]) -> &mut [u8] {
        &mut area[self.place..self.end()]
    }
}

/// One record: its kind, and where its payload stands in the area that was walked.
#[derive(Clone, Copy, Debug, PartialEq, Eq)]
pub struct Record {
    pub kind: u16,
    pub payload: Part,
}

/// Bytes in front of a payload: its length (four) and its kind (two).
const HEADER: usize = 6;

/// Walks an area record by record to exactly its end; nothing if a record is cut.
pub fn records(area: &[u8]) -> Option<Vec<Record>> {
    let mut found = Vec::new();
    let mut at = 0;
    while at < area.len() {
        let record = record_at(area, at)?;
        at = record.payload.end();
        found.push(record);
    }
    Some(found)
}

fn record_at(area: &[u8], at: usize) -> Option<Record> {
    let header = area.get(at..at.checked_add(HEADER)?)?;
    let length = u32::from_le_bytes([header[0], header[1], header[2], header[3]]) as usize;
    let kind = u16::from_le_bytes([header[4], header[5]]);
    let place = at + HEADER;
    area.get(place..place.checked_add(length)?)?;
    Some(Record {
        kind,
        payload: Part { place, length },
    })
}

/// One file of the image: where its path and its contents stand.
#[derive(Clone, Copy, Debug, PartialEq, Eq)]
pub struct File {
    pub path: Part,
    pub contents: Part,
}

/// A good image's files, by path.
pub struct Files<'image> {
    by_path: HashMap<&'image [u8], File>,
}

impl<'image> Files<'image> {
    /// Nothing if the image is bad. An image without any record is good.
    pub fn walk(image: &'image [u8]) -> Option<Self> {
        let mut by_path = HashMap::new();
        for record in records(image)? {
            let file = file_of(image, record)?;
            if by_path.insert(file.path.of(image), file).is_some() {
                return None;
            }
        }
        Some(Files { by_path })
    }

    pub fn find(&self, path: &[u8]) -> Option<File> {
        self.by_path.get(path).copied()
    }
}

/// Takes an image record's payload apart: one byte of path length, the path, the contents.
fn file_of(image: &[u8], record: Record) -> Option<File> {
    if record.kind != 1 {
        return None;
    }
    let (&path_length, behind) = record.payload.of(image).split_first()?;
    let path_length = usize::from(path_length);
    if !(2..=63).contains(&path_length) || behind.len() < path_length {
        return None;
    }
    let path = Part {
        place: record.payload.place + 1,
        length: path_length,
    };
    let contents = Part {
        place: path.end(),
        length: behind.len() - path_length,
    };
    Some(File { path, contents })
}

#[cfg(test)]
mod tests {
    use super::*;

    fn file(path: &[u8], contents: &[u8]) -> Vec<u8> {
        let length = (1 + path.len() + contents.len()) as u32;
        let mut record = length.to_le_bytes().to_vec();
        record.extend_from_slice(&[1, 0, path.len() as u8]);
        record.extend_from_slice(path);
        record.extend_from_slice(contents);
        record
    }

    #[test]
    fn files_are_found_by_their_whole_path() {
        let image = [file(b"/a", b"one"), file(b"/ab", b"")].concat();
        let files = Files::walk(&image).unwrap();
        assert_eq!(
            files.find(b"/a").unwrap().contents,
            Part {
                place: 9,
                length: 3
            }
        );
        assert_eq!(
            files.find(b"/ab").unwrap().contents,
            Part {
                place: 22,
                length: 0
            }
        );
        assert_eq!(files.find(b"/ab").unwrap().path.of(&image), b"/ab");
        assert!(files.find(b"/").is_none());
    }

    #[test]
    fn bad_images() {
        let good = file(b"/a", b"one");
        assert!(Files::walk(b"").is_some());
        assert!(Files::walk(&good).is_some());
        for cut in 1..good.len() {
            assert!(Files::walk(&good[..cut]).is_none());
        }
        assert!(Files::walk(&[good.clone(), file(b"/a", b"")].concat()).is_none());
        assert!(Files::walk(&file(b"/", b"contents")).is_none());
        assert!(Files::walk(&file(&[b'x'; 64], b"")).is_none());
        assert!(Files::walk(&file(&[b'x'; 63], b"")).is_some());
        assert!(Files::walk(&[0, 0, 0, 0, 1, 0]).is_none());
        assert!(Files::walk(&[2, 0, 0, 0, 1, 0, 2, b'/']).is_none());
        assert!(Files::walk(&[3, 0, 0, 0, 2, 0, 2, b'/', b'a']).is_none());
        assert!(Files::walk(&[3, 0, 0, 0, 1, 1, 2, b'/', b'a']).is_none());
        assert!(Files::walk(&[255, 255, 255, 255, 1, 0, 2, b'/', b'a']).is_none());
    }
}
