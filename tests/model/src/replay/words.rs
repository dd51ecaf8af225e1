//! The words of a replay line and how bytes are written in answers.

/// The longest buffer or part that a line may lend to a call.
const MAX_LENT: usize = 4_096;

/// What every byte of an area or a buffer is before it is used.
pub const FRESH: u8 = 165;

/// One decimal digit or more, with a value of at most 32 bits.
pub fn number(word: &[u8]) -> Option<u32> {
    if word.is_empty() {
        return None;
    }
    word.iter().try_fold(0u32, |value, byte| {
        let digit = byte.checked_sub(b'0').filter(|digit| *digit <= 9)?;
        value.checked_mul(10)?.checked_add(u32::from(digit))
    })
}

/// A number with a limit.
pub fn length(word: &[u8], most: usize) -> Option<usize> {
    let length = number(word)? as usize;
    (length <= most).then_some(length)
}

/// A fresh buffer of the length that a word gives.
pub fn buffer(word: &[u8]) -> Option<Vec<u8>> {
    Some(vec![FRESH; length(word, MAX_LENT)?])
}

/// Pairs of lower-case hex digits, or a dash for no bytes.
pub fn bytes(word: &[u8]) -> Option<Vec<u8>> {
    if word == b"-" {
        return Some(Vec::new());
    }
    if word.is_empty() || !word.len().is_multiple_of(2) {
        return None;
    }
    word.chunks_exact(2)
        .map(|pair| Some(16 * hex_digit(pair[0])? + hex_digit(pair[1])?))
        .collect()
}

/// Bytes lent to a call.
pub fn lent_bytes(word: &[u8]) -> Option<Vec<u8>> {
    bytes(word).filter(|bytes| bytes.len() <= MAX_LENT)
}

/// Exactly one byte.
pub fn byte(word: &[u8]) -> Option<u8> {
    match bytes(word)?.as_slice() {
        [byte] => Some(*byte),
        _ => None,
    }
}

fn hex_digit(digit: u8) -> Option<u8> {
    match digit {
        b'0'..=b'9' => Some(digit - b'0'),
        b'a'..=b'f' => Some(digit - b'a' + 10),
        _ => None,
    }
}

/// Bytes as an answer shows them.
pub fn hex(bytes: &[u8]) -> String {
    if bytes.is_empty() {
        return "-".to_string();
    }
    let digit = |value: u8| char::from(b"0123456789abcdef"[usize::from(value)]);
    bytes
        .iter()
        .flat_map(|byte| [digit(byte / 16), digit(byte % 16)])
        .collect()
}

#[cfg(test)]
mod tests {
    use super::*;

    #[test]
    fn numbers() {
        assert_eq!(number(b"0"), Some(0));
        assert_eq!(number(b"00000000000000000004294967295"), Some(u32::MAX));
        assert_eq!(number(b"4294967296"), None);
        assert_eq!(number(b""), None);
        assert_eq!(number(b"+1"), None);
        assert_eq!(number(b"1:"), None);
        assert_eq!(length(b"4096", 4096), Some(4096));
        assert_eq!(length(b"4097", 4096), None);
    }

    #[test]
    fn bytes_there_and_back() {
        assert_eq!(bytes(b"-"), Some(vec![]));
        assert_eq!(bytes(b"00ff1a"), Some(vec![0, 255, 26]));
        assert_eq!(bytes(b""), None);
        assert_eq!(bytes(b"0"), None);
        assert_eq!(bytes(b"0A"), None);
        assert_eq!(bytes(b"--"), None);
        assert_eq!(byte(b"41"), Some(0x41));
        assert_eq!(byte(b"-"), None);
        assert_eq!(byte(b"4142"), None);
        assert_eq!(hex(&[0, 255, 26]), "00ff1a");
        assert_eq!(hex(&[]), "-");
    }
}
