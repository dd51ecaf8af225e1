//! The set-up text's grammar: takes one statement after another from the text
//! (01, Set-up text; 003, section 2). What a statement means is judged elsewhere.

use crate::numbers::{NA, RO, RW};

/// One statement as written, its numbers not yet judged.
#[derive(Clone, Debug, PartialEq, Eq)]
pub enum Statement {
    Code {
        partition: u32,
        path: Vec<u8>,
    },
    Dseg {
        index: u32,
        path: Vec<u8>,
        host: u32,
        permissions: Vec<u8>,
    },
    Mseg {
        index: u32,
        size: u64,
        host: u32,
        permissions: Vec<u8>,
    },
}

/// What stands next in the text.
#[derive(Clone, Debug, PartialEq, Eq)]
pub struct Next {
    /// The line of its first token, counted from 1.
    pub line: usize,
    /// The statement, or nothing where it is malformed.
    pub statement: Option<Statement>,
}

/// The text and the place up to which it has been read.
pub struct Reader {
    text: Vec<u8>,
    at: usize,
    /// Line feeds in front of `counted_to`, so that each is counted once.
    lines: usize,
    counted_to: usize,
}

impl Reader {
    /// Comments go first, before any quote mark is looked for: 003 lets a comment begin anywhere,
    /// and a comment may hold bytes that are faults elsewhere. Line feeds stay, as lines count.
    pub fn new(text: &[u8]) -> Self {
        Reader {
            text: without_comments(text),
            at: 0,
            lines: 0,
            counted_to: 0,
        }
    }

    /// The next statement, or nothing at the text's end.
    pub fn next_statement(&mut self) -> Option<Next> {
        self.skip_space();
        self.peek()?;
        let line = self.line_here();
        Some(Next {
            line,
            statement: self.statement(),
        })
    }

    fn line_here(&mut self) -> usize {
        let since = &self.text[self.counted_to..self.at];
        self.lines += since.iter().filter(|byte| **byte == b'\n').count();
        self.counted_to = self.at;
        1 + self.lines
    }

    fn statement(&mut self) -> Option<Statement> {
        if self.word(b"CODE") {
            self.code()
        } else if self.word(b"DSEG") {
            self.dseg()
        } else if self.word(b"MSEG") {
            self.mseg()
        } else {
            None
        }
    }

    /// `CODE[partition] = path;`
    fn code(&mut self) -> Option<Statement> {
        let partition = self.index()?;
        let path = self.path()?;
        self.mark(b';')?;
        Some(Statement::Code { partition, path })
    }

    /// `DSEG[index] = { path, partition, permission+ };`
    fn dseg(&mut self) -> Option<Statement> {
        let index = self.index()?;
        self.mark(b'{')?;
        let path = self.path()?;
        let (host, permissions) = self.host_and_permissions()?;
        Some(Statement::Dseg {
            index,
            path,
            host,
            permissions,
        })
    }

    /// `MSEG[index] = { size, partition, permission+ };`
    fn mseg(&mut self) -> Option<Statement> {
        let index = self.index()?;
        self.mark(b'{')?;
        let size = self.size()?;
        let (host, permissions) = self.host_and_permissions()?;
        Some(Statement::Mseg {
            index,
            size,
            host,
            permissions,
        })
    }

    /// `[number] =`
    fn index(&mut self) -> Option<u32> {
        self.mark(b'[')?;
        let index = self.number()?;
        self.mark(b']')?;
        self.mark(b'=')?;
        Some(index)
    }

    /// `, partition, permission+ };` where 003 asks for one permission or more.
    fn host_and_permissions(&mut self) -> Option<(u32, Vec<u8>)> {
        self.mark(b',')?;
        let host = self.number()?;
        self.mark(b',')?;
        let mut permissions = vec![self.permission()?];
        while self.mark(b',').is_some() {
            permissions.push(self.permission()?);
        }
        self.mark(b'}')?;
        self.mark(b';')?;
        Some((host, permissions))
    }

    fn permission(&mut self) -> Option<u8> {
        if self.word(b"RO") {
            Some(RO)
        } else if self.word(b"RW") {
            Some(RW)
        } else if self.word(b"NA") {
            Some(NA)
        } else {
            None
        }
    }

    /// A number with, perhaps, a unit directly behind it. Digits and unit together stay below
    /// 2^62, so the product is exact.
    fn size(&mut self) -> Option<u64> {
        let number = u64::from(self.number()?);
        let unit: u64 = match self.text.get(self.at..self.at + 2) {
            Some(b"KB") => 1 << 10,
            Some(b"MB") => 1 << 20,
            Some(b"GB") => 1 << 30,
            _ => return Some(number),
        };
        self.at += 2;
        Some(number * unit)
    }

    /// One digit or more; leading zeros are free, but the value has to fit 32 bits.
    fn number(&mut self) -> Option<u32> {
        self.skip_space();
        let mut value: Option<u32> = None;
        while let Some(digit @ b'0'..=b'9') = self.peek() {
            let digit = u32::from(digit - b'0');
            value = Some(value.unwrap_or(0).checked_mul(10)?.checked_add(digit)?);
            self.at += 1;
        }
        value
    }

    fn path(&mut self) -> Option<Vec<u8>> {
        self.skip_space();
        let path = if self.peek() == Some(b'"') {
            self.at += 1;
            let path = self.take_while(may_stand_in_quotes);
            // Anything but the closing mark means that a byte no path may hold came first.
            if self.peek() != Some(b'"') {
                return None;
            }
            self.at += 1;
            path
        } else {
            self.take_while(may_stand_unquoted)
        };
        let good = path.first() == Some(&b'/') && (2..=63).contains(&path.len());
        good.then_some(path)
    }

    fn take_while(&mut self, fits: fn(u8) -> bool) -> Vec<u8> {
        let rest = &self.text[self.at..];
        let length = rest.iter().take_while(|byte| fits(**byte)).count();
        let taken = rest[..length].to_vec();
        self.at += length;
        taken
    }

    /// Passes over a mark of one byte, if it stands next.
    fn mark(&mut self, mark: u8) -> Option<()> {
        self.word(&[mark]).then_some(())
    }

    /// Passes over a word, if it stands next. Tokens need no space between them, so whatever
    /// follows the word is left to the next token.
    fn word(&mut self, word: &[u8]) -> bool {
        self.skip_space();
        let found = self.text[self.at..].starts_with(word);
        if found {
            self.at += word.len();
        }
        found
    }

    fn skip_space(&mut self) {
        while let Some(b' ' | b'\t' | b'\n') = self.peek() {
            self.at += 1;
        }
    }

    fn peek(&self) -> Option<u8> {
        self.text.get(self.at).copied()
    }
}

/// A path without quotes ends at a byte that could belong to what follows it.
fn may_stand_unquoted(byte: u8) -> bool {
    may_stand_in_quotes(byte) && !b" ,;{}".contains(&byte)
}

/// A '#' cannot come here: comments are gone.
fn may_stand_in_quotes(byte: u8) -> bool {
    (32..=126).contains(&byte) && byte != b'"'
}

fn without_comments(text: &[u8]) -> Vec<u8> {
    let mut in_comment = false;
    let blank = |byte: &u8| {
        in_comment = *byte != b'\n' && (in_comment || *byte == b'#');
        if in_comment {
            b' '
        } else {
            *byte
        }
    };
    text.iter().map(blank).collect()
}

#[cfg(test)]
mod tests {
    use super::*;

    fn first(text: &[u8]) -> Option<Statement> {
        Reader::new(text)
            .next_statement()
            .expect("a token")
            .statement
    }

    fn code_path(path_and_mark: &str) -> Option<Vec<u8>> {
        match first(format!("CODE[0]={path_and_mark}").as_bytes())? {
            Statement::Code { path, .. } => Some(path),
            _ => None,
        }
    }

    fn mseg_size(size: &str) -> Option<u64> {
        match first(format!("MSEG[0]={{{size},0,RW}};").as_bytes())? {
            Statement::Mseg { size, .. } => Some(size),
            _ => None,
        }
    }

    #[test]
    fn space_is_free_between_tokens() {
        let wide = b"\n DSEG\t[\n0 ] = { \"/a b\" , 1 , RO,NA , RW } ;";
        let expected = Statement::Dseg {
            index: 0,
            path: b"/a b".to_vec(),
            host: 1,
            permissions: vec![RO, NA, RW],
        };
        assert_eq!(first(wide), Some(expected.clone()));
        assert_eq!(first(b"DSEG[0]={\"/a b\",1,RO,NA,RW};"), Some(expected));
    }

    #[test]
    fn paths() {
        assert_eq!(code_path("/a;"), Some(b"/a".to_vec()));
        assert_eq!(code_path("/a#x;\n;"), Some(b"/a".to_vec()));
        assert_eq!(code_path("/='[x];"), Some(b"/='[x]".to_vec()));
        assert_eq!(code_path("\"/ ,;{}\";"), Some(b"/ ,;{}".to_vec()));
        for bad in [
            "/;",
            "\"\";",
            "\"/\";",
            "a;",
            "\"a/\";",
            "\"/a\"b;",
            "\"/a#b\";",
            "\"/a\tb\";",
            "\"/a\nb\";",
        ] {
            assert_eq!(code_path(bad), None, "{bad}");
        }
        for bad in [
            "/a\"b;",
            "/a{;",
            "/a b;",
            "/a,;",
            "/a\r;",
            "/a\u{7f};",
            "/a",
            "\"/a",
            "\"/a\"",
        ] {
            assert_eq!(code_path(bad), None, "{bad}");
        }
        assert!(code_path(&format!("/{};", "x".repeat(62))).is_some());
        assert!(code_path(&format!("/{};", "x".repeat(63))).is_none());
    }

    #[test]
    fn numbers_and_sizes() {
        assert_eq!(mseg_size("0004294967295"), Some(4294967295));
        assert_eq!(mseg_size("4294967296"), None);
        assert_eq!(mseg_size("4294967295GB"), Some(4294967295 << 30));
        assert_eq!(mseg_size("2KB"), Some(2048));
        assert_eq!(mseg_size("2MB"), Some(2 << 20));
        for bad in ["2 KB", "2K", "2kb", "KB", "", "-1", "2KBKB", "2B", "1 2"] {
            assert_eq!(mseg_size(bad), None, "{bad}");
        }
        assert_eq!(first(b"CODE[0KB] = /a;"), None);
        assert_eq!(first(b"CODE[4294967296] = /a;"), None);
    }

    #[test]
    fn lists() {
        assert_eq!(first(b"DSEG[0] = { \"/a\", 0 };"), None);
        assert_eq!(first(b"DSEG[0] = { \"/a\", 0, };"), None);
        assert_eq!(first(b"DSEG[0] = { \"/a\", 0, RW, };"), None);
        assert_eq!(first(b"DSEG[0] = { \"/a\", 0, RW RO };"), None);
        assert_eq!(first(b"DSEG[0] = { \"/a\", 0, rw };"), None);
        assert_eq!(first(b"DSEG[0] = { \"/a\" 0, RW };"), None);
        assert_eq!(first(b"DSEG[0] = { \"/a\", 0, RW }"), None);
        assert_eq!(first(b"code[0] = /a;"), None);
        assert_eq!(first(b";"), None);
        assert_eq!(first(b"C"), None);
    }

    #[test]
    fn lines_are_those_of_first_tokens() {
        let mut reader = Reader::new(b"# \xff one\n\nCODE[0]\n=/a;CODE[1]=/b;\n # x\r\n\r");
        let next: Vec<_> = std::iter::from_fn(|| reader.next_statement())
            .take(3)
            .collect();
        assert_eq!(next[0].line, 3);
        assert_eq!(next[1].line, 4);
        assert_eq!((next[2].line, next[2].statement.clone()), (6, None));
        assert!(Reader::new(b" \t\n# nothing").next_statement().is_none());
    }
}
