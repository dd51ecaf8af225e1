//! Judges the set-up text statement by statement (01, Refusals at start: 404 to 414).

use crate::numbers::refusal::*;
use crate::numbers::{MAX_MSEG_SIZE, MAX_SEGMENTS, NA, RW};
use crate::store::{File, Files};
use crate::syntax::{Reader, Statement};

/// Why a start is refused, and at which line of the text; line 0 is no line.
#[derive(Clone, Copy, Debug, PartialEq, Eq)]
pub struct Refusal {
    pub number: u32,
    pub line: usize,
}

impl Refusal {
    pub fn without_line(number: u32) -> Self {
        Refusal { number, line: 0 }
    }
}

/// A dseg that was declared: its file and one permission for each partition.
pub struct Dseg {
    pub file: File,
    pub permissions: Vec<u8>,
}

/// An mseg that was declared.
pub struct Mseg {
    pub size: usize,
    pub permissions: Vec<u8>,
}

/// What a good text declares. The executables are not loaded, so no more of them is kept than
/// the later checks need.
#[derive(Default)]
pub struct Setup {
    pub dsegs: Vec<Dseg>,
    pub msegs: Vec<Mseg>,
}

/// Reads the whole text for partitions whose activity is given.
pub fn read(text: &[u8], active: &[bool], files: &Files) -> Result<Setup, Refusal> {
    let mut judge = Judge::new(active, files);
    let mut reader = Reader::new(text);
    while let Some(next) = reader.next_statement() {
        // A statement that cannot be read and one out of order share a number and a line.
        let judged = match next.statement {
            Some(statement) => judge.judge(statement),
            None => Err(SYNTAX),
        };
        judged.map_err(|number| Refusal {
            number,
            line: next.line,
        })?;
    }
    judge.every_active_partition_has_code()?;
    Ok(judge.setup)
}

/// What the statements read so far have declared.
struct Judge<'a> {
    active: &'a [bool],
    files: &'a Files<'a>,
    /// How far in CODE, DSEG, MSEG (0, 1, 2) the text has come.
    stage: u8,
    has_code: Vec<bool>,
    code_paths: Vec<Vec<u8>>,
    dseg_paths: Vec<Vec<u8>>,
    setup: Setup,
}

impl<'a> Judge<'a> {
    fn new(active: &'a [bool], files: &'a Files<'a>) -> Self {
        Judge {
            active,
            files,
            stage: 0,
            has_code: vec![false; active.len()],
            code_paths: Vec::new(),
            dseg_paths: Vec::new(),
            setup: Setup::default(),
        }
    }

    fn judge(&mut self, statement: Statement) -> Result<(), u32> {
        self.enter_stage(&statement)?;
        match statement {
            Statement::Code { partition, path } => self.code(partition, path),
            Statement::Dseg {
                index,
                path,
                host,
                permissions,
            } => self.dseg(index, path, host, permissions),
            Statement::Mseg {
                index,
                size,
                host,
                permissions,
            } => self.mseg(index, size, host, permissions),
        }
    }

    fn enter_stage(&mut self, statement: &Statement) -> Result<(), u32> {
        let stage = match statement {
            Statement::Code { .. } => 0,
            Statement::Dseg { .. } => 1,
            Statement::Mseg { .. } => 2,
        };
        refuse_if(stage < self.stage, SYNTAX)?;
        self.stage = stage;
        Ok(())
    }

    /// Two partitions may run the same executable, so a CODE path may be repeated.
    fn code(&mut self, partition: u32, path: Vec<u8>) -> Result<(), u32> {
        let partition = partition as usize;
        refuse_if(!self.is_active(partition), BAD_PARTITION)?;
        refuse_if(self.has_code[partition], DUP_CODE)?;
        self.file(&path)?;
        self.has_code[partition] = true;
        self.code_paths.push(path);
        Ok(())
    }

    fn dseg(
        &mut self,
        index: u32,
        path: Vec<u8>,
        host: u32,
        permissions: Vec<u8>,
    ) -> Result<(), u32> {
        self.segment(index, self.setup.dsegs.len(), host)?;
        let known = self.dseg_paths.contains(&path) || self.code_paths.contains(&path);
        refuse_if(known, DUP_PATH)?;
        let file = self.file(&path)?;
        refuse_if(permissions.len() != self.active.len(), BAD_PERMS)?;
        let host = host as usize;
        refuse_if(self.is_active(host) && permissions[host] == NA, BAD_PERMS)?;
        self.dseg_paths.push(path);
        self.setup.dsegs.push(Dseg { file, permissions });
        Ok(())
    }

    fn mseg(&mut self, index: u32, size: u64, host: u32, permissions: Vec<u8>) -> Result<(), u32> {
        self.segment(index, self.setup.msegs.len(), host)?;
        refuse_if(!(1..=MAX_MSEG_SIZE).contains(&size), BAD_SIZE)?;
        refuse_if(permissions.len() != self.active.len(), BAD_PERMS)?;
        let writable = permissions
            .iter()
            .zip(self.active)
            .any(|(p, active)| *active && *p == RW);
        refuse_if(!writable, BAD_PERMS)?;
        self.setup.msegs.push(Mseg {
            size: size as usize,
            permissions,
        });
        Ok(())
    }

    /// Refusals 405 to 407, alike for both kinds of segment. A passive host is fine.
    fn segment(&self, index: u32, declared: usize, host: u32) -> Result<(), u32> {
        refuse_if(declared >= MAX_SEGMENTS, TOO_MANY)?;
        refuse_if(index as usize != declared, BAD_INDEX)?;
        refuse_if(host as usize >= self.active.len(), BAD_PARTITION)
    }

    /// Refusals 410 and 411: the directory of the password files is closed to set-up texts.
    fn file(&self, path: &[u8]) -> Result<File, u32> {
        refuse_if(path.starts_with(b"/scos/"), RESERVED)?;
        self.files.find(path).ok_or(NO_FILE)
    }

    fn is_active(&self, partition: usize) -> bool {
        self.active.get(partition).copied().unwrap_or(false)
    }

    fn every_active_partition_has_code(&self) -> Result<(), Refusal> {
        let missing = self
            .active
            .iter()
            .zip(&self.has_code)
            .any(|(active, code)| *active && !code);
        refuse_if(missing, NO_CODE).map_err(Refusal::without_line)
    }
}

fn refuse_if(bad: bool, number: u32) -> Result<(), u32> {
    if bad {
        Err(number)
    } else {
        Ok(())
    }
}

#[cfg(test)]
mod tests {
    use super::*;

    /// Judges a text for partitions A, A, P over an image with the files /a to /z, each empty.
    fn judged(text: &str) -> (u32, usize) {
        let image: Vec<u8> = (b'a'..=b'z')
            .flat_map(|c| [3, 0, 0, 0, 1, 0, 2, b'/', c])
            .collect();
        let files = Files::walk(&image).unwrap();
        match read(text.as_bytes(), &[true, true, false], &files) {
            Ok(_) => (0, 0),
            Err(refusal) => (refusal.number, refusal.line),
        }
    }

    const CODE: &str = "CODE[0]=/y;\nCODE[1]=/z;\n";

    fn judged_behind_code(text: &str) -> u32 {
        judged(&format!("{CODE}{text}")).0
    }

    #[test]
    fn good_texts() {
        assert_eq!(judged(CODE), (0, 0));
        assert_eq!(judged("CODE[1]=/z;CODE[0]=/z;"), (0, 0));
        assert_eq!(judged_behind_code("MSEG[0]={1,0,RW,NA,NA};"), 0);
        assert_eq!(
            judged_behind_code("DSEG[0]={/a,0,RW,NA,RW};MSEG[0]={16MB,0,NA,RW,NA};"),
            0
        );
    }

    #[test]
    fn order_and_code() {
        assert_eq!(judged(""), (414, 0));
        assert_eq!(judged("CODE[0]=/a;"), (414, 0));
        assert_eq!(
            judged("CODE[0]=/a;\nMSEG[0]={1,0,RW,NA,NA};\nCODE[1]=/a;"),
            (404, 3)
        );
        assert_eq!(
            judged_behind_code("MSEG[0]={1,0,RW,NA,NA};DSEG[0]={/a,0,RW,NA,NA};"),
            404
        );
        assert_eq!(judged("CODE[2]=/a;"), (407, 1));
        assert_eq!(judged("CODE[3]=/a;"), (407, 1));
        assert_eq!(judged("CODE[0]=/a;\n\nCODE[0]=/scos/x;"), (408, 3));
        assert_eq!(judged("CODE[0]=/scos/x;"), (410, 1));
        assert_eq!(judged("CODE[0]=/scos;"), (411, 1));
        assert_eq!(judged("CODE[0]=/none;\n\r"), (411, 1));
        assert_eq!(judged("CODE[0]=/a;\n\rCODE[1]=/a;"), (404, 2));
    }

    #[test]
    fn points_on_either_side_of_the_segment_rules() {
        let sixteen: String = (0..16u8)
            .map(|n| format!("DSEG[{n}]={{/{},0,RW,NA,NA}};", char::from(b'a' + n)))
            .collect();
        assert_eq!(judged_behind_code(&sixteen), 0);
        assert_eq!(
            judged_behind_code(&format!("{sixteen}DSEG[16]={{/q,0,RW,NA,NA}};")),
            405
        );
        assert_eq!(
            judged_behind_code(&format!("{sixteen}DSEG[9]={{/q,9,RW}};")),
            405
        );
        assert_eq!(judged_behind_code("DSEG[0]={/a,0,NA,RW,RW};"), 413);
        assert_eq!(judged_behind_code("DSEG[0]={/a,2,RW,RW,NA};"), 0);
        assert_eq!(judged_behind_code("MSEG[0]={0,0,RW,NA,NA};"), 412);
        assert_eq!(judged_behind_code("MSEG[0]={16MB,0,RW,NA,NA};"), 0);
        assert_eq!(judged_behind_code("MSEG[0]={16777217,0,RW,NA,NA};"), 412);
        assert_eq!(judged_behind_code("MSEG[0]={4194304KB,0,RW,NA,NA};"), 412);
        assert_eq!(judged_behind_code("MSEG[0]={0GB,0,RW,NA,NA};"), 412);
    }

    #[test]
    fn the_first_number_in_the_list_wins() {
        assert_eq!(judged_behind_code("DSEG[1]={/scos/a,9,RW};"), 406);
        assert_eq!(judged_behind_code("DSEG[0]={/z,3,RW};"), 407);
        assert_eq!(judged_behind_code("DSEG[0]={/z,0,RW};"), 409);
        assert_eq!(judged_behind_code("DSEG[0]={/scos/a,0,RW};"), 410);
        assert_eq!(judged_behind_code("DSEG[0]={/none,0,RW};"), 411);
        assert_eq!(judged_behind_code("DSEG[0]={/a,0,RW};"), 413);
        assert_eq!(judged_behind_code("DSEG[0]={/a,0,RW,RW,RW,RW};"), 413);
        assert_eq!(judged_behind_code("MSEG[0]={0,0,RW};"), 412);
        assert_eq!(judged_behind_code("MSEG[0]={1,0,RO,RO,RW};"), 413);
        assert_eq!(judged_behind_code("MSEG[0]={1,0,NA,RW,NA};"), 0);
        let two = "DSEG[0]={/a,0,RW,NA,NA};DSEG[1]={/a,0,RW,NA,NA};";
        assert_eq!(judged_behind_code(two), 409);
    }

    /// The example of 003, section 2, for the partitions that it names.
    #[test]
    fn the_example_of_003() {
        let text = "# filename: pl3_config.txt\n#\n\
                    CODE[0] = /shell.out;\nCODE[1] = /emergency.out;\n\n\
                    # Partitions\n# 0 1 2\n\
                    DSEG[0] = { \"/passwords.txt\", 0, RW, NA, NA };\n\
                    DSEG[1] = { \"/clearance.txt\", 0, RO, NA, NA };\n\
                    DSEG[2] = { \"/contacts.txt\", 1, NA, RW, NA };\n\
                    DSEG[3] = { \"/stuff.txt\", 2, RO, RO, NA };\n\n\
                    MSEG[0] = { 1MB, 0, RW, NA, NA };\n";
        let image: Vec<u8> = [
            "/shell.out",
            "/emergency.out",
            "/passwords.txt",
            "/clearance.txt",
            "/contacts.txt",
            "/stuff.txt",
        ]
        .iter()
        .flat_map(|path| {
            let length = path.len() as u8;
            [&[length + 1, 0, 0, 0, 1, 0, length], path.as_bytes()].concat()
        })
        .collect();
        let files = Files::walk(&image).unwrap();
        let setup = read(text.as_bytes(), &[true, true, false], &files)
            .ok()
            .unwrap();
        assert_eq!(setup.dsegs[3].permissions, [1, 1, 0]);
        assert_eq!(setup.msegs[0].size, 1_048_576);
    }
}
