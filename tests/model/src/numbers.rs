//! The numbers the papers fix: answers, sizes and names (01, Calls and Refusals at start).

pub const NO_ERROR: u32 = 0;

pub const NOT_MAPPED: u32 = 201;
pub const NO_WRITE: u32 = 202;
pub const WRITE_FAILURE: u32 = 203;
pub const BAD_MAJOR: u32 = 204;
pub const BAD_MINOR: u32 = 205;
pub const NO_DATA: u32 = 206;
pub const READ_FAILURE: u32 = 207;
pub const NOT_RANDOM: u32 = 208;
pub const BAD_OFFSET: u32 = 209;
pub const DEVICE_END: u32 = 210;
pub const BAD_SELECTOR: u32 = 211;
pub const STOPPED: u32 = 212;
pub const BAD_PARTITION: u32 = 213;
pub const BAD_BUFFER: u32 = 214;
pub const BAD_STATE: u32 = 216;
pub const AUTH_FAILURE: u32 = 300;
pub const LOGIN_BUSY: u32 = 301;
pub const INVALID_STRING: u32 = 302;
pub const NO_LOGIN: u32 = 303;

/// The refusals of a start. 407 bears the same name as 213 in the papers.
pub mod refusal {
    pub const SETUP: u32 = 401;
    pub const TEXT_LONG: u32 = 402;
    pub const BAD_STORE: u32 = 403;
    pub const SYNTAX: u32 = 404;
    pub const TOO_MANY: u32 = 405;
    pub const BAD_INDEX: u32 = 406;
    pub const BAD_PARTITION: u32 = 407;
    pub const DUP_CODE: u32 = 408;
    pub const DUP_PATH: u32 = 409;
    pub const RESERVED: u32 = 410;
    pub const NO_FILE: u32 = 411;
    pub const BAD_SIZE: u32 = 412;
    pub const BAD_PERMS: u32 = 413;
    pub const NO_CODE: u32 = 414;
    pub const NO_MEMORY: u32 = 415;
    pub const BAD_PASSWORDS: u32 = 416;
}

pub const MAX_PARTITIONS: usize = 8;
/// Dsegs and msegs are limited alike.
pub const MAX_SEGMENTS: usize = 16;
pub const MAX_TEXT: usize = 16_384;
pub const MAX_MSEG_SIZE: u64 = 16_777_216;

pub const KEYBOARD: u32 = 1;
pub const SCREEN: u32 = 2;
pub const QUEUE_LENGTH: usize = 64;

/// The permission table's two numbers that give access; every other one gives none.
pub const NA: u8 = 0;
pub const RO: u8 = 1;
pub const RW: u8 = 2;

/// One row for every segment, one column for every partition: dsegs from row 0, msegs from 16.
pub type Permissions = [[u8; 8]; 32];
