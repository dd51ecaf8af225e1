//! A model of the terminal that follows its papers alone, to be compared with the program.
//!
//! It shares no code with the program, so that where the two agree on random replay texts, no
//! common slip explains it. `terminal` holds the state and the checks in front of every call;
//! `start`, `devices`, `memory`, `users`, `power` and `events` hold what can be done to it;
//! `replay` reads the text that drives it. In comments, 01 is the definition of the build and its
//! rules, 003 the SCOS functional specification.
#![forbid(unsafe_code)]

pub mod devices;
pub mod events;
pub mod generate;
pub mod memory;
pub mod numbers;
pub mod passwords;
pub mod power;
pub mod replay;
pub mod screen;
pub mod setup;
pub mod sha256;
pub mod start;
pub mod store;
pub mod syntax;
pub mod terminal;
pub mod users;
