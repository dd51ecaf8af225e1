//! The cells of the answer table: which number each call can answer with, and why not the others.

/// Start and the fourteen calls, by the words of the replay text.
pub const CALLS: [&str; 15] = [
    "start",
    "read_next",
    "read_random",
    "write_next",
    "write_random",
    "load",
    "store",
    "flush",
    "login",
    "who",
    "logout",
    "set_password",
    "shutdown",
    "powerdown",
    "configuration",
];

/// Every number 01 gives to an answer.
pub const NUMBERS: [u16; 36] = [
    0, 201, 202, 203, 204, 205, 206, 207, 208, 209, 210, 211, 212, 213, 214, 216, 300, 301, 302,
    303, 401, 402, 403, 404, 405, 406, 407, 408, 409, 410, 411, 412, 413, 414, 415, 416,
];

/// The numbers of each call beside 0 and, for the fourteen, the common 212, 213 and 216.
const OWN: [(&str, &[u16]); 14] = [
    ("read_next", &[204, 205, 206, 207, 214]),
    ("read_random", &[204, 205, 207, 208, 209, 210, 214]),
    ("write_next", &[202, 203, 204, 205, 214]),
    ("write_random", &[203, 204, 205, 208, 209, 210, 214]),
    ("load", &[209, 211]),
    ("store", &[202, 209, 211]),
    ("flush", &[201, 202, 203, 211]),
    ("login", &[300, 301, 302]),
    ("who", &[214]),
    ("logout", &[]),
    ("set_password", &[203, 302, 303]),
    ("shutdown", &[]),
    ("powerdown", &[]),
    ("configuration", &[214]),
];

/// Whether the call can answer with the number, by 01.
pub fn can_arise(call: &str, number: u16) -> bool {
    if call == "start" {
        return number == 0 || number >= 401;
    }
    if matches!(number, 0 | 212 | 213 | 216) {
        return true;
    }
    OWN.iter()
        .any(|(name, numbers)| *name == call && numbers.contains(&number))
}

const DEVICE_CALLS: &[&str] = &["read_next", "read_random", "write_next", "write_random"];
const NEXT_CALLS: &[&str] = &["read_next", "write_next"];
const READS: &[&str] = &["read_next", "read_random"];
const WRITES: &[&str] = &["write_next", "write_random"];
const MEMORY_CALLS: &[&str] = &["load", "store", "flush"];
const USER_CALLS: &[&str] = &["login", "who", "logout", "set_password"];
const PLAIN_CALLS: &[&str] = &["logout", "shutdown", "powerdown"];
const WHOLE_CALLS: &[&str] = &["shutdown", "powerdown", "configuration"];
const ALL_CALLS: &[&str] = &[
    "read_next",
    "read_random",
    "write_next",
    "write_random",
    "load",
    "store",
    "flush",
    "login",
    "who",
    "logout",
    "set_password",
    "shutdown",
    "powerdown",
    "configuration",
];
const START_NUMBERS: &[u16] = &[
    401, 402, 403, 404, 405, 406, 407, 408, 409, 410, 411, 412, 413, 414, 415, 416,
];
const CALL_NUMBERS: &[u16] = &[
    201, 202, 203, 204, 205, 206, 207, 208, 209, 210, 211, 212, 213, 214, 216, 300, 301, 302, 303,
];

/// Cells that cannot arise: calls, numbers and the reason.
pub type Never = (&'static [&'static str], &'static [u16], &'static str);

pub const NEVER: &[Never] = &[
    (
        &["start"],
        CALL_NUMBERS,
        "start may be made on any state and refuses with 401 to 416 only",
    ),
    (ALL_CALLS, START_NUMBERS, "only start is refused with these"),
    (DEVICE_CALLS, &[201, 211], "names a device, no segment"),
    (READS, &[202, 203], "writes nothing"),
    (WRITES, &[206, 207], "reads nothing"),
    (
        &["write_random"],
        &[202],
        "the keyboard is refused before, as not random",
    ),
    (&["read_random"], &[206], "a screen always holds its cells"),
    (NEXT_CALLS, &[208, 209, 210], "has no offset"),
    (
        DEVICE_CALLS,
        &[300, 301, 302, 303],
        "asks nothing of the login",
    ),
    (
        MEMORY_CALLS,
        &[204, 205, 206, 207, 208, 210],
        "names a segment, no device",
    ),
    (
        MEMORY_CALLS,
        &[300, 301, 302, 303],
        "asks nothing of the login",
    ),
    (MEMORY_CALLS, &[214], "has no request beside the lent part"),
    (&["load", "store"], &[201, 203], "does not reach the store"),
    (&["load"], &[202], "writes nothing"),
    (&["flush"], &[209], "has no range: it is the whole segment"),
    (
        USER_CALLS,
        &[201, 202, 204, 205, 206, 207, 208, 209, 210, 211],
        "names no device or segment",
    ),
    (
        &["login", "who", "logout"],
        &[203],
        "does not reach the store",
    ),
    (
        &["login", "set_password"],
        &[214],
        "a string that does not end in time is 302",
    ),
    (&["login"], &[303], "asks for nobody to be logged in"),
    (
        &["who"],
        &[300, 301, 302, 303],
        "answers the same for nobody, and reads no string",
    ),
    (
        &["logout"],
        &[300, 301, 302, 303],
        "always succeeds past the common checks",
    ),
    (&["set_password"], &[300, 301], "tries no password"),
    (PLAIN_CALLS, &[214], "is lent no buffer to fill"),
    (
        WHOLE_CALLS,
        &[201, 202, 203, 204, 205, 206, 207, 208, 209, 210, 211],
        "names no device or segment, and a faulty screen is no failure",
    ),
    (
        WHOLE_CALLS,
        &[300, 301, 302, 303],
        "asks nothing of the login",
    ),
];

/// The reason why the call cannot answer with the number.
pub fn why_never(call: &str, number: u16) -> Option<&'static str> {
    let mut reasons = NEVER.iter();
    reasons
        .find(|(calls, numbers, _)| calls.contains(&call) && numbers.contains(&number))
        .map(|(_, _, reason)| *reason)
}

#[cfg(test)]
mod tests {
    use super::*;

    /// Every cell is either one that can arise or one with exactly one reason.
    #[test]
    fn each_cell_is_decided_once() {
        for call in CALLS {
            for number in NUMBERS {
                let reasons = NEVER
                    .iter()
                    .filter(|(calls, numbers, _)| {
                        calls.contains(&call) && numbers.contains(&number)
                    })
                    .count();
                assert_eq!(
                    reasons,
                    usize::from(!can_arise(call, number)),
                    "{call} {number}"
                );
            }
        }
    }
}
