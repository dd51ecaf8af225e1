//! Replay texts with answers worked out by hand from the papers.

use super::words::hex;

/// The digest of the password "secret".
const SECRET: &str = "2bb80d537b1da3e38bd30361aa855686bde0eacd7162fef6a25fe97bf527a25b";
/// The digest of the password "new".
const NEW: &str = "11507a0e2f5e69d5dfa40a62a1bd7b6ee57e6bcd85c67c9b8431b36fff21c437";

fn replay(text: &str) -> String {
    let mut output = Vec::new();
    super::run(&mut text.as_bytes(), &mut output).expect("writing to memory");
    String::from_utf8(output).expect("answers are ASCII")
}

/// Runs each line behind `before` and compares its answer.
fn check(before: &str, lines: &[(&str, &str)]) {
    let text: Vec<&str> = lines.iter().map(|(line, _)| *line).collect();
    let expected: Vec<&str> = lines.iter().map(|(_, answer)| *answer).collect();
    let answers = replay(&format!("{before}{}\n", text.join("\n")));
    let expected: String = expected
        .iter()
        .filter(|answer| !answer.is_empty())
        .map(|a| format!("{a}\n"))
        .collect();
    assert_eq!(answers, format!("start 0 line 0\n{expected}"));
}

fn numbers(numbers: &[u32]) -> String {
    numbers
        .iter()
        .map(|number| hex(&number.to_le_bytes()))
        .collect()
}

/// An image line with one file; its contents are given in hex.
fn file(path: &str, contents: &str) -> String {
    let length = 1 + path.len() + contents.len() / 2;
    let head = numbers(&[length as u32]);
    format!(
        "image {head}0100{:02x}{}{contents}\n",
        path.len(),
        hex(path.as_bytes())
    )
}

/// A record of a password file, in hex.
fn user(digest: &str, name: &str) -> String {
    format!(
        "{}0200{digest}{}",
        numbers(&[32 + name.len() as u32]),
        hex(name.as_bytes())
    )
}

fn text(text: &str) -> String {
    format!("text {}\n", hex(text.as_bytes()))
}

/// Partitions A, A, P; /d for both active ones, /e and an mseg for partition 1 alone. Arena,
/// tables and screens are just long enough. In partition 0 ann and bob can log in, in 1 nobody.
fn setting() -> String {
    [
        "partitions AAP\narena 12\ntables 82\nscreens 6000\n".to_string(),
        text("CODE[0]=/a;\nCODE[1]=/b; # two\n"),
        text("DSEG[0]={\"/d\",0,RW,RO,NA};\nDSEG[1]={/e,1,NA,RW,RW};\nMSEG[0]={4,0,NA,RW,RW};"),
        file("/a", ""),
        file("/b", ""),
        file("/d", "68656c6c6f"),
        file("/e", "78797a"),
        file(
            "/scos/pw0",
            &format!("{}{}", user(SECRET, "ann"), user(NEW, "bob")),
        ),
        file("/scos/pw1", ""),
    ]
    .concat()
}

fn started() -> String {
    setting() + "start\n"
}

#[test]
fn a_terminal_never_started_answers_216() {
    let calls = "read_next 0 1 0 1 1\nread_random 0 2 0 0 1 1\nwrite_next 0 2 0 1 41\n\
                 write_random 0 2 0 0 1 41\nload 0 256 0 1\nstore 0 256 0 41\nflush 0 256 1\n\
                 login 0 00 00\nwho 0 1\nlogout 0\nset_password 0 00 1\nshutdown 0 00\n\
                 powerdown 0\nconfiguration 0 1\nkey 41\nattention\nfault 0 1 set\nscreen 0\n";
    let answers = "read_next 216 0 a5\nread_random 216 0 a5\nwrite_next 216 0\n\
                   write_random 216 0\nload 216 a5\nstore 216\nflush 216\nlogin 216 0\n\
                   who 216 a5\nlogout 216\nset_password 216\nshutdown 216\npowerdown 216\n\
                   configuration 216 a5\nscreen -\n";
    assert_eq!(replay(calls), answers);
}

#[test]
fn show_before_any_start() {
    assert_eq!(
        replay("show"),
        "focus - stopped 0 off 0\n\
         store e3b0c44298fc1c149afbf4c8996fb92427ae41e4649b934ca495991b7852b855\n\
         arena f600eca824e84a43f0691b267bd620e462c50da165c5b80e17aecb7a924f1fa8\n\
         tables f600eca824e84a43f0691b267bd620e462c50da165c5b80e17aecb7a924f1fa8\n\
         screens fd803cbb60b88d387538609368b7b182e809e36af24b5662e0ac64fa83e9e745\n\
         permissions 5341e6b2646979a70e57653007a1f310169421ec9bdd9f1a5648f75ade005af1\n"
    );
}

#[test]
fn bad_lines_are_counted_and_change_nothing() {
    let text = "\n# comment \u{7f}\nshow \n start\nstart  \nkey 4\nkey 4A\nkey 4142\nkey -\n\
                partitions\npartitions \npartitions AB\nsoft maybe\narena 65537\nwho 0 4097\n\
                text 0\ntext\ntext \nfault 0 1 on\nlogout +0\nlogout 4294967296\nlogout 0\r\n\
                logout 004294967295\nclear now\nSTART";
    let bad: String = (3..=22).map(|line| format!("bad line {line}\n")).collect();
    assert_eq!(
        replay(text),
        format!("{bad}logout 216\nbad line 24\nbad line 25\n")
    );
}

#[test]
fn limits_of_text_and_image() {
    let line = |name: &str, bytes: usize| format!("{name} {}\n", "00".repeat(bytes));
    let text = line("text", 20_000) + &line("text", 1) + "text -\n" + &line("image", 65_536);
    assert_eq!(
        replay(&(text + &line("image", 1))),
        "bad line 2\nbad line 5\n"
    );
    assert_eq!(
        replay(&(line("text", 20_001) + "start\n")),
        "bad line 1\nstart 414 line 0\n"
    );
    assert_eq!(
        replay(&(line("text", 16_385) + "start\n")),
        "start 402 line 0\n"
    );
    assert_eq!(
        replay(&(line("text", 16_384) + "start\n")),
        "start 404 line 1\n"
    );
    let long = format!("write_next 0 2 0 1 {}\n", "41".repeat(4_097));
    assert_eq!(replay(&long), "bad line 1\n");
}

#[test]
fn refused_starts() {
    let refused = |before: &str| replay(&format!("{}{before}start\n", setting()));
    assert_eq!(refused(""), "start 0 line 0\n");
    assert_eq!(refused("partitions AAPAAAAAA\n"), "start 401 line 0\n");
    assert_eq!(refused("partitions AAPAAAAAAAPPP\n"), "start 401 line 0\n");
    assert_eq!(refused("partitions PP\n"), "start 401 line 0\n");
    assert_eq!(refused("image 00\n"), "start 403 line 0\n");
    assert_eq!(refused("partitions AA\n"), "start 413 line 3\n");
    assert_eq!(refused("partitions APP\n"), "start 407 line 2\n");
    assert_eq!(refused("arena 11\n"), "start 415 line 0\n");
    assert_eq!(refused("tables 81\n"), "start 415 line 0\n");
    assert_eq!(refused("screens 5999\n"), "start 415 line 0\n");
    assert_eq!(refused("text 0d\n"), "start 404 line 5\n");
    assert_eq!(refused("text 0a0d\n"), "start 404 line 6\n");
}

#[test]
fn memory_and_the_store_it_comes_from() {
    check(
        &started(),
        &[
            ("load 0 256 0 5", "load 0 68656c6c6f"),
            ("load 1 256 4 1", "load 0 6f"),
            ("load 0 257 0 1", "load 211 a5"),
            ("load 0 512 0 1", "load 211 a5"),
            ("load 1 258 0 1", "load 211 a5"),
            ("load 1 513 0 1", "load 211 a5"),
            ("load 1 512 0 4", "load 0 00000000"),
            ("load 1 512 4 0", "load 0 -"),
            ("load 1 512 5 0", "load 209 -"),
            ("load 1 512 4294967295 4", "load 209 a5a5a5a5"),
            ("load 2 512 0 1", "load 213 a5"),
            ("load 8 512 0 1", "load 213 a5"),
            ("store 1 256 9 41", "store 202"),
            ("store 0 256 5 41", "store 209"),
            ("store 0 256 0 4a", "store 0"),
            ("load 1 256 0 5", "load 0 4a656c6c6f"),
            ("flush 1 256 5", "flush 202"),
            ("flush 1 512 5", "flush 201"),
            ("flush 0 512 5", "flush 211"),
            ("flush 0 256 0", "flush 203"),
            ("start", "start 0 line 0"),
            ("load 0 256 0 5", "load 0 68656c6c6f"),
            ("store 0 256 0 4a4b", "store 0"),
            ("flush 0 256 1", "flush 203"),
            ("start", "start 0 line 0"),
            ("load 0 256 0 5", "load 0 4a656c6c6f"),
            ("store 0 256 4 4b", "store 0"),
            ("flush 0 256 5", "flush 0"),
            ("start", "start 0 line 0"),
            ("load 0 256 0 5", "load 0 4a656c6c4b"),
        ],
    );
}

#[test]
fn configuration_of_partition_1() {
    let path = |path: &str| hex(path.as_bytes()) + &"00".repeat(64 - path.len());
    let database = numbers(&[1, 1, 1, 2, 1, 3])
        + &numbers(&[1, 256, 5, 1])
        + &path("/d")
        + &numbers(&[1, 257, 3, 2])
        + &path("/e")
        + &numbers(&[2, 512, 4, 2])
        + &"00".repeat(64)
        + &"00".repeat(29 * 80);
    assert_eq!(database.len(), 2 * 2_584);
    check(
        &started(),
        &[
            (
                "configuration 1 2585",
                &format!("configuration 0 {database}a5"),
            ),
            (
                "configuration 1 2583",
                &format!("configuration 214 {}", "a5".repeat(2_583)),
            ),
            ("configuration 2 0", "configuration 213 -"),
        ],
    );
}

#[test]
fn users_come_and_go() {
    check(
        &started(),
        &[
            ("login 0 616e6e00 73656372657400", "login 0 2"),
            ("login 0 - -", "login 301 0"),
            ("who 0 34", &format!("who 0 616e6e00{}", "a5".repeat(30))),
            ("who 0 32", &format!("who 214 {}", "a5".repeat(32))),
            ("who 1 33", &format!("who 0 00{}", "a5".repeat(32))),
            ("logout 0", "logout 0"),
            ("logout 0", "logout 0"),
            ("login 0 626f6200 6e657700ff", "login 0 3"),
            ("logout 0", "logout 0"),
            ("login 0 626f6200 6e6577", "login 302 0"),
            ("login 0 00 -", "login 302 0"),
            ("login 0 - 00", "login 302 0"),
            ("login 0 00 00", "login 300 2"),
            ("login 0 626f6200 00", "login 300 3"),
            ("login 1 6100 00", "login 300 0"),
            ("login 2 6100 00", "login 213 0"),
            (
                &format!("login 0 626f6200 {}00", "78".repeat(32)),
                "login 300 3",
            ),
            (
                &format!("login 0 626f6200 {}00", "78".repeat(33)),
                "login 302 0",
            ),
        ],
    );
}

#[test]
fn a_new_password_is_what_the_store_took() {
    check(
        &started(),
        &[
            ("set_password 0 - 82", "set_password 303"),
            ("login 0 616e6e00 73656372657400", "login 0 2"),
            ("set_password 0 6e6577 82", "set_password 302"),
            // All but the last byte of bob's name: the digest is in, and still it is a failure.
            ("set_password 0 6e657700 81", "set_password 203"),
            ("logout 0", "logout 0"),
            ("login 0 616e6e00 73656372657400", "login 300 2"),
            ("login 0 616e6e00 6e657700", "login 0 2"),
            // Four bytes of the digest only: neither password is good any more.
            ("set_password 0 00 10", "set_password 203"),
            ("who 0 33", &format!("who 0 616e6e00{}", "a5".repeat(29))),
            ("logout 0", "logout 0"),
            ("login 0 616e6e00 6e657700", "login 300 2"),
            ("login 0 616e6e00 00", "login 300 2"),
            ("start", "start 0 line 0"),
            ("login 0 616e6e00 6e657700", "login 300 2"),
            ("login 0 626f6200 6e657700", "login 0 3"),
            ("set_password 0 73656372657400 82", "set_password 0"),
            ("start", "start 0 line 0"),
            ("login 0 626f6200 73656372657400", "login 0 3"),
        ],
    );
}

#[test]
fn devices_and_the_order_of_their_refusals() {
    check(
        &started(),
        &[
            ("write_next 0 2 0 3 414243", "write_next 0 3"),
            ("read_random 0 2 0 0 5 6", "read_random 0 5 4142432020a5"),
            ("read_random 0 2 0 1999 5 5", "read_random 0 1 20a5a5a5a5"),
            ("read_random 0 2 0 2000 5 1", "read_random 210 0 a5"),
            ("read_random 0 2 0 2001 5 1", "read_random 209 0 a5"),
            ("read_random 0 2 0 1999 5 4", "read_random 214 0 a5a5a5a5"),
            ("read_random 0 1 9 9999 5 4", "read_random 208 0 a5a5a5a5"),
            ("read_random 0 0 9 9999 5 4", "read_random 204 0 a5a5a5a5"),
            ("read_random 0 2 1 9999 5 4", "read_random 205 0 a5a5a5a5"),
            ("write_random 0 1 0 0 0 -", "write_random 208 0"),
            ("write_random 0 2 0 1998 4 080a0d00", "write_random 0 2"),
            ("read_random 0 2 0 1997 3 3", "read_random 0 3 20080a"),
            ("write_next 0 1 0 1 -", "write_next 202 0"),
            ("write_next 0 1 1 1 -", "write_next 205 0"),
            ("write_next 0 3 1 1 -", "write_next 204 0"),
            ("write_next 0 2 0 1 -", "write_next 214 0"),
            ("read_next 0 2 0 0 0", "read_next 206 0 -"),
            ("read_next 0 1 0 0 0", "read_next 206 0 -"),
            ("fault 0 2 set", ""),
            ("fault 0 3 set", ""),
            ("fault 2 1 set", ""),
            ("write_next 0 2 0 1 -", "write_next 214 0"),
            ("write_next 0 2 0 0 -", "write_next 203 0"),
            ("read_random 0 2 0 2000 0 0", "read_random 210 0 -"),
            ("read_random 0 2 0 0 0 0", "read_random 207 0 -"),
            ("read_next 0 2 0 0 0", "read_next 207 0 -"),
            ("write_next 1 2 1 1 0a", "write_next 0 1"),
            ("fault 0 2 clear", ""),
            ("write_next 0 2 0 0 -", "write_next 0 0"),
        ],
    );
}

#[test]
fn keys_go_to_the_focused_partition() {
    let lines =
        started() + &"key 41\n".repeat(65) + "attention\nkey 42\nattention\nfault 0 1 set\n";
    check(
        &lines,
        &[
            ("read_next 1 1 1 5 5", "read_next 0 1 42a5a5a5a5"),
            ("read_next 1 1 1 5 5", "read_next 206 0 a5a5a5a5a5"),
            ("read_next 0 1 0 5 5", "read_next 207 0 a5a5a5a5a5"),
            ("fault 0 1 clear", ""),
            (
                "read_next 0 1 0 63 64",
                &format!("read_next 0 63 {}a5", "41".repeat(63)),
            ),
            ("key 43", ""),
            ("read_next 0 1 0 0 1", "read_next 0 0 a5"),
            ("read_next 0 1 0 9 9", "read_next 0 2 4143a5a5a5a5a5a5a5"),
        ],
    );
}

#[test]
fn what_show_says_of_a_running_terminal() {
    let lines = started() + "attention\nkey 00\nkey ff\nfault 1 2 set\nlogin 0 626f6200 6e657700\n";
    let answers = replay(&(lines + "write_next 0 2 0 1 0a\npartitions A\nshow\n"));
    let shown: Vec<&str> = answers.lines().skip(3).take(3).collect();
    assert_eq!(
        shown,
        [
            "focus 1 stopped 0 off 0",
            "partition 0 cursor 80 faults 00 login 1 queue -",
            "partition 1 cursor 0 faults 01 login - queue 00ff",
        ]
    );
    assert_eq!(answers.lines().count(), 11);
}

#[test]
fn shutdown_shows_its_message_and_stops_everything() {
    let answers = replay(
        &(started()
            + "shutdown 1 62796500\nshutdown 1 00\nlogout 9\nkey 41\nscreen 1\nscreen 2\nshow\n"),
    );
    let lines: Vec<&str> = answers.lines().collect();
    assert_eq!(
        lines[..4],
        ["start 0 line 0", "shutdown 0", "shutdown 212", "logout 212"]
    );
    assert_eq!(lines[4], format!("{:80}", "bye"));
    assert_eq!(lines[5], format!("{:80}", "SYSTEM HALTED"));
    assert!(lines[6..29].iter().all(|row| *row == " ".repeat(80)));
    assert_eq!(lines[29], "screen -");
    assert_eq!(lines[30], "focus 0 stopped 1 off 0");
    assert_eq!(lines[31], "partition 0 cursor 0 faults 00 login - queue -");
    assert_eq!(lines[32], "partition 1 cursor 93 faults 00 login - queue -");
}

#[test]
fn a_full_row_of_message_leaves_an_empty_row() {
    let message = format!("shutdown 0 {}00\n", "41".repeat(80));
    let answers = replay(&(started() + &message + "screen 0\n"));
    let rows: Vec<&str> = answers.lines().skip(2).collect();
    assert_eq!(rows[0], "A".repeat(80));
    assert_eq!(rows[1], " ".repeat(80));
    assert_eq!(rows[2], format!("{:80}", "SYSTEM HALTED"));
}

#[test]
fn powerdown_with_and_without_soft_power() {
    let soft = replay(&(setting() + "soft yes\nstart\npowerdown 1\nscreen 1\nshow\n"));
    let lines: Vec<&str> = soft.lines().collect();
    assert_eq!(lines[1], "powerdown 0");
    assert!(lines[2..27].iter().all(|row| *row == " ".repeat(80)));
    assert_eq!(lines[27], "focus 0 stopped 1 off 1");
    let hard = replay(&(started() + "fault 0 2 set\npowerdown 1\nscreen 1\nshow\n"));
    let lines: Vec<&str> = hard.lines().collect();
    assert_eq!(lines[1], "powerdown 0");
    assert_eq!(lines[3], format!("{:80}", "SYSTEM HALTED"));
    assert_eq!(lines[27], "focus 0 stopped 1 off 0");
}

#[test]
fn only_calls_that_are_lent_an_area_mind_its_length() {
    check(
        &started(),
        &[
            ("screens 6001", ""),
            ("read_random 9 2 0 0 0 0", "read_random 216 0 -"),
            ("write_next 9 2 0 0 -", "write_next 216 0"),
            ("write_random 9 2 0 0 0 -", "write_random 216 0"),
            ("shutdown 9 00", "shutdown 216"),
            ("powerdown 9", "powerdown 216"),
            ("read_next 0 2 0 0 0", "read_next 206 0 -"),
            ("load 0 256 0 0", "load 0 -"),
            ("screens 6000", ""),
            ("write_next 0 2 0 0 -", "write_next 0 0"),
            ("arena 13", ""),
            ("load 9 256 0 0", "load 216 -"),
            ("store 9 256 0 -", "store 216"),
            ("flush 9 256 0", "flush 216"),
            ("arena 12", ""),
            ("load 0 256 0 5", "load 0 a5a5a5a5a5"),
            // Partition 1's table is empty, so no byte of the area can spoil it.
            ("tables 82", ""),
            ("login 0 00 00", "login 216 0"),
            ("who 0 0", "who 216 -"),
            ("set_password 0 00 0", "set_password 216"),
            ("login 1 00 00", "login 300 0"),
            ("login 9 00 00", "login 213 0"),
            ("logout 0", "logout 0"),
            ("tables 83", ""),
            ("login 9 00 00", "login 216 0"),
            ("image 00", ""),
            ("configuration 9 0", "configuration 216 -"),
            ("flush 9 256 0", "flush 216"),
            ("set_password 9 00 0", "set_password 216"),
            ("load 0 256 0 1", "load 0 a5"),
            ("start", "start 403 line 0"),
            ("load 0 256 0 1", "load 0 a5"),
        ],
    );
}

#[test]
fn a_restart_after_a_stop() {
    check(
        &started(),
        &[
            ("shutdown 0 -", "shutdown 0"),
            ("arena 11", ""),
            ("load 0 256 0 0", "load 216 -"),
            ("start", "start 415 line 0"),
            ("logout 0", "logout 212"),
            ("arena 12", ""),
            ("start", "start 0 line 0"),
            ("logout 0", "logout 0"),
        ],
    );
}

/// The image of the setting is 9 + 9 + 14 + 12 + 98 + 16 = 158 bytes long, and the contents of /d
/// stand at 27. Another store of that length goes unnoticed: the kept places count.
#[test]
fn a_store_of_the_same_length_goes_unnoticed() {
    let replaced = format!("clear\nimage {}\n", "00".repeat(158));
    let lines = started() + "login 0 616e6e00 73656372657400\n" + &replaced;
    let calls =
        "flush 0 256 5\nshow\nwho 0 33\nset_password 0 00 0\nwho 0 33\nlogout 0\nlogin 0 00 00\n";
    let answers = replay(&(lines + calls));
    let lines: Vec<&str> = answers.lines().collect();
    assert_eq!(lines[2], "flush 0");
    assert_eq!(
        lines[6],
        "store 5617f7cf7e8ca8f1eb2c7ac7bc69e2250c0fa7d0e043875dae95e8ec4c8106c9"
    );
    assert_eq!(lines[11], format!("who 0 616e6e00{}", "a5".repeat(29)));
    // Nothing is written, so the table becomes the store's zeros, which are no records.
    assert_eq!(lines[12], "set_password 203");
    assert_eq!(lines[13], format!("who 216 {}", "a5".repeat(33)));
    assert_eq!(lines[14..], ["logout 0", "login 216 0"]);
}

/// A long text of permissions is counted, not wrapped, and the first fault of a text decides.
#[test]
fn refusals_with_long_lists_and_early_faults() {
    let refused = |more: &str| {
        let begin = "CODE[0]=/a;\n";
        replay(&(file("/a", "") + &text(begin) + &text(more) + "start\n"))
    };
    let many = vec!["RW"; 257].join(",");
    assert_eq!(
        refused(&format!("MSEG[0]={{1,0,{many}}};")),
        "start 413 line 2\n"
    );
    assert_eq!(refused("DSEG[0]={/a,0,RW};\n\r"), "start 409 line 2\n");
    assert_eq!(refused("\nDSEG[0]={/z,0,RW};\r"), "start 411 line 3\n");
    assert_eq!(refused("\n\nDSEG[0]={\"/z#\",0,RW};"), "start 404 line 4\n");
    assert_eq!(refused(""), "start 416 line 0\n");
}
