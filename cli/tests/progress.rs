//! The progress bar, on a terminal that `script` makes.

mod common;

use common::*;
use std::process::{Command, Stdio};

/// What a terminal gets from a shell's command in which `$haspeljo` is the program and `$capture` the example.
fn on_terminal(test: &str, command: &str) -> String {
    let folder = folder(test);
    let output = Command::new("script")
        .args(["--quiet", "--return", "--command", command, "/dev/null"])
        .env("haspeljo", env!("CARGO_BIN_EXE_haspeljo"))
        .env("capture", file(&folder, "capture", EXAMPLE))
        .stdin(Stdio::null())
        .output()
        .unwrap();
    Ended::of(output).stdout
}

/// The names of captures, the last two after more than a second.
const SLOW_LIST: &str = r#"(echo "$capture"; sleep 1.3; echo "$capture"; echo "$capture")"#;

#[test]
fn what_takes_long_has_a_bar() {
    let command = format!(r#"{SLOW_LIST} | "$haspeljo" report --files-from - > /dev/null"#);
    let shown = on_terminal("bar", &command);
    assert!(shown.contains("B/s, ") && shown.contains(" done"), "{shown}");
    assert!(shown.ends_with("\u{1b}[2K"), "{shown:?}");
}

/// A complaint stands on a line of its own.
#[test]
fn a_bar_makes_way_for_complaints() {
    let list = format!("({SLOW_LIST}; echo none; {SLOW_LIST})");
    let command = format!(r#"{list} | "$haspeljo" report --files-from - > /dev/null"#);
    let shown = on_terminal("bar and complaint", &command);
    let before = "\r\u{1b}[2K";
    assert!(
        shown.contains(&format!("{before}haspeljo: none: No such file or directory\r\n")),
        "{shown:?}"
    );
}

#[test]
fn what_is_short_has_none() {
    let shown = on_terminal("no bar", r#""$haspeljo" report "$capture" > /dev/null"#);
    assert_eq!(shown, "");
}

#[test]
fn what_is_followed_has_none() {
    let slow = r#"(head -c 11 "$capture"; sleep 1.3; tail -c 9 "$capture")"#;
    let command = format!(r#"{slow} | "$haspeljo" report --follow > /dev/null"#);
    assert_eq!(on_terminal("no bar of what is followed", &command), "");
}

/// A terminal gets each line as it is made.
#[test]
fn lines_come_at_once() {
    let slow = r#"(cat "$capture"; sleep 1; echo between >&2)"#;
    let command = format!(r#"{slow} | "$haspeljo" report"#);
    let shown = on_terminal("lines at once", &command).replace("\r\n", "\n");
    assert_eq!(shown, EXAMPLE_LINES.replace("end 20", "between\nend 20"));
}

/// Where the lines go to the terminal too.
#[test]
fn nothing_stands_between_the_lines() {
    let command = format!(r#"{SLOW_LIST} | "$haspeljo" report --files-from - "#);
    let shown = on_terminal("lines", &command).replace("\r\n", "\n");
    let lines: String =
        shown.split_inclusive('\n').filter(|line| !line.starts_with("==> ")).collect();
    assert_eq!(lines, EXAMPLE_LINES.repeat(3));
}
