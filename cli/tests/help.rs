//! The help, the manual pages and the completions, all made from the same definitions.

mod common;

use common::*;
use haspeljo::{Error, Verdict};
use std::fs;
use std::process::Command;

/// That a text has a row for each number.
#[track_caller]
fn assert_explains(text: &str) {
    let row = |number: u8, words: &str| {
        let found = text.lines().any(|line| {
            line.trim().strip_prefix(&number.to_string()).is_some_and(|rest| rest.trim() == words)
        });
        assert!(found, "{number} {words}:\n{text}");
    };
    for error in Error::ALL {
        row(error.number(), &error.to_string());
    }
    for verdict in [Verdict::Valid, Verdict::OldVersion, Verdict::OtherNetwork] {
        row(verdict.number(), &verdict.to_string());
    }
    let codes = [
        (1, "GetPeers"),
        (2, "Peers"),
        (22, "ModifierRequest"),
        (33, "ModifierResponse"),
        (55, "Inv"),
        (65, "SyncInfo"),
    ];
    codes.into_iter().for_each(|(code, name)| row(code, name));
    for word in ["START", "END", "LENGTH", "LAYER", "BOGUS", "Exit status", "verdict_text"] {
        assert!(text.contains(word), "{word}");
    }
    for status in ["  0  ", "  1  ", "  2  ", "  3  ", "  4  ", "  141  "] {
        assert!(text.lines().any(|line| line.starts_with(status)), "{status}");
    }
}

#[test]
fn the_help_explains_every_number() {
    let ended = run(&["report", "--help"]);
    assert_eq!((ended.status, &ended.stderr[..]), (Some(0), ""));
    assert_explains(&ended.stdout);
    for option in OPTIONS {
        assert!(ended.stdout.contains(option), "{option}");
    }
}

const OPTIONS: [&str; 7] =
    ["--network", "--cap", "--addresses", "--json", "--follow", "--files-from", "--null"];

#[test]
fn every_line_of_the_help_fits_a_terminal() {
    for arguments in [&["--help"][..], &["-h"], &["report", "-h"], &["report", "--help"]] {
        for line in run(arguments).stdout.lines() {
            assert!(line.chars().count() <= 100, "{line}");
        }
    }
}

/// With Debian's help2man.
#[test]
fn manual_pages() {
    let folder = folder("man");
    let script = concat!(env!("CARGO_MANIFEST_DIR"), "/man");
    let output = Command::new(script).arg(env!("CARGO_BIN_EXE_haspeljo")).arg(&folder).output();
    Ended::of(output.unwrap()).assert(0, "", "");
    let mut names: Vec<_> =
        fs::read_dir(&folder).unwrap().map(|entry| entry.unwrap().file_name()).collect();
    names.sort();
    assert_eq!(names, ["haspeljo-completions.1", "haspeljo-report.1", "haspeljo.1"]);
    let page = fs::read_to_string(folder.join("haspeljo-report.1")).unwrap();
    assert!(page.contains(".TH HASPELJO-REPORT \"1\""));
    for error in Error::ALL {
        let row = format!("\n.TP\n{}\n{error}\n", error.number());
        assert!(page.contains(&row.replace('-', "\\-")), "{row}");
    }
    for option in OPTIONS {
        assert!(page.contains(&option.replace('-', "\\-")), "{option}");
    }
}

#[test]
fn completions() {
    for shell in ["bash", "zsh", "fish"] {
        let ended = run(&["completions", shell]);
        assert_eq!((ended.status, &ended.stderr[..]), (Some(0), ""));
        for option in OPTIONS {
            assert!(ended.stdout.contains(&option[2..]), "{shell} {option}");
        }
    }
}
