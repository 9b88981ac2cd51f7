//! The plain lines are those of the proved program `session`, byte for byte.

mod common;

use common::{file, folder, run, run_on};
use std::fs;

/// The longest input of `session`.
const LONGEST: usize = 65_536;

fn frozen(path: &str) -> Vec<u8> {
    fs::read(format!("{}/../crates/{path}", env!("CARGO_MANIFEST_DIR"))).expect("a frozen file")
}

/// The inputs, each behind its length, three bytes little-endian.
fn inputs() -> Vec<Vec<u8>> {
    let stdin = frozen("session_cases/stdin");
    let (mut inputs, mut rest) = (vec![], &stdin[..]);
    while let [a, b, c, after @ ..] = rest {
        let (input, next) = after.split_at(u32::from_le_bytes([*a, *b, *c, 0]) as usize);
        inputs.push(input.to_vec());
        rest = next;
    }
    assert!(rest.is_empty());
    inputs
}

/// Takes the lines of one input from those that are expected. `session` refuses to read a long one, which has a report
/// all the same.
fn take<'a>(expected: &'a str, input: &[u8], lines: &str) -> &'a str {
    if input.len() > LONGEST {
        let last = lines.lines().last().expect("a line");
        assert!(last.starts_with("end ") || last.starts_with("stop "), "{last}");
        return expected.strip_prefix("long\n").expect("a long input");
    }
    assert!(expected.starts_with(lines), "{lines}\nis not how this begins:\n{expected:.300}");
    &expected[lines.len()..]
}

fn expected() -> String {
    String::from_utf8(frozen("session_cases/stdout")).expect("UTF-8")
}

/// `session_cases` ends with two inputs that cannot be read.
const UNREAD: &str = "unread\nunread\n";

#[test]
fn each_on_standard_input() {
    let (expected, inputs) = (expected(), inputs());
    assert!(inputs.len() > 100, "{}", inputs.len());
    let rest = inputs.iter().fold(&expected[..], |rest, input| {
        let ended = run_on(&["report"], input);
        let status = match ended.stdout.lines().last().unwrap_or("") {
            line if line.starts_with("end ") => 0,
            line if line.starts_with("stop handshake 1 ") => 1,
            line if line.starts_with("stop frame 5 ") => 1,
            line if line.starts_with("stop frame 8 ") => 1,
            _ => 3,
        };
        assert_eq!((ended.status, &ended.stderr[..]), (Some(status), ""));
        take(rest, input, &ended.stdout)
    });
    assert_eq!(rest, UNREAD);
}

#[test]
fn all_as_files() {
    let (expected, inputs, folder) = (expected(), inputs(), folder("session_cases"));
    let names: Vec<String> =
        inputs.iter().enumerate().map(|(i, input)| file(&folder, &i.to_string(), input)).collect();
    let arguments: Vec<&str> = ["report"].into_iter().chain(names.iter().map(|n| &n[..])).collect();
    let ended = run(&arguments);
    assert_eq!((ended.status, &ended.stderr[..]), (Some(3), ""));
    let mut reports = ended.stdout.split("==> ");
    assert_eq!(reports.next(), Some(""));
    let mut rest = &expected[..];
    for (input, name) in inputs.iter().zip(&names) {
        let report = reports.next().expect("a report");
        let lines = report.strip_prefix(&format!("{name} <==\n")).expect("its name");
        rest = take(rest, input, lines);
    }
    assert_eq!((reports.next(), rest), (None, UNREAD));
}

#[test]
fn the_longest() {
    let ended = run_on(&["report"], &frozen("session/stdin"));
    assert_eq!(ended.stdout.as_bytes(), frozen("session/stdout"));
}

#[test]
fn one_byte_more_than_the_longest() {
    let input = frozen("session_long/stdin");
    assert_eq!((input.len(), frozen("session_long/stdout")), (LONGEST + 1, b"long\n".to_vec()));
    take("long\n", &input, &run_on(&["report"], &input).stdout);
}
