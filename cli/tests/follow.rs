//! What still grows: a capture with `--follow`, or a list of names.

mod common;

use common::*;
use haspeljo::Network;
use std::fs::{self, File, OpenOptions};
use std::io::{BufRead, BufReader, Read, Seek, SeekFrom, Write};
use std::process::{Child, Stdio};
use std::sync::mpsc::{channel, Receiver};
use std::thread;
use std::time::{Duration, Instant};

/// A run whose lines are taken as they come.
struct Run {
    child: Child,
    lines: Receiver<String>,
}

impl Run {
    fn new(arguments: &[&str], stdin: Stdio) -> Run {
        let mut child = haspeljo(arguments).stdin(stdin).spawn().unwrap();
        let stdout = BufReader::new(child.stdout.take().unwrap());
        let (sender, lines) = channel();
        thread::spawn(move || stdout.lines().try_for_each(|line| sender.send(line.unwrap())));
        Run { child, lines }
    }

    #[track_caller]
    fn expect(&self, line: &str) {
        let next = self.lines.recv_timeout(Duration::from_secs(20));
        assert_eq!(next.as_deref(), Ok(line));
    }

    /// That nothing is printed for longer than it waits between two looks.
    #[track_caller]
    fn expect_nothing(&self) {
        assert!(self.lines.recv_timeout(Duration::from_millis(600)).is_err());
    }

    #[track_caller]
    fn expect_end(mut self, status: i32, complaint: &str) {
        let mut stderr = String::new();
        self.child.stderr.take().unwrap().read_to_string(&mut stderr).unwrap();
        assert_eq!((self.child.wait().unwrap().code(), &stderr[..]), (Some(status), complaint));
        assert_eq!(self.lines.iter().collect::<Vec<_>>(), [""; 0]);
    }
}

const HANDSHAKE: &str = "handshake 0 11 version 6.0.1 verdict 0";

/// Appends to a file at each step.
fn append(name: &str, bytes: &[u8]) {
    OpenOptions::new().append(true).open(name).unwrap().write_all(bytes).unwrap();
}

#[test]
fn a_file_that_grows_and_then_stops() {
    let folder = folder("follow");
    let name = file(&folder, "capture", b"");
    let run = Run::new(&["report", "--follow", &name], Stdio::null());
    run.expect_nothing();
    append(&name, &EXAMPLE[..10]);
    run.expect_nothing();
    append(&name, &EXAMPLE[10..12]);
    run.expect(HANDSHAKE);
    run.expect_nothing();
    append(&name, &EXAMPLE[12..]);
    run.expect("message 11 20 code 1");
    run.expect_nothing();
    append(&name, &[&EXAMPLE[11..], b"123456789"].concat());
    run.expect("message 20 29 code 1");
    run.expect("stop frame 6 29");
    run.expect_end(3, "");
}

#[test]
fn a_file_on_standard_input() {
    let folder = folder("follow standard input");
    let name = file(&folder, "capture", &EXAMPLE[..12]);
    let run = Run::new(&["report", "--follow"], File::open(&name).unwrap().into());
    run.expect(HANDSHAKE);
    append(&name, b"\x09\x00\x00\x00\x00\x00\x00\x00");
    run.expect("stop frame 6 11");
    run.expect_end(3, "");
}

#[test]
fn the_rest_of_a_file_on_standard_input() {
    let folder = folder("follow rest");
    let name = file(&folder, "capture", &[b"12345", &EXAMPLE[..11]].concat());
    let mut stdin = File::open(&name).unwrap();
    stdin.seek(SeekFrom::Start(5)).unwrap();
    let run = Run::new(&["report", "--follow"], stdin.into());
    run.expect(HANDSHAKE);
    append(&name, &[&EXAMPLE[11..], b"123456789"].concat());
    run.expect("message 11 20 code 1");
    run.expect("stop frame 6 20");
    run.expect_end(3, "");
}

#[test]
fn a_line_comes_within_a_second() {
    let folder = folder("follow soon");
    let name = file(&folder, "capture", &EXAMPLE[..11]);
    let run = Run::new(&["report", "--follow", &name], Stdio::null());
    run.expect(HANDSHAKE);
    for place in [11, 20, 29] {
        let begun = Instant::now();
        append(&name, &EXAMPLE[11..]);
        run.expect(&format!("message {place} {} code 1", place + 9));
        assert!(begun.elapsed() < Duration::from_secs(1), "{:?}", begun.elapsed());
    }
    append(&name, b"123456789");
    run.expect("stop frame 6 38");
    run.expect_end(3, "");
}

/// Of a file and of a pipe, which do not grow any more.
#[test]
fn it_ends_once_nobody_reads_it() {
    let folder = folder("follow unread");
    let name = file(&folder, "capture", EXAMPLE);
    for name in [&name[..], "-"] {
        let mut command = haspeljo(&["report", "--follow", name]);
        let mut child = command.stdin(Stdio::piped()).spawn().unwrap();
        let mut stdin = child.stdin.take().unwrap();
        stdin.write_all(EXAMPLE).unwrap();
        let mut line = String::new();
        BufReader::new(child.stdout.take().unwrap()).read_line(&mut line).unwrap();
        assert_eq!(line.trim_end(), HANDSHAKE);
        ended_soon(child).assert(141, "", "");
    }
}

#[test]
fn a_file_that_gets_shorter() {
    let folder = folder("follow shorter");
    let name = file(&folder, "capture", EXAMPLE);
    let run = Run::new(&["report", "--follow", &name], Stdio::null());
    run.expect(HANDSHAKE);
    run.expect("message 11 20 code 1");
    fs::write(&name, &EXAMPLE[..11]).unwrap();
    run.expect_end(4, &format!("haspeljo: {name}: the file became shorter\n"));
}

#[test]
fn a_pipe_up_to_its_end() {
    for (length, line, status) in [(20, "end 20", 0), (19, "stop frame 5 11", 1)] {
        let mut run = Run::new(&["report", "--follow"], Stdio::piped());
        let mut stdin = run.child.stdin.take().unwrap();
        stdin.write_all(&EXAMPLE[..11]).unwrap();
        run.expect(HANDSHAKE);
        stdin.write_all(&EXAMPLE[11..length]).unwrap();
        if length == 20 {
            run.expect("message 11 20 code 1");
        }
        drop(stdin);
        run.expect(line);
        run.expect_end(status, "");
    }
}

/// Whatever the steps in which the bytes come, the report is the same.
#[test]
fn byte_by_byte() {
    let session = peers_session(Network::Mainnet);
    let whole = run_on(&["report", "--addresses"], &session).stdout;
    let mut run = Run::new(&["report", "--follow", "--addresses"], Stdio::piped());
    let mut stdin = run.child.stdin.take().unwrap();
    session.iter().for_each(|byte| stdin.write_all(&[*byte]).unwrap());
    drop(stdin);
    whole.lines().for_each(|line| run.expect(line));
    run.expect_end(0, "");
}

/// A report comes while the list is still open.
#[test]
fn a_slow_list() {
    let folder = folder("slow list");
    let name = file(&folder, "capture", EXAMPLE);
    let mut run = Run::new(&["report", "--files-from", "-"], Stdio::piped());
    let mut stdin = run.child.stdin.take().unwrap();
    for _ in 0..2 {
        writeln!(stdin, "{name}").unwrap();
        run.expect(&format!("==> {name} <=="));
        EXAMPLE_LINES.lines().for_each(|line| run.expect(line));
    }
    drop(stdin);
    run.expect_end(0, "");
}
