//! What cannot be read or written: one clear line, its status, and the other captures still reported.

mod common;

use common::*;
use std::fs::{self, File, OpenOptions};
use std::io::{BufRead, BufReader, Read};
use std::path::Path;
use std::process::{Command, Stdio};

#[test]
fn a_folder() {
    let folder = folder("folder");
    let name = folder.to_str().unwrap();
    let complaint = format!("haspeljo: {name}: Is a directory\n");
    run(&["report", name]).assert(4, "", &complaint);
    run(&["report", "--follow", name]).assert(4, "", &complaint);
    let stdin = File::open(name).unwrap();
    let ended = Ended::of(haspeljo(&["report"]).stdin(stdin).output().unwrap());
    ended.assert(4, "", "haspeljo: standard input: Is a directory\n");
}

#[test]
fn a_missing_file() {
    let line = "haspeljo: no/such/file: No such file or directory\n";
    run(&["report", "no/such/file"]).assert(4, "", line);
}

/// Nothing is at the first address of a process.
#[test]
fn a_read_that_fails() {
    let line = "haspeljo: /proc/self/mem: Input/output error\n";
    run(&["report", "/proc/self/mem"]).assert(4, "", line);
}

#[test]
fn the_others_are_reported() {
    let folder = folder("others");
    let clean = file(&folder, "clean", EXAMPLE);
    let path = folder.to_str().unwrap();
    let lines = format!("==> {clean} <==\n{EXAMPLE_LINES}");
    let complaints =
        format!("haspeljo: {path}: Is a directory\nhaspeljo: /proc/self/mem: Input/output error\n");
    run(&["report", path, &clean, "/proc/self/mem", &clean]).assert(
        4,
        &lines.repeat(2),
        &complaints,
    );
}

#[test]
fn names_with_control_characters() {
    let line = "haspeljo: \"no\\nsuch\\u{1b}file\": No such file or directory\n";
    run(&["report", "no\nsuch\u{1b}file"]).assert(4, "", line);
}

/// Those of a C1 control, those that turn the direction of what is shown, and those that look quoted themselves.
#[test]
fn names_that_mislead() {
    for (name, shown) in [
        ("no\u{85}file", r#""no\u{85}file""#),
        ("no\u{9b}file", r#""no\u{9b}file""#),
        ("no\u{202e}file", r#""no\u{202e}file""#),
        ("no\u{2066}file", r#""no\u{2066}file""#),
        ("\"no\" file", r#""\"no\" file""#),
        ("no \"such\" file", "no \"such\" file"),
    ] {
        let line = format!("haspeljo: {shown}: No such file or directory\n");
        run(&["report", name]).assert(4, "", &line);
    }
}

/// What a shell says of the program `$0` on the file `$1`.
fn shell(command: &str, name: &str) -> Ended {
    let mut bash = Command::new("bash");
    let bash = bash.args(["-c", command, env!("CARGO_BIN_EXE_haspeljo"), name]);
    Ended::of(bash.stdin(Stdio::null()).output().unwrap())
}

#[test]
fn closed_descriptors() {
    let folder = folder("closed");
    let name = file(&folder, "capture", EXAMPLE);
    let input = "haspeljo: standard input: Bad file descriptor\n";
    shell("\"$0\" report <&-", &name).assert(4, "", input);
    shell("\"$0\" report --follow <&-", &name).assert(4, "", input);
    shell("\"$0\" report --files-from - <&-", &name).assert(4, "", input);
    let output = "haspeljo: standard output: Bad file descriptor\n";
    shell("\"$0\" report \"$1\" >&-", &name).assert(4, "", output);
    shell("\"$0\" completions bash >&-", &name).assert(4, "", output);
}

/// /dev/null is none, however it was opened.
#[test]
fn no_closed_descriptors() {
    let folder = folder("not closed");
    let name = file(&folder, "capture", EXAMPLE);
    shell("\"$0\" report <>/dev/null", &name).assert(1, "stop handshake 1 0\n", "");
    shell("\"$0\" report \"$1\" 1<>/dev/null", &name).assert(0, "", "");
    shell("\"$0\" report \"$1\" <&-", &name).assert(0, EXAMPLE_LINES, "");
}

/// It is not read instead.
#[test]
fn a_mapping_without_memory() {
    let folder = folder("no memory");
    let name = file(&folder, "capture", b"");
    File::options().write(true).open(&name).unwrap().set_len(8 << 30).unwrap();
    let line = format!("haspeljo: {name}: Cannot allocate memory\n");
    shell("ulimit -v 4000000; \"$0\" report \"$1\"", &name).assert(4, "", &line);
    fs::remove_dir_all(folder).unwrap();
}

/// A pipe with a name, which nobody writes to.
fn named_pipe(folder: &Path) -> String {
    let pipe = folder.join("pipe").to_str().unwrap().to_string();
    assert!(Command::new("mkfifo").arg(&pipe).status().unwrap().success());
    pipe
}

/// While another capture is waited for.
#[test]
fn an_output_that_fails_ends_all() {
    let folder = folder("fails");
    let session = [&EXAMPLE[..11], &EXAMPLE[11..].repeat(50_000)].concat();
    let (name, pipe) = (file(&folder, "capture", &session), named_pipe(&folder));
    let mut command = haspeljo(&["report", &name, &pipe]);
    let full = OpenOptions::new().write(true).open("/dev/full").unwrap();
    let child = command.env("RAYON_NUM_THREADS", "2").stdout(full).spawn().unwrap();
    ended_soon(child).assert(4, "", "haspeljo: standard output: No space left on device\n");
    let mut child = command.stdout(Stdio::piped()).spawn().unwrap();
    BufReader::new(child.stdout.take().unwrap()).read_line(&mut String::new()).unwrap();
    ended_soon(child).assert(141, "", "");
}

#[test]
fn a_full_disk() {
    let full = || OpenOptions::new().write(true).open("/dev/full").unwrap();
    let folder = folder("full");
    let name = file(&folder, "capture", EXAMPLE);
    let line = "haspeljo: standard output: No space left on device\n";
    for arguments in [&["report", &name][..], &["report", &name, &name], &["completions", "bash"]] {
        let output = haspeljo(arguments).stdout(full()).output().unwrap();
        Ended::of(output).assert(4, "", line);
    }
}

/// Of one capture and of several, read on several cores.
#[test]
fn a_closed_pipe_is_silent() {
    let folder = folder("closed pipe");
    let mut long = EXAMPLE.to_vec();
    (0..500_000).for_each(|_| long.extend_from_slice(&EXAMPLE[11..]));
    let name = file(&folder, "capture", &long);
    for count in [1, 8] {
        let arguments: Vec<&str> = ["report"].into_iter().chain(vec![&name[..]; count]).collect();
        let mut child = haspeljo(&arguments).spawn().unwrap();
        let mut line = String::new();
        BufReader::new(child.stdout.take().unwrap()).read_line(&mut line).unwrap();
        let mut complaint = String::new();
        child.stderr.take().unwrap().read_to_string(&mut complaint).unwrap();
        assert_eq!((child.wait().unwrap().code(), &complaint[..]), (Some(141), ""));
    }
}
