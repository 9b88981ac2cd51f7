//! Reports of one capture and of several.

mod common;

use common::*;
use haspeljo::{Network, Write};
use std::ffi::OsStr;
use std::fs::{self, File};
use std::io::{BufRead, BufReader, Read, Seek, SeekFrom, Write as _};
use std::os::unix::ffi::OsStrExt;
use std::process::{Command, Stdio};
use std::thread;
use std::time::Duration;

#[test]
fn a_file_a_pipe_and_a_file_on_standard_input() {
    let folder = folder("one");
    let name = file(&folder, "capture", EXAMPLE);
    run(&["report", &name]).assert(0, EXAMPLE_LINES, "");
    run_on(&["report"], EXAMPLE).assert(0, EXAMPLE_LINES, "");
    run_on(&["report", "-"], EXAMPLE).assert(0, EXAMPLE_LINES, "");
    let stdin = File::open(&name).unwrap();
    Ended::of(haspeljo(&["report"]).stdin(stdin).output().unwrap()).assert(0, EXAMPLE_LINES, "");
}

/// Standard input may stand in the middle of a file, a short one or a long one.
#[test]
fn the_rest_of_a_file() {
    let folder = folder("rest");
    for messages in [1, 50_000] {
        let session = [&EXAMPLE[..11], &EXAMPLE[11..].repeat(messages)].concat();
        let name = file(&folder, "capture", &[b"12345", &session[..]].concat());
        let mut stdin = File::open(name).unwrap();
        stdin.seek(SeekFrom::Start(5)).unwrap();
        let ended = Ended::of(haspeljo(&["report"]).stdin(stdin).output().unwrap());
        ended.assert(0, &run_on(&["report"], &session).stdout, "");
        assert_eq!(ended.stdout.lines().count(), 1 + messages + 1);
    }
}

#[test]
fn the_status_says_how_it_ends() {
    run_on(&["report"], EXAMPLE).assert(0, EXAMPLE_LINES, "");
    run_on(&["report"], &EXAMPLE[..10]).assert(1, "stop handshake 1 0\n", "");
    run_on(&["report"], b"").assert(1, "stop handshake 1 0\n", "");
    let first = "handshake 0 11 version 6.0.1 verdict 0\n";
    run_on(&["report"], &EXAMPLE[..11]).assert(0, &format!("{first}end 11\n"), "");
    run_on(&["report"], &EXAMPLE[..12]).assert(1, &format!("{first}stop frame 5 11\n"), "");
    let mut wrong = EXAMPLE.to_vec();
    wrong[11] = 9;
    run_on(&["report"], &wrong).assert(3, &format!("{first}stop frame 6 11\n"), "");
}

#[test]
fn a_wrong_command_line() {
    let folder = folder("misuse");
    let name = &file(&folder, "capture", EXAMPLE)[..];
    for arguments in [
        &["--network", "mars"][..],
        &["--follow", name, name],
        &["--follow", "--files-from", name],
        &["--files-from", name, name],
        &["-0"],
        &["-0", name],
        &["-", "-"],
        &["-", name, "-"],
    ] {
        let ended = run(&[&["report"], arguments].concat());
        assert_eq!((ended.status, &ended.stdout[..]), (Some(2), ""), "{arguments:?}");
        assert!(ended.stderr.starts_with("error: "), "{}", ended.stderr);
    }
    run(&["report", "-", "-"]).assert(2, "", "error: standard input can be named only once\n");
}

/// It does not wait for the pipe's end.
#[test]
fn a_pipe_is_read_up_to_a_stop() {
    let mut child = haspeljo(&["report"]).stdin(Stdio::piped()).spawn().unwrap();
    let mut stdin = child.stdin.take().unwrap();
    stdin.write_all(&[EXAMPLE, &[0; 9]].concat()).unwrap();
    let lines = EXAMPLE_LINES.replace("end 20", "stop frame 6 20");
    ended_soon(child).assert(3, &lines, "");
}

#[test]
fn an_empty_file_has_no_bytes() {
    let folder = folder("empty");
    let name = file(&folder, "capture", b"");
    run(&["report", &name]).assert(1, "stop handshake 1 0\n", "");
}

#[test]
fn several_in_their_order_and_the_highest_status() {
    let folder = folder("several");
    let clean = file(&folder, "clean", EXAMPLE);
    let cut = file(&folder, "cut", &EXAMPLE[..10]);
    let missing = folder.join("missing").to_str().unwrap().to_string();
    let both = format!("==> {clean} <==\n{EXAMPLE_LINES}==> {cut} <==\nstop handshake 1 0\n");
    run(&["report", &clean, &cut]).assert(1, &both, "");
    let complaint = format!("haspeljo: {missing}: No such file or directory\n");
    run(&["report", &clean, &missing, &cut]).assert(4, &both, &complaint);
}

/// A long report first, so that short ones are done before it.
#[test]
fn many_in_their_order() {
    let folder = folder("many");
    let mut long = EXAMPLE.to_vec();
    (0..200_000).for_each(|_| long.extend_from_slice(&EXAMPLE[11..]));
    let mut names = vec![file(&folder, "long", &long), file(&folder, "longer", &long)];
    names.extend((0..500).map(|i| file(&folder, &format!("short {i}"), EXAMPLE)));
    let arguments: Vec<&str> = ["report"].into_iter().chain(names.iter().map(|n| &n[..])).collect();
    let ended = run(&arguments);
    assert_eq!((ended.status, &ended.stderr[..]), (Some(0), ""));
    let headers = ended.stdout.lines().filter_map(|line| line.strip_prefix("==> "));
    let shown: Vec<&str> = headers.map(|line| line.strip_suffix(" <==").unwrap()).collect();
    assert_eq!(shown, names);
    let alone = run(&["report", &names[0]]).stdout;
    let mut expected = format!("==> {} <==\n{alone}==> {} <==\n{alone}", names[0], names[1]);
    names[2..].iter().for_each(|name| expected += &format!("==> {name} <==\n{EXAMPLE_LINES}"));
    assert!(ended.stdout == expected);
}

#[test]
fn names_from_a_list() {
    let folder = folder("list");
    let one = file(&folder, "one", EXAMPLE);
    let two = file(&folder, "two\nlines", &EXAMPLE[..11]);
    let first = format!("==> {one} <==\n{EXAMPLE_LINES}");
    let list = file(&folder, "names", format!("{one}\n\n{one}").as_bytes());
    run(&["report", "--files-from", &list]).assert(0, &format!("{first}{first}"), "");
    let shown = format!("{two:?}");
    let second = format!("==> {shown} <==\nhandshake 0 11 version 6.0.1 verdict 0\nend 11\n");
    run_on(&["report", "--files-from", "-", "-0"], format!("{one}\0{two}\0").as_bytes()).assert(
        0,
        &format!("{first}{second}"),
        "",
    );
    run_on(&["report", "--files-from", "-"], b"").assert(0, "", "");
}

#[test]
fn a_file_whose_name_is_that_of_standard_input() {
    let folder = folder("dash");
    file(&folder, "-", EXAMPLE);
    let list = file(&folder, "names", b"-\n");
    let mut command = haspeljo(&["report", "--files-from", &list]);
    let ended = Ended::of(command.current_dir(&folder).output().unwrap());
    ended.assert(0, &format!("==> - <==\n{EXAMPLE_LINES}"), "");
}

#[test]
fn a_list_that_cannot_be_read() {
    let folder = folder("broken list");
    let name = folder.to_str().unwrap();
    let complaint = format!("haspeljo: {name}: Is a directory\n");
    run(&["report", "--files-from", name]).assert(4, "", &complaint);
    let missing = folder.join("missing").to_str().unwrap().to_string();
    let complaint = format!("haspeljo: {missing}: No such file or directory\n");
    run(&["report", "--files-from", &missing]).assert(4, "", &complaint);
}

#[test]
fn addresses_with_their_verdicts() {
    let lines = r#"handshake 0 51 version 6.0.1 verdict 0
    address 213.239.193.208:9030 bogus 0 verdict 0 version 6.0.1 agent "ergoref" name "node"
message 51 172 code 2 entries 4 bogus 1
    address 213.239.193.208:9030 bogus 0 verdict 0 version 6.0.1 agent "ergoref" name "public"
    address 10.0.0.1:9030 bogus 1 verdict 0 version 6.0.1 agent "ergoref" name "private"
    address [2001:41d0::1]:9030 bogus 0 verdict 0 version 6.0.1 agent "ergoref" name ""
    address none bogus 0 verdict 1 version 3.0.0 agent "o\"ld \u{7}" name "a name"
message 172 181 code 1
end 181
"#;
    let session = peers_session(Network::Mainnet);
    run_on(&["report", "--addresses"], &session).assert(0, lines, "");
    let plain: String = lines.split_inclusive('\n').filter(|line| !line.starts_with(' ')).collect();
    run_on(&["report"], &session).assert(0, &plain, "");
}

#[test]
fn addresses_of_testnet() {
    let lines = r#"handshake 0 34 version 6.0.1 verdict 0
    address 10.0.0.1:9020 bogus 0 verdict 0 version 6.0.1 agent "ergoref" name "node"
message 34 145 code 2 entries 3 bogus 0
    address 10.0.0.2:9030 bogus 0 verdict 2 version 6.0.1 agent "ergoref" name "mainnet"
    address 10.0.0.3:9020 bogus 0 verdict 0 version 6.0.1 agent "ergoref" name "testnet"
    address 10.0.0.4:9020 bogus 0 verdict 0 version 6.0.1 agent "ergoref" name "none"
end 145
"#;
    let session = session_of_both_networks(Network::Testnet);
    run_on(&["report", "--addresses", "--network", "testnet"], &session).assert(0, lines, "");
}

/// Both ends of 3fff::/20 and their neighbours outside.
#[test]
fn addresses_of_documentation_space() {
    let addresses = [
        ("[3ffe:ffff:ffff:ffff:ffff:ffff:ffff:ffff]:9030", 0),
        ("[3fff::]:9030", 1),
        ("[3fff:fff:ffff:ffff:ffff:ffff:ffff:ffff]:9030", 1),
        ("[3fff:1000::]:9030", 0),
    ];
    for (network, name, there) in
        [(Network::Mainnet, "mainnet", 1), (Network::Testnet, "testnet", 0)]
    {
        let session = session_with(&addresses.map(|(address, _)| address), network);
        let ended = run_on(&["report", "--addresses", "--network", name], &session);
        assert_eq!(ended.status, Some(0));
        let count = format!(" code 2 entries 4 bogus {}\n", 2 * there);
        assert!(ended.stdout.contains(&count), "{}", ended.stdout);
        for (address, inside) in addresses {
            let line = format!("    address {address} bogus {} ", inside * there);
            assert!(ended.stdout.contains(&line), "{line}\n{}", ended.stdout);
        }
    }
}

#[test]
fn the_network_decides() {
    let session = peers_session(Network::Testnet);
    let ended = run_on(&["report", "--network", "testnet"], &session);
    assert_eq!(ended.status, Some(0));
    assert!(ended.stdout.contains(" code 2 entries 4 bogus 0\n"), "{}", ended.stdout);
    let ended = run_on(&["report", "--network", "mainnet"], &session);
    assert_eq!(ended.status, Some(3));
    assert!(ended.stdout.ends_with("\nstop frame 6 51\n"), "{}", ended.stdout);
}

#[test]
fn the_cap_decides() {
    let session = peers_session(Network::Mainnet);
    assert_eq!(run_on(&["report", "--cap", "4"], &session).status, Some(0));
    let ended = run_on(&["report", "--cap", "3"], &session);
    assert_eq!(ended.status, Some(3));
    assert!(ended.stdout.ends_with("\nstop body 10 51\n"), "{}", ended.stdout);
}

/// A frame of 300,013 bytes.
fn long_frame() -> Vec<u8> {
    let mut frame = vec![];
    let body = &vec![7; 300_000];
    Write::SyncInfo { network: Network::Mainnet, body }.append(&mut frame).unwrap();
    frame
}

/// A file is mapped anew after every 16 MiB, so that its 210 MB take little memory.
#[test]
fn a_long_file() {
    let folder = folder("long");
    let frame = long_frame();
    let session = [&EXAMPLE[..11], &frame.repeat(700)].concat();
    let name = file(&folder, "capture", &session);
    let mut expected = format!("==> {name} <==\nhandshake 0 11 version 6.0.1 verdict 0\n");
    for at in (11..session.len()).step_by(frame.len()) {
        expected += &format!("message {at} {} code 65\n", at + frame.len());
    }
    expected += &format!("end {}\n", session.len());
    let mut command = haspeljo(&["report", &name, "-"]);
    let mut child = command.stdin(Stdio::piped()).spawn().unwrap();
    let mut lines = vec![0; expected.len()];
    child.stdout.as_mut().unwrap().read_exact(&mut lines).unwrap();
    assert_eq!(String::from_utf8(lines).unwrap(), expected);
    let most = memory(&format!("/proc/{}/status", child.id()), "VmHWM:");
    assert!(most < 64 << 10, "{most} kB");
    child.stdin.take();
    ended_soon(child).assert(1, "==> - <==\nstop handshake 1 0\n", "");
    fs::remove_dir_all(folder).unwrap();
}

/// It is cut while the lines of its first 16 MiB wait for their reader.
#[test]
fn a_long_file_that_gets_shorter() {
    let folder = folder("long shorter");
    let short = EXAMPLE[11..].repeat(20_000);
    let session = [&EXAMPLE[..11], &short, &long_frame().repeat(100)].concat();
    let name = file(&folder, "capture", &session);
    let mut child = haspeljo(&["report", &name]).spawn().unwrap();
    let mut stdout = BufReader::new(child.stdout.take().unwrap());
    stdout.read_line(&mut String::new()).unwrap();
    File::options().write(true).open(&name).unwrap().set_len(20 << 20).unwrap();
    assert!(!stdout.lines().any(|line| line.unwrap().starts_with("end ")));
    let complaint = format!("haspeljo: {name}: the file became shorter\n");
    ended_soon(child).assert(4, "", &complaint);
}

/// A report that is longer than what is kept in memory goes through a slow pipe whole.
#[test]
fn a_slow_reader_gets_all() {
    let mut long = EXAMPLE.to_vec();
    (0..100_000).for_each(|_| long.extend_from_slice(&EXAMPLE[11..]));
    let folder = folder("slow");
    let name = file(&folder, "capture", &long);
    let child = haspeljo(&["report", &name, &name, &name]).stdout(Stdio::piped()).spawn().unwrap();
    thread::sleep(Duration::from_millis(200));
    let ended = Ended::of(child.wait_with_output().unwrap());
    assert_eq!(ended.status, Some(0));
    assert_eq!(ended.stdout.lines().count(), 3 * (1 + 2 + 100_000 + 1));
}

/// Later reports wait for the first one, whose capture is not there yet. Together they have more lines than is kept.
#[test]
fn reports_that_wait_keep_a_bounded_number_of_lines() {
    let folder = folder("waiting");
    let messages = 4_000_000;
    let name =
        file(&folder, "capture", &[&EXAMPLE[..11], &EXAMPLE[11..].repeat(messages)].concat());
    let mut command = haspeljo(&["report", "-", &name, &name, &name]);
    let mut child = command.env("RAYON_NUM_THREADS", "3").stdin(Stdio::piped()).spawn().unwrap();
    let stdout = child.stdout.take().unwrap();
    let lines = thread::spawn(move || BufReader::new(stdout).lines().count());
    let memory = memory_at_rest(&format!("/proc/{}/status", child.id()));
    assert!((32 << 10..160 << 10).contains(&memory), "{memory} kB");
    child.stdin.take().unwrap().write_all(EXAMPLE).unwrap();
    assert_eq!(lines.join().unwrap(), 4 + 3 * (1 + 1 + messages + 1));
    assert_eq!(child.wait().unwrap().code(), Some(0));
}

/// A process's memory of a kind, in kB.
fn memory(status: &str, kind: &str) -> usize {
    let text = fs::read_to_string(status).unwrap();
    let line = text.lines().find_map(|line| line.strip_prefix(kind)).unwrap();
    line.trim().strip_suffix(" kB").unwrap().parse().unwrap()
}

/// The kB of a process's own memory, once these no longer change.
fn memory_at_rest(status: &str) -> usize {
    let mut before = 0;
    loop {
        thread::sleep(Duration::from_millis(500));
        let now = memory(status, "RssAnon:");
        if now == before && now > 4096 {
            return now;
        }
        before = now;
    }
}

/// What is no file is read: here a pipe with a name.
#[test]
fn a_named_pipe() {
    let program = env!("CARGO_BIN_EXE_haspeljo");
    let script =
        format!("'{program}' report <(printf '\\254\\002\\002ab\\006\\000\\001\\000\\000\\000')");
    let output = Command::new("bash").args(["-c", &script]).output().unwrap();
    Ended::of(output).assert(0, "handshake 0 11 version 6.0.1 verdict 0\nend 11\n", "");
}

/// A name that is not UTF-8 is shown with escapes.
#[test]
fn a_name_of_other_bytes() {
    let name = OsStr::from_bytes(b"no \xff such file");
    let output = haspeljo(&["report"]).arg(name).output().unwrap();
    let line = "haspeljo: \"no \\xFF such file\": No such file or directory\n";
    Ended::of(output).assert(4, "", line);
}
