//! The program run, and sessions for it.
#![allow(dead_code)]

use haspeljo::{EntryValue, Feature, Network, Version, Write};
use std::fs;
use std::io::Write as _;
use std::net::SocketAddr;
use std::path::{Path, PathBuf};
use std::process::{Child, Command, Output, Stdio};
use std::thread::sleep;
use std::time::{Duration, Instant};

/// Document 01's twenty bytes: a handshake and a GetPeers.
pub const EXAMPLE: &[u8] =
    b"\xac\x02\x02ab\x06\x00\x01\x00\x00\x00\x01\x00\x02\x04\x01\x00\x00\x00\x00";

pub const EXAMPLE_LINES: &str =
    "handshake 0 11 version 6.0.1 verdict 0\nmessage 11 20 code 1\nend 20\n";

pub fn haspeljo(arguments: &[&str]) -> Command {
    let mut command = Command::new(env!("CARGO_BIN_EXE_haspeljo"));
    command.args(arguments).stdin(Stdio::null()).stdout(Stdio::piped()).stderr(Stdio::piped());
    command
}

/// A run that has ended.
#[derive(Debug, PartialEq, Eq)]
pub struct Ended {
    pub status: Option<i32>,
    pub stdout: String,
    pub stderr: String,
}

impl Ended {
    pub fn of(output: Output) -> Ended {
        let text = |bytes| String::from_utf8(bytes).expect("UTF-8");
        Ended {
            status: output.status.code(),
            stdout: text(output.stdout),
            stderr: text(output.stderr),
        }
    }

    /// That a run ended with a status and these lines, and said nothing else.
    #[track_caller]
    pub fn assert(&self, status: i32, stdout: &str, stderr: &str) {
        let expected = (Some(status), stdout, stderr);
        assert_eq!((self.status, &self.stdout[..], &self.stderr[..]), expected);
    }
}

pub fn run(arguments: &[&str]) -> Ended {
    Ended::of(haspeljo(arguments).output().expect("a run"))
}

/// A run with bytes on standard input, a pipe.
pub fn run_on(arguments: &[&str], bytes: &[u8]) -> Ended {
    let mut child = haspeljo(arguments).stdin(Stdio::piped()).spawn().expect("a run");
    feed(&mut child, bytes);
    Ended::of(child.wait_with_output().expect("an end"))
}

/// How a run ends that must do so by itself, whatever it could still wait for.
#[track_caller]
pub fn ended_soon(mut child: Child) -> Ended {
    let begun = Instant::now();
    while child.try_wait().expect("a status").is_none() {
        if begun.elapsed() > Duration::from_secs(10) {
            child.kill().expect("an end");
            panic!("it goes on");
        }
        sleep(Duration::from_millis(5));
    }
    Ended::of(child.wait_with_output().expect("an end"))
}

/// Writes to a run's standard input, and ends it. Of a short input a run that has ended leaves some.
fn feed(child: &mut Child, bytes: &[u8]) {
    let mut stdin = child.stdin.take().expect("a pipe");
    let bytes = bytes.to_vec();
    std::thread::spawn(move || stdin.write_all(&bytes));
}

/// A folder of a test's own, empty.
pub fn folder(name: &str) -> PathBuf {
    let folder = PathBuf::from(env!("CARGO_TARGET_TMPDIR")).join(name);
    let _ = fs::remove_dir_all(&folder);
    fs::create_dir_all(&folder).expect("a folder");
    folder
}

/// A file in a folder, and its path as an argument.
pub fn file(folder: &Path, name: &str, bytes: &[u8]) -> String {
    let path = folder.join(name);
    fs::write(&path, bytes).expect("a file");
    path.into_os_string().into_string().expect("UTF-8")
}

fn entry(name: &str, address: &str) -> EntryValue {
    let address: SocketAddr = address.parse().expect("an address");
    EntryValue::new("ergoref", Version::new(6, 0, 1), name).with_address(address)
}

fn session(writes: &[Write]) -> Vec<u8> {
    let mut session = vec![];
    writes.iter().for_each(|write| write.append(&mut session).expect("a write"));
    session
}

/// A handshake and Peers of three entries, in frames of a network. The handshake and the second entry have a Session
/// feature of testnet, the first one of mainnet, the third none; all addresses are private.
pub fn session_of_both_networks(network: Network) -> Vec<u8> {
    let [mainnet, testnet] = [[1, 0, 2, 4, 2, 2], [2, 3, 2, 3, 2, 2]];
    let [mainnet, testnet] = [&mainnet, &testnet].map(|body| [Feature::new(3, body)]);
    let handshake = entry("node", "10.0.0.1:9020").with_features(&testnet[..]);
    let peers = [
        entry("mainnet", "10.0.0.2:9030").with_features(&mainnet[..]),
        entry("testnet", "10.0.0.3:9020").with_features(&testnet[..]),
        entry("none", "10.0.0.4:9020"),
    ];
    session(&[
        Write::Handshake { timestamp: 0, entry: &handshake },
        Write::Peers { network, cap: 64, entries: &peers },
    ])
}

/// A handshake, Peers of four entries, GetPeers.
pub fn peers_session(network: Network) -> Vec<u8> {
    let features = [Feature::new(16, &[0, 1, 0, 1]), Feature::new(4, b"\x0bhttp://host")];
    let handshake = entry("node", "213.239.193.208:9030").with_features(&features[..]);
    let peers = [
        entry("public", "213.239.193.208:9030"),
        entry("private", "10.0.0.1:9030"),
        entry("", "[2001:41d0::1]:9030"),
        EntryValue::new("o\"ld \u{7}", Version::new(3, 0, 0), "a name"),
    ];
    session(&[
        Write::Handshake { timestamp: 1_700_000_000_000, entry: &handshake },
        Write::Peers { network, cap: 64, entries: &peers },
        Write::GetPeers { network },
    ])
}

/// A handshake, and Peers with these addresses.
pub fn session_with(addresses: &[&str], network: Network) -> Vec<u8> {
    let handshake = EntryValue::new("ergoref", Version::new(6, 0, 1), "node");
    let peers: Vec<EntryValue> = addresses.iter().map(|address| entry("", address)).collect();
    session(&[
        Write::Handshake { timestamp: 0, entry: &handshake },
        Write::Peers { network, cap: 64, entries: &peers },
    ])
}
