//! Measurements, for a machine that does nothing else:
//!
//!     cargo test --release --offline --test measure -- --ignored --nocapture --test-threads 1

mod common;

use common::*;
use haspeljo::{EntryValue, Feature, Network, Payload, Session, Version, Write};
use std::fs::{self, File};
use std::io::{self, BufWriter};
use std::path::Path;
use std::process::{Command, Stdio};
use std::thread::sleep;
use std::time::{Duration, Instant};

const MIB: usize = 1 << 20;
const NETWORK: Network = Network::Mainnet;

/// The report of a session of 64 MiB may take so much of the time of the walk alone.
const BOUND: f64 = 1.1;

const ROUNDS: usize = 40;

/// Memory stays below this, however long or many the captures are: mapped pages, and the program's own.
const MEMORY: [usize; 2] = [64 * MIB, 16 * MIB];

/// The handshake, and the messages that follow again and again: Inv of 400 ids, Peers of 64 entries, a payload of
/// 20,000 bytes, a SyncInfo.
fn kinds() -> [Vec<u8>; 5] {
    let session =
        Feature::new(3, &[1, 0, 2, 4, 0xe9, 0xa2, 0xd3, 0x91, 0xc5, 0xb8, 0xa0, 0xf1, 0x1c]);
    let url = Feature::new(4, b"\x1fhttp://203.0.113.57:9053/api/v1");
    let features = [Feature::new(16, &[0, 1, 0, 1]), session, url];
    let entry = |number: u8| {
        EntryValue::new("ergoref", Version::new(6, 0, 1), "ergo-mainnet-6.0.1")
            .with_address(std::net::SocketAddr::from(([213, 239, 193, number], 9030)))
            .with_features(&features[..])
    };
    let ids: Vec<[u8; 32]> =
        (0..400).map(|n| std::array::from_fn(|i| (31 * n + 7 * i) as u8)).collect();
    let entries: Vec<EntryValue> = (0..64).map(entry).collect();
    let payloads = [Payload::new(&ids[0], &[5; 20_000])];
    let writes = [
        Write::Handshake { timestamp: 1_763_200_000_000, entry: &entries[1] },
        Write::Inv { network: NETWORK, modifier_type: 101, ids: &ids },
        Write::Peers { network: NETWORK, cap: 64, entries: &entries },
        Write::ModifierResponse { network: NETWORK, modifier_type: 101, payloads: &payloads },
        Write::SyncInfo { network: NETWORK, body: &[5; 500] },
    ];
    writes.map(|write| {
        let mut bytes = vec![];
        write.append(&mut bytes).expect("a write");
        bytes
    })
}

/// Writes a session of at least so many bytes.
fn write_session(kinds: &[Vec<u8>; 5], length: usize, out: &mut impl io::Write) {
    out.write_all(&kinds[0]).unwrap();
    let mut written = kinds[0].len();
    for kind in kinds[1..].iter().cycle() {
        if written >= length {
            break;
        }
        out.write_all(kind).unwrap();
        written += kind.len();
    }
}

/// In processor time, so that other programs count little.
#[test]
#[ignore = "a measurement"]
fn the_report_beside_the_walk_alone() {
    let folder = folder("speed");
    let mut session = vec![];
    write_session(&kinds(), 64 * MIB, &mut session);
    let name = file(&folder, "capture", &session);
    let before = [OWN, RUNS].map(processor);
    for _ in 0..ROUNDS {
        let items = Session::new(&session, NETWORK, 64);
        assert!(items.inspect(|item| assert!(item.is_ok())).count() > 1);
        let out = File::create(folder.join("report")).unwrap();
        assert!(haspeljo(&["report", &name]).stdout(out).status().unwrap().success());
    }
    let [walk, report] = [OWN, RUNS].map(processor);
    let [walk, report] = [walk - before[0], report - before[1]].map(|s| 1e3 * s / ROUNDS as f64);
    fs::remove_dir_all(folder).unwrap();
    println!("walk {walk:.1} ms, report {report:.1} ms, {:.3} of it", report / walk);
    assert!(report <= BOUND * walk);
}

/// What a run took: seconds, processor seconds, and the most memory, mapped pages with it and without.
struct Taken {
    seconds: f64,
    processor: f64,
    memory: [usize; 2],
}

fn taken(command: &mut Command) -> Taken {
    let (start, before) = (Instant::now(), processor(RUNS));
    let mut child = command.stderr(Stdio::inherit()).spawn().unwrap();
    let status = format!("/proc/{}/status", child.id());
    let mut memory = [0; 2];
    while child.try_wait().unwrap().is_none() {
        let text = fs::read_to_string(&status).unwrap_or_default();
        for (most, key) in memory.iter_mut().zip(["VmHWM:", "RssAnon:"]) {
            *most = kilobytes(&text, key).map_or(*most, |kb| (kb << 10).max(*most));
        }
        sleep(Duration::from_millis(5));
    }
    let seconds = start.elapsed().as_secs_f64();
    assert!(child.wait().unwrap().success());
    Taken { seconds, processor: processor(RUNS) - before, memory }
}

fn kilobytes(status: &str, key: &str) -> Option<usize> {
    let line = status.lines().find_map(|line| line.strip_prefix(key))?;
    line.trim().strip_suffix(" kB")?.parse().ok()
}

/// Where /proc/self/stat has processor times, in hundredths of a second: this process's own, and those of runs that
/// have ended.
const OWN: usize = 11;
const RUNS: usize = 13;

/// The processor seconds at such a place, in the program and in the system together.
fn processor(place: usize) -> f64 {
    let stat = fs::read_to_string("/proc/self/stat").unwrap();
    let fields: Vec<&str> = stat.rsplit(')').next().unwrap().split_whitespace().collect();
    let ticks = fields[place..place + 2].iter().map(|field| field.parse::<u64>().unwrap());
    ticks.sum::<u64>() as f64 / 100.0
}

fn assert_flat(taken: &Taken) {
    let [all, own] = taken.memory.map(|bytes| bytes / MIB);
    print!("{:.2} s, {:.2} of the processor, ", taken.seconds, taken.processor);
    println!("at most {all} MiB of memory, {own} of them not mapped");
    for (memory, bound) in taken.memory.iter().zip(MEMORY) {
        assert!(*memory <= bound, "{memory} bytes, above {bound}");
    }
}

/// On so many cores, 0 being all of them.
fn report_to(out: &Path, cores: &str, arguments: &[&str]) -> Taken {
    let mut command = haspeljo(arguments);
    taken(command.env("RAYON_NUM_THREADS", cores).stdout(File::create(out).unwrap()))
}

#[test]
#[ignore = "a measurement, with 4 GiB on the disk"]
fn one_capture_of_4_gib() {
    let folder = folder("4 GiB");
    let name = folder.join("capture");
    let mut out = BufWriter::new(File::create(&name).unwrap());
    write_session(&kinds(), 4096 * MIB, &mut out);
    out.into_inner().unwrap();
    let taken = report_to(&folder.join("report"), "0", &["report", name.to_str().unwrap()]);
    fs::remove_dir_all(folder).unwrap();
    assert_flat(&taken);
}

/// Of 0 to 64 KiB each, on one core and on all.
#[test]
#[ignore = "a measurement, with 10,000 files on the disk"]
fn ten_thousand_captures() {
    let (folder, kinds) = (folder("10,000 files"), kinds());
    let mut names = String::new();
    for number in 0..10_000usize {
        let mut session = vec![];
        write_session(&kinds, number * 7919 % (64 << 10), &mut session);
        names += &file(&folder, &number.to_string(), &session);
        names.push('\n');
    }
    let list = file(&folder, "names", names.as_bytes());
    for cores in ["1", "0"] {
        let taken = report_to(&folder.join("report"), cores, &["report", "--files-from", &list]);
        let headers = fs::read_to_string(folder.join("report")).unwrap();
        assert_eq!(headers.lines().filter(|line| line.starts_with("==> ")).count(), 10_000);
        assert_flat(&taken);
    }
    fs::remove_dir_all(folder).unwrap();
}
