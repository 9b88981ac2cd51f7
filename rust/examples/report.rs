//! Prints the report of a session in a file, or on standard input: mainnet, cap 64. Below each item
//! stands, indented, what it holds.

use haspeljo::{Entry, Handshake, Item, Message, ModifierId, Network, Session, Stop};
use std::env;
use std::fs;
use std::io::{self, Read, Write};

const NETWORK: Network = Network::Mainnet;
const CAP: usize = 64;

fn main() -> io::Result<()> {
    let bytes = input()?;
    report(&bytes, &mut io::stdout().lock())
}

fn input() -> io::Result<Vec<u8>> {
    if let Some(path) = env::args_os().nth(1) {
        return fs::read(path);
    }
    let mut bytes = vec![];
    io::stdin().read_to_end(&mut bytes)?;
    Ok(bytes)
}

fn report(bytes: &[u8], out: &mut impl Write) -> io::Result<()> {
    for item in Session::new(bytes, NETWORK, CAP) {
        match item {
            Ok(item) => print_item(out, item)?,
            Err(stop) => return print_stop(out, stop),
        }
    }
    writeln!(out, "end {}", bytes.len())
}

fn print_stop(out: &mut impl Write, stop: Stop) -> io::Result<()> {
    writeln!(out, "stop {} {} {}", stop.layer, stop.error.number(), stop.start)?;
    let cut = if stop.is_cut() { "cut: " } else { "" };
    writeln!(out, "    {cut}{}", stop.error)
}

fn print_item(out: &mut impl Write, item: Item) -> io::Result<()> {
    match item {
        Item::Handshake { start, end, handshake, verdict, .. } => {
            let (version, verdict) = (handshake.entry.version(), verdict.number());
            writeln!(out, "handshake {start} {end} version {version} verdict {verdict}")?;
            print_handshake(out, handshake)
        }
        Item::Message { start, end, code, message, .. } => {
            write!(out, "message {start} {end} code {code}")?;
            if let Message::Peers { bogus, entries, .. } = &message {
                write!(out, " entries {} bogus {bogus}", entries.len())?;
            }
            writeln!(out)?;
            print_message(out, message)
        }
        _ => Ok(()),
    }
}

fn print_handshake(out: &mut impl Write, handshake: Handshake) -> io::Result<()> {
    writeln!(out, "    timestamp {}", handshake.timestamp)?;
    print_entry(out, "    ", handshake.entry)
}

/// Strings are escaped, since a peer may have put anything into them.
fn print_entry(out: &mut impl Write, indent: &str, entry: Entry) -> io::Result<()> {
    writeln!(out, "{indent}agent {:?}", entry.agent())?;
    writeln!(out, "{indent}name {:?}", entry.name())?;
    match entry.address() {
        Some(address) => writeln!(out, "{indent}address {address}{}", mark(entry))?,
        None => writeln!(out, "{indent}address none")?,
    }
    for feature in entry.features() {
        writeln!(out, "{indent}feature {} {}", feature.id, hex(feature.body))?;
    }
    if let Some(url) = entry.rest_api_url() {
        writeln!(out, "{indent}REST API URL {url:?}")?;
    }
    Ok(())
}

fn mark(entry: Entry) -> &'static str {
    if entry.is_bogus(NETWORK) {
        " bogus"
    } else {
        ""
    }
}

fn print_message(out: &mut impl Write, message: Message) -> io::Result<()> {
    match message {
        Message::Peers { entries, .. } => entries.enumerate().try_for_each(|(i, entry)| {
            let verdict = entry.verdict(NETWORK).number();
            writeln!(out, "    entry {i} version {} verdict {verdict}", entry.version())?;
            print_entry(out, "        ", entry)
        }),
        Message::ModifierRequest { modifier_type, ids, .. }
        | Message::Inv { modifier_type, ids, .. } => print_ids(out, modifier_type, ids),
        Message::ModifierResponse { modifier_type, mut payloads, .. } => {
            writeln!(out, "    type {modifier_type}")?;
            payloads.try_for_each(|payload| {
                writeln!(out, "    payload {} of {} bytes", hex(payload.id), payload.bytes.len())
            })
        }
        Message::SyncInfo(body) | Message::Unknown(body) => {
            writeln!(out, "    {} bytes", body.len())
        }
        _ => Ok(()),
    }
}

fn print_ids(out: &mut impl Write, modifier_type: u8, ids: &[ModifierId]) -> io::Result<()> {
    writeln!(out, "    type {modifier_type}")?;
    ids.iter().try_for_each(|id| writeln!(out, "    id {}", hex(id)))
}

fn hex(bytes: &[u8]) -> String {
    bytes.iter().map(|byte| format!("{byte:02x}")).collect()
}
