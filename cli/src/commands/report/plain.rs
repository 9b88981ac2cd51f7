//! The lines of a report, as the program `session` prints them, and those of `--addresses`.

use crate::names::shown;
use haspeljo::{Entry, Item, Message, Network, Stop};
use std::ffi::OsStr;
use std::io::Write;

/// The line above a report, where names are shown.
pub fn name(lines: &mut Vec<u8>, name: &OsStr) {
    line(lines, format_args!("==> {} <==", shown(name)));
}

/// The line of an item; below it, where a network is given, one for each entry.
pub fn item(lines: &mut Vec<u8>, item: &Item, addresses: Option<Network>) {
    match item {
        Item::Handshake { start, end, handshake, verdict, .. } => {
            let (version, verdict) = (handshake.entry.version(), verdict.number());
            line(
                lines,
                format_args!("handshake {start} {end} version {version} verdict {verdict}"),
            );
            addresses.iter().for_each(|network| entry(lines, &handshake.entry, *network));
        }
        Item::Message { start, end, code, message, .. } => {
            message_line(lines, [*start, *end, (*code).into()], message);
            let (Message::Peers { entries, .. }, Some(network)) = (message, addresses) else {
                return;
            };
            entries.clone().for_each(|peer| entry(lines, &peer, network));
        }
        _ => unreachable!("an item is a handshake or a message"),
    }
}

pub fn end(lines: &mut Vec<u8>, length: usize) {
    line(lines, format_args!("end {length}"));
}

pub fn stop(lines: &mut Vec<u8>, stop: &Stop) {
    line(lines, format_args!("stop {} {} {}", stop.layer, stop.error.number(), stop.start));
}

/// A session may have millions of short messages, whose lines would take longer than the walk if they were formatted as
/// others are.
fn message_line(lines: &mut Vec<u8>, [start, end, code]: [usize; 3], message: &Message) {
    put(lines, "message ", start);
    put(lines, " ", end);
    put(lines, " code ", code);
    if let Message::Peers { entries, bogus, .. } = message {
        put(lines, " entries ", entries.len());
        put(lines, " bogus ", *bogus);
    }
    lines.push(b'\n');
}

fn put(lines: &mut Vec<u8>, word: &str, number: usize) {
    lines.extend_from_slice(word.as_bytes());
    lines.extend_from_slice(itoa::Buffer::new().format(number).as_bytes());
}

/// Strings come last and are escaped, since a peer may have put anything into them.
fn entry(lines: &mut Vec<u8>, entry: &Entry, network: Network) {
    let (bogus, verdict) = (entry.is_bogus(network) as u8, entry.verdict(network).number());
    let (address, version) = (address(entry), entry.version());
    let (agent, name) = (entry.agent(), entry.name());
    let shown = format_args!(
        "    address {address} bogus {bogus} verdict {verdict} version {version} agent {agent:?} name {name:?}"
    );
    line(lines, shown);
}

fn address(entry: &Entry) -> String {
    entry.address().map_or("none".into(), |address| address.to_string())
}

fn line(lines: &mut Vec<u8>, text: std::fmt::Arguments) {
    writeln!(lines, "{text}").expect("a Vec that grows");
}
