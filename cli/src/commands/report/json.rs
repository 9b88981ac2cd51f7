//! The objects of `--json`. Their keys and the order of these are promised: `help.rs` lists them.

use crate::numbers::message_name;
use haspeljo::{Entry, Handshake, Item, Message, Network, Stop, Verdict};
use serde::Serialize;
use std::borrow::Cow;
use std::fmt::Write;

/// What every object of a report has, and how its items are shown.
pub struct Json<'a> {
    /// The capture's name.
    pub file: Cow<'a, str>,
    pub network: Network,
    pub addresses: bool,
}

#[derive(Serialize)]
struct Line<'a> {
    file: &'a str,
    #[serde(flatten)]
    object: Object<'a>,
}

#[derive(Serialize)]
#[serde(tag = "item", rename_all = "lowercase")]
enum Object<'a> {
    Handshake {
        start: usize,
        end: usize,
        timestamp: u64,
        #[serde(flatten)]
        peer: Peer<'a>,
    },
    Message {
        start: usize,
        end: usize,
        code: u8,
        message: &'static str,
        length: usize,
        #[serde(flatten)]
        held: Held<'a>,
    },
    End {
        end: usize,
    },
    Stop {
        start: usize,
        layer: String,
        number: u8,
        text: String,
        cut: bool,
    },
    Unread {
        text: &'a str,
    },
}

/// An entry.
#[derive(Serialize)]
struct Peer<'a> {
    version: String,
    agent: &'a str,
    name: &'a str,
    address: Option<String>,
    bogus: bool,
    verdict: u8,
    verdict_text: String,
    rest_api_url: Option<&'a str>,
    features: Vec<Feature>,
}

#[derive(Serialize)]
struct Feature {
    id: u8,
    body: String,
}

/// What a message holds, by its kind.
#[derive(Default, Serialize)]
struct Held<'a> {
    #[serde(skip_serializing_if = "Option::is_none")]
    modifier_type: Option<u8>,
    #[serde(skip_serializing_if = "Option::is_none")]
    count: Option<usize>,
    #[serde(skip_serializing_if = "Option::is_none")]
    bogus: Option<usize>,
    #[serde(skip_serializing_if = "Option::is_none")]
    entries: Option<Vec<Peer<'a>>>,
}

impl Json<'_> {
    pub fn item(&self, lines: &mut Vec<u8>, item: &Item) {
        let object = match item {
            Item::Handshake { start, end, handshake, verdict, .. } => {
                self.handshake([*start, *end], handshake, *verdict)
            }
            Item::Message { start, end, code, body, message, .. } => Object::Message {
                start: *start,
                end: *end,
                code: *code,
                message: message_name(*code),
                length: body.len(),
                held: self.held(message),
            },
            _ => unreachable!("an item is a handshake or a message"),
        };
        self.line(lines, object);
    }

    pub fn end(&self, lines: &mut Vec<u8>, length: usize) {
        self.line(lines, Object::End { end: length });
    }

    pub fn stop(&self, lines: &mut Vec<u8>, stop: &Stop) {
        let object = Object::Stop {
            start: stop.start,
            layer: stop.layer.to_string(),
            number: stop.error.number(),
            text: stop.error.to_string(),
            cut: stop.is_cut(),
        };
        self.line(lines, object);
    }

    pub fn unread(&self, lines: &mut Vec<u8>, text: &str) {
        self.line(lines, Object::Unread { text });
    }

    fn line(&self, lines: &mut Vec<u8>, object: Object) {
        let line = Line { file: &self.file, object };
        serde_json::to_writer(&mut *lines, &line).expect("keys that are strings");
        lines.push(b'\n');
    }

    fn handshake<'a>(
        &self,
        [start, end]: [usize; 2],
        handshake: &Handshake<'a>,
        verdict: Verdict,
    ) -> Object<'a> {
        let peer = peer(&handshake.entry, self.network, verdict);
        Object::Handshake { start, end, timestamp: handshake.timestamp, peer }
    }

    fn held<'a>(&self, message: &Message<'a>) -> Held<'a> {
        let of = |modifier_type: u8, count: usize| Held {
            modifier_type: Some(modifier_type),
            count: Some(count),
            ..Held::default()
        };
        match message {
            Message::Peers { entries, bogus, .. } => {
                let peers =
                    entries.clone().map(|e| peer(&e, self.network, e.verdict(self.network)));
                Held {
                    count: Some(entries.len()),
                    bogus: Some(*bogus),
                    entries: self.addresses.then(|| peers.collect()),
                    ..Held::default()
                }
            }
            Message::ModifierRequest { modifier_type, ids, .. }
            | Message::Inv { modifier_type, ids, .. } => of(*modifier_type, ids.len()),
            Message::ModifierResponse { modifier_type, payloads, .. } => {
                of(*modifier_type, payloads.len())
            }
            _ => Held::default(),
        }
    }
}

fn peer<'a>(entry: &Entry<'a>, network: Network, verdict: Verdict) -> Peer<'a> {
    Peer {
        version: entry.version().to_string(),
        agent: entry.agent(),
        name: entry.name(),
        address: entry.address().map(|address| address.to_string()),
        bogus: entry.is_bogus(network),
        verdict: verdict.number(),
        verdict_text: verdict.to_string(),
        rest_api_url: entry.rest_api_url(),
        features: entry.features().map(|f| Feature { id: f.id, body: hex(f.body) }).collect(),
    }
}

fn hex(bytes: &[u8]) -> String {
    bytes.iter().fold(String::with_capacity(2 * bytes.len()), |mut text, byte| {
        let _ = write!(text, "{byte:02x}");
        text
    })
}
