//! Rows through the Rust crate: our side has values, as the Rust's has, and the crate lays them into tables.

use crate::rows::Row;
use crate::values::{self, Writing, ENTRIES, HEADERS, TIMESTAMP};
use crate::{readings, writings};
use haspeljo::{write_handshake, write_inv, write_modifier_response, write_peers};
use haspeljo::{EntryValue, Error, Feature, Item, Message, Network, Payload, Session, Version};
use p2p::transport::handshake::PeerSpec;
use std::array;
use std::hint::black_box;

pub fn rows() -> Vec<Row> {
    let session = values::session(64 << 20).bytes;
    let rows = [
        readings::session("through the crate: session of 64 MiB", session, 1, items),
        writings::handshake("through the crate: write of a handshake", 20_000, handshake()),
        writings::handshake("through the crate: a handshake made and written", 20_000, made()),
        writings::message("through the crate: write of Peers of 64 entries", 400, peers()),
        writings::message("through the crate: write of Inv of 400 ids", 200, inv()),
        writings::message("through the crate: write of Response of 8 MB", 1, response()),
    ];
    rows.into_iter().map(|row| row.named("the crate")).collect()
}

/// How many items a session has, of which every entry, id and payload is looked at.
fn items(s: &[u8]) -> u64 {
    let mut count = 0;
    for item in Session::new(s, Network::Mainnet, ENTRIES) {
        match item.expect("an item") {
            Item::Message { message, .. } => look(message),
            item => _ = black_box(item),
        }
        count += 1;
    }
    count
}

fn look(message: Message) {
    match message {
        Message::Peers { entries, .. } => entries.for_each(|entry| _ = black_box(entry)),
        Message::Inv { ids, .. } => ids.iter().for_each(|id| _ = black_box(id[0])),
        Message::ModifierResponse { payloads, .. } => {
            payloads.for_each(|payload| _ = black_box(payload));
        }
        message => _ = black_box(message),
    }
}

/// The Rust's writing beside ours.
fn beside(
    rust: Writing,
    ours: impl Fn(&mut [u8], usize) -> Result<usize, Error> + 'static,
) -> Writing {
    Writing { ours: Box::new(move |out, at| ours(out, at).expect("refused")), ..rust }
}

fn handshake() -> Writing {
    let entry = entry(&values::peer(1));
    beside(values::handshake(), move |out, at| write_handshake(out, at, TIMESTAMP, &entry))
}

/// Each side makes its value from the same parts first.
fn made() -> Writing {
    let [spec, parts] = [values::peer(1), values::peer(1)];
    Writing {
        ours: Box::new(move |out, at| {
            write_handshake(out, at, TIMESTAMP, &entry(black_box(&parts))).expect("refused")
        }),
        rust: Box::new(move || values::handshake_of(&black_box(&spec).clone())),
    }
}

fn peers() -> Writing {
    let entries: Vec<EntryValue> = values::peer_list().iter().map(entry).collect();
    beside(values::peers(), move |out, at| {
        write_peers(out, at, Network::Mainnet, ENTRIES, &entries)
    })
}

fn inv() -> Writing {
    let ids = values::ids();
    beside(values::inv(), move |out, at| write_inv(out, at, Network::Mainnet, HEADERS, &ids))
}

fn response() -> Writing {
    let modifiers = values::modifiers(400).leak();
    let payloads: Vec<Payload> =
        modifiers.iter().map(|(id, bytes)| Payload::new(id, bytes)).collect();
    beside(values::response(400), move |out, at| {
        write_modifier_response(out, at, Network::Mainnet, HEADERS, &payloads)
    })
}

/// The value of a peer.
fn entry(spec: &PeerSpec) -> EntryValue {
    let version = Version::new(spec.version.major, spec.version.minor, spec.version.patch);
    let features: [Feature; 3] =
        array::from_fn(|i| Feature::new(spec.features[i].id, &spec.features[i].body));
    EntryValue::new(&spec.agent, version, &spec.name)
        .with_address(spec.address)
        .with_features(features)
}
