//! Debug texts: values, and never the buffer that they were lent from. Bytes are hexadecimal. Of more
//! than 32 bytes, of strings of more than 255, and of lists of more than 8 items, the first are shown, and
//! how many there are.

use crate::{Entries, Entry, Feature, Features, Frame, Item, Message, Payload, Payloads};
use crate::{EntryValue, HandshakeConfig, ModifierId, Network, Write};
use std::fmt::{Debug, Formatter, Result};

const BYTES: usize = 32;
const ITEMS: usize = 8;
/// No string that is read is longer.
const TEXT: usize = 255;

struct Hex<'a>(&'a [u8]);

impl Debug for Hex<'_> {
    fn fmt(&self, f: &mut Formatter<'_>) -> Result {
        f.write_str("0x")?;
        self.0.iter().take(BYTES).try_for_each(|byte| write!(f, "{byte:02x}"))?;
        match self.0.len() {
            0..=BYTES => Ok(()),
            length => write!(f, ".. of {length} bytes"),
        }
    }
}

struct Text<'a>(&'a str);

impl Debug for Text<'_> {
    fn fmt(&self, f: &mut Formatter<'_>) -> Result {
        let Text(text) = self;
        if text.len() <= TEXT {
            return text.fmt(f);
        }
        let end = (0..=TEXT).rev().find(|end| text.is_char_boundary(*end)).unwrap_or(0);
        write!(f, "{:?}.. of {} bytes", &text[..end], text.len())
    }
}

struct List<I>(I);

impl<I: ExactSizeIterator<Item: Debug> + Clone> Debug for List<I> {
    fn fmt(&self, f: &mut Formatter<'_>) -> Result {
        let mut list = f.debug_list();
        list.entries(self.0.clone().take(ITEMS));
        match self.0.len() {
            0..=ITEMS => list.finish(),
            count => list.entry(&format_args!(".. of {count}")).finish(),
        }
    }
}

fn hexes(ids: &[ModifierId]) -> impl Debug + '_ {
    List(ids.iter().map(|id| Hex(id)))
}

/// A name with its fields.
fn named(f: &mut Formatter<'_>, name: &str, fields: &[(&str, &dyn Debug)]) -> Result {
    let mut shown = f.debug_struct(name);
    fields.iter().for_each(|(field, value)| _ = shown.field(field, value));
    shown.finish()
}

impl Debug for Feature<'_> {
    fn fmt(&self, f: &mut Formatter<'_>) -> Result {
        named(f, "Feature", &[("id", &self.id), ("body", &Hex(self.body))])
    }
}

impl Debug for Payload<'_> {
    fn fmt(&self, f: &mut Formatter<'_>) -> Result {
        named(f, "Payload", &[("id", &Hex(self.id)), ("bytes", &Hex(self.bytes))])
    }
}

impl Debug for Frame<'_> {
    fn fmt(&self, f: &mut Formatter<'_>) -> Result {
        let Frame { code, body, end } = self;
        named(f, "Frame", &[("code", code), ("body", &Hex(body)), ("end", end)])
    }
}

/// What it still has to give.
impl Debug for Features<'_> {
    fn fmt(&self, f: &mut Formatter<'_>) -> Result {
        List(self.clone()).fmt(f)
    }
}

/// What it still has to give.
impl Debug for Entries<'_> {
    fn fmt(&self, f: &mut Formatter<'_>) -> Result {
        List(self.clone()).fmt(f)
    }
}

/// What it still has to give.
impl Debug for Payloads<'_> {
    fn fmt(&self, f: &mut Formatter<'_>) -> Result {
        List(self.clone()).fmt(f)
    }
}

impl Debug for Entry<'_> {
    fn fmt(&self, f: &mut Formatter<'_>) -> Result {
        let fields: [(&str, &dyn Debug); 5] = [
            ("agent", &self.agent()),
            ("version", &self.version()),
            ("name", &self.name()),
            ("address", &self.address()),
            ("features", &self.features()),
        ];
        named(f, "Entry", &fields)
    }
}

impl Debug for EntryValue {
    fn fmt(&self, f: &mut Formatter<'_>) -> Result {
        let fields: [(&str, &dyn Debug); 5] = [
            ("agent", &Text(self.agent())),
            ("version", &self.version()),
            ("name", &Text(self.name())),
            ("address", &self.address()),
            ("features", &List(self.features())),
        ];
        named(f, "EntryValue", &fields)
    }
}

impl Debug for HandshakeConfig<'_> {
    fn fmt(&self, f: &mut Formatter<'_>) -> Result {
        let fields: [(&str, &dyn Debug); 11] = [
            ("agent_name", &Text(self.agent_name)),
            ("peer_name", &Text(self.peer_name)),
            ("version", &self.version),
            ("network", &self.network),
            ("mode", &self.mode),
            ("declared_address", &self.declared_address),
            ("state_type_id", &self.state_type_id),
            ("verifying", &self.verifying),
            ("blocks_to_keep", &self.blocks_to_keep),
            ("timestamp", &self.timestamp),
            ("session_id", &self.session_id),
        ];
        named(f, "HandshakeConfig", &fields)
    }
}

impl Debug for Message<'_> {
    fn fmt(&self, f: &mut Formatter<'_>) -> Result {
        let kind = "modifier_type";
        match self {
            Message::GetPeers => f.write_str("GetPeers"),
            Message::Peers { bogus, entries } => {
                named(f, "Peers", &[("bogus", bogus), ("entries", entries)])
            }
            Message::ModifierRequest { modifier_type, ids } => {
                named(f, "ModifierRequest", &[(kind, modifier_type), ("ids", &hexes(ids))])
            }
            Message::ModifierResponse { modifier_type, payloads } => {
                named(f, "ModifierResponse", &[(kind, modifier_type), ("payloads", payloads)])
            }
            Message::Inv { modifier_type, ids } => {
                named(f, "Inv", &[(kind, modifier_type), ("ids", &hexes(ids))])
            }
            Message::SyncInfo(body) => f.debug_tuple("SyncInfo").field(&Hex(body)).finish(),
            Message::Unknown(body) => f.debug_tuple("Unknown").field(&Hex(body)).finish(),
        }
    }
}

impl Debug for Item<'_> {
    fn fmt(&self, f: &mut Formatter<'_>) -> Result {
        match self {
            Item::Handshake { start, end, handshake, verdict } => {
                let fields: [(&str, &dyn Debug); 4] = [
                    ("start", start),
                    ("end", end),
                    ("handshake", handshake),
                    ("verdict", verdict),
                ];
                named(f, "Handshake", &fields)
            }
            Item::Message { start, end, code, body, message } => {
                let body = Hex(body);
                let fields: [(&str, &dyn Debug); 5] = [
                    ("start", start),
                    ("end", end),
                    ("code", code),
                    ("body", &body),
                    ("message", message),
                ];
                named(f, "Message", &fields)
            }
        }
    }
}

impl Debug for Write<'_> {
    fn fmt(&self, f: &mut Formatter<'_>) -> Result {
        let net = "network";
        match self {
            Write::Vlq(value) => f.debug_tuple("Vlq").field(value).finish(),
            Write::ShortString(string) => {
                f.debug_tuple("ShortString").field(&Text(string)).finish()
            }
            Write::Part(bytes) => f.debug_tuple("Part").field(&Hex(bytes)).finish(),
            Write::Entry(entry) => f.debug_tuple("Entry").field(entry).finish(),
            Write::Handshake { timestamp, entry } => {
                named(f, "Handshake", &[("timestamp", timestamp), ("entry", entry)])
            }
            Write::Built(config) => f.debug_tuple("Built").field(config).finish(),
            Write::Frame { network, code, body } => {
                named(f, "Frame", &[(net, network), ("code", code), ("body", &Hex(body))])
            }
            Write::GetPeers { network } => named(f, "GetPeers", &[(net, network)]),
            Write::Peers { network, cap, entries } => {
                let entries = List(entries.iter());
                named(f, "Peers", &[(net, network), ("cap", cap), ("entries", &entries)])
            }
            Write::ModifierRequest { network, modifier_type, ids } => {
                listed(f, "ModifierRequest", network, modifier_type, ("ids", &hexes(ids)))
            }
            Write::ModifierResponse { network, modifier_type, payloads } => {
                let payloads = ("payloads", &List(payloads.iter()) as _);
                listed(f, "ModifierResponse", network, modifier_type, payloads)
            }
            Write::Inv { network, modifier_type, ids } => {
                listed(f, "Inv", network, modifier_type, ("ids", &hexes(ids)))
            }
            Write::SyncInfo { network, body } => {
                named(f, "SyncInfo", &[(net, network), ("body", &Hex(body))])
            }
            Write::Unknown { network, code, body } => {
                named(f, "Unknown", &[(net, network), ("code", code), ("body", &Hex(body))])
            }
        }
    }
}

fn listed(
    f: &mut Formatter<'_>,
    name: &str,
    network: &Network,
    modifier_type: &u8,
    list: (&str, &dyn Debug),
) -> Result {
    named(f, name, &[("network", network), ("modifier_type", modifier_type), list])
}
