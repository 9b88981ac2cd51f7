//! A write of every kind.

use haspeljo::{EntryValue, HandshakeConfig, ModifierId, Network, Payload, Write};

/// What the writes are made from.
pub struct Held<'a> {
    pub number: u64,
    pub string: &'a str,
    pub bytes: &'a [u8],
    pub network: Network,
    pub cap: usize,
    pub code: u8,
    pub entries: Vec<EntryValue>,
    pub config: HandshakeConfig<'a>,
    pub ids: Vec<ModifierId>,
    pub payloads: Vec<Payload<'a>>,
}

/// The first entry is written alone too.
pub fn writes<'a>(held: &'a Held<'a>) -> [Write<'a>; 14] {
    let Held { number, string, bytes, network, cap, code, entries, config, ids, payloads } = held;
    let (body, network, cap, code) = (*bytes, *network, *cap, *code);
    let (timestamp, modifier_type, entry) = (*number, code, &entries[0]);
    [
        Write::Vlq(*number),
        Write::ShortString(string),
        Write::Part(bytes),
        Write::Entry(entry),
        Write::Handshake { timestamp, entry },
        Write::Built(config),
        Write::Frame { network, code, body },
        Write::GetPeers { network },
        Write::Peers { network, cap, entries },
        Write::ModifierRequest { network, modifier_type, ids },
        Write::ModifierResponse { network, modifier_type, payloads },
        Write::Inv { network, modifier_type, ids },
        Write::SyncInfo { network, body },
        Write::Unknown { network, code, body },
    ]
}
