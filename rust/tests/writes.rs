//! Each `Write` is the call of its writer with the same values, and nothing else.

use haspeljo::vlq::{write_part, write_short_string, write_vlq};
use haspeljo::*;

const VERSION: Version = Version::new(6, 0, 1);

/// Calls a writer from a place of an output on.
type Call<'a> = &'a dyn Fn(&mut [u8], usize) -> Result<usize, Error>;

/// Whether both write the same bytes, some or more.
fn assert_same(write: Write, call: Call) {
    let mut outs = [[0x5a; 600]; 2];
    let end = write.write(&mut outs[0], 5);
    assert!(end.is_ok_and(|end| end > 5), "{write:?}");
    assert_eq!(call(&mut outs[1], 5), end, "{write:?}");
    assert_eq!(outs[0], outs[1], "{write:?}");
}

#[test]
fn fields() {
    for number in [0, 127, 300, u64::MAX] {
        assert_same(Write::Vlq(number), &|out, at| write_vlq(out, at, number));
    }
    for text in ["", "ab", "é"] {
        assert_same(Write::ShortString(text), &|out, at| write_short_string(out, at, text));
    }
    for bytes in [&b"ab"[..], b"abc"] {
        assert_same(Write::Part(bytes), &|out, at| write_part(out, at, bytes));
    }
}

#[test]
fn handshakes() {
    let value = EntryValue::new("ab", VERSION, "cde").with_features([Feature::new(9, &[1])]);
    let entry = &value;
    assert_same(Write::Entry(entry), &|out, at| write_entry(out, at, entry));
    for timestamp in [0, 300, u64::MAX] {
        let write = Write::Handshake { timestamp, entry };
        assert_same(write, &|out, at| write_handshake(out, at, timestamp, entry));
    }
    for network in [Network::Mainnet, Network::Testnet] {
        let config = HandshakeConfig::new("ab", "cde", VERSION, network, 300, -2);
        assert_same(Write::Built(&config), &|out, at| build(out, at, &config));
    }
}

#[test]
fn bodies_as_they_are() {
    for network in [Network::Mainnet, Network::Testnet] {
        assert_same(Write::GetPeers { network }, &|out, at| write_get_peers(out, at, network));
        for (code, body) in [(90, &b"ab"[..]), (91, b"abc"), (92, b"")] {
            let write = Write::SyncInfo { network, body };
            assert_same(write, &|out, at| write_sync_info(out, at, network, body));
            let write = Write::Unknown { network, code, body };
            assert_same(write, &|out, at| write_unknown(out, at, network, code, body));
            // A frame has any code, known ones too.
            let code = code - 35;
            let write = Write::Frame { network, code, body };
            assert_same(write, &|out, at| encode(out, at, network, code, body));
        }
    }
}

#[test]
fn lists() {
    let entries = ["ab", "cde"].map(|agent| EntryValue::new(agent, VERSION, ""));
    let (entries, ids) = (&entries[..], &[[1; 32], [2; 32]][..]);
    let payloads = &[Payload::new(&ids[0], b"ab"), Payload::new(&ids[1], b"")][..];
    for network in [Network::Mainnet, Network::Testnet] {
        for cap in [2, 64] {
            let write = Write::Peers { network, cap, entries };
            assert_same(write, &|out, at| write_peers(out, at, network, cap, entries));
        }
        let write = Write::Peers { network, cap: 1, entries };
        assert_eq!(write.write(&mut [0; 600], 0), Err(Error::ManyItems));
        for modifier_type in [2, 101] {
            let write = Write::ModifierRequest { network, modifier_type, ids };
            let call: Call =
                &|out, at| write_modifier_request(out, at, network, modifier_type, ids);
            assert_same(write, call);
            let write = Write::Inv { network, modifier_type, ids };
            assert_same(write, &|out, at| write_inv(out, at, network, modifier_type, ids));
            let write = Write::ModifierResponse { network, modifier_type, payloads };
            let call: Call =
                &|out, at| write_modifier_response(out, at, network, modifier_type, payloads);
            assert_same(write, call);
        }
    }
}
