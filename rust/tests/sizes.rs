//! Each write takes as many bytes as it says, and is appended as it is written.

mod common;

use common::{writes, Held};
use haspeljo::{EntryValue, Error, Feature, HandshakeConfig, Network, Payload, ProxyMode, Version};
use std::net::{IpAddr, Ipv4Addr, Ipv6Addr, SocketAddr};

/// SplitMix64.
struct Random(u64);

impl Random {
    fn next(&mut self) -> u64 {
        self.0 = self.0.wrapping_add(0x9e37_79b9_7f4a_7c15);
        let mut z = self.0;
        z = (z ^ (z >> 30)).wrapping_mul(0xbf58_476d_1ce4_e5b9);
        z = (z ^ (z >> 27)).wrapping_mul(0x94d0_49bb_1331_11eb);
        z ^ (z >> 31)
    }

    fn below(&mut self, n: usize) -> usize {
        (self.next() % n as u64) as usize
    }

    /// A number of any width, 0 among them.
    fn number(&mut self) -> u64 {
        let width = self.below(65) as u32;
        self.next() & u64::MAX.checked_shr(64 - width).unwrap_or(0)
    }

    /// A length near where a VLQ takes one byte more, or a short one.
    fn length(&mut self) -> usize {
        match self.below(8) {
            0 => 126 + self.below(4),
            1 => 16_382 + self.below(4),
            _ => self.below(40),
        }
    }

    fn address(&mut self) -> Option<SocketAddr> {
        let ip: IpAddr = match self.below(3) {
            0 => return None,
            1 => Ipv4Addr::from_bits(self.next() as u32).into(),
            _ => Ipv6Addr::from_bits(self.next().into()).into(),
        };
        Some(SocketAddr::new(ip, self.number() as u16))
    }

    /// Now and then one that is refused: 256 bytes of a string, 256 features.
    fn string<'a>(&mut self, text: &'a str) -> &'a str {
        let length = if self.below(50) == 0 { 253 + self.below(4) } else { self.below(30) };
        &text[..length]
    }

    fn entry(&mut self, text: &str, bytes: &[u8]) -> EntryValue {
        let count = if self.below(50) == 0 { 254 + self.below(3) } else { self.below(5) };
        let feature =
            |random: &mut Random| Feature::new(random.next() as u8, &bytes[..random.length()]);
        EntryValue::new(self.string(text), Version::new(6, 0, 1), self.string(text))
            .with_address(self.address())
            .with_features((0..count).map(|_| feature(self)).collect::<Vec<_>>())
    }

    fn config<'a>(&mut self, text: &'a str) -> HandshakeConfig<'a> {
        let (agent, name, time) = (self.string(text), self.string(text), self.number());
        let session = self.number() as i64 ^ -(self.below(2) as i64);
        let network = self.network();
        let mut config =
            HandshakeConfig::new(agent, name, Version::new(6, 0, 1), network, time, session);
        config.declared_address = self.address();
        config.blocks_to_keep = self.number() as i32 ^ -(self.below(2) as i32);
        config.mode = [ProxyMode::Full, ProxyMode::Light][self.below(2)];
        config
    }

    fn network(&mut self) -> Network {
        [Network::Mainnet, Network::Testnet][self.below(2)]
    }

    fn held<'a>(&mut self, text: &'a str, bytes: &'a [u8], ids: &'a [[u8; 32]]) -> Held<'a> {
        let (entries, id_count) = (1 + self.below(5), [0, 1, 127, 128, 400, 401][self.below(6)]);
        let payload = |random: &mut Random| Payload::new(&ids[0], &bytes[..random.length()]);
        Held {
            number: self.number(),
            string: self.string(text),
            bytes: &bytes[..self.length()],
            network: self.network(),
            cap: 4,
            code: self.next() as u8,
            entries: (0..entries).map(|_| self.entry(text, bytes)).collect(),
            config: self.config(text),
            ids: ids[..id_count].to_vec(),
            payloads: (0..id_count / 8).map(|_| payload(self)).collect(),
        }
    }
}

#[test]
fn a_write_takes_its_size() {
    let (text, bytes, ids) = ("a".repeat(256), vec![7; 16_400], vec![[9; 32]; 401]);
    let mut random = Random(1);
    let mut accepted = [0; 14];
    let mut refused = vec![];
    for _ in 0..2000 {
        let held = random.held(&text, &bytes, &ids);
        for (kind, write) in writes(&held).into_iter().enumerate() {
            let size = write.size();
            let mut out = vec![0x5a; size + 3];
            let mut appended = vec![0x5a; 3];
            match write.write(&mut out, 3) {
                Ok(end) => {
                    assert_eq!(end, out.len(), "{write:?}");
                    if size > 0 {
                        assert_eq!(write.write(&mut out[..end - 1], 3), Err(Error::NoRoom));
                    }
                    assert_eq!(write.append(&mut appended), Ok(()));
                    assert_eq!(appended, out);
                    accepted[kind] += 1;
                }
                Err(error) => {
                    assert_ne!(error, Error::NoRoom, "{write:?}");
                    assert_eq!(write.append(&mut appended), Err(error));
                    assert_eq!(appended, [0x5a; 3]);
                    refused.push(error);
                }
            }
        }
    }
    assert!(accepted.iter().all(|count| *count > 500), "{accepted:?}");
    for error in [Error::ManyItems, Error::LongString, Error::Unwritable] {
        assert!(refused.contains(&error));
    }
}
