//! The Rust's `build`. It takes the time from the clock and a session id at random, so a case holds
//! the bytes that it has built, and the two numbers read out of them: both sides are then given the
//! same. A case with other numbers holds no bytes, and what the Rust would write is put together.

use super::tables::refused_text;
use super::writers::Output;
use super::{network, refused, write};
use crate::answer::Expected;
use crate::case::{joined, strings, Case};
use p2p::transport::handshake::{self, Feature, HandshakeConfig, ModeConfig, PeerSpec};
use p2p::transport::vlq::{read_vlq, write_vlq, zigzag_decode_i64, zigzag_encode_i64};
use p2p::types::{ProxyMode, Version};
use std::net::{IpAddr, Ipv4Addr, Ipv6Addr, SocketAddr};

/// What `build` is given. Its numbers are those of a case from the third on, in this order.
#[derive(Clone)]
pub struct Config {
    pub mainnet: u8,
    pub light: u8,
    pub state_type: u8,
    pub verifying: u8,
    pub blocks_to_keep: i32,
    pub version: [u8; 3],
    /// 0 for none, 4 or 6; the address as a number, of IPv6 the high and the low half; the port.
    pub address: [u64; 4],
    pub timestamp: u64,
    pub session_id: i64,
    pub agent: Vec<u8>,
    pub name: Vec<u8>,
}

impl Config {
    pub fn of(case: &Case) -> Config {
        let w = &case.words;
        let ([agent, name], _) = strings(&case.bytes);
        Config {
            mainnet: w[2] as u8,
            light: w[3] as u8,
            state_type: w[4] as u8,
            verifying: w[5] as u8,
            blocks_to_keep: w[6] as i32,
            version: [w[7] as u8, w[8] as u8, w[9] as u8],
            address: [w[10], w[11], w[12], w[13]],
            timestamp: w[14],
            session_id: w[15] as i64,
            agent: agent.to_vec(),
            name: name.to_vec(),
        }
    }

    pub fn case(&self, out: Output, built: &[u8]) -> Case {
        let mode = [self.mainnet, self.light, self.state_type, self.verifying].map(u64::from);
        let mut words = vec![out.at, out.room];
        words.extend(mode);
        words.push(self.blocks_to_keep as i64 as u64);
        words.extend(self.version.map(u64::from));
        words.extend(self.address);
        words.extend([self.timestamp, self.session_id as u64]);
        Case::new(&words, &joined(&[&self.agent, &self.name], built))
    }

    /// Lets the Rust build: its bytes, and the configuration with the two numbers that it took.
    pub fn built(&self) -> (Config, Vec<u8>) {
        let text = |bytes: &[u8]| String::from_utf8(bytes.to_vec()).expect("UTF-8");
        let [major, minor, patch] = self.version;
        let bytes = handshake::build(&HandshakeConfig {
            agent_name: text(&self.agent),
            peer_name: text(&self.name),
            version: Version::new(major, minor, patch),
            network: network(self.mainnet),
            mode: if self.light == 0 { ProxyMode::Full } else { ProxyMode::Light },
            declared_address: self.socket_address(),
            mode_config: ModeConfig {
                state_type_id: self.state_type,
                verifying: self.verifying != 0,
                blocks_to_keep: self.blocks_to_keep,
            },
        });
        let timestamp = read_vlq(&mut &bytes[..]).expect("a timestamp");
        let spec = handshake::parse(&bytes).expect("a handshake");
        let session = read_vlq(&mut &spec.features[1].body[4..]).expect("a session id");
        let session_id = zigzag_decode_i64(session);
        (Config { timestamp, session_id, ..self.clone() }, bytes)
    }

    /// 16: the kind is 0, 4 or 6, and the number of an IPv4 address has 32 bits and no low half.
    pub fn is_address(&self) -> bool {
        match self.address {
            [0 | 6, ..] => true,
            [4, high, low, _] => high <= u32::MAX.into() && low == 0,
            _ => false,
        }
    }

    fn socket_address(&self) -> Option<SocketAddr> {
        let [kind, high, low, port] = self.address;
        let ip: IpAddr = match kind {
            4 => Ipv4Addr::from(high as u32).into(),
            6 => Ipv6Addr::from((high as u128) << 64 | low as u128).into(),
            _ => return None,
        };
        Some(SocketAddr::new(ip, port as u16))
    }

    /// The entry with the features Mode and Session, in document 01's words.
    pub fn spec(&self) -> PeerSpec {
        let text = |bytes: &[u8]| String::from_utf8(bytes.to_vec()).expect("UTF-8");
        let [major, minor, patch] = self.version;
        let mut mode = vec![self.state_type, (self.verifying != 0) as u8];
        mode.extend_from_slice(if self.light == 0 { &[0] } else { &[1, 2] });
        write_vlq(&mut mode, zigzag_encode_i64(self.blocks_to_keep.into()));
        let mut session = network(self.mainnet).magic().to_vec();
        write_vlq(&mut session, zigzag_encode_i64(self.session_id));
        PeerSpec {
            agent: text(&self.agent),
            version: Version::new(major, minor, patch),
            name: text(&self.name),
            address: self.socket_address(),
            features: vec![Feature { id: 16, body: mode }, Feature { id: 3, body: session }],
        }
    }

    /// The bytes of the handshake.
    fn put_together(&self) -> Vec<u8> {
        let mut bytes = vec![];
        write_vlq(&mut bytes, self.timestamp);
        handshake::serialize_peer_entry(&self.spec(), &mut bytes);
        bytes
    }
}

pub fn build(case: &Case) -> Expected {
    let config = Config::of(case);
    let out = Output::of(case);
    if !config.is_address() {
        return refused(16);
    }
    if out.is_outside() {
        return refused(12);
    }
    if let Some(number) = refused_text(&[&config.agent, &config.name]) {
        return refused(number);
    }
    let (_, built) = strings::<2>(&case.bytes);
    let bytes = config.put_together();
    let written = write(out.room, out.at, |out| out.extend_from_slice(&bytes));
    match written {
        Expected::Rust(answer) if built.is_empty() => Expected::Document(answer),
        Expected::Rust(_) => write(out.room, out.at, |out| out.extend_from_slice(built)),
        refused => refused,
    }
}
