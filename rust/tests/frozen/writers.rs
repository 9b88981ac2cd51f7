//! The writers of values, frames and bodies as they are, and `build`. An answer is the number, the
//! place after what was written, and the whole output.

use crate::cases::{hex, Case};
use crate::readers::UNTOUCHED;
use haspeljo::{build, encode, vlq, write_get_peers, write_sync_info, write_unknown};
use haspeljo::{Error, HandshakeConfig, ProxyMode, Version};
use std::net::{IpAddr, Ipv4Addr, Ipv6Addr, SocketAddr};

/// What each byte of an output holds before a call.
const BYTE: u8 = 0xa5;

/// None of a case that can't be put into the types of the crate.
pub fn answer(mut case: Case) -> Option<String> {
    let at = case.size();
    let mut out = vec![BYTE; case.size()];
    let result = match case.function {
        37 => built(&mut out, at, case)?,
        6..=8 => value(&mut out, at, case)?,
        _ => frame(&mut out, at, case),
    };
    let (number, end) = match result {
        Ok(end) => (0, end as u64),
        Err(error) => (error.number(), UNTOUCHED),
    };
    Some(format!("{number} {end} {}", hex(&out)))
}

fn value(out: &mut [u8], at: usize, mut case: Case) -> Option<Result<usize, Error>> {
    Some(match case.function {
        6 => vlq::write_vlq(out, at, case.word()),
        7 => vlq::write_short_string(out, at, std::str::from_utf8(case.input).ok()?),
        _ => vlq::write_part(out, at, case.input),
    })
}

fn frame(out: &mut [u8], at: usize, mut case: Case) -> Result<usize, Error> {
    let network = case.network();
    match case.function {
        38 => encode(out, at, network, case.byte(), case.input),
        39 => write_get_peers(out, at, network),
        44 => write_sync_info(out, at, network, case.input),
        _ => write_unknown(out, at, network, case.byte(), case.input),
    }
}

fn built(out: &mut [u8], at: usize, mut case: Case) -> Option<Result<usize, Error>> {
    let network = case.network();
    let [light, state_type_id, verifying] = [case.byte(), case.byte(), case.byte()];
    let blocks_to_keep = case.word() as i32;
    let version = Version::new(case.byte(), case.byte(), case.byte());
    let declared_address = address([case.word(), case.word(), case.word(), case.word()])?;
    let [timestamp, session] = [case.word(), case.word()];
    let [agent, name] = [case.string(), case.string()].map(std::str::from_utf8);
    let (agent, name, session) = (agent.ok()?, name.ok()?, session as i64);
    let mut config = HandshakeConfig::new(agent, name, version, network, timestamp, session);
    config.mode = if light == 0 { ProxyMode::Full } else { ProxyMode::Light };
    config.declared_address = declared_address;
    config.state_type_id = state_type_id;
    config.verifying = verifying != 0;
    config.blocks_to_keep = blocks_to_keep;
    Some(build(out, at, &config))
}

/// The address of kind, high and low half, and port; none where they are no address.
fn address([kind, high, low, port]: [u64; 4]) -> Option<Option<SocketAddr>> {
    let ip: IpAddr = match (kind, u32::try_from(high), low) {
        (0, ..) => return Some(None),
        (4, Ok(high), 0) => Ipv4Addr::from_bits(high).into(),
        (6, ..) => Ipv6Addr::from_bits(u128::from(high) << 64 | u128::from(low)).into(),
        _ => return None,
    };
    Some(Some(SocketAddr::new(ip, port as u16)))
}
