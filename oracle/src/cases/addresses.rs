//! Cases for addresses: both sides of each end of the ranges of documents 01 and 02.

use crate::case::Case;
use crate::kinds::Kind;
use crate::rng::Rng;
use std::net::{Ipv4Addr, Ipv6Addr};

/// The ranges of IPv4: first address and prefix length.
const V4: [([u8; 4], u32); 13] = [
    ([127, 0, 0, 0], 8),
    ([169, 254, 0, 0], 16),
    ([224, 0, 0, 0], 4),
    ([240, 0, 0, 0], 4),
    ([0, 0, 0, 0], 32),
    ([198, 18, 0, 0], 15),
    ([10, 0, 0, 0], 8),
    ([172, 16, 0, 0], 12),
    ([192, 168, 0, 0], 16),
    ([100, 64, 0, 0], 10),
    ([192, 0, 2, 0], 24),
    ([198, 51, 100, 0], 24),
    ([203, 0, 113, 0], 24),
];

/// The ranges of IPv6, the last one being no range of the documents: IPv4-compatible addresses.
const V6: [([u16; 8], u32); 9] = [
    ([0, 0, 0, 0, 0, 0, 0, 1], 128),
    ([0, 0, 0, 0, 0, 0, 0, 0], 128),
    ([0xff00, 0, 0, 0, 0, 0, 0, 0], 8),
    ([0, 0, 0, 0, 0, 0xffff, 0, 0], 96),
    ([0xfe80, 0, 0, 0, 0, 0, 0, 0], 10),
    ([0xfc00, 0, 0, 0, 0, 0, 0, 0], 7),
    ([0x2001, 0xdb8, 0, 0, 0, 0, 0, 0], 32),
    ([0x3fff, 0, 0, 0, 0, 0, 0, 0], 20),
    ([0, 0, 0, 0, 0, 0, 0, 0], 96),
];

/// The two numbers on either side of each end of a range of numbers of `width` bits.
fn ends(first: u128, prefix: u32, width: u32) -> impl Iterator<Item = u128> {
    let mask = u128::MAX >> (128 - width);
    let size = 1u128 << (width - prefix);
    [first, first.wrapping_add(size)]
        .into_iter()
        .flat_map(|end| (0..4).map(move |d| end.wrapping_add(d).wrapping_sub(2)))
        .map(move |n| n & mask)
}

fn v4_ends() -> Vec<u32> {
    V4.iter()
        .flat_map(|(first, prefix)| ends(u32::from(Ipv4Addr::from(*first)).into(), *prefix, 32))
        .map(|n| n as u32)
        .collect()
}

fn v6_ends() -> Vec<u128> {
    V6.iter()
        .flat_map(|(first, prefix)| ends(u128::from(Ipv6Addr::from(*first)), *prefix, 128))
        .collect()
}

/// An address at an end of a range, or any.
pub fn near_v4(rng: &mut Rng) -> u32 {
    let (first, prefix) = rng.pick(&V4);
    let mut near = ends(u32::from(Ipv4Addr::from(first)).into(), prefix, 32);
    near.nth(rng.below(12) as usize).map_or_else(|| rng.u64() as u32, |n| n as u32)
}

/// An address at an end of a range, anywhere in a range, or any.
pub fn near_v6(rng: &mut Rng) -> u128 {
    let (first, prefix) = rng.pick(&V6);
    let first = u128::from(Ipv6Addr::from(first));
    match rng.below(14) {
        n @ 0..8 => ends(first, prefix, 128).nth(n as usize).expect("eight ends"),
        8..12 => inside_v6(rng, first, prefix),
        _ => segments(rng),
    }
}

/// An address of a range.
fn inside_v6(rng: &mut Rng, first: u128, prefix: u32) -> u128 {
    let any = (rng.u64() as u128) << 64 | rng.u64() as u128;
    first | any.checked_shr(prefix).unwrap_or(0)
}

fn v4_case(address: u32, port: u64, mainnet: u64) -> Case {
    Case::new(&[address.into(), port, mainnet], &[])
}

fn v6_case(address: u128, port: u64, mainnet: u64) -> Case {
    Case::new(&[(address >> 64) as u64, address as u64, port, mainnet], &[])
}

pub fn v4() -> Vec<Kind> {
    let near = v4_ends();
    let mut edges: Vec<Case> =
        near.iter().flat_map(|n| [v4_case(*n, 0, 0), v4_case(*n, 0, 1)]).collect();
    edges.extend([v4_case(0x0a000000, 9030, 2), v4_case(0x0a000000, 65535, 255)]);
    vec![
        Kind::edges(edges),
        // Each /24 on each network: no range of IPv4 but 0.0.0.0 ends within one.
        Kind::every("each /24", 1 << 25, |i, case| {
            let last = i.wrapping_mul(0x9e37_79b9_7f4a_7c15) >> 56;
            case.set(&[(i >> 1) << 8 | last, 9030, i & 1], &[]);
        }),
        Kind::random("boundary", 1_000_000, move |rng, visit| {
            let flipped = rng.pick(&near) ^ 1 << rng.below(32);
            for address in [flipped, flipped.wrapping_add(rng.number() as u32), rng.u64() as u32] {
                visit(&v4_case(address, rng.below(65536), network(rng)));
            }
        }),
    ]
}

pub fn v6() -> Vec<Kind> {
    let near = v6_ends();
    let mut edges: Vec<Case> =
        near.iter().flat_map(|n| [v6_case(*n, 0, 0), v6_case(*n, 0, 1)]).collect();
    edges.extend([v6_case(0xfc00 << 112, 9030, 2), v6_case(0xfc00 << 112, 65535, 255)]);
    vec![
        Kind::edges(edges),
        // Each first pair of bytes on each network, once with zeros and once with ones after it.
        Kind::every("each /16", 1 << 18, |i, case| {
            let low = if i & 2 == 0 { 0 } else { u128::MAX >> 16 };
            *case = v6_case(((i >> 2) as u128) << 112 | low, 9030, i & 1);
        }),
        Kind::random("boundary", 1_000_000, move |rng, visit| {
            let flipped = rng.pick(&near) ^ 1 << rng.below(128);
            for address in [flipped, rng.pick(&near) ^ rng.number() as u128, segments(rng)] {
                visit(&v6_case(address, rng.below(65536), network(rng)));
            }
        }),
        Kind::random("3fff::/20", 1_000_000, |rng, visit| {
            let address = inside_v6(rng, 0x3fff << 112, 20);
            visit(&v6_case(address, rng.below(65536), network(rng)));
        }),
    ]
}

/// 0 for testnet; mainnet mostly as 1.
fn network(rng: &mut Rng) -> u64 {
    rng.pick(&[0, 0, 0, 0, 1, 1, 1, 1, 2, 128, 255])
}

/// An address whose segments are those of the ranges, or next to them, or random.
fn segments(rng: &mut Rng) -> u128 {
    const KNOWN: [u16; 10] =
        [0, 0xffff, 0xff00, 0xfe80, 0xfec0, 0xfc00, 0x2001, 0xdb8, 0x3fff, 0xfff];
    (0..8).fold(0, |address, _| {
        let segment = match rng.below(4) {
            0 => rng.u64() as u16,
            1 => rng.pick(&KNOWN).wrapping_add(1).wrapping_sub(rng.below(3) as u16),
            2 => rng.pick(&KNOWN),
            _ => 0,
        };
        address << 16 | segment as u128
    })
}
