//! The functions that have no place, 9 to 17.

use crate::cases::{hex, Case};
use haspeljo::{blake2b256, frame_check, is_bogus, is_utf8, vlq};
use std::net::{Ipv4Addr, Ipv6Addr};

pub fn answer(mut case: Case) -> String {
    match case.function {
        9 => vlq::zigzag_encode(case.word() as i32).to_string(),
        10 => vlq::zigzag_decode(case.word() as u32).to_string(),
        11 => vlq::zigzag_encode_i64(case.word() as i64).to_string(),
        12 => vlq::zigzag_decode_i64(case.word()).to_string(),
        13 => bit(is_utf8(case.input)),
        14 => {
            let ip = Ipv4Addr::from_bits(case.word() as u32);
            let _port = case.word();
            bit(is_bogus(ip.into(), case.network()))
        }
        15 => {
            let ip = (u128::from(case.word()) << 64) | u128::from(case.word());
            let _port = case.word();
            bit(is_bogus(Ipv6Addr::from_bits(ip).into(), case.network()))
        }
        16 => hex(&blake2b256(case.input)),
        17 => hex(&frame_check(case.input)),
        other => panic!("function {other} is no leaf"),
    }
}

fn bit(yes: bool) -> String {
    u8::from(yes).to_string()
}
