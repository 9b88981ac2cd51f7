//! What the numbers of a report mean, as the help says it.

use haspeljo::{Error, MessageCode, Verdict};
use std::fmt::Display;

const MESSAGES: [(u8, &str); 6] = [
    (MessageCode::GET_PEERS, "GetPeers"),
    (MessageCode::PEERS, "Peers"),
    (MessageCode::MODIFIER_REQUEST, "ModifierRequest"),
    (MessageCode::MODIFIER_RESPONSE, "ModifierResponse"),
    (MessageCode::INV, "Inv"),
    (MessageCode::SYNC_INFO, "SyncInfo"),
];

/// The name of the message of a code.
pub fn message_name(code: u8) -> &'static str {
    MESSAGES.iter().find(|message| message.0 == code).map_or("Unknown", |message| message.1)
}

pub fn codes() -> String {
    let others = "  others  Unknown: its body is taken as it is\n";
    rows(MESSAGES) + others
}

pub fn verdicts() -> String {
    let verdicts = (0..=u8::MAX).filter_map(|number| Verdict::try_from(number).ok());
    rows(verdicts.map(|verdict| (verdict.number(), verdict)))
}

pub fn refusals() -> String {
    rows(Error::ALL.iter().map(|error| (error.number(), error)))
}

fn rows<T: Display>(rows: impl IntoIterator<Item = (u8, T)>) -> String {
    rows.into_iter().map(|(number, text)| format!("  {number:<6}  {text}\n")).collect()
}
