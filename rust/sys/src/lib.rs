//! The functions of libhaspeljo.a, as C has them. `../include/haspeljo.h` says what each does, in
//! the same order.
//!
//! A slice passes as a pointer and its length, where the pointer may be null if the length is 0; an
//! array as a pointer. An output and a result array `r` overlap no other argument. A test compares
//! these declarations with the library's sources and with the header (`../tests/declarations.rs`).

#![deny(missing_docs)]
#![no_std]

extern "C" {
    /// The byte at a place.
    pub fn haspeljo_read_byte(s: *const u8, n: usize, at: usize, r: *mut [u64; 2]) -> u8;
    /// The VLQ at a place.
    pub fn haspeljo_read_vlq(s: *const u8, n: usize, at: usize, r: *mut [u64; 2]) -> u8;
    /// The VLQ of at most 16,388,608 at a place.
    pub fn haspeljo_read_vlq_length(s: *const u8, n: usize, at: usize, r: *mut [u64; 2]) -> u8;
    /// The short string at a place.
    pub fn haspeljo_read_short_string(s: *const u8, n: usize, at: usize, r: *mut [u64; 3]) -> u8;
    /// `count` bytes at a place.
    pub fn haspeljo_read_part(
        s: *const u8,
        n: usize,
        at: usize,
        count: usize,
        r: *mut [u64; 3],
    ) -> u8;
    /// Writes a VLQ.
    pub fn haspeljo_write_vlq(
        out: *mut u8,
        n: usize,
        at: usize,
        value: u64,
        r: *mut [u64; 1],
    ) -> u8;
    /// Writes a string behind its length.
    pub fn haspeljo_write_short_string(
        out: *mut u8,
        n: usize,
        at: usize,
        s: *const u8,
        s_n: usize,
        r: *mut [u64; 1],
    ) -> u8;
    /// Writes bytes as they are.
    pub fn haspeljo_write_part(
        out: *mut u8,
        n: usize,
        at: usize,
        s: *const u8,
        s_n: usize,
        r: *mut [u64; 1],
    ) -> u8;
    /// Zigzag at 32 bits.
    pub fn haspeljo_zigzag_encode(value: i32) -> u32;
    /// Undoes zigzag at 32 bits.
    pub fn haspeljo_zigzag_decode(value: u32) -> i32;
    /// Zigzag at 64 bits.
    pub fn haspeljo_zigzag_encode_i64(value: i64) -> u64;
    /// Undoes zigzag at 64 bits.
    pub fn haspeljo_zigzag_decode_i64(value: u64) -> i64;
    /// Whether all bytes are UTF-8.
    pub fn haspeljo_is_utf8(s: *const u8, n: usize) -> u8;

    /// Whether an IPv4 address is bogus.
    pub fn haspeljo_is_bogus_v4(address: u32, port: u16, mainnet: u8) -> u8;
    /// Whether an IPv6 address is bogus.
    pub fn haspeljo_is_bogus_v6(high: u64, low: u64, port: u16, mainnet: u8) -> u8;
    /// The BLAKE2b digest of 32 bytes.
    pub fn haspeljo_blake2b256(s: *const u8, n: usize, r: *mut [u8; 32]);
    /// The first four bytes of the digest.
    pub fn haspeljo_frame_check(s: *const u8, n: usize, r: *mut [u8; 4]);

    /// The handshake from the first byte on.
    pub fn haspeljo_parse(s: *const u8, n: usize, r: *mut [u64; 15]) -> u8;
    /// How many bytes the handshake takes.
    pub fn haspeljo_measure_size(s: *const u8, n: usize, r: *mut [u64; 1]) -> u8;
    /// The entry at a place.
    pub fn haspeljo_parse_peer_entry(s: *const u8, n: usize, at: usize, r: *mut [u64; 15]) -> u8;
    /// The feature at a place.
    pub fn haspeljo_read_feature(s: *const u8, n: usize, at: usize, r: *mut [u64; 4]) -> u8;
    /// A feature of the entry at a place.
    pub fn haspeljo_feature_by_index(
        s: *const u8,
        n: usize,
        at: usize,
        index: usize,
        r: *mut [u64; 4],
    ) -> u8;
    /// The verdict on the handshake from the first byte on.
    pub fn haspeljo_validate_peer(s: *const u8, n: usize, mainnet: u8, r: *mut [u64; 2]) -> u8;
    /// The verdict on the entry at a place.
    pub fn haspeljo_validate_entry(
        s: *const u8,
        n: usize,
        at: usize,
        mainnet: u8,
        r: *mut [u64; 2],
    ) -> u8;
    /// The REST API URL of the entry at a place.
    pub fn haspeljo_rest_api_url(s: *const u8, n: usize, at: usize, r: *mut [u64; 4]) -> u8;

    /// The frame at a place.
    pub fn haspeljo_decode(s: *const u8, n: usize, at: usize, mainnet: u8, r: *mut [u64; 4]) -> u8;
    /// The message of a frame's code and body.
    pub fn haspeljo_from_frame(
        body: *const u8,
        n: usize,
        mainnet: u8,
        cap: usize,
        code: u8,
        r: *mut [u64; 5],
    ) -> u8;
    /// A Peers body.
    pub fn haspeljo_parse_peers_body(
        body: *const u8,
        n: usize,
        mainnet: u8,
        cap: usize,
        r: *mut [u64; 5],
    ) -> u8;
    /// An entry of a Peers body.
    pub fn haspeljo_entry_by_index(
        body: *const u8,
        n: usize,
        cap: usize,
        index: usize,
        r: *mut [u64; 15],
    ) -> u8;
    /// An id of a ModifierRequest or Inv body.
    pub fn haspeljo_id_by_index(body: *const u8, n: usize, index: usize, r: *mut [u64; 1]) -> u8;
    /// The payload at a place of a ModifierResponse body.
    pub fn haspeljo_read_payload(
        body: *const u8,
        n: usize,
        at: usize,
        total: usize,
        r: *mut [u64; 5],
    ) -> u8;
    /// A payload of a ModifierResponse body.
    pub fn haspeljo_payload_by_index(
        body: *const u8,
        n: usize,
        index: usize,
        r: *mut [u64; 4],
    ) -> u8;

    /// The step at a place of a session.
    pub fn haspeljo_step(
        s: *const u8,
        n: usize,
        at: usize,
        mainnet: u8,
        cap: usize,
        r: *mut [u64; 11],
    ) -> u8;
    /// An entry of a session's Peers message.
    pub fn haspeljo_entry_in_stream(
        s: *const u8,
        n: usize,
        start: usize,
        len: usize,
        cap: usize,
        index: usize,
        r: *mut [u64; 15],
    ) -> u8;
    /// An id of a session's ModifierRequest or Inv message.
    pub fn haspeljo_id_in_stream(
        s: *const u8,
        n: usize,
        start: usize,
        len: usize,
        index: usize,
        r: *mut [u64; 1],
    ) -> u8;
    /// A payload of a session's ModifierResponse message.
    pub fn haspeljo_payload_in_stream(
        s: *const u8,
        n: usize,
        start: usize,
        len: usize,
        index: usize,
        r: *mut [u64; 4],
    ) -> u8;

    /// Writes the entry in a row.
    pub fn haspeljo_write_entry(
        out: *mut u8,
        n: usize,
        at: usize,
        index: usize,
        entries: *const u32,
        entries_n: usize,
        features: *const u32,
        features_n: usize,
        buffer: *const u8,
        buffer_n: usize,
        r: *mut [u64; 1],
    ) -> u8;
    /// Writes a timestamp with the entry in a row.
    pub fn haspeljo_write_handshake(
        out: *mut u8,
        n: usize,
        at: usize,
        timestamp: u64,
        index: usize,
        entries: *const u32,
        entries_n: usize,
        features: *const u32,
        features_n: usize,
        buffer: *const u8,
        buffer_n: usize,
        r: *mut [u64; 1],
    ) -> u8;
    /// Writes a handshake with the features Mode and Session.
    pub fn haspeljo_build(
        out: *mut u8,
        n: usize,
        at: usize,
        mainnet: u8,
        light: u8,
        state_type_id: u8,
        verifying: u8,
        blocks_to_keep: i32,
        major: u8,
        minor: u8,
        patch: u8,
        kind: u8,
        high: u64,
        low: u64,
        port: u16,
        timestamp: u64,
        session: i64,
        agent: *const u8,
        agent_n: usize,
        name: *const u8,
        name_n: usize,
        r: *mut [u64; 1],
    ) -> u8;
    /// Writes a frame of any code.
    pub fn haspeljo_encode(
        out: *mut u8,
        n: usize,
        at: usize,
        mainnet: u8,
        code: u8,
        body: *const u8,
        body_n: usize,
        r: *mut [u64; 1],
    ) -> u8;
    /// Writes GetPeers.
    pub fn haspeljo_write_get_peers(
        out: *mut u8,
        n: usize,
        at: usize,
        mainnet: u8,
        r: *mut [u64; 1],
    ) -> u8;
    /// Writes Peers from all rows.
    pub fn haspeljo_write_peers(
        out: *mut u8,
        n: usize,
        at: usize,
        mainnet: u8,
        cap: usize,
        entries: *const u32,
        entries_n: usize,
        features: *const u32,
        features_n: usize,
        buffer: *const u8,
        buffer_n: usize,
        r: *mut [u64; 1],
    ) -> u8;
    /// Writes ModifierRequest.
    pub fn haspeljo_write_modifier_request(
        out: *mut u8,
        n: usize,
        at: usize,
        mainnet: u8,
        modifier_type: u8,
        ids: *const u32,
        ids_n: usize,
        buffer: *const u8,
        buffer_n: usize,
        r: *mut [u64; 1],
    ) -> u8;
    /// Writes ModifierResponse.
    pub fn haspeljo_write_modifier_response(
        out: *mut u8,
        n: usize,
        at: usize,
        mainnet: u8,
        modifier_type: u8,
        payloads: *const u32,
        payloads_n: usize,
        buffer: *const u8,
        buffer_n: usize,
        r: *mut [u64; 1],
    ) -> u8;
    /// Writes Inv.
    pub fn haspeljo_write_inv(
        out: *mut u8,
        n: usize,
        at: usize,
        mainnet: u8,
        modifier_type: u8,
        ids: *const u32,
        ids_n: usize,
        buffer: *const u8,
        buffer_n: usize,
        r: *mut [u64; 1],
    ) -> u8;
    /// Writes SyncInfo.
    pub fn haspeljo_write_sync_info(
        out: *mut u8,
        n: usize,
        at: usize,
        mainnet: u8,
        body: *const u8,
        body_n: usize,
        r: *mut [u64; 1],
    ) -> u8;
    /// Writes a message of another code.
    pub fn haspeljo_write_unknown(
        out: *mut u8,
        n: usize,
        at: usize,
        mainnet: u8,
        code: u8,
        body: *const u8,
        body_n: usize,
        r: *mut [u64; 1],
    ) -> u8;
}
