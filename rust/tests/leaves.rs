//! Addresses, hashes, UTF-8.

use haspeljo::{blake2b256, frame_check, is_bogus, is_utf8, Network};

#[test]
fn addresses() {
    let bogus = |text: &str, network| is_bogus(text.parse().unwrap(), network);
    for (text, mainnet, testnet) in [
        ("172.31.255.255", true, false),
        ("172.32.0.0", false, false),
        ("0.0.0.0", true, true),
        ("0.0.0.1", false, false),
        ("::1", true, true),
        ("::ffff:8.8.8.8", true, true),
        ("2001:db8::1", true, false),
        ("2001:4860:4860::8888", false, false),
        ("3ffe:ffff:ffff:ffff:ffff:ffff:ffff:ffff", false, false),
        ("3fff::", true, false),
        ("3fff:fff::", true, false),
        ("3fff:fff:ffff:ffff:ffff:ffff:ffff:ffff", true, false),
        ("3fff:1000::", false, false),
    ] {
        assert_eq!(bogus(text, Network::Mainnet), mainnet, "{text}");
        assert_eq!(bogus(text, Network::Testnet), testnet, "{text}");
    }
}

#[test]
fn the_digest_of_abc() {
    let digest = blake2b256(b"abc");
    assert_eq!(digest[..8], [0xbd, 0xdd, 0x81, 0x3c, 0x63, 0x42, 0x39, 0x72]);
    assert_eq!(frame_check(b"abc"), digest[..4]);
    assert!(is_utf8("é".as_bytes()) && !is_utf8(&[0xc0, 0x80]));
}
