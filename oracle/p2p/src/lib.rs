//! The six Rust files of p2p/src, unchanged, and the names of that crate on which they lean.
#![allow(dead_code)]

pub mod blacklist {
    pub struct Blacklist;

    impl Blacklist {
        pub fn record_permanent(&self, _: std::net::SocketAddr) {}
    }
}

pub mod capture {
    pub mod tap {
        pub struct Tap;

        impl Tap {
            pub fn capture_inbound(&self, _: std::net::SocketAddr, _: &[u8]) {}
            pub fn capture_outbound(&self, _: std::net::SocketAddr, _: &[u8]) {}
        }
    }
}

include!(concat!(env!("OUT_DIR"), "/modules.rs"));
