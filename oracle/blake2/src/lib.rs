//! The names that frame.rs takes from the crate `blake2`, over `blake2b_simd`.

use std::marker::PhantomData;
use std::sync::atomic::{AtomicBool, Ordering};

/// Where true, `blake2-rfc` hashes, which has no vector instructions: to measure by.
pub static PORTABLE: AtomicBool = AtomicBool::new(false);

pub mod digest {
    pub mod consts {
        pub struct U32;
    }
}

pub struct Blake2b<N>(PhantomData<N>);

pub trait Digest {
    fn digest(data: impl AsRef<[u8]>) -> [u8; 32];
}

impl Digest for Blake2b<digest::consts::U32> {
    fn digest(data: impl AsRef<[u8]>) -> [u8; 32] {
        let data = data.as_ref();
        if PORTABLE.load(Ordering::Relaxed) {
            let hash = blake2_rfc::blake2b::blake2b(32, &[], data);
            return hash.as_bytes().try_into().expect("32 bytes");
        }
        let hash = blake2b_simd::Params::new().hash_length(32).hash(data);
        hash.as_bytes().try_into().expect("32 bytes")
    }
}
