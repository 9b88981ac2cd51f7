//! BLAKE2b-256 by four implementations that are not ours, and BLAKE2b-512 by OpenSSL.

use std::os::raw::{c_char, c_int, c_uint, c_ulonglong, c_void};
use std::ptr;
use std::sync::Once;

pub fn blake2b_simd(s: &[u8]) -> [u8; 32] {
    let hash = blake2b_simd::Params::new().hash_length(32).hash(s);
    hash.as_bytes().try_into().expect("32 bytes")
}

pub fn blake2_rfc(s: &[u8]) -> [u8; 32] {
    let hash = blake2_rfc::blake2b::blake2b(32, &[], s);
    hash.as_bytes().try_into().expect("32 bytes")
}

pub fn libb2(s: &[u8]) -> [u8; 32] {
    let mut out = [0; 32];
    // SAFETY: `out` has the 32 bytes and `s` the length that are handed over; no key is read.
    let status =
        unsafe { blake2b(out.as_mut_ptr(), s.as_ptr().cast(), ptr::null(), 32, s.len(), 0) };
    assert_eq!(status, 0, "libb2 refuses");
    out
}

/// libsodium takes the fastest code that the processor has once it is told to look.
pub fn libsodium(s: &[u8]) -> [u8; 32] {
    static LOOKED: Once = Once::new();
    // SAFETY: it takes nothing.
    LOOKED.call_once(|| assert!(unsafe { sodium_init() } >= 0, "libsodium does not start"));
    let mut out = [0; 32];
    // SAFETY: as of libb2.
    let status = unsafe {
        crypto_generichash(out.as_mut_ptr(), 32, s.as_ptr(), s.len() as c_ulonglong, ptr::null(), 0)
    };
    assert_eq!(status, 0, "libsodium refuses");
    out
}

/// A context of OpenSSL's that is made once.
pub struct OpenSsl {
    method: *mut c_void,
    context: *mut c_void,
}

impl OpenSsl {
    pub fn blake2b512() -> OpenSsl {
        // SAFETY: the name ends with a zero; the default library and properties are taken.
        let method = unsafe { EVP_MD_fetch(ptr::null(), c"BLAKE2B-512".as_ptr(), ptr::null()) };
        // SAFETY: it takes nothing.
        let context = unsafe { EVP_MD_CTX_new() };
        assert!(!method.is_null() && !context.is_null(), "OpenSSL has no BLAKE2b-512");
        OpenSsl { method, context }
    }

    pub fn hash(&mut self, s: &[u8]) -> [u8; 64] {
        let mut out = [0; 64];
        let mut length = 0;
        // SAFETY: method and context are OpenSSL's, `s` has its length, and `out` the 64 bytes of this hash.
        let done = unsafe {
            EVP_DigestInit_ex2(self.context, self.method, ptr::null()) == 1
                && EVP_DigestUpdate(self.context, s.as_ptr().cast(), s.len()) == 1
                && EVP_DigestFinal_ex(self.context, out.as_mut_ptr(), &mut length) == 1
        };
        assert!(done && length == 64, "OpenSSL refuses");
        out
    }
}

impl Drop for OpenSsl {
    fn drop(&mut self) {
        // SAFETY: both are OpenSSL's and used by nothing else.
        unsafe {
            EVP_MD_CTX_free(self.context);
            EVP_MD_free(self.method);
        }
    }
}

extern "C" {
    fn blake2b(
        out: *mut u8,
        s: *const c_void,
        key: *const c_void,
        out_len: usize,
        s_len: usize,
        key_len: usize,
    ) -> c_int;
    fn sodium_init() -> c_int;
    fn crypto_generichash(
        out: *mut u8,
        out_len: usize,
        s: *const u8,
        s_len: c_ulonglong,
        key: *const u8,
        key_len: usize,
    ) -> c_int;
    fn EVP_MD_fetch(
        library: *const c_void,
        name: *const c_char,
        properties: *const c_char,
    ) -> *mut c_void;
    fn EVP_MD_free(method: *mut c_void);
    fn EVP_MD_CTX_new() -> *mut c_void;
    fn EVP_MD_CTX_free(context: *mut c_void);
    fn EVP_DigestInit_ex2(
        context: *mut c_void,
        method: *const c_void,
        parameters: *const c_void,
    ) -> c_int;
    fn EVP_DigestUpdate(context: *mut c_void, s: *const c_void, s_len: usize) -> c_int;
    fn EVP_DigestFinal_ex(context: *mut c_void, out: *mut u8, length: *mut c_uint) -> c_int;
}
