//! Nonces.

use crate::error::{Error, Result};
use crate::raw::NONCE_LEN;
use std::ffi::{c_int, c_void};

pub(crate) type Nonce = [u8; NONCE_LEN];

extern "C" {
    /// Of the C library, which takes them from getrandom(2) on Linux. It returns 0 if all were written.
    fn getentropy(bytes: *mut c_void, len: usize) -> c_int;
}

/// Random bytes of the system.
pub(crate) fn drawn() -> Result<Nonce> {
    let mut nonce = [0; NONCE_LEN];
    // SAFETY: the array has room for this many bytes.
    match unsafe { getentropy(nonce.as_mut_ptr().cast(), nonce.len()) } {
        0 => Ok(nonce),
        _ => Err(Error::NoRandom),
    }
}
