//! Bytes that the library writes, and addresses as bytes.

use crate::error::{done, Error, Result};
use crate::raw::{self, DONE, TOO_SMALL};
use std::net::{IpAddr, Ipv6Addr};
use std::{ptr, slice};

/// Makes a call that writes bytes, and repeats it with a larger buffer if it needs one.
pub(crate) fn written(guess: usize, mut call: impl FnMut(*mut u8, usize) -> raw::Written) -> Result<Vec<u8>> {
    let mut out = vec![0; guess];
    loop {
        let raw::Written { status, len } = call(out.as_mut_ptr(), out.len());
        if status == TOO_SMALL {
            out.resize(len, 0);
            continue;
        }
        done(status)?;
        out.truncate(len);
        return Ok(out);
    }
}

/// Bytes in memory of the library.
pub(crate) struct Buffer(raw::Buffer);

impl Buffer {
    pub(crate) fn new() -> Buffer {
        let kept = raw::Kept { at: ptr::null_mut(), held: false };
        Buffer(raw::Buffer { at: ptr::null(), len: 0, kept })
    }

    pub(crate) fn at(&mut self) -> *mut raw::Buffer {
        &mut self.0
    }

    pub(crate) fn bytes(&self) -> &[u8] {
        if self.0.at.is_null() {
            return &[];
        }
        // SAFETY: the library owns `len` bytes here, and nothing changes them while the buffer is borrowed.
        unsafe { slice::from_raw_parts(self.0.at, self.0.len) }
    }
}

impl Drop for Buffer {
    fn drop(&mut self) {
        // SAFETY: no other call runs on this buffer. An empty one is fine.
        unsafe { raw::swimtab_free(&mut self.0) };
    }
}

/// The bytes that a call puts into a buffer.
pub(crate) fn owned(call: impl FnOnce(*mut raw::Buffer) -> u32) -> Result<Vec<u8>> {
    let mut buffer = Buffer::new();
    match call(buffer.at()) {
        DONE => Ok(buffer.bytes().to_vec()),
        status => Err(Error::of(status)),
    }
}

/// An address as 4 or 16 bytes, or none.
pub(crate) struct Octets {
    bytes: [u8; 16],
    len: usize,
}

impl Octets {
    pub(crate) const NONE: Octets = Octets { bytes: [0; 16], len: 0 };

    pub(crate) fn of(addr: IpAddr) -> Octets {
        match addr {
            IpAddr::V4(addr) => {
                let [a, b, c, d] = addr.octets();
                Octets { bytes: [a, b, c, d, 0, 0, 0, 0, 0, 0, 0, 0, 0, 0, 0, 0], len: 4 }
            }
            IpAddr::V6(addr) => Octets { bytes: addr.octets(), len: 16 },
        }
    }

    pub(crate) fn bytes(&self) -> &[u8] {
        &self.bytes[..self.len]
    }
}

/// The address in the first `len` of these bytes, if there are 4 or 16.
pub(crate) fn addr_of(bytes: [u8; 16], len: u8) -> Option<IpAddr> {
    let [a, b, c, d, ..] = bytes;
    match len {
        4 => Some([a, b, c, d].into()),
        16 => Some(Ipv6Addr::from(bytes).into()),
        _ => None,
    }
}
