//! Pings and their answers, and user messages.

use crate::bytes::{addr_of, written, Octets};
use crate::error::{done, Result};
use crate::member::Member;
use crate::raw::{self, MAX_PACKET_LEN};
use std::net::SocketAddr;

/// A member in a ping: the one to ping, or the one that asks.
#[derive(Clone, Debug, PartialEq, Eq, Hash)]
pub struct Peer {
    /// At most 1,024 bytes. It may be empty.
    pub name: Vec<u8>,
    /// A port without an address is dropped, since it says nothing.
    pub address: Option<SocketAddr>,
}

impl Peer {
    /// The member of this name at this address.
    pub fn new(name: impl Into<Vec<u8>>, address: impl Into<SocketAddr>) -> Peer {
        Peer { name: name.into(), address: Some(address.into()) }
    }

    /// What a call with this member returns.
    fn with<T>(&self, call: impl FnOnce(*const raw::Details) -> T) -> T {
        let addr = self.address.map_or(Octets::NONE, |address| Octets::of(address.ip()));
        let addr = addr.bytes();
        call(&raw::Details {
            name: self.name.as_ptr(),
            name_len: self.name.len(),
            addr: addr.as_ptr(),
            addr_len: addr.len(),
            port: self.address.map_or(0, |address| address.port()),
            ..raw::Details::empty()
        })
    }

    /// What a call with this member, if there is one, returns.
    fn with_some<T>(peer: Option<&Peer>, call: impl FnOnce(*const raw::Details) -> T) -> T {
        match peer {
            Some(peer) => peer.with(call),
            None => call(std::ptr::null()),
        }
    }
}

impl From<&Member> for Peer {
    fn from(member: &Member) -> Peer {
        let address = member.details.as_ref().map(|details| details.address);
        Peer { name: member.name.clone(), address }
    }
}

/// What a ping, an indirect ping, an ack or a nack says.
#[derive(Clone, Debug, PartialEq, Eq, Hash)]
pub enum Probe {
    Ping {
        /// The number that the ack repeats.
        seq: u32,
        /// The name of the member to ping; a member of another name does not answer.
        name: Vec<u8>,
        /// The member that asks, if it says so.
        source: Option<Peer>,
    },
    IndirectPing {
        /// The number that the ack and the nack repeat.
        seq: u32,
        /// The member to ping.
        target: Peer,
        /// Whether a nack is wanted.
        nack: bool,
        /// The member that asks, if it says so.
        source: Option<Peer>,
    },
    Ack {
        seq: u32,
        /// The first 1,024 bytes of the payload.
        payload: Vec<u8>,
        /// The length of the whole payload.
        payload_len: usize,
    },
    Nack {
        seq: u32,
    },
}

impl Probe {
    /// Reads a ping, an indirect ping, an ack or a nack, as memberlist's handlers do: keys that they do not
    /// know are passed over.
    ///
    /// ```
    /// use swimtab::{ack, ping, Probe};
    ///
    /// let packet = ping(7, b"b", None)?;
    /// if let Probe::Ping { seq, name, .. } = Probe::read(&packet)? {
    ///     assert_eq!((seq, &name[..]), (7, &b"b"[..]));
    ///     let reply = ack(seq, b"")?;
    ///     assert_eq!(reply[0], 2);
    /// }
    /// # Ok::<(), swimtab::Error>(())
    /// ```
    ///
    /// # Errors
    ///
    /// `WrongType` if it is another message; `NameTooLong` if a name has more than 1,024 bytes; `BadAddress`
    /// if an address does not have 4 or 16 bytes, or none; `Memory`; the fault at which reading stops if it
    /// is no message.
    pub fn read(message: &[u8]) -> Result<Probe> {
        let mut raw = raw::Probe::zeroed();
        // SAFETY: the slice and the probe live as long as the call.
        done(unsafe { raw::swimtab_read(message.as_ptr(), message.len(), &mut raw) })?;
        let seq = raw.seq;
        let name = raw.node[..raw.node_len.into()].to_vec();
        let at = |addr, len, port| addr_of(addr, len).map(|addr| SocketAddr::new(addr, port));
        let source = Peer {
            name: raw.source[..raw.source_len.into()].to_vec(),
            address: at(raw.source_addr, raw.source_addr_len, raw.source_port),
        };
        let source = (!source.name.is_empty() || source.address.is_some()).then_some(source);
        Ok(match raw.kind {
            0 => Probe::Ping { seq, name, source },
            1 => {
                let target = Peer { name, address: at(raw.addr, raw.addr_len, raw.port) };
                Probe::IndirectPing { seq, target, nack: raw.nack, source }
            }
            2 => {
                let here = raw.payload_len.min(raw.payload.len());
                Probe::Ack { seq, payload: raw.payload[..here].to_vec(), payload_len: raw.payload_len }
            }
            _ => Probe::Nack { seq },
        })
    }
}

/// A ping with this number to the member of this name, from the member that asks, if it is told.
///
/// # Errors
///
/// `NameTooLong`, `Memory`.
pub fn ping(seq: u32, name: &[u8], source: Option<&Peer>) -> Result<Vec<u8>> {
    Peer::with_some(source, |source| {
        written(MAX_PACKET_LEN, |out, len| {
            // SAFETY: what is passed lives as long as the call, and `out` has room for `len` bytes.
            unsafe { raw::swimtab_ping_of(seq, name.as_ptr(), name.len(), source, out, len) }
        })
    })
}

/// An indirect ping with this number, which asks a member to ping the target, from the member that asks, if
/// it is told. `nack` is whether a nack is wanted if the target does not answer.
///
/// # Errors
///
/// `NameTooLong`, `Memory`.
pub fn indirect_ping(seq: u32, target: &Peer, nack: bool, source: Option<&Peer>) -> Result<Vec<u8>> {
    target.with(|target| {
        Peer::with_some(source, |source| {
            written(MAX_PACKET_LEN, |out, len| {
                // SAFETY: as in ping.
                unsafe { raw::swimtab_indirect_of(seq, target, nack, source, out, len) }
            })
        })
    })
}

/// The ack to a ping with this number.
///
/// # Errors
///
/// `TooLong` if the payload has more than 65,535 bytes; `Memory`.
pub fn ack(seq: u32, payload: &[u8]) -> Result<Vec<u8>> {
    written(payload.len() + 32, |out, len| {
        // SAFETY: as in ping.
        unsafe { raw::swimtab_ack_of(seq, payload.as_ptr(), payload.len(), out, len) }
    })
}

/// The nack to an indirect ping with this number.
///
/// # Errors
///
/// `Memory`.
pub fn nack(seq: u32) -> Result<Vec<u8>> {
    written(32, |out, len| {
        // SAFETY: `out` has room for `len` bytes.
        unsafe { raw::swimtab_nack_of(seq, out, len) }
    })
}

/// A user message with these bytes, for the program that uses memberlist at the other end.
///
/// # Errors
///
/// `Memory`.
pub fn user(bytes: &[u8]) -> Result<Vec<u8>> {
    written(bytes.len() + 1, |out, len| {
        // SAFETY: as in ping.
        unsafe { raw::swimtab_user_of(bytes.as_ptr(), bytes.len(), out, len) }
    })
}
