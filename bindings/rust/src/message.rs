//! Messages: their kinds and parts.

use crate::raw::{self, DONE};
use std::iter::FusedIterator;
use std::ops::Deref;

/// The kind of a message: its first byte.
#[derive(Clone, Copy, Debug, PartialEq, Eq, Hash)]
#[non_exhaustive]
pub enum Kind {
    Ping,
    /// Asks a member to ping another one.
    IndirectPing,
    Ack,
    Suspect,
    Alive,
    Dead,
    PushPull,
    /// Several messages; [`parts`] finds them.
    Compound,
    /// The bytes behind the first are the program's.
    User,
    Nack,
    Error,
    /// A part that begins like no message that [`Keyring::unwrap`](crate::Keyring::unwrap) returns.
    Other(u8),
}

impl Kind {
    /// The kind of a message with this first byte.
    pub fn of(first: u8) -> Kind {
        match first {
            0 => Kind::Ping,
            1 => Kind::IndirectPing,
            2 => Kind::Ack,
            3 => Kind::Suspect,
            4 => Kind::Alive,
            5 => Kind::Dead,
            6 => Kind::PushPull,
            7 => Kind::Compound,
            8 => Kind::User,
            11 => Kind::Nack,
            13 => Kind::Error,
            other => Kind::Other(other),
        }
    }
}

/// A message without wrappers. It is used as its bytes: `node.take(&message)`.
#[derive(Clone, Debug, PartialEq, Eq, Hash)]
pub struct Message {
    pub kind: Kind,
    pub bytes: Vec<u8>,
}

impl Deref for Message {
    type Target = [u8];

    fn deref(&self) -> &[u8] {
        &self.bytes
    }
}

impl AsRef<[u8]> for Message {
    fn as_ref(&self) -> &[u8] {
        &self.bytes
    }
}

/// A part of a message. It is used as its bytes, too.
#[derive(Clone, Copy, Debug, PartialEq, Eq, Hash)]
pub struct Part<'a> {
    /// The kind of its first byte; a part without bytes is a `Ping` that nothing reads.
    pub kind: Kind,
    pub bytes: &'a [u8],
}

impl Deref for Part<'_> {
    type Target = [u8];

    fn deref(&self) -> &[u8] {
        self.bytes
    }
}

/// The parts of a message: those of a compound packet, up to 255, and none after the first that is cut off.
/// Any other message is its own part. So a program reads the parts one by one, and a bad part refuses only
/// itself. A part may be a compound packet again, which memberlist never writes: limit how deep you look.
///
/// ```
/// use swimtab::{ack, nack, parts, Kind};
///
/// let (first, second) = (ack(1, b"")?, nack(2)?);
/// let header = [7, 2, 0, first.len() as u8, 0, second.len() as u8];
/// let packet = [&header[..], &first, &second].concat();
/// let kinds: Vec<Kind> = parts(&packet).map(|part| part.kind).collect();
/// assert_eq!(kinds, [Kind::Ack, Kind::Nack]);
/// # Ok::<(), swimtab::Error>(())
/// ```
pub fn parts(message: &[u8]) -> Parts<'_> {
    Parts { message, next: 0 }
}

/// The parts of a message, as [`parts`] returns them.
#[derive(Clone, Debug)]
pub struct Parts<'a> {
    message: &'a [u8],
    next: usize,
}

impl<'a> Iterator for Parts<'a> {
    type Item = Part<'a>;

    fn next(&mut self) -> Option<Part<'a>> {
        let message = self.message;
        // SAFETY: the slice lives as long as the call.
        let place = unsafe { raw::swimtab_part(message.as_ptr(), message.len(), self.next) };
        if place.status != DONE {
            return None;
        }
        self.next += 1;
        let bytes = message.get(place.at..)?.get(..place.len)?;
        Some(Part { kind: Kind::of(bytes.first().copied().unwrap_or(0)), bytes })
    }
}

impl FusedIterator for Parts<'_> {}
