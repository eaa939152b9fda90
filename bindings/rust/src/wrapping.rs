//! Packets and streams as a real cluster sends them.

use crate::bytes::{written, Buffer};
use crate::error::{done, Result};
use crate::keyring::Keyring;
use crate::message::{Kind, Message};
use crate::nonce::{drawn, Nonce};
use crate::raw::{self, NONCE_LEN};

/// The greatest length that sealing adds to the label and the message.
const OVERHEAD: usize = 2 + 5 + 1 + NONCE_LEN + 16;

impl Keyring {
    /// The message in a packet, one UDP payload as a member sends it: removes the label, checksum and
    /// compression, and decrypts the message. [`parts`](crate::parts) finds the parts of a compound one,
    /// [`Node::take`](crate::Node::take) takes in those that make claims, and
    /// [`Probe::read`](crate::Probe::read) reads pings and their answers. Without a key, an encrypted packet
    /// looks like a ping that [`Probe::read`](crate::Probe::read) refuses.
    ///
    /// # Errors
    ///
    /// `WrongType` if it begins like no message; `Ended` if it is empty; `WrapperEnded` to `TooDeep` if its
    /// wrappers are invalid; `WrongTag` if there are keys, and none decrypts it; `Unencrypted` if it is in
    /// the clear, there are keys, and that is not accepted; `Memory`.
    pub fn unwrap(&self, packet: &[u8]) -> Result<Message> {
        unwrapped(|buffer| {
            // SAFETY: no other call runs, and what is passed lives as long as the call.
            unsafe { raw::swimtab_unwrap_new(self.handle.get(), packet.as_ptr(), packet.len(), buffer) }
        })
    }

    /// The message in the bytes of one direction of a TCP connection, without its wrappers: a push/pull
    /// stream, which [`Progress::whole`](crate::Progress::whole), [`Node::answer`](crate::Node::answer) and
    /// [`Node::finish`](crate::Node::finish) read, a ping or its ack, a user message, or an error. The label
    /// is that of the cluster, or empty. A stream that does not begin with a label is read as if it began
    /// with this one, since the side that answers writes none.
    ///
    /// # Errors
    ///
    /// `Ended` if the bytes end too soon, and more may help; `WrongType` if it begins like no message, and
    /// without a key also if it is encrypted; `WrapperTrailing` to `TooDeep` if its wrappers are invalid;
    /// `CipherTooLong` to `CipherTrailing`, the fault of the last key, if it is encrypted and no key decrypts
    /// it; `CipherTooLong` also if the label has more than 255 bytes; `Unencrypted` if it is in the clear,
    /// there are keys, and that is not accepted; `Memory`.
    pub fn unwrap_stream(&self, label: &[u8], stream: &[u8]) -> Result<Message> {
        let (at, len) = (stream.as_ptr(), stream.len());
        unwrapped(|buffer| {
            // SAFETY: as in unwrap.
            unsafe {
                let handle = self.handle.get();
                raw::swimtab_unwrap_stream_new(handle, label.as_ptr(), label.len(), at, len, buffer)
            }
        })
    }

    /// A packet with this message, as memberlist sends it: the label, if it is not empty, and then the
    /// message, encrypted with the first key, which authenticates the label too. Without a key the message is
    /// not encrypted. Each call draws its own random nonce.
    ///
    /// # Errors
    ///
    /// `CipherTooLong` if the label has more than 255 bytes, or the message is too long; `NoRandom`;
    /// `Memory`.
    pub fn seal(&self, label: &[u8], message: &[u8]) -> Result<Vec<u8>> {
        self.seal_by(&self.nonce()?, label, message)
    }

    /// A stream with this message in the same way. `reply` is false on the side that opened the connection,
    /// for what [`Node::offer`](crate::Node::offer) wrote, and true on the other side, for
    /// [`Answer::reply`](crate::Answer::reply). No label is written before a reply; if the reply is encrypted
    /// it authenticates the label all the same.
    ///
    /// # Errors
    ///
    /// Those of [`seal`](Keyring::seal); a message to be encrypted has at most 268,435,427 bytes.
    pub fn seal_stream(&self, label: &[u8], reply: bool, message: &[u8]) -> Result<Vec<u8>> {
        self.seal_stream_by(&self.nonce()?, label, reply, message)
    }

    /// A new nonce; without a key none is read, so none is drawn.
    fn nonce(&self) -> Result<Nonce> {
        if self.is_empty() {
            Ok(Nonce::default())
        } else {
            drawn()
        }
    }

    fn seal_by(&self, nonce: &Nonce, label: &[u8], message: &[u8]) -> Result<Vec<u8>> {
        written(label.len() + message.len() + OVERHEAD, |out, len| {
            // SAFETY: as in unwrap, the nonce has its length, and `out` has room for `len` bytes.
            unsafe {
                raw::swimtab_seal(
                    self.handle.get(),
                    nonce.as_ptr(),
                    label.as_ptr(),
                    label.len(),
                    message.as_ptr(),
                    message.len(),
                    out,
                    len,
                )
            }
        })
    }

    fn seal_stream_by(&self, nonce: &Nonce, label: &[u8], reply: bool, message: &[u8]) -> Result<Vec<u8>> {
        written(label.len() + message.len() + OVERHEAD, |out, len| {
            // SAFETY: as in seal_by.
            unsafe {
                raw::swimtab_seal_stream(
                    self.handle.get(),
                    nonce.as_ptr(),
                    label.as_ptr(),
                    label.len(),
                    reply,
                    message.as_ptr(),
                    message.len(),
                    out,
                    len,
                )
            }
        })
    }
}

/// The message that a call puts into a buffer.
fn unwrapped(call: impl FnOnce(*mut raw::Buffer) -> raw::Unwrapped) -> Result<Message> {
    let mut buffer = Buffer::new();
    let made = call(buffer.at());
    done(made.status)?;
    let bytes = buffer.bytes().to_vec();
    Ok(Message { kind: Kind::of(bytes.first().copied().unwrap_or(0)), bytes })
}

/// The bytes for known nonces are those of tests/c/sealing.c, which says where they come from.
#[cfg(test)]
#[path = "../tests/common/sealed.rs"]
mod sealed;

#[cfg(test)]
mod tests {
    use super::sealed::*;
    use super::{Keyring, Nonce};
    use crate::Error;

    fn nonce(sent: &str, at: usize) -> Nonce {
        unhex(sent)[at..at + 12].try_into().unwrap()
    }

    #[test]
    fn messages_are_sealed_with_these_nonces() {
        let (east, dc, none) = (keyring(&[KEY_16]), keyring(&[KEY_32, KEY_16]), Keyring::new());
        let drawn = nonce(LABELLED_SENT, 7);
        assert_eq!(east.seal_by(&drawn, b"east", &unhex(LABELLED)), Ok(unhex(LABELLED_SENT)));
        let drawn = nonce(SEALED_ALIVE, 5);
        assert_eq!(dc.seal_by(&drawn, b"dc", &unhex(CLEAR_ALIVE)), Ok(unhex(SEALED_ALIVE)));
        let (drawn, sent) = (nonce(LABELLED_STREAM_SENT, 12), unhex(LABELLED_STREAM_SENT));
        assert_eq!(east.seal_stream_by(&drawn, b"east", false, &unhex(LABELLED)), Ok(sent));
        let (drawn, clear) = (nonce(SEALED_REPLY, 6), unhex(CLEAR_STREAM));
        assert_eq!(dc.seal_stream_by(&drawn, b"dc", true, &clear), Ok(unhex(SEALED_REPLY)));
        let labelled = [b"\xf4\x02dc", &clear[..]].concat();
        assert_eq!(none.seal_stream_by(&drawn, b"dc", false, &clear), Ok(labelled));
        assert_eq!(none.seal_stream_by(&drawn, b"dc", true, &clear), Ok(clear));
        assert_eq!(dc.seal_by(&drawn, &[b'x'; 256], b""), Err(Error::CipherTooLong));
    }
}
