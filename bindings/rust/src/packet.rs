//! Packets with claims that need no node.

use crate::bytes::written;
use crate::details::Details;
use crate::error::Result;
use crate::raw::{self, MAX_PACKET_LEN};

/// The packet that says that another member is alive, as a member passes it on.
///
/// # Errors
///
/// `NameEmpty`, `NameTooLong`, `MetaTooLong`, `Memory`.
pub fn alive_of(name: &[u8], details: &Details) -> Result<Vec<u8>> {
    details.with(name, |details| {
        written(MAX_PACKET_LEN, |out, len| {
            // SAFETY: the details live as long as the call, and `out` has room for `len` bytes.
            unsafe { raw::swimtab_alive_of(details, out, len) }
        })
    })
}

/// The packet by which the member of the name `from`, which may be empty, suspects the member of this name.
///
/// # Errors
///
/// `NameEmpty`, `NameTooLong`, `Memory`.
pub fn suspect_of(from: &[u8], name: &[u8], incarnation: u32) -> Result<Vec<u8>> {
    let (at, at_len, of, of_len) = (from.as_ptr(), from.len(), name.as_ptr(), name.len());
    written(MAX_PACKET_LEN, |out, len| {
        // SAFETY: the slices live as long as the call, and `out` has room for `len` bytes.
        unsafe { raw::swimtab_suspect_of(at, at_len, of, of_len, incarnation, out, len) }
    })
}

/// The packet by which the member of the name `from`, which may be empty, declares the member of this name
/// dead; with its own name it leaves.
///
/// ```
/// use swimtab::{dead_of, Details, Node, State};
///
/// let mut node = Node::open(b"a", &Details::new(([10, 0, 0, 1], 7946)))?;
/// node.take(&dead_of(b"c", b"b", 4)?)?;
/// node.take(&dead_of(b"d", b"d", 5)?)?;
/// let states: Vec<State> = node.iter().map(|member| member.state).collect();
/// assert_eq!(states, [State::Alive, State::Confirm, State::Leave]);
/// # Ok::<(), swimtab::Error>(())
/// ```
///
/// # Errors
///
/// `NameEmpty`, `NameTooLong`, `Memory`.
pub fn dead_of(from: &[u8], name: &[u8], incarnation: u32) -> Result<Vec<u8>> {
    let (at, at_len, of, of_len) = (from.as_ptr(), from.len(), name.as_ptr(), name.len());
    written(MAX_PACKET_LEN, |out, len| {
        // SAFETY: as in suspect_of.
        unsafe { raw::swimtab_dead_of(at, at_len, of, of_len, incarnation, out, len) }
    })
}

/// One compound packet made from up to 255 packets.
///
/// # Errors
///
/// `TooManyPackets`, `Memory`, and, if one is not a packet, the fault of the first such one; a compound
/// packet is `WrongType`.
pub fn compound<P: AsRef<[u8]>>(packets: &[P]) -> Result<Vec<u8>> {
    let lens: Vec<usize> = packets.iter().map(|packet| packet.as_ref().len()).collect();
    let bytes: Vec<u8> = packets.iter().flat_map(|packet| packet.as_ref()).copied().collect();
    written(bytes.len() + 2 * lens.len() + 2, |out, len| {
        // SAFETY: the vectors live as long as the call, and `out` has room for `len` bytes.
        unsafe { raw::swimtab_compound(bytes.as_ptr(), bytes.len(), lens.as_ptr(), lens.len(), out, len) }
    })
}
