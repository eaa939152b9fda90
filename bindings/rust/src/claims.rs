//! The packets by which a member makes claims.

use crate::bytes::written;
use crate::error::Result;
use crate::node::Node;
use crate::raw::{self, MAX_PACKET_LEN};

impl Node {
    /// The packet that says that the member is alive at this incarnation. Pass the incarnation of `open` at
    /// first, and later those that `refute` and `update` return.
    ///
    /// # Errors
    ///
    /// `Memory`.
    pub fn alive(&self, incarnation: u32) -> Result<Vec<u8>> {
        written(MAX_PACKET_LEN, |out, len| {
            // SAFETY: the handle has a node, no other call runs, and `out` has room for `len` bytes.
            unsafe { raw::swimtab_alive(self.handle.get(), incarnation, out, len) }
        })
    }

    /// The packet by which the member suspects another one. The incarnation is that of the Alive that it no
    /// longer believes. The table does not change: pass the packet to `take` to add the claim to it.
    ///
    /// # Errors
    ///
    /// `NameEmpty`, `NameTooLong`, `Memory`.
    pub fn suspect(&self, name: &[u8], incarnation: u32) -> Result<Vec<u8>> {
        let (at, name_len) = (name.as_ptr(), name.len());
        written(MAX_PACKET_LEN, |out, len| {
            // SAFETY: as in alive, and the slice lives as long as the call.
            unsafe { raw::swimtab_suspect(self.handle.get(), at, name_len, incarnation, out, len) }
        })
    }

    /// The packet by which the member declares another one dead. The table does not change.
    ///
    /// # Errors
    ///
    /// `OwnName` if the name is the member's own; `NameEmpty`, `NameTooLong`, `Memory`.
    pub fn confirm(&self, name: &[u8], incarnation: u32) -> Result<Vec<u8>> {
        let (at, name_len) = (name.as_ptr(), name.len());
        written(MAX_PACKET_LEN, |out, len| {
            // SAFETY: as in suspect.
            unsafe { raw::swimtab_confirm(self.handle.get(), at, name_len, incarnation, out, len) }
        })
    }

    /// The packet by which the member itself leaves, at this incarnation. The table does not change.
    ///
    /// # Errors
    ///
    /// `Memory`.
    pub fn leave(&self, incarnation: u32) -> Result<Vec<u8>> {
        written(MAX_PACKET_LEN, |out, len| {
            // SAFETY: as in alive.
            unsafe { raw::swimtab_leave(self.handle.get(), incarnation, out, len) }
        })
    }
}
