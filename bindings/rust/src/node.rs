//! A member's node.

use crate::details::Details;
use crate::error::{done, Result};
use crate::raw;
use std::cell::UnsafeCell;
use std::fmt;

/// What one member of a cluster knows: who it is, and a table of all members that it has heard of.
///
/// It may move from thread to thread, but only one uses it at a time: it is `Send`, not `Sync`.
///
/// ```
/// use swimtab::{Details, Node, State};
///
/// let mut a = Node::open(b"a", &Details::new(([10, 0, 0, 1], 7946)))?;
/// let b = Node::open(b"b", &Details::new(([10, 0, 0, 2], 7946)))?;
/// assert!(a.take(&b.alive(1)?)?);
/// assert_eq!(a.find(b"b").map(|b| b.state), Some(State::Alive));
/// # Ok::<(), swimtab::Error>(())
/// ```
pub struct Node {
    // A handle is used by one call at a time, even by calls that only read it. The library calls nothing
    // back, and UnsafeCell keeps the node from being shared between threads, so no two calls on it overlap.
    pub(crate) handle: UnsafeCell<raw::Node>,
}

// SAFETY: the library keeps no state per thread, and a handle may move between calls. `user` is null.
unsafe impl Send for Node {}

impl Node {
    /// Opens the node of the member of this name, with these details, which knows of nobody else yet. The
    /// name has 1 to 1,024 bytes of any values.
    ///
    /// # Errors
    ///
    /// `NameEmpty`, `NameTooLong`, `MetaTooLong`, `Memory`.
    pub fn open(name: &[u8], details: &Details) -> Result<Node> {
        let node = Node { handle: UnsafeCell::new(raw::Node::empty()) };
        // SAFETY: the handle is new, and the details live as long as the call.
        done(details.with(name, |details| unsafe { raw::swimtab_open(node.handle.get(), details) }))?;
        Ok(node)
    }

    /// Gives the member other details; the incarnation in them is not used. Returns the incarnation at which
    /// the member is then alive with them, or `None` if its table has them already. Send
    /// [`alive`](Node::alive) at this incarnation to the others.
    ///
    /// ```
    /// use swimtab::{Details, Node};
    ///
    /// let mut node = Node::open(b"a", &Details::new(([10, 0, 0, 1], 7946)))?;
    /// let moved = Details::new(([10, 0, 0, 9], 7946));
    /// assert_eq!(node.update(&moved)?, Some(2));
    /// assert_eq!(node.update(&moved)?, None);
    /// # Ok::<(), swimtab::Error>(())
    /// ```
    ///
    /// # Errors
    ///
    /// Those of [`refute`](Node::refute), and `MetaTooLong`. Then nothing has changed.
    pub fn update(&mut self, details: &Details) -> Result<Option<u32>> {
        // SAFETY: the handle has a node, no other call runs, and the details live as long as the call.
        let refuted = details.with(b"", |details| unsafe { raw::swimtab_update(self.handle.get(), details) });
        due(refuted)
    }

    /// Takes in the claim of a packet, or all claims of a compound packet, without wrappers. Returns whether
    /// the table changed: a program that gossips passes on the packets that have news.
    ///
    /// # Errors
    ///
    /// The fault at which reading the packet stops, or `Memory`. Then none of the claims was taken in.
    pub fn take(&mut self, packet: &[u8]) -> Result<bool> {
        // SAFETY: the handle has a node, no other call runs, and the slice lives as long as the call.
        let taken = unsafe { raw::swimtab_take(self.handle.get(), packet.as_ptr(), packet.len()) };
        done(taken.status)?;
        Ok(taken.news)
    }

    /// Refutes what others say about the member, if there is something to refute. Returns the incarnation at
    /// which the member is then alive again.
    ///
    /// # Errors
    ///
    /// `Exhausted` if there is no greater incarnation; `Gone` if the member was declared dead, or left;
    /// `Memory`. Then nothing has changed.
    pub fn refute(&mut self) -> Result<Option<u32>> {
        // SAFETY: the handle has a node, and no other call runs.
        due(unsafe { raw::swimtab_refute(self.handle.get()) })
    }

    /// Forgets a name: the table is then that of all claims taken in that are not about this name. Whatever
    /// comes about the name later is taken in as about a new one, even an old death; so forget a name only
    /// when the other members have forgotten it.
    ///
    /// # Errors
    ///
    /// `NoMember` if the table has no such name.
    pub fn forget(&mut self, name: &[u8]) -> Result<()> {
        // SAFETY: as in take.
        done(unsafe { raw::swimtab_forget(self.handle.get(), name.as_ptr(), name.len()) })
    }

    /// Believes a member that came back, as memberlist does: of all that was said about it only its newest
    /// Alive is left. [`Member::came_back`](crate::Member::came_back) tells whether it did. Members that use
    /// only this library need it not, and then differ from those that call it.
    ///
    /// # Errors
    ///
    /// `NoMember` if the table has no such name; `NotBack`; `Memory`. Then nothing has changed.
    pub fn readmit(&mut self, name: &[u8]) -> Result<()> {
        // SAFETY: as in take.
        done(unsafe { raw::swimtab_readmit(self.handle.get(), name.as_ptr(), name.len()) })
    }
}

/// The incarnation, if one was due.
fn due(refuted: raw::Refuted) -> Result<Option<u32>> {
    done(refuted.status)?;
    Ok(refuted.due.then_some(refuted.inc))
}

impl Drop for Node {
    fn drop(&mut self) {
        // SAFETY: no other call runs. An empty handle, as after a refused `open`, is fine.
        unsafe { raw::swimtab_close(self.handle.get()) };
    }
}

impl fmt::Debug for Node {
    fn fmt(&self, f: &mut fmt::Formatter<'_>) -> fmt::Result {
        f.debug_struct("Node").field("members", &self.len()).finish_non_exhaustive()
    }
}
