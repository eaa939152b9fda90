//! Looking at a node's table, and at what changed in it.

use crate::bytes::owned;
use crate::error::Result;
use crate::member::{Member, Members};
use crate::node::Node;
use crate::raw::{self, DONE, NO_MEMBER};
use std::iter;
use std::ptr;

/// How a table relates to another.
#[derive(Clone, Copy, Debug, PartialEq, Eq, Hash)]
pub enum Relation {
    Equal,
    /// The other one has more.
    Behind,
    /// This one has more.
    Ahead,
    /// Each has something that the other one does not have.
    Apart,
}

impl Node {
    /// How many members the node knows of, itself included unless it forgot itself.
    pub fn len(&self) -> usize {
        // SAFETY: the handle has a node, or is empty, and no other call runs.
        unsafe { raw::swimtab_count(self.handle.get()) }
    }

    /// Whether the node knows of nobody, which is so only if it forgot itself too.
    pub fn is_empty(&self) -> bool {
        self.len() == 0
    }

    /// The member at index `i`, from 0, in the byte order of the names.
    pub fn at(&self, i: usize) -> Option<Member> {
        // SAFETY: the handle has a node, no other call runs, and the member is written by this call only.
        self.member(|handle, member| unsafe { raw::swimtab_member(handle, i, member) })
    }

    /// The member of this name.
    pub fn find(&self, name: &[u8]) -> Option<Member> {
        // SAFETY: as in at, and the slice lives as long as the call.
        self.member(|handle, member| unsafe { raw::swimtab_find(handle, name.as_ptr(), name.len(), member) })
    }

    /// The first member whose name is above this one in byte order. So a walk over all members goes on where
    /// it was, whatever changes in between; it begins with an empty name.
    ///
    /// ```
    /// use swimtab::{Details, Node};
    ///
    /// let node = Node::open(b"m", &Details::new(([10, 0, 0, 1], 7946)))?;
    /// assert_eq!(node.after(b"").map(|member| member.name), Some(b"m".to_vec()));
    /// assert_eq!(node.after(b"m"), None);
    /// # Ok::<(), swimtab::Error>(())
    /// ```
    pub fn after(&self, name: &[u8]) -> Option<Member> {
        // SAFETY: as in find.
        self.member(|handle, member| unsafe { raw::swimtab_after(handle, name.as_ptr(), name.len(), member) })
    }

    /// All members, in the byte order of their names.
    pub fn iter(&self) -> Members<'_> {
        Members::of(self)
    }

    /// The listing of the table, as `swimtab list` prints it.
    ///
    /// # Errors
    ///
    /// `Memory`.
    pub fn list(&self) -> Result<String> {
        // SAFETY: as in at, of the buffer.
        let text = owned(|buffer| unsafe { raw::swimtab_list_new(self.handle.get(), buffer) })?;
        Ok(String::from_utf8(text)
            .unwrap_or_else(|text| String::from_utf8_lossy(text.as_bytes()).into_owned()))
    }

    /// How the node's table relates to that of the other node.
    pub fn relation(&self, other: &Node) -> Relation {
        if ptr::eq(self, other) {
            return Relation::Equal;
        }
        // SAFETY: both handles have nodes, they are different, and no other call runs.
        let related = unsafe { raw::swimtab_relate(self.handle.get(), other.handle.get()) };
        match related.relation {
            0 => Relation::Equal,
            1 => Relation::Behind,
            2 => Relation::Ahead,
            _ => Relation::Apart,
        }
    }

    /// Starts to note the names of the members whose entries change, with none noted yet, or stops and drops
    /// the noted names. `forget` and `readmit` note no name. While names are noted, any packet or stream may
    /// take memory, and the more are noted, the longer a packet takes: take them out often.
    pub fn watch(&mut self, on: bool) {
        // SAFETY: the handle has a node, and no other call runs. Only an empty handle is refused.
        unsafe { raw::swimtab_watch(self.handle.get(), on) };
    }

    /// The member of the first noted name, as it is now, or `None` if no name is noted. The name is then no
    /// longer noted.
    pub fn next_change(&mut self) -> Option<Member> {
        // SAFETY: as in at.
        self.member(|handle, member| unsafe { raw::swimtab_next_change(handle, member) })
    }

    /// The members whose names are noted, in the byte order of their names. The names that are not reached
    /// stay noted.
    pub fn changes(&mut self) -> impl Iterator<Item = Member> + '_ {
        iter::from_fn(|| self.next_change())
    }

    fn member(&self, call: impl FnOnce(*mut raw::Node, *mut raw::Member) -> u32) -> Option<Member> {
        let mut member = raw::Member::zeroed();
        match call(self.handle.get(), &mut member) {
            DONE => Some(Member::from(&member)),
            status => {
                debug_assert_eq!(status, NO_MEMBER);
                None
            }
        }
    }
}
