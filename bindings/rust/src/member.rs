//! What a node knows about a member.

use crate::bytes::addr_of;
use crate::details::Details;
use crate::node::Node;
use crate::raw;
use std::iter::FusedIterator;
use std::net::SocketAddr;

/// A member's state.
#[derive(Clone, Copy, Debug, PartialEq, Eq, Hash)]
pub enum State {
    Alive,
    Suspect,
    /// Declared dead by other members.
    Confirm,
    /// Left by itself.
    Leave,
    /// A state of views alone: an Alive at incarnation 0 gave an address, and is not believed.
    Noted,
}

impl State {
    /// The state of this number.
    pub(crate) fn of(number: u32) -> State {
        match number {
            0 => State::Alive,
            1 => State::Suspect,
            2 => State::Confirm,
            3 => State::Leave,
            _ => State::Noted,
        }
    }
}

/// A member as a node knows it.
#[derive(Clone, Debug, PartialEq, Eq)]
#[non_exhaustive]
pub struct Member {
    /// 1 to 1,024 bytes of any values.
    pub name: Vec<u8>,
    pub state: State,
    /// The incarnation of that state.
    pub incarnation: u32,
    /// Whether the newest details have a greater incarnation than the state: the member was declared dead or
    /// left, and has been heard of again.
    pub came_back: bool,
    /// The newest details: those of the Alive with the greatest incarnation, and then the greatest address,
    /// port, metadata and versions. It need not be the Alive that came last. None if no Alive was seen.
    pub details: Option<Details>,
}

impl From<&raw::Member> for Member {
    fn from(raw: &raw::Member) -> Member {
        let addr = addr_of(raw.addr, raw.addr_len).filter(|_| raw.has_address);
        Member {
            name: raw.name[..raw.name_len.into()].to_vec(),
            state: State::of(raw.state),
            incarnation: raw.inc,
            came_back: raw.came_back,
            details: addr.map(|addr| Details {
                incarnation: raw.address_inc,
                address: SocketAddr::new(addr, raw.port),
                meta: raw.meta[..raw.meta_len.into()].to_vec(),
                versions: (raw.vsn_len == 6).then_some(raw.vsn),
            }),
        }
    }
}

/// The members of a node, in the byte order of their names.
#[derive(Clone, Debug)]
pub struct Members<'a> {
    node: &'a Node,
    last: Vec<u8>,
    left: usize,
}

impl<'a> Members<'a> {
    pub(crate) fn of(node: &'a Node) -> Members<'a> {
        Members { node, last: Vec::new(), left: node.len() }
    }
}

impl Iterator for Members<'_> {
    type Item = Member;

    fn next(&mut self) -> Option<Member> {
        let member = self.node.after(&self.last)?;
        self.last.clone_from(&member.name);
        self.left -= 1;
        Some(member)
    }

    fn size_hint(&self) -> (usize, Option<usize>) {
        (self.left, Some(self.left))
    }
}

impl ExactSizeIterator for Members<'_> {}

impl FusedIterator for Members<'_> {}

impl<'a> IntoIterator for &'a Node {
    type Item = Member;
    type IntoIter = Members<'a>;

    fn into_iter(self) -> Members<'a> {
        self.iter()
    }
}
