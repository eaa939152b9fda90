//! What a member says about itself.

use crate::bytes::Octets;
use crate::raw;
use std::net::SocketAddr;

/// What a member says about itself: where it is, and at which incarnation. A program says it of its own
/// member in [`Node::open`](crate::Node::open) and [`Node::update`](crate::Node::update), passes it on with
/// [`alive_of`](crate::alive_of), and finds it in a [`Member`](crate::Member).
///
/// ```
/// use swimtab::Details;
///
/// let details = Details { meta: b"rack 4".to_vec(), ..Details::new(([10, 0, 0, 1], 7946)) };
/// assert_eq!((details.incarnation, details.address.port()), (1, 7946));
/// ```
#[derive(Clone, Debug, PartialEq, Eq, Hash)]
pub struct Details {
    pub incarnation: u32,
    /// Of an IPv6 address, the flow information and the scope are not told.
    pub address: SocketAddr,
    /// At most 512 bytes.
    pub meta: Vec<u8>,
    /// The least, greatest and current version of memberlist's protocol, and then those of the delegate's.
    /// memberlist accepts only members that have them.
    pub versions: Option<[u8; 6]>,
}

impl Details {
    /// The versions of a member of memberlist without a delegate of its own.
    pub const VERSIONS: [u8; 6] = [1, 5, 2, 0, 0, 0];

    /// A member at this address, at incarnation 1, without metadata, and with
    /// [`VERSIONS`](Details::VERSIONS).
    pub fn new(address: impl Into<SocketAddr>) -> Details {
        let (incarnation, address, versions) = (1, address.into(), Some(Details::VERSIONS));
        Details { incarnation, address, meta: Vec::new(), versions }
    }

    /// What a call with these details and this name returns.
    pub(crate) fn with<T>(&self, name: &[u8], call: impl FnOnce(*const raw::Details) -> T) -> T {
        let addr = Octets::of(self.address.ip());
        let (addr, versions) = (addr.bytes(), self.versions.as_ref().map_or(&[][..], |versions| versions));
        call(&raw::Details {
            name: name.as_ptr(),
            name_len: name.len(),
            addr: addr.as_ptr(),
            addr_len: addr.len(),
            meta: self.meta.as_ptr(),
            meta_len: self.meta.len(),
            vsn: versions.as_ptr(),
            vsn_len: versions.len(),
            inc: self.incarnation,
            port: self.address.port(),
            ..raw::Details::empty()
        })
    }
}
