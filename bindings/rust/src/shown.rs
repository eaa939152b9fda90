//! What a view shows of a member, and what changed in it.

use crate::bytes::addr_of;
use crate::member::State;
use crate::raw;
use std::net::{IpAddr, Ipv4Addr, SocketAddr};
use std::time::Duration;

/// What changed for a member of a view.
#[derive(Clone, Copy, Debug, PartialEq, Eq, Hash)]
#[non_exhaustive]
pub enum Event {
    /// A new member: its Alive came in a message.
    Joined,
    /// A new member: its record came in a stream; or only its address came.
    Known,
    /// It was dead or had left, and is alive.
    Back,
    /// It is alive at a greater incarnation, with other metadata or versions.
    Updated,
    /// It is alive at a greater incarnation, and nothing else changed.
    Renewed,
    /// It was suspected, and is alive at a greater incarnation.
    Refuted,
    /// It was alive, and is suspected.
    Suspected,
    /// One more member suspects it.
    AlsoSuspected,
    /// Another member declared it dead.
    Dead,
    /// It left.
    Left,
    /// Another member uses its name at another address, and is not believed.
    Conflict,
    /// An event of a later version of the library.
    Other(u32),
}

impl Event {
    /// The event of this number, or `None` if nothing changed.
    pub(crate) fn of(number: u32) -> Option<Event> {
        Some(match number {
            0 => return None,
            1 => Event::Joined,
            2 => Event::Known,
            3 => Event::Back,
            4 => Event::Updated,
            5 => Event::Renewed,
            6 => Event::Refuted,
            7 => Event::Suspected,
            8 => Event::AlsoSuspected,
            9 => Event::Dead,
            10 => Event::Left,
            11 => Event::Conflict,
            other => Event::Other(other),
        })
    }
}

/// A member as a view shows it.
#[derive(Clone, Debug, PartialEq, Eq)]
#[non_exhaustive]
pub struct Shown {
    /// 1 to 1,024 bytes of any values.
    pub name: Vec<u8>,
    pub state: State,
    /// The time at which the state began.
    pub since: Duration,
    /// The incarnation of that state.
    pub incarnation: u32,
    /// The address, metadata and versions of the newest Alive that was believed.
    pub address: SocketAddr,
    pub meta: Vec<u8>,
    pub versions: Option<[u8; 6]>,
    /// The last of its accusers, or who declared it dead.
    pub by: Option<Vec<u8>>,
    /// How many members that are named suspect it, up to 255; [`View::accusers`](crate::View::accusers).
    pub accusers: u8,
    /// How many other addresses claimed its name since, up to 255.
    pub rivals: u8,
}

impl From<&raw::ViewData> for Shown {
    fn from(raw: &raw::ViewData) -> Shown {
        let addr = addr_of(raw.addr, raw.addr_len).unwrap_or(IpAddr::V4(Ipv4Addr::UNSPECIFIED));
        Shown {
            name: raw.name[..raw.name_len.into()].to_vec(),
            state: State::of(raw.state),
            since: Duration::from_micros(raw.since),
            incarnation: raw.inc,
            address: SocketAddr::new(addr, raw.port),
            meta: raw.meta[..raw.meta_len.into()].to_vec(),
            versions: (raw.vsn_len == 6).then_some(raw.vsn),
            by: (raw.by_len > 0).then(|| raw.by[..raw.by_len.into()].to_vec()),
            accusers: raw.accusers,
            rivals: raw.rivals,
        }
    }
}

/// What changed, and the member as the view now shows it.
#[derive(Clone, Debug, PartialEq, Eq)]
pub struct Change {
    pub event: Event,
    pub member: Shown,
}
