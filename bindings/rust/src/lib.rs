//! The membership table of a SWIM cluster, over memberlist's messages: a safe wrapper around libswimtab.
//!
//! A [`Node`] is what one member of a cluster knows. It has no sockets or timers: the program passes in the
//! packets and streams that it received, and sends those that a call writes. A [`View`] is what a member of
//! memberlist shows, by memberlist's own rules. A [`Keyring`] reads packets and streams as a real cluster wraps
//! them, and wraps those to send. A [`Probe`] is a ping or its answer. The repository's `docs/EMBEDDING.md` is
//! the guide; `docs/messages.md` has the rules, and `docs/faults.md` the faults.
//!
//! Make no call in a signal handler, or in the child after a fork of a process with threads.

#![warn(clippy::undocumented_unsafe_blocks, clippy::missing_errors_doc)]

mod bytes;
mod claims;
mod details;
mod error;
mod exchange;
mod keyring;
mod member;
mod message;
mod node;
mod nonce;
mod packet;
mod probe;
mod raw;
mod shown;
mod stream;
mod table;
mod view;
mod wrapping;

pub use details::Details;
pub use error::{Error, Result};
pub use keyring::Keyring;
pub use member::{Member, Members, State};
pub use message::{parts, Kind, Message, Part, Parts};
pub use node::Node;
pub use packet::{alive_of, compound, dead_of, suspect_of};
pub use probe::{ack, indirect_ping, nack, ping, user, Peer, Probe};
pub use shown::{Change, Event, Shown};
pub use stream::{Answer, Form, Progress, Taken, Whole};
pub use table::Relation;
pub use view::View;

/// The version of the linked library.
///
/// ```
/// assert_eq!(swimtab::version(), "0.3.0");
/// ```
pub fn version() -> String {
    // SAFETY: it takes no arguments.
    let number = unsafe { raw::swimtab_version() };
    format!("{}.{}.{}", number / 10_000, number / 100 % 100, number % 100)
}

// The examples in the README are compiled and run.
#[cfg(doctest)]
#[doc = include_str!("../README.md")]
struct Readme;
