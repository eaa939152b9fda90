//! What the tests share.
#![allow(dead_code)] // each test uses some of it

pub mod sealed;

use swimtab::{Details, Keyring, Node};

pub fn details(last: u8) -> Details {
    let meta = b"m".to_vec();
    Details { incarnation: 0, meta, ..Details::new(([127, 0, 0, last], 7946)) }
}

/// A node of this name, alive at 0.
pub fn opened(name: &str, last: u8) -> Node {
    Node::open(name.as_bytes(), &details(last)).unwrap()
}

/// The bytes that hexadecimal digits stand for, of which spaces are skipped.
pub fn unhex(text: &str) -> Vec<u8> {
    sealed::unhex(&text.replace(' ', ""))
}
