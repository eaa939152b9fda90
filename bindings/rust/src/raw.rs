//! The functions of the library, as `include/swimtab.h` declares them; those of views are in `raw/view.rs`.

use std::ffi::{c_char, c_void};
use std::mem;
use std::ptr;

mod view;

pub use view::*;

#[repr(C)]
pub struct Node {
    pub at: *mut c_void,
    pub held: bool,
    pub user: *mut c_void,
}

#[repr(C)]
pub struct Keyring {
    pub at: *mut c_void,
    pub held: bool,
}

#[repr(C)]
pub struct Details {
    pub size: usize,
    pub name: *const u8,
    pub name_len: usize,
    pub addr: *const u8,
    pub addr_len: usize,
    pub meta: *const u8,
    pub meta_len: usize,
    pub vsn: *const u8,
    pub vsn_len: usize,
    pub inc: u32,
    pub port: u16,
}

#[repr(C)]
pub struct Taken {
    pub status: u32,
    pub news: bool,
}

#[repr(C)]
pub struct Written {
    pub status: u32,
    pub len: usize,
}

#[repr(C)]
pub struct Unwrapped {
    pub status: u32,
    pub kind: u32,
    pub len: usize,
}

#[repr(C)]
pub struct PartPlace {
    pub status: u32,
    pub kind: u32,
    pub at: usize,
    pub len: usize,
}

#[repr(C)]
pub struct Probe {
    pub payload_len: usize,
    pub kind: u32,
    pub seq: u32,
    pub port: u16,
    pub source_port: u16,
    pub node_len: u16,
    pub source_len: u16,
    pub addr_len: u8,
    pub source_addr_len: u8,
    pub nack: bool,
    pub addr: [u8; 16],
    pub source_addr: [u8; 16],
    pub node: [u8; 1024],
    pub source: [u8; 1024],
    pub payload: [u8; 1024],
    pub reserved: [u8; 32],
}

#[repr(C)]
pub struct Exchanged {
    pub status: u32,
    pub join: bool,
    pub news: bool,
    pub used: usize,
    pub len: usize,
}

#[repr(C)]
pub struct Refuted {
    pub status: u32,
    pub due: bool,
    pub inc: u32,
}

#[repr(C)]
pub struct Related {
    pub status: u32,
    pub relation: u32,
}

#[repr(C)]
pub struct Member {
    pub state: u32,
    pub inc: u32,
    pub has_address: bool,
    pub came_back: bool,
    pub address_inc: u32,
    pub port: u16,
    pub name_len: u16,
    pub meta_len: u16,
    pub addr_len: u8,
    pub vsn_len: u8,
    pub addr: [u8; 16],
    pub vsn: [u8; 6],
    pub meta: [u8; 512],
    pub name: [u8; 1024],
    pub reserved: [u8; 32],
}

#[repr(C)]
pub struct Kept {
    pub at: *mut c_void,
    pub held: bool,
}

#[repr(C)]
pub struct Buffer {
    pub at: *const u8,
    pub len: usize,
    pub kept: Kept,
}

#[repr(C)]
#[derive(Clone, Debug, Default)]
pub struct Progress {
    pub at: usize,
    pub left: u32,
    pub user_len: u32,
    pub has_header: bool,
}

pub const DONE: u32 = 0;
pub const ENDED: u32 = 1;
pub const TOO_SMALL: u32 = 66;
pub const NO_MEMBER: u32 = 67;
/// The length of the longest packet that the calls for single packets write.
pub const MAX_PACKET_LEN: usize = 2163;
pub const NONCE_LEN: usize = 12;

extern "C" {
    pub fn swimtab_version() -> u32;
    #[allow(dead_code)] // a test compares the texts
    pub fn swimtab_fault_text(status: u32) -> *const c_char;

    pub fn swimtab_open(node: *mut Node, details: *const Details) -> u32;
    pub fn swimtab_update(node: *mut Node, details: *const Details) -> Refuted;
    pub fn swimtab_close(node: *mut Node) -> u32;
    pub fn swimtab_take(node: *mut Node, bytes: *const u8, len: usize) -> Taken;
    pub fn swimtab_refute(node: *mut Node) -> Refuted;
    pub fn swimtab_forget(node: *mut Node, name: *const u8, name_len: usize) -> u32;
    pub fn swimtab_readmit(node: *mut Node, name: *const u8, name_len: usize) -> u32;

    pub fn swimtab_alive(node: *const Node, inc: u32, out: *mut u8, out_len: usize) -> Written;
    pub fn swimtab_alive_of(details: *const Details, out: *mut u8, out_len: usize) -> Written;
    pub fn swimtab_suspect(
        node: *const Node,
        name: *const u8,
        name_len: usize,
        inc: u32,
        out: *mut u8,
        out_len: usize,
    ) -> Written;
    pub fn swimtab_confirm(
        node: *const Node,
        name: *const u8,
        name_len: usize,
        inc: u32,
        out: *mut u8,
        out_len: usize,
    ) -> Written;
    pub fn swimtab_leave(node: *const Node, inc: u32, out: *mut u8, out_len: usize) -> Written;
    pub fn swimtab_suspect_of(
        from: *const u8,
        from_len: usize,
        name: *const u8,
        name_len: usize,
        inc: u32,
        out: *mut u8,
        out_len: usize,
    ) -> Written;
    pub fn swimtab_dead_of(
        from: *const u8,
        from_len: usize,
        name: *const u8,
        name_len: usize,
        inc: u32,
        out: *mut u8,
        out_len: usize,
    ) -> Written;
    pub fn swimtab_compound(
        packets: *const u8,
        len: usize,
        lens: *const usize,
        count: usize,
        out: *mut u8,
        out_len: usize,
    ) -> Written;

    pub fn swimtab_part(message: *const u8, len: usize, i: usize) -> PartPlace;
    pub fn swimtab_read(message: *const u8, len: usize, probe: *mut Probe) -> u32;
    pub fn swimtab_ping_of(
        seq: u32,
        name: *const u8,
        name_len: usize,
        source: *const Details,
        out: *mut u8,
        out_len: usize,
    ) -> Written;
    pub fn swimtab_indirect_of(
        seq: u32,
        target: *const Details,
        nack: bool,
        source: *const Details,
        out: *mut u8,
        out_len: usize,
    ) -> Written;
    pub fn swimtab_ack_of(
        seq: u32,
        payload: *const u8,
        payload_len: usize,
        out: *mut u8,
        out_len: usize,
    ) -> Written;
    pub fn swimtab_nack_of(seq: u32, out: *mut u8, out_len: usize) -> Written;
    pub fn swimtab_user_of(bytes: *const u8, len: usize, out: *mut u8, out_len: usize) -> Written;

    pub fn swimtab_offer_new(
        node: *const Node,
        join: bool,
        form: u32,
        user: *const u8,
        user_len: usize,
        buffer: *mut Buffer,
    ) -> u32;
    pub fn swimtab_left_out(node: *const Node) -> usize;
    pub fn swimtab_answer_new(
        node: *mut Node,
        stream: *const u8,
        len: usize,
        form: u32,
        user: *const u8,
        user_len: usize,
        buffer: *mut Buffer,
    ) -> Exchanged;
    pub fn swimtab_finish(node: *mut Node, stream: *const u8, len: usize) -> Exchanged;
    pub fn swimtab_whole(progress: *mut Progress, bytes: *const u8, len: usize) -> u32;
    pub fn swimtab_free(buffer: *mut Buffer);

    pub fn swimtab_keyring_add(keyring: *mut Keyring, key: *const u8, key_len: usize) -> u32;
    pub fn swimtab_keyring_accept_clear(keyring: *mut Keyring) -> u32;
    pub fn swimtab_keyring_count(keyring: *const Keyring) -> usize;
    pub fn swimtab_keyring_key(keyring: *const Keyring, i: usize, out: *mut u8, out_len: usize) -> Written;
    pub fn swimtab_keyring_use(keyring: *mut Keyring, i: usize) -> u32;
    pub fn swimtab_keyring_remove(keyring: *mut Keyring, i: usize) -> u32;
    pub fn swimtab_keyring_close(keyring: *mut Keyring) -> u32;
    pub fn swimtab_unwrap_new(
        keyring: *const Keyring,
        packet: *const u8,
        len: usize,
        buffer: *mut Buffer,
    ) -> Unwrapped;
    pub fn swimtab_unwrap_stream_new(
        keyring: *const Keyring,
        label: *const u8,
        label_len: usize,
        stream: *const u8,
        len: usize,
        buffer: *mut Buffer,
    ) -> Unwrapped;
    pub fn swimtab_seal(
        keyring: *const Keyring,
        nonce: *const u8,
        label: *const u8,
        label_len: usize,
        message: *const u8,
        len: usize,
        out: *mut u8,
        out_len: usize,
    ) -> Written;
    pub fn swimtab_seal_stream(
        keyring: *const Keyring,
        nonce: *const u8,
        label: *const u8,
        label_len: usize,
        reply: bool,
        message: *const u8,
        len: usize,
        out: *mut u8,
        out_len: usize,
    ) -> Written;

    pub fn swimtab_count(node: *const Node) -> usize;
    pub fn swimtab_member(node: *const Node, i: usize, member: *mut Member) -> u32;
    pub fn swimtab_find(node: *const Node, name: *const u8, name_len: usize, member: *mut Member) -> u32;
    pub fn swimtab_after(node: *const Node, name: *const u8, name_len: usize, member: *mut Member) -> u32;
    pub fn swimtab_list_new(node: *const Node, buffer: *mut Buffer) -> u32;
    pub fn swimtab_relate(first: *const Node, second: *const Node) -> Related;
    pub fn swimtab_watch(node: *mut Node, on: bool) -> u32;
    pub fn swimtab_next_change(node: *mut Node, member: *mut Member) -> u32;
}

impl Node {
    /// An empty handle.
    pub fn empty() -> Node {
        Node { at: ptr::null_mut(), held: false, user: ptr::null_mut() }
    }
}

impl Keyring {
    /// An empty keyring.
    pub fn empty() -> Keyring {
        Keyring { at: ptr::null_mut(), held: false }
    }
}

impl Details {
    /// Details of which all is empty.
    pub fn empty() -> Details {
        let (none, size) = (ptr::null(), mem::size_of::<Details>());
        Details {
            size,
            name: none,
            name_len: 0,
            addr: none,
            addr_len: 0,
            meta: none,
            meta_len: 0,
            vsn: none,
            vsn_len: 0,
            inc: 1,
            port: 0,
        }
    }
}

impl Member {
    pub fn zeroed() -> Member {
        Member {
            state: 0,
            inc: 0,
            has_address: false,
            came_back: false,
            address_inc: 0,
            port: 0,
            name_len: 0,
            meta_len: 0,
            addr_len: 0,
            vsn_len: 0,
            addr: [0; 16],
            vsn: [0; 6],
            meta: [0; 512],
            name: [0; 1024],
            reserved: [0; 32],
        }
    }
}

impl Probe {
    pub fn zeroed() -> Probe {
        Probe {
            payload_len: 0,
            kind: 0,
            seq: 0,
            port: 0,
            source_port: 0,
            node_len: 0,
            source_len: 0,
            addr_len: 0,
            source_addr_len: 0,
            nack: false,
            addr: [0; 16],
            source_addr: [0; 16],
            node: [0; 1024],
            source: [0; 1024],
            payload: [0; 1024],
            reserved: [0; 32],
        }
    }
}
